#!/usr/bin/env python3
"""Compares the merged ODD of chains of ODD files that were made at random with what docs/merged-odd.md says of it, and asks whether it stands for
its files.

    checks/merged_odd.py PROGRAM [COUNT]

PROGRAM is the built program odd, COUNT how many chains are made (2,000 where it is not given), from a fixed seed and by checks/offences.py. Of each
chain, and of the first files of it, the answer of `merge` is worked out here, apart from the program, with the word `aside` and without it: the exit
code, the line on standard error, and the whole file where one is written, from the library that checks/merging.py and checks/attribute_forms.py give.

Then the law of docs/merged-odd.md is asked of the program alone. For each number of first files that merge, their merged ODD is put in their place,
and `merge` and `compile` of the chain have to answer as they do without that, but for the numbers of files and of constraints that were taken out.
And `xmllint --noout` has to read each merged ODD.

Ends with 1 where one of them differs. A run has 2 GiB of memory at most, and no chain needs as much.
"""

import collections
import pathlib
import random
import re
import resource
import shutil
import subprocess
import sys
import tempfile

import attribute_forms
import attributes
import merging
import offences
from offences import SPEC_OF, TEI, XML, Answer
from schema_markup import markup, once

SEED = 20261201
COUNT = 2000
COMMANDS = ("merge", "compile")


# The merged ODD of a library.


def element(tag, inside=(), text="", **pairs):
    """An element with these attributes, but for those that are None."""
    return markup(tag, once(*inside), text, **{name: str(value) for name, value in pairs.items() if value is not None})


def spaced(words):
    """Words with a space between them, or None where there is none."""
    return " ".join(words) or None


def in_bytes(words):
    """Words in the order of their bytes, each once."""
    return sorted(set(words), key=str.encode)


def bounds(least, most):
    return {"minOccurs": least, "maxOccurs": "unbounded" if most is None else most}


def name_element(alt):
    """The `altIdent`, where a name in documents is given."""
    return [element("altIdent", text=alt)] if alt else []


def item(key, name, facets):
    """A `dataRef` to a datatype that is held, or to one of XML Schema."""
    if key is not None:
        return element("dataRef", key=key)
    return element("dataRef", (element("dataFacet", name=facet, value=value) for facet, value in facets), name=name)


def values(edit):
    """A `valList`: one that is set, one that changes, or one that deletes."""
    kind, *given = edit
    if kind == "delete":
        return element("valList", mode="delete")
    of_type, listed = given
    if kind == "set":
        return element("valList", (element("valItem", ident=value) for value in in_bytes(listed)), type=of_type, mode="add")
    marked = (element("valItem", ident=value, mode="add" if listed[value] else "delete") for value in in_bytes(listed))
    return element("valList", marked, type=of_type, mode="change")


def definition(ident, edit):
    """An `attDef`: one that sets, one that changes, or one that deletes."""
    kind, fields = edit
    if kind == "delete":
        return element("attDef", ident=ident, mode="delete")
    inside = name_element(fields.get("alt"))
    if "datatype" in fields:
        datatype = fields["datatype"]
        inside.append(element("datatype", [item(*datatype[:3])], **bounds(*datatype[3:])))
    if "list" in fields:
        inside.append(values(fields["list"]))
    mode = "add" if kind == "set" else "change"
    return element("attDef", inside, ident=ident, mode=mode, usage=fields.get("usage"), ns=fields.get("ns"))


def condition(part):
    """What an `anyElement` says: a declaration for each namespace of excepted names, but XML's, and the words."""
    required, spaces, names = offences.condition_of(part)
    prefixes = {ns: f"n{number}" for number, ns in enumerate(sorted({ns for ns, _ in names} - {XML}), 1)}
    declared = {f"xmlns:{prefix}": ns for ns, prefix in prefixes.items()}
    words = [f"{prefixes.get(ns, 'xml')}:{local}" for ns, local in names]
    return {**declared, "require": spaced(required), "except": spaced([*spaces, *words])}


def pick(part):
    """The members that a `classRef` names, as they were given."""
    return {name: spaced(offences.words_of(part.attrs.get(name, ""))) for name in ("include", "except")}


def part_element(part):
    """A part of a content."""
    if part.local in ("empty", "textNode"):
        return element(part.local)
    if part.local == "dataRef":
        return item(part.attrs.get("key"), part.attrs.get("name"), attribute_forms.facets_of(part.tree))
    if part.local == "valList":
        return values(attributes.list_edit(part.tree))
    how_often = offences.bounds_of(part)
    if part.local == "macroRef" and how_often == (1, 1):
        return element("macroRef", key=part.attrs["key"])
    said = pick(part) if part.local == "classRef" else condition(part) if part.local == "anyElement" else {}
    return element(part.local, map(part_element, offences.parts_of(part)), key=part.attrs.get("key"), **said, **bounds(*how_often))


def content_element(content):
    """A `content`, which holds one part. None is that of a component that was declared without one."""
    parts = list(map(part_element, offences.parts_of(content))) if content else []
    if len(parts) > 1:
        parts = [element("sequence", parts, **bounds(1, 1))]
    return element("content", parts or [element("empty")])


def component(key, part, content, edits):
    """The declaration that adds a component."""
    kind, ident = key
    inside, edited = [], [definition(name, edits[name]) for name in in_bytes(edits)]
    members = [element("memberOf", key=name) for name in merging.split(part.classes)]
    if kind == "element":
        inside += name_element(part.alt)
    if members:
        inside.append(element("classes", members, mode="replace"))
    if kind != "class":
        inside.append(content_element(content))
    if edited:
        inside.append(element("attList", edited))
    of_type = part.type if kind == "class" else None
    ns = part.ns if kind == "element" and part.ns != TEI else None
    return element(SPEC_OF[kind], inside, ident=ident, type=of_type, module=part.module or None, mode="add", ns=ns)


def merged(files, aside):
    """The answer of `merge` to a chain that has no offence."""
    start, library, kept = offences.library_of(files)
    edits = offences.edits_in(library, kept)
    components = []
    for key in sorted(library, key=merging.key_order):
        content = library[key].content
        components.append(component(key, library[key], kept[int(content)] if content.isdigit() else None, edits[key]))
    ident = offences.schema_attribute(files[-1], "ident", "bare")
    return offences.done(files, aside, element("schemaSpec", components, xmlns=TEI, ident=ident, start=" ".join(start)))


# The law.


def shifted(answer, first, taken):
    """An answer to a chain whose first files, so many, have one in their place, which lacks the constraints that were taken out of them."""
    lower = lambda found: f"file {int(found[1]) - (first - 1 if int(found[1]) >= first else 0)}"
    note = re.sub(r"file (\d+)", lower, answer.note)
    return answer._replace(note=re.sub(r"set aside (\d+)", lambda found: f"set aside {int(found[1]) - taken}", note))


def taken_out(answer):
    """How many constraints an answer tells of."""
    return sum(map(int, re.findall(r"set aside (\d+)", answer.note)))


# The comparison.

# What is looked for in the merged ODDs, to tell how many have it.
FORMS = [
    *("<elementSpec", "<classSpec", "<macroSpec", "<dataSpec", ' module="', ' ns="', "<altIdent", "<memberOf", "<attList"),
    *('" mode="add" usage="', '<attDef [^>]*mode="change"', '<attDef [^>]*mode="delete"', "<datatype", '<dataRef key="', "<dataFacet"),
    *('<valList type="[a-z]*" mode="add"', '<valList (type="[a-z]*" )?mode="change"', '<valList mode="delete"', '<valItem [^>]*mode="delete"'),
    *("<sequence", "<alternate", "<elementRef", '<classRef [^>]*(include|except)="', "<macroRef", "<macroRef [^>]*minOccurs", "<textNode", "<empty"),
    *("<anyElement", ' require="', "xmlns:n1=", "xmlns:n2=", ' except="[^"]*xml:', "&#9;", "&#10;", "&#13;", "&lt;", "&gt;", "&amp;", "&quot;"),
]


class Chain:
    """A chain in a folder, and what of it differs."""

    def __init__(self, program, folder, files):
        self.program, self.folder, self.files = program, folder, files
        self.names, self.found = offences.put(folder, files), []

    def answer(self, command, aside, names):
        """What the program answers."""
        words = ["aside"] * aside + [command, *names]
        result = subprocess.run([self.program, *words], capture_output=True, cwd=self.folder)
        return Answer(result.returncode, result.stderr.decode(), result.stdout.decode())

    def compare(self, told, given, wanted):
        if given != wanted:
            self.found += [told, *map(offences.shown, map(str, [*wanted, *given]))]

    def merges(self, aside):
        """What `merge` answers to the first files of the chain, by their number."""
        answers = {}
        for first in range(1, len(self.names) + 1):
            answers[first] = self.answer("merge", aside, self.names[:first])
            self.compare(f"merge of the first {first}, aside {aside}", answers[first], offences.answer(self.files[:first], aside, merged))
        return answers

    def laws(self, aside, answers):
        """Puts merged ODDs in the place of their files, and tells the commands and the codes that were compared."""
        whole = {command: self.answer(command, aside, self.names) for command in COMMANDS}
        for first, answer in answers.items():
            for command in COMMANDS if not answer.code else ():
                (self.folder / "merged").write_text(answer.schema, newline="")
                given = self.answer(command, aside, ["merged", *self.names[first:]])
                self.compare(f"{command} with one for the first {first}, aside {aside}", given, shifted(whole[command], first, taken_out(answer)))
                yield f"{command} {given.code}"

    def without_constraints(self, answers, answers_aside):
        """What merges without `aside` has no constraints, so that with it nothing is taken out."""
        for first, answer in answers.items():
            if not answer.code:
                self.compare(f"aside merge of the first {first}", answers_aside[first], answer._replace(note="odd: set aside 0\n"))

    def read_by_xmllint(self, texts):
        names = [f"text{number}" for number in range(len(texts))]
        for name, text in zip(names, texts):
            (self.folder / name).write_text(text, newline="")
        result = subprocess.run(["xmllint", "--noout", *names], capture_output=True, cwd=self.folder) if names else None
        if result and result.returncode:
            self.found += ["xmllint", result.stderr.decode()]


class Counts:
    """What kinds of chains there were."""

    def __init__(self):
        self.answers, self.lengths, self.features, self.forms, self.firsts, self.laws = (collections.Counter() for _ in range(6))
        self.read = self.differing = 0

    def put(self, chain, answers, laws, texts):
        for aside, of_first in answers.items():
            self.answers["aside " * aside + "merge: " + kind_of(of_first[len(chain.files)].note)] += 1
            self.firsts.update(first for first, answer in of_first.items() if not answer.code)
        self.lengths[len(chain.files)] += 1
        self.features.update(offences.features_of(chain.files, True) - {"the word aside"})
        self.forms.update(form for form in FORMS if any(re.search(form, text) for text in texts))
        self.laws.update(laws)
        self.read += len(texts)
        self.differing += bool(chain.found)

    def tell(self):
        for answer, number in sorted(self.answers.items(), key=lambda each: (each[0].startswith("aside"), -each[1])):
            print(number, answer)
        print("chains of", listed(sorted(self.lengths.items())))
        print("chains with", listed(self.features.most_common()))
        print("merged ODDs of so many first files", listed(sorted(self.firsts.items())))
        print("answers with a merged ODD in the place of files, by command and code", listed(sorted(self.laws.items())))
        print("chains whose merged ODDs have", listed((form, self.forms[form]) for form in FORMS))
        print(f"{self.read} merged ODDs read by xmllint")


def listed(counts):
    return ", ".join(f"{name}: {number}" for name, number in counts)


def kind_of(note):
    """The kind of an answer of `merge`."""
    found = re.search(r"rule \d+$|not XML|read fault", note)
    return found[0] if found else "merged"


def compared(program, files, counts):
    """Compares the answers to one chain, and gives what differs."""
    with tempfile.TemporaryDirectory() as name:
        chain = Chain(program, pathlib.Path(name), files)
        answers = {aside: chain.merges(aside) for aside in (False, True)}
        laws = [law for aside in answers for law in chain.laws(aside, answers[aside])]
        chain.without_constraints(answers[False], answers[True])
        texts = {answer.schema for of_first in answers.values() for answer in of_first.values() if not answer.code}
        chain.read_by_xmllint(texts)
    counts.put(chain, answers, laws, texts)
    return chain.found


def main(program, count):
    if not shutil.which("xmllint"):
        sys.exit("xmllint is needed")
    resource.setrlimit(resource.RLIMIT_AS, (offences.MOST_MEMORY, offences.MOST_MEMORY))
    rng, counts = random.Random(SEED), Counts()
    for number in range(1, count + 1):
        aside = rng.random() < 0.4
        files = offences.spoiled(rng, offences.brought_near(rng, offences.made_files(rng, aside), aside))
        found = compared(pathlib.Path(program).resolve(), files, counts)
        if found:
            print(f"chain {number}", *(data and data.decode() for data in files), *found, sep="\n", end="\n\n", flush=True)
    counts.tell()
    print(f"{count} chains, {counts.differing} that differ")
    return 1 if counts.differing else 0


if __name__ == "__main__":
    sys.exit(main(sys.argv[1], int(sys.argv[2]) if len(sys.argv) > 2 else COUNT))
