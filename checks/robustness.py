#!/usr/bin/env python3
"""Runs odd on chains of files that nobody wrote, and looks for an answer that no contract has.

    checks/robustness.py PROGRAM [RUNS [SEED]]

PROGRAM is the built program odd, RUNS the number of chains (200,000 unless given). The files are made from SEED, a number, or else from a fixed one:
sources with elements, classes and macros in modules, some of them in groups or without a schemaSpec, and customisations of them;
files with every element of the profile in every place and every attribute on each; files of many levels; the same with some bytes changed, cut, doubled
or moved, with elements put into one another; and random bytes. Each run is `compile`, each third with the word `aside`
before it, of one to four files, seldom of sixteen or more. Ends with 1 where a run ends by a signal or with a status that `compile` cannot have, where an output
does not go with its status, or where a run takes over ten seconds or 2 GiB. Prints how often each status came and the
greatest memory of a run.
"""

import collections
import os
import random
import re
import resource
import subprocess
import sys
import tempfile

TEI = "http://www.tei-c.org/ns/1.0"
RELAX_NG = "http://relaxng.org/ns/structure/1.0"
SEED = 20261128
NAMED = {0, 2, 3, 5}
NO_MEMORY = 8
MOST_MEMORY = 2 << 30
# Every element of the profile, in TEI's namespace or another.
ELEMENTS = (
    "schemaSpec moduleRef elementRef classRef macroRef dataRef elementSpec classSpec macroSpec dataSpec specGrp specGrpRef"
    " classes memberOf attList attDef attRef datatype valList valItem dataFacet content sequence alternate anyElement"
    " textNode empty altIdent constraintSpec gloss desc equiv exemplum remarks listRef model modelGrp modelSequence"
    " moduleSpec defaultVal TEI body p x:x r:text r:element"
).split()
IDENTS = "a b c model.a model.b att.a macro.a macro.b TEI 1 a:b zz".split() + ["", " a", "\u00e9"]
MODULES = ["core", "tei", "msdescription"]
NUMBERS = ["0", "1", "2", "3", "40", "999999999", "1234567890", "-1", "x", "", "unbounded"]
VALUES = {
    "ident": IDENTS,
    "key": IDENTS + MODULES,
    "start": ["a", "a b", "TEI", "", "zz", "1"],
    "module": MODULES + [""],
    "mode": ["add", "change", "delete", "replace", "Add", ""],
    "type": ["model", "atts", "closed", "open", "x"],
    "include": ["", "a", "a b", "model.a", "1", "zz"],
    "except": ["", "a", "b c", "urn:x", "x:a", "z:a", "p:q xml:lang", TEI],
    "require": ["", "urn:x", "urn:x urn:y", TEI],
    "minOccurs": NUMBERS,
    "maxOccurs": NUMBERS,
    "expand": ["alternate", "sequence", ""],
    "preserveOrder": ["true", "false", "1", "x"],
    "usage": ["req", "opt", "mwa"],
    "ns": ["", TEI, "urn:x", "a&#10;b"],
    "name": ["token", "string", "ID", "x"],
    "value": ["1", ""],
    "target": ["#g", "g", "#none"],
    "xml:id": ["g", "h", "1"],
    "org": ["group", "choice"],
    "source": [""],
    "prefix": ["p"],
    "url": ["u"],
    "min": ["1"],
    "restriction": ["[a-z]+", "("],
    "xmlns:z": ["urn:z", TEI],
    "xmlns": [TEI, "", RELAX_NG],
}
PIECES = [
    b"<", b">", b"/>", b"</", b"=", b'"', b"'", b"&", b"&amp;", b"&#60;", b"&#xD800;", b"<!--", b"-->", b"<![CDATA[", b"]]>", b"<?", b"?>",
    b"<?xml", b"<!DOCTYPE", b"xmlns", b"xmlns:", b":", b" ", b"\n", b"\r", b"\t", b"\0", b"\xef\xbb\xbf", b"\xc3\xa9", b"\xff", b"\xed\xa0\x80",
    TEI.encode(), *(name.encode() for name in ELEMENTS), *(name.encode() for name in VALUES), b"unbounded", b"0", b"9",
]
AROUND = {"": TEI, ":x": "urn:x", ":r": RELAX_NG, ":p": "urn:p"}
TEI_ITSELF = '<elementSpec ident="TEI"/>'
BOUNDS = [*[""] * 24, ' minOccurs="0"', ' maxOccurs="unbounded"', ' minOccurs="0" maxOccurs="unbounded"', ' minOccurs="2" maxOccurs="5"', ' maxOccurs="999999999"']


def attributes(rand):
    """Any attributes with any values."""
    names = rand.sample(sorted(VALUES), rand.choice([0, 1, 1, 2, 3, 6]))
    return "".join(f' {name}="{rand.choice(VALUES[name])}"' for name in names)


def anything(rand, levels):
    """Any element of the profile with any attributes and any elements in it."""
    local = rand.choice(ELEMENTS)
    inside = "".join(anything(rand, levels - 1) for _ in range(rand.choice([0, 1, 1, 2, 3]))) if levels else rand.choice(["", "t", "a"])
    return f"<{local}{attributes(rand)}>{inside}</{local}>"


def part(rand, names, levels):
    """A part of a content that mostly names what is declared."""
    kind = rand.choice(["textNode", "empty", "element", "element", "class", "class", "macro", "any", "sequence", "alternate"])
    often = rand.choice(BOUNDS)
    if kind in ("element", "class", "macro"):
        pick = rand.choice(["", "", ' include="a b"', ' except="a"', ' include="zz"']) if kind == "class" else ""
        held = [name for name in names[kind] if not name.startswith("att.")] if rand.random() < 0.99 else names[kind]
        return f'<{kind}Ref key="{rand.choice(held)}"{pick}{often}/>' if held else ""
    if kind == "any":
        return f'<anyElement{rand.choice(["", " require=" + chr(34) + "urn:x" + chr(34), f" except={chr(34)}{TEI} x:a{chr(34)}"])}{often}/>'
    if kind in ("sequence", "alternate") and levels:
        return f"<{kind}{often}>{parts(rand, names, levels - 1)}</{kind}>"
    return f"<{kind}/>" if kind in ("textNode", "empty") else ""


def parts(rand, names, levels):
    return "".join(part(rand, names, levels) for _ in range(rand.choice([0, 1, 1, 2, 3])))


def members(rand, names, mode):
    """What a `classes` holds."""
    keys = rand.sample(names["class"], rand.randrange(min(4, len(names["class"]) + 1)))
    given = "".join(f'<memberOf key="{key}"{rand.choice(["", "", " mode=" + chr(34) + "delete" + chr(34)])}/>' for key in keys)
    return f"<classes{mode}>{given}</classes>"


def declaration(rand, names, kind, ident, mode):
    """A declaration of a component."""
    named = f' ident="{ident}" module="{rand.choice(MODULES)}"{mode}'
    content = f"<content>{parts(rand, names, 3)}</content>" if rand.random() < 0.8 else ""
    classes = members(rand, names, rand.choice(["", "", ' mode="change"']))
    if kind == "class":
        return f'<classSpec{named} type="{"atts" if ident.startswith("att.") else "model"}">{classes}</classSpec>'
    return f"<macroSpec{named}>{content}</macroSpec>" if kind == "macro" else f"<elementSpec{named}>{classes}{content}</elementSpec>"


def source(rand):
    """A source of elements, classes and macros, and what it declares."""
    count = rand.choice([1, 3, 3, 10, 60])
    kinds = {"element": "e", "class": "model.", "macro": "macro."}
    names = {kind: [f"{front}{n}" for n in range(rand.randrange(count + 1))] for kind, front in kinds.items()}
    names["element"] += ["a", "b"]
    names["class"] += [f"att.{n}" for n in range(rand.randrange(3))]
    # Names of what comes later are mostly left out, so that few classes and macros come back to themselves.
    items = []
    for kind, idents in names.items():
        for at, ident in enumerate(idents):
            later = {**names, kind: idents[:at]} if kind != "element" and rand.random() < 0.97 else names
            items.append(declaration(rand, later, kind, ident, ""))
    rand.shuffle(items)
    return schema(rand, items), names


def customisation(rand, names):
    """A customisation of a library with these names."""
    items = [f'<moduleRef key="{module}"{rand.choice(["", "", "", " except=" + chr(34) + "b" + chr(34)])}/>' for module in MODULES if rand.random() < 0.97]
    for kind, idents in names.items():
        for ident in idents:
            if rand.random() < 0.1 and kind != "macro":
                items.append(declaration(rand, {**names, kind: []}, kind, ident, f' mode="{rand.choice(["change"] * 6 + ["delete", "replace", "add"])}"'))
            elif rand.random() < 0.05:
                items.append(f'<{kind}Ref key="{ident}"/>')
    return schema(rand, items)


def schema(rand, items):
    """A file with these items, some of them in groups, or without a schemaSpec."""
    bound = "".join(f' xmlns{prefix}="{ns}"' for prefix, ns in AROUND.items())
    if rand.random() < 0.05:
        return f'<TEI{bound}><div>{"</div><div>".join(items)}</div><specGrp>{rand.choice(["", TEI_ITSELF])}</specGrp></TEI>'
    groups = ["", ""]
    for ident in rand.sample("ghi", rand.choice([0, 0, 0, 1, 2, 3])):
        first = rand.randrange(len(items) + 1)
        groups[rand.randrange(2)] += f'<p><specGrp xml:id="{ident}">{"".join(items[first:])}</specGrp></p>'
        items = [*items[:first], f'<specGrpRef target="#{ident}"/>']
    inner = f'<schemaSpec{bound} ident="s" start="{rand.choice(["a", "a", "a", "a b", "zz"])}">{"".join(items)}</schemaSpec>'
    return f"<TEI{bound}>{groups[0]}<body>{inner}</body>{groups[1]}</TEI>" if any(groups) or rand.random() < 0.3 else inner


def every_form(rand):
    """A file with any element in any place, mostly in a schemaSpec."""
    bound = "".join(f' xmlns{prefix}="{ns}"' for prefix, ns in AROUND.items())
    items = "".join(anything(rand, rand.choice([0, 1, 2, 3])) for _ in range(rand.randrange(6)))
    root, named = rand.choice([("schemaSpec", ' ident="s" start="a"')] * 6 + [("TEI", ""), ("specGrp", ' xml:id="g"')])
    return f'<{root}{bound}{named}>{items}<elementSpec ident="a"/></{root}>'


def deep(rand):
    """A file of elements in one another around the greatest depth, and some far above it."""
    local = rand.choice(["a", "content", "sequence", "alternate", "schemaSpec", "elementSpec", "classes", "specGrp", "constraintSpec"])
    levels = rand.choice([58, 60, 61, 62, 198, 199, 200, 201, 1000, 20000])
    inner = f"<{local}>" * levels + f"</{local}>" * levels
    return schema(rand, [f'<elementSpec ident="a"><content>{inner}</content></elementSpec>'])


def changed(rand, data):
    """The file with some of its bytes changed, cut, doubled or moved."""
    data = bytearray(data)
    for _ in range(rand.choice([1, 1, 1, 2, 5, 20])):
        at, other = rand.randrange(len(data) + 1), rand.randrange(len(data) + 1)
        low, high = min(at, other), max(at, other)
        kind = rand.randrange(7)
        if kind == 0:
            data[at:at] = rand.choice(PIECES)
        elif kind == 1:
            del data[at : at + rand.choice([1, 1, 2, 10])]
        elif kind == 2 and data:
            data[rand.randrange(len(data))] = rand.randrange(256)
        elif kind == 3:
            data[at:at] = data[low : min(high, low + 200)]
        elif kind == 4:
            del data[high:]
        elif kind == 5:
            data[at : at + 3] = rand.choice(PIECES)
        else:
            moved = data[low : min(high, low + 200)]
            del data[low : low + len(moved)]
            data[at:at] = moved
    return bytes(data)


def nested(rand, data):
    """The file with some of its elements put into others."""
    tags = [at for at, byte in enumerate(data) if byte == ord("<")]
    for _ in range(rand.choice([1, 2, 5])):
        at = rand.choice(tags)
        data = data[:at] + anything(rand, 1).encode() + data[at:]
    return data


def chain(rand):
    """The files of the next run."""
    kind = rand.random()
    if kind < 0.05:
        return [rand.randbytes(rand.randrange(300)) for _ in range(rand.choice([1, 2]))]
    if kind < 0.10:
        return [b"".join(rand.choice(PIECES) for _ in range(rand.randrange(40)))]
    first, names = source(rand)
    more = rand.choice([0, 1, 1, 1, 2, 3]) if rand.random() < 0.995 else rand.choice([15, 16, 17])
    files = [first, *(customisation(rand, names) for _ in range(more))]
    for at in range(len(files)):
        if rand.random() < 0.15:
            files[at] = rand.choice([every_form, every_form, every_form, deep])(rand)
    files = [file.encode() for file in files]
    for at, file in enumerate(files):
        if rand.random() < 0.12:
            files[at] = nested(rand, file)
        if rand.random() < 0.2:
            files[at] = changed(rand, files[at])
    return files


def fault_of(status, out, err, aside):
    """What is wrong with an answer, or None."""
    if status == NO_MEMORY:
        return "takes over 2 GiB"
    if status not in NAMED:
        return "is no named status"
    if (status == 0) != bool(out):
        return "does not go with its output"
    if (status == 0) == bool(err) and not (status == 0 and aside):
        return "does not go with its line"
    if status == 0 and aside and not re.fullmatch(rb"odd: set aside (0|[1-9]\d*)\n", err):
        return "does not tell what is set aside"
    return None


def run(program, folder, files, aside):
    """The status of a run over these files, and what is wrong with it."""
    paths = [os.path.join(folder, f"{number}.odd") for number in range(len(files))]
    for path, data in zip(paths, files):
        with open(path, "wb") as file:
            file.write(data)
    try:
        result = subprocess.run([program, *["aside"] * aside, "compile", *paths], capture_output=True, timeout=10)
    except subprocess.TimeoutExpired:
        return None, "takes over ten seconds"
    return result.returncode, fault_of(result.returncode, result.stdout, result.stderr, aside)


def main(program, runs, seed):
    resource.setrlimit(resource.RLIMIT_AS, (MOST_MEMORY, MOST_MEMORY))
    rand = random.Random(seed)
    counts, faults = collections.Counter(), 0
    with tempfile.TemporaryDirectory() as folder:
        for number in range(runs):
            files, aside = chain(rand), number % 3 == 0
            status, fault = run(program, folder, files, aside)
            counts[status] += 1
            if fault:
                faults += 1
                print(f"chain {number}: status {status} {fault}: {files!r:.3000}")
    peak = resource.getrusage(resource.RUSAGE_CHILDREN).ru_maxrss
    print(f"{runs} chains: " + ", ".join(f"{count} of status {status}" for status, count in sorted(counts.items(), key=str)))
    print(f"greatest memory of a run: {peak} KiB; {faults} faults")
    return 1 if faults else 0


if __name__ == "__main__":
    sys.exit(main(sys.argv[1], int(sys.argv[2]) if len(sys.argv) > 2 else 200_000, int(sys.argv[3]) if len(sys.argv) > 3 else SEED))
