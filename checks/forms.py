#!/usr/bin/env python3
"""Makes cases of what may stand where in an ODD file, from the table of docs/odd-files.md and apart from odd.

    checks/forms.py FOLDER

Writes each case as a file below FOLDER, under the element of the table that it is about. The repository keeps what it writes in
crates/odd_cases/data/cases/forms. ENTRIES is the table of the section "Finding the items", and the rules are those of the section
"What is refused" and of docs/content.md. For each word of the table there are cases on both sides of it: files that are accepted, and
files that break a rule by one thing alone.
"""

import collections
import pathlib
import sys

TEI = "http://www.tei-c.org/ns/1.0"
FOREIGN = '<x xmlns="urn:x"/>'
RELAX_NG = '<text xmlns="http://relaxng.org/ns/structure/1.0"/>'

# The values of an attribute, each under a name: those of its form, and those that break a rule, with the rule.
Kind = collections.namedtuple("Kind", "inside outside needed", defaults=[False])


def kind(inside, outside):
    return Kind(inside, {name: (value, 1) for name, value in outside.items()})


def words(own, rule, others="", left_out=""):
    """One of a few words. A word that is left out breaks rule 2, and any other the rule."""
    outside = {"empty": ("", rule), "another_word": ("x", rule)}
    outside |= {word: (word, rule) for word in others.split()} | {word: (word, 2) for word in left_out.split()}
    return Kind({word: word for word in own.split()}, outside)


NAME = kind({"a_name": "b"}, {"empty": "", "two_names": "b b"})
NEEDED = NAME._replace(needed=True)
NAMES = kind({"a_name": "a", "two_names": "a a"}, {"empty": "", "a_name_and_a_digit": "a 1"})
ANY_NAMES = kind({"empty": "", "a_name": "b", "two_names": "a b"}, {"a_name_and_a_digit": "b 1"})
TEXT = kind({"empty": "", "no_name": "? ?"}, {})
DIGITS = kind({"0": "0", "nine_digits": "000000001"}, {"empty": "", "ten_digits": "0000000001", "unbounded": "unbounded"})
COUNT = kind({"unbounded": "unbounded", "nine_digits": "000000001"}, {"empty": "", "ten_digits": "0000000001"})
SPACES = kind({"empty": "", "a_namespace": "b:b"}, {})
TARGET = Kind({"a_group": "#c"}, {"empty": ("", 2), "a_name": ("c", 2), "a_number_sign": ("#", 3), "no_group": ("#e", 3)}, True)
EXCEPTED = kind({"empty": "", "a_namespace": "b", "a_name_that_is_bound": "xml:b"}, {"a_name_that_is_not_bound": "b:b"})

PICK = {"include": ANY_NAMES, "except": ANY_NAMES}
BOUNDS = {"minOccurs": DIGITS, "maxOccurs": COUNT}
EXPAND = words("alternate", 2, "sequence sequenceOptional sequenceRepeatable sequenceOptionalRepeatable")
DECLARED = {"ident": NEEDED, "module": NAME, "mode": words("add delete change replace", 3)}

ITEMS = "moduleRef elementRef classRef macroRef dataRef elementSpec classSpec macroSpec specGrp specGrpRef"
PARTS = "sequence alternate elementRef classRef macroRef anyElement textNode empty"
PASSED_OVER = "gloss desc equiv exemplum remarks listRef model modelGrp modelSequence moduleSpec defaultVal"

# An element of the table: what stands around it in its item, its attributes, those that are left out, and the children that may
# stand many times, once, and those that are left out. Where it is closed, none of another namespace may stand in it.
FIELDS = "name around attributes left_out many once left_out_children closed"
Entry = collections.namedtuple("Entry", FIELDS, defaults=["", "", "", "", False])

ITEM = "", ""
IN_ELEMENT = '<elementSpec ident="c">', "</elementSpec>"
IN_CLASSES = '<elementSpec ident="c"><classes>', "</classes></elementSpec>"
IN_CONTENT = '<elementSpec ident="c"><content>', "</content></elementSpec>"


def declaration(name, attributes, once):
    return Entry(name, ITEM, DECLARED | attributes, "prefix source", once=once, left_out_children="constraintSpec")


def part(name, attributes, left_out="", many=""):
    return Entry(name, IN_CONTENT, attributes, left_out, many, closed=True)


ENTRIES = {
    "schemaSpec": Entry("schemaSpec", None, {"ident": NEEDED, "start": NAMES, "ns": TEXT}, "", ITEMS, "", "constraintSpec"),
    "moduleRef": Entry("moduleRef", ITEM, {"key": NEEDED} | PICK, "url prefix source"),
    "elementRef_as_an_item": Entry("elementRef", ITEM, {"key": NEEDED}, "source"),
    "macroRef_as_an_item": Entry("macroRef", ITEM, {"key": NEEDED}, "source"),
    "dataRef_as_an_item": Entry("dataRef", ITEM, {"key": NEEDED}, "source"),
    "classRef_as_an_item": Entry("classRef", ITEM, {"key": NEEDED}, "source include except"),
    "specGrp": Entry("specGrp", ITEM, {}, many=ITEMS, left_out_children="constraintSpec"),
    "specGrpRef": Entry("specGrpRef", ITEM, {"target": TARGET}),
    "elementSpec": declaration("elementSpec", {"ns": TEXT}, "content classes"),
    "classSpec": declaration("classSpec", {"type": words("model atts", 3)}, "classes"),
    "macroSpec": declaration("macroSpec", {}, "content"),
    "classes": Entry("classes", IN_ELEMENT, {"mode": words("replace change", 3, "add delete")}, many="memberOf"),
    "memberOf": Entry("memberOf", IN_CLASSES, {"key": NEEDED, "mode": words("add delete", 3, "replace change")}, "min max"),
    "content": Entry("content", IN_ELEMENT, {}, many=PARTS, closed=True),
    "sequence": part("sequence", BOUNDS | {"preserveOrder": words("true 1", 1, left_out="false 0")}, many=PARTS),
    "alternate": part("alternate", BOUNDS, many=PARTS),
    "elementRef_in_a_content": part("elementRef", {"key": NEEDED} | BOUNDS, "source"),
    "classRef_in_a_content": part("classRef", {"key": NEEDED} | PICK | BOUNDS | {"expand": EXPAND}, "source"),
    "macroRef_in_a_content": part("macroRef", {"key": NEEDED} | BOUNDS, "source"),
    "anyElement": part("anyElement", {"require": SPACES, "except": EXCEPTED} | BOUNDS),
    "empty": part("empty", {}),
    "textNode": part("textNode", {}),
}

# All elements and attributes that the page names for some place, with one of each that it does not name.
ELEMENTS = sorted({entry.name for entry in ENTRIES.values()} | {"constraintSpec", "p"})
ATTRIBUTES = sorted({name for entry in ENTRIES.values() for name in [*entry.attributes, *entry.left_out.split()]} | {"rend"})

# The file before one that is accepted, which takes all of it by its last item: what has the ident `b` is there, and `c` and `d` are new.
SOURCE = f"""<schemaSpec xmlns="{TEI}" ident="s"><elementSpec ident="a" module="b"/><elementSpec ident="b" module="b"/>\
<classSpec ident="b" module="b" type="model"/><macroSpec ident="b" module="b"/></schemaSpec>"""
SCHEMA = {"xmlns": TEI, "ident": "s", "start": "a"}
LAST = '<moduleRef key="b"/>'
# The groups that references name.
GROUPS = '<desc><specGrp xml:id="c"/><specGrp xml:id="d"/></desc>'


def element(name, attributes, inside=""):
    start = " ".join([name, *[f'{local}="{value}"' for local, value in attributes.items() if value is not None]])
    return f"<{start}>{inside}</{name}>" if inside else f"<{start}/>"


def needed(name, ident="c"):
    """The attributes that an element needs, with the ident where it is declared or a member."""
    if name == "classSpec":
        return {"ident": ident, "type": "model"}
    if name.endswith("Spec"):
        return {"ident": ident}
    if name == "specGrpRef":
        return {"target": f"#{ident}"}
    return {"key": ident} if name == "memberOf" else {"key": "b"} if name.endswith("Ref") else {}


def child(name, ident="c"):
    return element(name, needed(name, ident))


def tested(entry, given, inside):
    """A file with an element of the entry that has the given attributes and children."""
    attributes = needed(entry.name, "b" if given.get("mode") in ("delete", "change", "replace") else "c") | given
    before, after = entry.around or ITEM
    items = inside if entry.around is None else before + element(entry.name, attributes, inside) + after
    return element("schemaSpec", SCHEMA | (given if entry.around is None else {}), items + (GROUPS if "<specGrpRef" in items else "") + LAST)


def run(files, answer, words="compile"):
    """A run over files of one letter each."""
    names = "fg"[: len(files)]
    shelf = "".join(f"=== file {name} bare\n{file}\n" for name, file in zip(names, files))
    return f"=== words {words} {' '.join(names)}\n{shelf}{answer}"


def place_of(entry, given, file):
    """Where the item begins that is tested: the `schemaSpec`, the first after its tag, or the first in a group."""
    if entry.around is None and given:
        return 0
    tag = "<specGrp>" if entry.name == "specGrp" and "<specGrp>" in file else ">"
    return file.index(tag) + len(tag)


def case(entry, given, inside="", rule=None):
    """The case of a file that breaks the rule, or is accepted. A reference to a datatype then breaks rule 6, as none is held yet."""
    file = tested(entry, given, inside)
    refused = f"=== code 2\n=== note\nodd: file {{}}: byte {place_of(entry, given, file)}: rule {{}}\n"
    if rule:
        return run([file], refused.format(1, rule))
    accepted = "=== code 0\n=== out has\n</grammar>\n"
    return run([SOURCE, file], refused.format(2, 6) if "<dataRef" in file else accepted)


def case_aside(entry):
    """The case of a constraint in the element, with the word `aside`."""
    file = tested(entry, {}, child("constraintSpec"))
    if entry.left_out_children:
        return run([SOURCE, file], "=== code 0\n=== note\nodd: set aside 1\n=== out has\n</grammar>\n", "aside compile")
    return run([file], f"=== code 2\n=== note\nodd: file 1: byte {place_of(entry, {}, file)}: rule 3\n", "aside compile")


def cases_of_attributes(entry):
    yield "no_more_than_is_needed", case(entry, {})
    others = [name for name in ATTRIBUTES if name not in entry.attributes and name not in entry.left_out.split()]
    yield "attributes_passed_over", case(entry, dict.fromkeys(others, "?"))
    for name, values in entry.attributes.items():
        if values.needed:
            yield f"{name}_absent", case(entry, {name: None}, rule=1)
        else:
            for label, value in values.inside.items():
                yield f"{name}_is_{label}", case(entry, {name: value})
        for label, (value, rule) in values.outside.items():
            yield f"{name}_is_{label}", case(entry, {name: value}, rule=rule)
    for name in entry.left_out.split():
        yield f"{name}_is_left_out", case(entry, {name: "b"}, rule=2)


def cases_of_demands(entry):
    if "minOccurs" in entry.attributes:
        for bounds, rule in {("2", "2"): None, ("2", "unbounded"): None, ("2", "1"): 3, ("2", None): 3, (None, "0"): 3}.items():
            least, most = bounds
            yield f"from_{least or 'absent'}_to_{most or 'absent'}", case(entry, {"minOccurs": least, "maxOccurs": most}, rule=rule)
    if "include" in entry.attributes:
        yield "include_and_an_empty_except", case(entry, {"include": "b", "except": ""})
        yield "except_and_an_empty_include", case(entry, {"include": "", "except": "b"})
        yield "include_and_except", case(entry, {"include": "a", "except": "b"}, rule=3)
    if "type" in entry.attributes:
        for mode, rule in {None: 1, "add": 1, "replace": 1, "change": None, "delete": None}.items():
            yield f"type_absent_and_mode_{mode or 'absent'}", case(entry, {"type": None, "mode": mode}, rule=rule)


def cases_of_children(entry):
    for name in entry.many.split():
        yield f"{name}_twice", case(entry, {}, child(name) + child(name, "d"))
    for name in entry.once.split():
        yield f"{name}_once", case(entry, {}, child(name))
        yield f"{name}_twice", case(entry, {}, child(name) * 2, 4)
    if entry.name == "classes":
        yield "memberOf_of_one_class_twice", case(entry, {}, child("memberOf") * 2, 4)
    for name in entry.left_out_children.split():
        yield f"{name}_is_left_out", case(entry, {}, child(name), 2)
    yield "constraintSpec_with_aside", case_aside(entry)
    yield "children_passed_over", case(entry, {}, "?" + "".join(element(name, {}, "<p/>") for name in PASSED_OVER.split()))
    yield "element_of_another_namespace", case(entry, {}, FOREIGN, 3 if entry.closed else None)
    yield "element_of_RELAX_NG", case(entry, {}, RELAX_NG, 2)
    for name in ELEMENTS:
        # A `dataRef` may stand in a content too. The cases of that are written by hand.
        allowed = f"{entry.many} {entry.once} {entry.left_out_children}{' dataRef' if 'textNode' in entry.many else ''}"
        if name not in allowed.split():
            yield f"{name}_as_a_child", case(entry, {}, child(name), 3)


def main(folder):
    for title, entry in ENTRIES.items():
        place = pathlib.Path(folder) / title
        place.mkdir(parents=True, exist_ok=True)
        for make in cases_of_attributes, cases_of_demands, cases_of_children:
            for name, text in make(entry):
                (place / name).write_text(text)


if __name__ == "__main__":
    sys.exit(main(*sys.argv[1:]))
