#!/usr/bin/env python3
"""Compares what the program answers to chains of ODD files that were made at random with what the documents say of them:
docs/commands.md, docs/odd-files.md, docs/content.md, docs/merging.md, docs/values.md and docs/schema.md.

    checks/offences.py PROGRAM [COUNT]

PROGRAM is the built program odd, COUNT how many chains are made (20,000 where it is not given), from a fixed seed. Some have groups, made
by checks/group_forms.py, and some are compiled with the word `aside`. The answer is worked out here, apart from the program: the exit code, the
line on standard error, and the whole schema where one is written; what a file does to the library before it, by checks/merging.py, and
attributes and data, by checks/attribute_forms.py. Ends with 1 where one of them differs. A run has 2 GiB of memory at most, and no chain
needs as much.
"""

import collections
import functools
import pathlib
import random
import re
import resource
import subprocess
import sys
import tempfile
import xml.parsers.expat
from xml.etree import ElementTree

import attribute_forms
import group_forms
import merging
from schema_markup import condition_define, escaped, joined, markup, once, reference, repeated, written

TEI = "http://www.tei-c.org/ns/1.0"
RELAX_NG = "http://relaxng.org/ns/structure/1.0"
DATATYPE_LIBRARY = "http://www.w3.org/2001/XMLSchema-datatypes"
XML = "http://www.w3.org/XML/1998/namespace"
# The name of `xml:id` as it is read.
ID = XML + "|id"
OTHER = "urn:x"
PASSED_OVER = set("gloss desc equiv exemplum remarks listRef model modelGrp modelSequence moduleSpec defaultVal".split())
# The declarations, with the kind of what each declares.
SPECS = {"elementSpec": "element", "classSpec": "class", "macroSpec": "macro", "dataSpec": "datatype"}
# The references among the items, with the kind of what each refers to.
TAKEN = {"elementRef": "element", "classRef": "class", "macroRef": "macro", "dataRef": "datatype"}
SPEC_OF, REFERENCE_TO = ({kind: local for local, kind in locals_of.items()} for locals_of in (SPECS, TAKEN))
LEVELS = {"sequence", "alternate"}
BOUNDED = LEVELS | {"elementRef", "classRef", "macroRef", "anyElement"}
PARTS = BOUNDED | {"textNode", "empty"} | attribute_forms.PART_RULES.keys()
# What may stand in the content of a datatype.
DATA_PARTS = {"dataRef", "valList", "alternate"}
MOST_LEVELS = 60
MOST_NODES = 1_000_000
MOST_MEMORY = 2 << 30
NAME = re.compile(r"[A-Za-z_\u00e9][A-Za-z0-9_.\u00e9-]*\Z")
DIGITS = re.compile(r"[0-9]{1,9}\Z")

Answer = collections.namedtuple("Answer", "code note schema")
# An element of a file, and the same as Python's own XML, with its own text in front.
Element = collections.namedtuple("Element", "ns local attrs prefixes at inside tree")
# What of a file is asked and declared: each `schemaSpec` and each group, its items, and how many constraints are taken out of it.
File = collections.namedtuple("File", "schemas groups items asides")
# The elements that are held, the members of each held class, and what each component offers of attributes.
Held = collections.namedtuple("Held", "elements members offers")


# How a file is made: names with their weights, by what is around.

ANYWHERE = (
    "elementSpec:8 content:3 empty:2 textNode:2 desc:2 exemplum:1 remarks:1 constraintSpec:1 p:1 schemaSpec:1 moduleRef:1 specGrp:1"
    " elementRef:1 classRef:1 macroRef:1 classSpec:1 macroSpec:1 classes:1 memberOf:1 dataSpec:1 attList:1 altIdent:1 data:1 attDef:1"
    " datatype:1"
)
IN_CONTENT = (
    "elementRef:1500 classRef:720 macroRef:360 anyElement:480 sequence:780 alternate:780 textNode:480 empty:360 desc:300"
    " p:2 x:2 rng:2 content:2 constraintSpec:1 elementSpec:1 classes:1 altIdent:1 attList:1 data:6"
)
LEAVES = "elementRef anyElement textNode empty moduleRef classRef macroRef dataRef memberOf".split()
IN_LEAF = "desc:60 p:1 x:1 rng:1 textNode:1 elementRef:1 sequence:1"
CHILDREN = {
    "schemaSpec": (
        "elementSpec:140 classSpec:40 macroSpec:24 dataSpec:24 desc:12 p:1 constraintSpec:1 content:1 schemaSpec:1 x:6 rng:1 moduleRef:2"
        " elementRef:1 classRef:1 macroRef:1 dataRef:1 classes:1 altIdent:4 attList:1 data:1"
    ),
    "elementSpec": (
        "desc:900 exemplum:200 x:200 content:12 classes:12 attList:12 altIdent:12 p:4 constraintSpec:4 elementSpec:3 rng:4 empty:3"
        " attDef:2 data:2"
    ),
    "classSpec": "desc:900 exemplum:200 x:200 altIdent:40 classes:12 attList:12 content:3 p:4 constraintSpec:4 elementSpec:3 rng:4 memberOf:3",
    "macroSpec": "desc:900 exemplum:200 x:200 altIdent:40 content:12 classes:3 attList:3 p:4 constraintSpec:4 elementSpec:3 rng:4 empty:3",
    "dataSpec": "desc:900 exemplum:200 x:200 altIdent:40 content:12 classes:3 attList:3 p:4 constraintSpec:4 data:3 rng:4 datatype:3",
    "classes": "memberOf:600 desc:60 x:60 p:2 classRef:2 constraintSpec:2 content:1 rng:2",
    **dict.fromkeys(["content", *LEVELS], IN_CONTENT),
    **dict.fromkeys(LEAVES, IN_LEAF),
}
COUNTS = {
    "schemaSpec": [0, 2, 4, 6],
    **dict.fromkeys(SPECS, [0, 0, 0, 1, 2]),
    "classes": [0, 1, 1, 2, 2, 3],
    "content": [0, 1, 1, 1, 2, 2, 3, 4],
    **dict.fromkeys(LEVELS, [0, 1, 2, 2, 3, 3, 4]),
    **dict.fromkeys(LEAVES, [*[0] * 30, 1]),
}
IDENTS = ["a", "b", "TEI", "\u00e9", *(letter + end for letter in "cdefghijklmnoPQRST" for end in ("", "-1", ".2", "_\u00e9", "1", "10"))]
BAD_NAMES = ["1", "", " a", "a b", "a:b"]
# Classes, macros and datatypes of which each is mostly made over later ones alone, so that few come back to themselves.
CLASSES, MACROS = ["k1", "k2", "k3", "k4", "t1", "k5", "t2"], ["m1", "m2", "m3", "m4"]
DATA_MACROS, DATATYPES = attribute_forms.DATA_MACROS, attribute_forms.DATATYPES
MODELS = [ident for ident in CLASSES if ident[0] == "k"]
VALUES = {
    "ident": [*IDENTS, *BAD_NAMES],
    "classSpec ident": ["k6", "k7", "t3", "k1", *BAD_NAMES],
    "macroSpec ident": ["m5", "m6", "m1", *BAD_NAMES],
    "dataSpec ident": ["d5", "d6", "d1", *BAD_NAMES],
    "classRef key": [*MODELS * 30, "k9", "t1", "k9", *BAD_NAMES],
    "classRef include": ["", " ", "a", "b a", "TEI zz", "a 1", "a:b"],
    "classRef except": ["", " ", "b", "a\tb", "c", " 1"],
    "macroRef key": [*MACROS * 30, "m9", *BAD_NAMES],
    "memberOf key": [*CLASSES * 30, "k9", *BAD_NAMES],
    "classes mode": ["replace", "change", "add", "delete", "Change", ""],
    "memberOf mode": ["add", "delete", "change", "replace", ""],
    "expand": ["alternate", "alternate", "sequence", ""],
    "type": ["model", "atts", "", "x"],
    "min": ["1"],
    "max": ["1"],
    "start": ["a", "a b", "TEI", " b\n a\t", "b a b", "", " ", "a 1", "a\u00a0b"],
    "module": ["core", "tei", "", "a b"],
    "include": ["", " ", "a", "b a", "TEI", "a 1", "a:b"],
    "except": ["", " ", "b", "a\tb", "c", " 1"],
    "url": ["u"],
    "ns": [OTHER, "", TEI, "a\"<>&'b", "a\tb\nc\rd"],
    "key": [*["a", "b", "TEI"] * 20, *IDENTS, *BAD_NAMES],
    "preserveOrder": ["true", "1", "false", "0", "", "True", " true"],
    "prefix": ["p"],
    "source": [""],
    "mode": ["add", "delete", "change", "replace", "", "Add", " add"],
    "rend": ["x"],
    "minOccurs": ["2", "x"],
    "maxOccurs": ["0", "unbounded"],
}
# Where the front of these ends whose values are good. The others are drawn seldom.
GOOD = {"ident": -5, "start": 5, "module": 2, "key": -5, "preserveOrder": 2, "mode": 4, "include": 5, "except": 5}
GOOD |= {"classSpec ident": -6, "macroSpec ident": -6, "dataSpec ident": -6, "classRef key": -7, "macroRef key": -6, "memberOf key": -5, "classRef include": 5, "classRef except": 5}
GOOD |= {"classes mode": 2, "memberOf mode": 2, "expand": 2, "type": 2}
RARE = {"prefix": 0.002, "source": 0.002, "mode": 0.002, "rend": 0.1}
LIKELY = {
    "elementSpec": {"ident": 0.995, "module": 0.3, "ns": 0.2},
    "schemaSpec": {"ident": 0.995, "start": 0.8, "ns": 0.2},
    "classSpec": {"ident": 0.995, "module": 0.3, "type": 0.995},
    **dict.fromkeys(["macroSpec", "dataSpec"], {"ident": 0.995, "module": 0.3}),
    "classes": {"mode": 0.3},
    "memberOf": {"key": 0.995, "mode": 0.15, "min": 0.002, "max": 0.002},
    "changedSpec": {"module": 0.2, "ns": 0.2, "mode": 0},
    **dict.fromkeys(TAKEN, {"key": 0.999}),
    "classRef": {"key": 0.999, "include": 0.15, "except": 0.15, "expand": 0.1},
    "moduleRef": {"key": 0.95, "include": 0.3, "except": 0.2, "url": 0.05},
    "sequence": {"preserveOrder": 0.1},
    "alternate": {"preserveOrder": 0.05},
    "textNode": {"minOccurs": 0.05, "maxOccurs": 0.05},
    "empty": {"minOccurs": 0.05, "maxOccurs": 0.05},
}
BOUNDS = (
    "-,-:900 0,-:60 1,-:20 -,1:30 -,2:40 -,unbounded:60 0,0:15 0,1:60 1,1:15 0,unbounded:60 1,unbounded:60 0,2:20 1,2:20"
    " 1,3:15 2,2:20 2,3:15 3,3:15 2,unbounded:20 3,unbounded:10 00,007:5 000000003,000000004:3 0,40:3 25,unbounded:3"
    " 500,500:1 999999999,unbounded:1 0,999999999:1 2,-:1 -,0:1 3,2:1 1,0:1"
)
BAD_BOUNDS = ["", " 1", "1 ", "+1", "-1", "1.0", "x", "1234567890", "unbounded", "UNBOUNDED", "\u0661"]
# What stands in a condition: namespaces, names, and names whose prefix is bound in few places.
SPACES = "urn:a:b urn:a:c http://x.org/a urn: a 1:a p:1 x:* : p: :a a\"<>&'b \u00e9 a\u00a0b \ufb00 \U0001d6fc".split(" ") + [TEI]
NAMES = "p:a p:b q:a q:\u00e9 x:x xml:lang r:text t:p".split()
SELDOM_BOUND = ["z:a", "urn:x", "xmlns:a"]
# The content of one element brings a schema near the limit, once it is known how much there is beside it.
TIMES = "000000002"
WITHOUT = ' mode="delete"'
# How sound a file is: with an offence of form, without one, without any offence, and also with start words that are held.
ANY, OF_FORM, OF_RULES, WITH_START = range(4)
FULL = f'<elementSpec ident="full"><content><elementRef key="full" minOccurs="{TIMES}" maxOccurs="{TIMES}"/></content></elementSpec>'


# What is made as a whole, by its name in the tables above.
WHOLE = {
    "attList": lambda rng: attribute_forms.made_attribute_list(rng, CLASSES),
    "altIdent": attribute_forms.made_element_alt,
    "data": attribute_forms.made_part,
}


def chosen(rng, weighted):
    names = [part.rsplit(":", 1) for part in weighted.split()]
    return rng.choices([name for name, _ in names], [int(weight) for _, weight in names])[0]


def made_bounds(rng):
    for name, value in zip(("minOccurs", "maxOccurs"), chosen(rng, BOUNDS).split(",")):
        if rng.random() < 0.001:
            value = rng.choice(BAD_BOUNDS)
        if value != "-":
            yield f' {name}="{value}"'


def made_words(rng):
    for _ in range(rng.choice([0, 1, 1, 2, 3, 5])):
        yield rng.choice(rng.choices([SPACES, NAMES, SELDOM_BOUND], [50, 50, 1])[0])
        yield rng.choice([" ", " ", "\t", "\r\n "])


def made_condition(rng):
    for name, chance in (("require", 0.4), ("except", 0.6)):
        if rng.random() < chance:
            yield f' {name}="{rng.choice(["", "", " "])}{escaped("".join(made_words(rng)))}"'


def made_declarations(rng):
    if rng.random() < 0.03:
        yield f' xmlns:{rng.choice("pqyzzzz")}="{escaped(rng.choice([OTHER, TEI, *SPACES]))}"'
    if rng.random() < 0.001:
        yield f' xmlns="{rng.choice(["", OTHER])}"'


def made_attributes(rng, local):
    for name, chance in {**RARE, **LIKELY.get(local, {})}.items():
        if rng.random() < chance:
            named = f"{local} {name}" if f"{local} {name}" in VALUES else name
            pool = VALUES[named] if rng.random() < 0.03 else VALUES[named][: GOOD.get(named)]
            yield f' {rng.choice(["", "", "", "y:"]) if rng.random() < 0.02 else ""}{name}="{escaped(rng.choice(pool))}"'
    if local in BOUNDED:
        yield from made_bounds(rng)
    if local == "anyElement":
        yield from made_condition(rng)
    if local != "schemaSpec":
        yield from made_declarations(rng)


def made_chain(rng):
    """Sequences and alternates in one another, about as many as may stand so, and often a part beside them."""
    chain = rng.choice([made(rng, "textNode", 0)] * 4 + [made(rng, "elementRef", 0)] * 4 + ["<elementRef/>", "<p/>"])
    for _ in range(rng.choice([57, 58, 59, 59, 60, 60, 61, 62])):
        local = rng.choice(sorted(LEVELS))
        bounds = rng.choice([*[""] * 15, ' minOccurs="0"', ' maxOccurs="unbounded"', ' minOccurs="2" maxOccurs="3"'])
        beside = made(rng, "elementRef", 0) if rng.random() < 0.05 else ""
        chain = f"<{local}{bounds}>{chain}{beside}</{local}>"
    return chain + rng.choice(["", made(rng, "textNode", 0), made(rng, "desc", 0)])


def made_pick(rng, held):
    """`include` or `except` of a module with these elements, mostly of some of them."""
    name = rng.choice(["", "", "include", "except"])
    if not name:
        return ""
    words = [*rng.sample(held, rng.randrange(len(held) + 1)), *(["zz"] if rng.random() < 0.05 else [])]
    return f' {name}="{" ".join(words)}"'


def made_classes(rng, later, mode=""):
    """A `classes` that mostly names these classes."""
    keys = rng.sample(later, rng.randrange(min(3, len(later)) + 1))
    if rng.random() < 0.02:
        keys.append(rng.choice(CLASSES))
    given = "".join(f'<memberOf key="{key}"{rng.choice(["", "", "", WITHOUT])}/>' for key in keys)
    return f"<classes{mode}>{given}</classes>"


def made_macro_content(rng, later):
    """A content that mostly names these macros."""
    for _ in range(8):
        content = made(rng, "content", 3)
        if later:
            return re.sub(r'key="m\d"', lambda _: f'key="{rng.choice(later)}"', content) if rng.random() < 0.97 else content
        if "macroRef" not in content:
            break
    return content if "macroRef" not in content else "<content/>"


def behind(ident, idents):
    """The idents behind one of them, or all where it is none."""
    return idents[idents.index(ident) + 1 :] if ident in idents else idents


def made_spec_content(rng, local, ident):
    """The content of a declaration: of an element over any macros and datatypes, and of another mostly over later ones alone."""
    if local == "dataSpec":
        keys = behind(ident, DATATYPES) if rng.random() < 0.97 else DATATYPES
        return attribute_forms.made_data_content(rng, keys, []) if rng.random() < 0.99 else ""
    if local == "macroSpec" and ident not in DATA_MACROS:
        return made_macro_content(rng, behind(ident, MACROS)) if rng.random() < 0.9 else ""
    if local == "macroSpec" or rng.random() < 0.1:
        return attribute_forms.made_data_content(rng, DATATYPES, behind(ident, DATA_MACROS))
    return made(rng, "content", 4) if rng.random() < 0.8 else ""


def made_inside_spec(rng, local, ident, mode="", edited=()):
    """What a declaration in a mode holds: its content, classes, and attributes, mostly these that are edited where there are any."""
    inside = [made_spec_content(rng, local, ident)] if local != "classSpec" else []
    if local in ("elementSpec", "classSpec"):
        over = ' mode="change"' if mode == "change" and rng.random() < 0.6 else ""
        classes = made_classes(rng, behind(ident, CLASSES), over) if rng.random() < 0.75 else ""
        inside.append(classes)
        if rng.random() < (0.85 if edited else 0.7):
            named = [key for key in CLASSES if f'"{key}"' in classes] if rng.random() < 0.8 else []
            inside.append(attribute_forms.made_attribute_list(rng, named or CLASSES, ident if ident in CLASSES else None, edited))
    if local == "elementSpec" and rng.random() < 0.15:
        inside.append(attribute_forms.made_element_alt(rng))
    rng.shuffle(inside)
    return "".join(inside)


def made_type(rng, ident):
    """The type of a class, which is mostly told by its ident."""
    return rng.choice(["model", "atts"]) if rng.random() < 0.06 else {"k": "model", "t": "atts"}[ident[0]]


def made_component(rng, local, ident):
    """A declaration of a source, which adds what is no element."""
    of_type = f' type="{made_type(rng, ident)}"' if local == "classSpec" else ""
    module = rng.choice(["", ' module="core"', ' module="tei"'])
    return f'<{local} ident="{ident}"{of_type}{module}>{made_inside_spec(rng, local, ident)}</{local}>'


def made_components(rng):
    """Classes, macros and datatypes of a source."""
    for ident in CLASSES:
        if rng.random() < 0.85:
            yield made_component(rng, "classSpec", ident)
    are_all = rng.random() < 0.9
    for local, idents in (("macroSpec", MACROS + DATA_MACROS), ("dataSpec", DATATYPES)):
        for ident in idents:
            if are_all or rng.random() < 0.6:
                yield made_component(rng, local, ident)


def made_references(rng, library):
    """References of a file over this library, mostly to what is held."""
    modules = merging.by_module(library)
    for module in sorted(modules):
        if module and rng.random() < 0.8:
            yield f'<moduleRef key="{module}"{made_pick(rng, sorted(ident for kind, ident in modules[module] if kind == "element"))}/>'
    for (kind, ident), part in sorted(library.items()):
        if rng.random() < (0.98 if kind in ("macro", "datatype") else 0.1 if part.module else 0.8):
            yield f'<{REFERENCE_TO[kind]} key="{ident}"/>'
    if rng.random() < 0.04:
        yield f'<{rng.choice(sorted(TAKEN))} key="{rng.choice("abz")}"/>'
    if rng.random() < 0.02:
        yield f'<moduleRef key="{rng.choice(["core", "tei", "none"])}"/>'


def made_declaration(rng, key, taken, edited):
    """A declaration, mostly in a mode that it may have where these keys are chosen and these attributes are edited or offered."""
    kind, ident = key
    is_right = rng.random() < 0.97
    modes = ["change", "change", "delete", "replace"] if (key in taken) == is_right else ["add", ""]
    if kind in ("macro", "datatype") and "delete" in modes and rng.random() < 0.9:
        modes = ["change"]
    mode = rng.choice(modes)
    named = f' mode="{mode}"' if mode else ""
    if kind == "class" and (mode not in ("change", "delete") or rng.random() < 0.3):
        named += f' type="{made_type(rng, ident)}"'
    inside = made_inside_spec(rng, SPEC_OF[kind], ident, mode, edited if mode == "change" else ()) if mode != "delete" or rng.random() < 0.1 else ""
    return f'<{SPEC_OF[kind]} ident="{ident}"{named}{"".join(made_attributes(rng, "changedSpec"))}>{inside}</{SPEC_OF[kind]}>'


def made_items(rng, library, edited):
    """The items of a file over the library that the files before it give, whose components edit or offer these attributes."""
    references = list(made_references(rng, library))
    around = f'<schemaSpec xmlns="{TEI}">{"".join(references)}</schemaSpec>'
    taken = merging.chosen(library, doc_of(read(around.encode(), False), []))
    idents_of = {"element": ["a", "b", "TEI"], "class": CLASSES, "macro": MACROS + DATA_MACROS, "datatype": DATATYPES}
    new = [(kind, ident) for kind, idents in idents_of.items() for ident in idents]
    chances = {"element": 0.4, "class": 0.3, "macro": 0.1, "datatype": 0.1}
    declared = [key for key in sorted({*library, *new}) if rng.random() < chances[key[0]]]
    items = references + [made_declaration(rng, key, taken, edited.get(key, ())) for key in declared]
    rng.shuffle(items)
    return "".join(items)


def made_children(rng, local, levels):
    for _ in range(rng.choice(COUNTS.get(local, [0, 1]))):
        name = chosen(rng, CHILDREN.get(local, ANYWHERE))
        if rng.random() < 0.001:
            name = rng.choice(sorted(PARTS | {"specGrp", "specGrpRef"}))
        yield rng.choice(["", " ", "t", "\u00e9\n"]) + made(rng, name, levels - 1)


def made_inside(rng, local, levels):
    """What stands in an element."""
    if local == "content" and rng.random() < 0.01:
        return made_chain(rng)
    if local == "content" and rng.random() < 0.01:
        return "".join(made(rng, "anyElement", 0) for _ in range(rng.randrange(8, 40)))
    inside = ""
    if local == "schemaSpec":
        idents = [ident for ident in ("a", "b", "TEI") if rng.random() < 0.8]
        inside = "".join(f'<elementSpec ident="{ident}">{made_inside(rng, "elementSpec", levels - 1)}</elementSpec>' for ident in idents)
        inside += "".join(made_components(rng))
    if local in SPECS and levels > 0:
        inside = made_inside_spec(rng, local, None)
    if levels > 0 and local != "rng":
        inside += "".join(made_children(rng, local, levels))
    return inside


def made(rng, local, levels):
    if local in WHOLE:
        return WHOLE[local](rng)
    tag = {"x": "x:x", "rng": "r:text"}.get(local, "t:" + local if rng.random() < 0.03 else local)
    attributes = "".join(made_attributes(rng, local))
    return f"<{tag}{attributes}>{made_inside(rng, local, levels)}</{tag}>"


def made_schema(rng, library, edited):
    """A `schemaSpec` over the library that the files before it give."""
    if not library:
        return made(rng, "schemaSpec", 6)
    extra = "".join(made_children(rng, "schemaSpec", 3)) if rng.random() < 0.1 else ""
    return f"<schemaSpec{''.join(made_attributes(rng, 'schemaSpec'))}>{made_items(rng, library, edited)}{extra}</schemaSpec>"


def made_around(rng, before, schema, after):
    """A file with a schemaSpec, alone or with something around it."""
    if not before and not after and rng.random() < 0.5:
        return schema
    before += made(rng, chosen(rng, ANYWHERE), 2) if rng.random() < 0.3 else "<p>prose</p>"
    around = rng.choice(["p", "desc", "specGrp", *["body"] * 10])
    named = ' xml:id="g"' if around == "specGrp" and rng.random() < 0.5 else ""
    schema = f"<{around}{named}{''.join(made_declarations(rng))}>{schema}</{around}>"
    again = group_forms.put_around(rng, group_forms.PROSE, made(rng, "schemaSpec", 1)) if rng.random() < 0.05 else ""
    return f"<TEI>{before}{f'<x:x>{schema}</x:x>' if rng.random() < 0.03 else schema}{again}{after}</TEI>"


def made_file(rng, library, edited, aside):
    schema, kind = made_schema(rng, library, edited), rng.random()
    if rng.random() < 0.01:
        end = schema.rindex("</")
        schema = schema[:end] + FULL + schema[end:]
    if kind > (0.93 if library else 0.85):
        inner = group_forms.without_schema(rng, schema)
    else:
        inner = made_around(rng, *(group_forms.grouped(rng, schema) if kind < 0.35 else ("", schema, "")))
    inner = group_forms.with_constraints(rng, inner, aside)
    head = re.match(r"<[^ >]+", inner).group(0)
    names = {"": TEI, ":t": TEI, ":x": OTHER, ":r": RELAX_NG, ":y": "urn:y", ":p": "urn:a:b", ":q": OTHER}
    bound = "".join(f' xmlns{prefix}="{ns}"' for prefix, ns in names.items() if f" xmlns{prefix}=" not in inner[: inner.index(">")])
    return (head + bound + inner[len(head) :]).encode()


def brought_near(rng, chain, aside):
    """The chain with so large a number in the element `full` of its last file that the schema is about as large as one may be."""
    if TIMES.encode() not in chain[-1] or answer(chain, aside).code:
        return chain
    size = grammar_of(*library_of([read(data, aside) for data in chain])).size
    times = int(TIMES) + MOST_NODES - size + rng.choice([-1, 0, 0, 1, 1, 2])
    return [*chain[:-1], chain[-1].replace(TIMES.encode(), f"{times:09}".encode())]


def after_file(data, library, kept, aside):
    """How sound a file is, and the library after it, or before it where it has an offence."""
    file = read(data, aside)
    if any(form_offences(file)):
        return ANY, library
    doc = doc_of(file, kept)
    after = merging.held_after(library, doc) if not any(merging.offences(library, doc)) else None
    if after is None or any(breaks(after, kept)):
        return OF_FORM, library
    return WITH_START if merging.elements(doc.start) <= after.keys() else OF_RULES, after


def made_wanted(rng, library, kept, wanted, aside):
    """A file that is as sound as is wanted, where one is made in a few tries, and the library that the next file is made over."""
    faults = rng.choice([0, 0, 1, 1, 1, 2]) if wanted == ANY else 0
    edited = attribute_forms.idents_of(library, edits_in(library, kept))
    for _ in range(8):
        data = made_file(rng, library, edited, aside)
        soundness, after = after_file(data, library, kept, aside)
        if soundness >= (OF_FORM if faults else wanted):
            break
    for _ in range(faults):
        data = rng.choice([attribute_forms.with_fault, attribute_forms.with_fault, group_forms.with_fault])(rng, data.decode()).encode()
    return data, library if faults else after


def made_files(rng, aside):
    """The files of a chain. What is made over a file that offends is over the library before that."""
    library, kept, chain = {}, [], []
    wanted = rng.choices([ANY, OF_FORM, OF_RULES, WITH_START], [30, 28, 10, 32])[0]
    for _ in range(rng.choice([1, 1, 2, 2, 2, 3, 3, 3, 4, 4, 5, *[16] * (rng.random() < 0.05)])):
        data, library = made_wanted(rng, library, kept, wanted, aside)
        chain.append(data)
    return chain


def spoiled(rng, chain):
    """The chain, seldom with a file that is not there, as None, or with one whose last byte is left out."""
    for at in range(len(chain)):
        if rng.random() < 0.01:
            chain[at] = rng.choice([None, chain[at][:-1]])
    return chain


# How a file is read.


@functools.lru_cache(maxsize=64)
def parsed(data):
    """The root of the file, with the byte of each start tag and the prefixes that are in force in it."""
    root, open_elements, bound = [], [], collections.defaultdict(list, xml=[XML])
    parser = xml.parsers.expat.ParserCreate(namespace_separator="|")

    def start(name, attrs):
        ns, _, local = name.rpartition("|")
        prefixes = {prefix: names[-1] for prefix, names in bound.items() if names}
        element = Element(ns, local, attrs, prefixes, parser.CurrentByteIndex, [], ElementTree.Element("{%s}%s" % (ns, local), attrs))
        if open_elements:
            open_elements[-1].tree.append(element.tree)
        (open_elements[-1].inside if open_elements else root).append(element)
        open_elements.append(element)

    def text(data):
        tree = open_elements[-1].tree
        tree.text = (tree.text or "") + data

    parser.StartNamespaceDeclHandler = lambda prefix, ns: bound[prefix].append(ns)
    parser.EndNamespaceDeclHandler = lambda prefix: bound[prefix].pop()
    parser.StartElementHandler = start
    parser.EndElementHandler = lambda name: open_elements.pop()
    parser.CharacterDataHandler = text
    parser.Parse(data, True)
    return root[0]


def is_tei(element, *locals):
    return element.ns == TEI and (not locals or element.local in locals)


def is_searched(element):
    return is_tei(element) and element.local != "constraintSpec"


def found(element, *locals):
    """Every element of these names around which all elements are TEI's and none is a constraint, in document order."""
    if is_searched(element):
        if element.local in locals:
            yield element
        for child in element.inside:
            yield from found(child, *locals)


def children_of(element, *locals):
    return [child for child in element.inside if is_tei(child, *locals)]


def declarations_without_a_schema(element):
    """The declarations that stand in no other one."""
    if is_tei(element, *SPECS):
        yield element
    elif is_searched(element):
        for child in element.inside:
            yield from declarations_without_a_schema(child)


def group_of(reference, groups):
    """The group that a `specGrpRef` names: of several with one id the first. None where there is none."""
    target = reference.attrs.get("target", "")
    named = (group for group in groups if group.attrs.get(ID) == target[1:])
    return next(named, None) if target.startswith("#") else None


def items_below(schema, groups):
    """The items of a `schemaSpec` in the order of their places."""
    items, waiting, entered = [], [schema], {schema.at}
    while waiting:
        for item in waiting.pop().inside:
            items.append(item)
            group = item if is_tei(item, "specGrp") else group_of(item, groups) if is_tei(item, "specGrpRef") else None
            if group and group.at not in entered:
                entered.add(group.at)
                waiting.append(group)
    return sorted(items, key=lambda item: item.at)


def file_of(root):
    """What of a file is asked and declared."""
    schemas, groups = list(found(root, "schemaSpec")), list(found(root, "specGrp"))
    items = items_below(schemas[0], groups) if schemas else list(declarations_without_a_schema(root))
    return File(schemas, groups, items, 0)


def constraints_in_list(attributes):
    for definition in children_of(attributes, "attDef"):
        yield from children_of(definition, "constraintSpec")
    for inner in children_of(attributes, "attList"):
        yield from constraints_in_list(inner)


def constraints_of(item):
    """Each `constraintSpec` that breaks rule 2 at an item."""
    if is_tei(item, "constraintSpec"):
        yield item
    if is_tei(item, *SPECS):
        yield from children_of(item, "constraintSpec")
    if is_tei(item, "elementSpec", "classSpec"):
        for attributes in children_of(item, "attList"):
            yield from constraints_in_list(attributes)


def without(element, places):
    """The element without those that begin at the places, and how many these are of which none stands in another."""
    inside, tree, count = [], ElementTree.Element(element.tree.tag, element.tree.attrib), 0
    tree.text = element.tree.text
    for child in element.inside:
        if child.at in places:
            count += 1
            continue
        child, within = without(child, places)
        inside.append(child)
        tree.append(child.tree)
        count += within
    return element._replace(inside=inside, tree=tree), count


@functools.lru_cache(maxsize=64)
def read(data, aside=False):
    """What of a file is asked and declared, with the word `aside` or without it."""
    file = file_of(parsed(data))
    if not aside:
        return file
    root, count = without(parsed(data), {constraint.at for item in file.items for constraint in constraints_of(item)})
    return file_of(root)._replace(asides=count)


def parts_of(element):
    return children_of(element, *PARTS)


def words_of(value):
    return [word for word in re.split(r"[ \t\r\n]+", value) if word]


def schema_attribute(file, name, otherwise):
    """An attribute of the first `schemaSpec` of a file."""
    return file.schemas[0].attrs.get(name, otherwise) if file.schemas else otherwise


def start_words(file):
    return words_of(schema_attribute(file, "start", "TEI"))


def is_name(value):
    return value is not None and NAME.match(value) is not None


def excepted(part):
    """What each word of `except` names: a namespace, or a namespace and a local name. An unbound prefix has none."""
    for word in words_of(part.attrs.get("except", "")):
        prefix, colon, local = word.partition(":")
        yield (part.prefixes.get(prefix), local) if colon and is_name(prefix) and is_name(local) else word


# What is refused.


def child_rules(element, named, in_content=False):
    """The rules that children break by standing in an element, where these may stand in it."""
    for child in element.inside:
        if child.ns == RELAX_NG or element.local in SPECS and is_tei(child, "constraintSpec"):
            yield 2
        elif in_content if not is_tei(child) else child.local not in named | PASSED_OVER:
            yield 3


def bounds_rules(part):
    least, greatest = (part.attrs.get(name, "1") for name in ("minOccurs", "maxOccurs"))
    if not DIGITS.match(least) or not DIGITS.match(greatest) and greatest != "unbounded":
        yield 1
    if DIGITS.match(least) and DIGITS.match(greatest) and int(greatest) < int(least):
        yield 3


def pick_rules(reference):
    """The rules that `include` and `except` break."""
    words = [words_of(reference.attrs.get(name, "")) for name in ("include", "except")]
    if not all(map(is_name, sum(words, []))):
        yield 1
    if all(words):
        yield 3


def own_rules(part):
    """The rules that a part breaks by its attributes, but for its bounds."""
    if part.local in ("elementRef", "classRef", "macroRef"):
        if not is_name(part.attrs.get("key")):
            yield 1
        if "source" in part.attrs:
            yield 2
    if part.local == "classRef":
        yield from pick_rules(part)
        if part.attrs.get("expand", "alternate") != "alternate":
            yield 2
    if part.local == "sequence":
        order = part.attrs.get("preserveOrder", "true")
        if order not in ("true", "1"):
            yield 2 if order in ("false", "0") else 1
    if part.local == "anyElement" and any(word[0] is None for word in excepted(part)):
        yield 1


def part_rules(part, levels):
    """The rules that a part breaks, where so many levels may still open."""
    if part.local in attribute_forms.PART_RULES:
        yield from attribute_forms.PART_RULES[part.local](part.tree)
        return
    yield from child_rules(part, PARTS if part.local in LEVELS else set(), in_content=True)
    yield from own_rules(part)
    if part.local in BOUNDED:
        yield from bounds_rules(part)
    if part.local in LEVELS:
        if levels <= 0:
            yield 2
        for inner in parts_of(part):
            yield from part_rules(inner, levels - 1)


def data_part_rules(part, levels):
    """The rules that a part breaks in the content of a datatype."""
    if part.local not in DATA_PARTS:
        yield 3
    if part.local != "alternate":
        yield from part_rules(part, levels)
        return
    yield from child_rules(part, PARTS, in_content=True)
    yield from attribute_forms.once_rules(part.tree)
    if levels <= 0:
        yield 2
    for inner in parts_of(part):
        yield from data_part_rules(inner, levels - 1)


def content_rules(content, rules=part_rules):
    yield from child_rules(content, PARTS, in_content=True)
    parts = parts_of(content)
    for part in parts:
        yield from rules(part, MOST_LEVELS - (len(parts) > 1))


def data_content_rules(content):
    """The rules that the content of a datatype breaks."""
    if len(parts_of(content)) != 1:
        yield 3
    yield from content_rules(content, data_part_rules)


def classes_rules(classes):
    """The rules that a `classes` breaks."""
    if classes.attrs.get("mode", "replace") not in ("replace", "change"):
        yield 3
    yield from child_rules(classes, {"memberOf"})
    members = children_of(classes, "memberOf")
    keys = [member.attrs["key"] for member in members if is_name(member.attrs.get("key"))]
    if len(keys) < len(members):
        yield 1
    if len(set(keys)) < len(keys):
        yield 4
    for member in members:
        if not {"min", "max"}.isdisjoint(member.attrs):
            yield 2
        if mode_of(member) not in ("add", "delete"):
            yield 3
        yield from child_rules(member, set())


def by_tree(rules):
    """Rules of elements of Python's own XML, asked of an element of a file."""
    return lambda element: rules(element.tree)


# The children that a declaration may have, each once, with what they break.
NAME_RULES, LIST_RULES = by_tree(attribute_forms.name_rules), by_tree(attribute_forms.list_rules)
SPEC_CHILDREN = {
    "elementSpec": {"altIdent": NAME_RULES, "classes": classes_rules, "content": content_rules, "attList": LIST_RULES},
    "classSpec": {"classes": classes_rules, "attList": LIST_RULES},
    "macroSpec": {"content": content_rules},
    "dataSpec": {"content": data_content_rules},
}


def spec_rules(spec):
    if not is_name(spec.attrs.get("ident")) or not is_name(spec.attrs.get("module", "m")):
        yield 1
    if "prefix" in spec.attrs or "source" in spec.attrs:
        yield 2
    if mode_of(spec) not in merging.MODES:
        yield 3
    if spec.local == "classSpec":
        if "type" not in spec.attrs and mode_of(spec) not in ("change", "delete"):
            yield 1
        if spec.attrs.get("type", "model") not in ("model", "atts"):
            yield 3
    if spec.local == "dataSpec" and not children_of(spec, "content") and mode_of(spec) not in ("change", "delete"):
        yield 3
    yield from child_rules(spec, SPEC_CHILDREN[spec.local].keys() | {"altIdent"})
    for local, rules in SPEC_CHILDREN[spec.local].items():
        children = children_of(spec, local)
        if len(children) > 1:
            yield 4
        for child in children:
            yield from rules(child)


def module_rules(reference):
    """The rules that a `moduleRef` breaks."""
    if not is_name(reference.attrs.get("key")):
        yield 1
    if not reference.attrs.keys().isdisjoint(["url", "prefix", "source"]):
        yield 2
    yield from pick_rules(reference)
    yield from child_rules(reference, set())


def reference_rules(reference):
    """The rules that a reference to one component breaks."""
    left_out = {"source", *(["include", "except"] if reference.local == "classRef" else [])}
    if not is_name(reference.attrs.get("key")):
        yield 1
    if not left_out.isdisjoint(reference.attrs):
        yield 2
    yield from child_rules(reference, set())


def item_rules(item):
    """The rules that an item breaks by itself."""
    if item.ns == RELAX_NG or is_tei(item, "constraintSpec"):
        yield 2
    elif is_tei(item, *SPECS):
        yield from spec_rules(item)
    elif is_tei(item, "moduleRef"):
        yield from module_rules(item)
    elif is_tei(item, *TAKEN):
        yield from reference_rules(item)
    elif is_tei(item, "specGrpRef"):
        yield from child_rules(item, set())
    elif is_tei(item) and item.local not in PASSED_OVER | {"altIdent", "specGrp"}:
        yield 3


def target_rules(reference, file):
    """The rules that a `specGrpRef` among the items breaks by its target."""
    target = reference.attrs.get("target")
    if target is None:
        yield 1
    elif not target.startswith("#"):
        yield 2
    elif not (group := group_of(reference, file.groups)):
        yield 3
    elif any(item.at == group.at for item in file.items):
        yield 4


def again(elements, key_of):
    """Those of the elements, which are in document order, that have the key of an earlier one, where they have one."""
    seen = set()
    for element in elements:
        key = key_of(element)
        if key is not None:
            if key in seen:
                yield element
            seen.add(key)


def key_declared(item):
    """What an item declares."""
    return (item.local, item.attrs["ident"]) if is_tei(item, *SPECS) and is_name(item.attrs.get("ident")) else None


def schema_offences(file):
    """The places and the rules of what the `schemaSpec` of a file break."""
    for schema in file.schemas[:1]:
        words = start_words(file)
        if not is_name(schema.attrs.get("ident")) or not words or not all(map(is_name, words)):
            yield schema.at, 1
    for other in file.schemas[1:]:
        yield other.at, 4


def form_offences(file):
    """The places and the rules of the offences of form of a file."""
    yield from schema_offences(file)
    references = [item for item in file.items if is_tei(item, "specGrpRef")]
    for item in file.items:
        yield from ((item.at, rule) for rule in item_rules(item))
    for reference in references:
        yield from ((reference.at, rule) for rule in target_rules(reference, file))
    twice = [again(file.items, key_declared), again(references, lambda item: item.attrs.get("target")), again(file.groups, lambda group: group.attrs.get(ID))]
    for elements in twice:
        yield from ((element.at, 4) for element in elements)


# What a file declares, in the words of checks/merging.py, and the library after a chain.


def mode_of(spec):
    return spec.attrs.get("mode", "add")


def fields_of(file, spec, kept):
    """The fields that a declaration gives. Its content and its attribute list are told by their places in `kept`, to which they are put."""
    if "module" in spec.attrs:
        yield "module=" + spec.attrs["module"]
    if "type" in spec.attrs and spec.local == "classSpec":
        yield "type=" + spec.attrs["type"]
    if spec.local == "elementSpec":
        if mode_of(spec) in ("add", "replace"):
            yield "ns=" + spec.attrs.get("ns", schema_attribute(file, "ns", TEI))
        elif "ns" in spec.attrs:
            yield "ns=" + spec.attrs["ns"]
    for child in children_of(spec, *SPEC_CHILDREN[spec.local]):
        yield field_in(child, kept)


def field_in(child, kept):
    """The field that a child of a declaration gives. Those of attribute lists are joined in order of their places."""
    if child.local == "classes":
        return memberships_in(child)
    if child.local == "altIdent":
        return "alt=" + attribute_forms.name_given(child.tree)
    kept.append(child)
    return f"content={len(kept) - 1}" if child.local == "content" else f"atts={len(kept) - 1:06}:delete"


def memberships_in(classes):
    """The field of the memberships that a `classes` gives."""
    marks = ["+-"[mode_of(member) == "delete"] + member.attrs["key"] for member in children_of(classes, "memberOf")]
    if classes.attrs.get("mode") == "change":
        return "change=" + ",".join(marks)
    return "classes=" + ",".join(mark[1:] for mark in marks if mark[0] == "+")


def words_of_item(file, item, kept):
    """An item, or None of what is passed over."""
    if is_tei(item, "moduleRef"):
        picks = [[name, *words_of(item.attrs.get(name, ""))] for name in ("include", "except")]
        return ["module", item.attrs["key"], *next((pick for pick in picks if pick[1:]), [])]
    if is_tei(item, *TAKEN):
        return ["take", TAKEN[item.local], item.attrs["key"]]
    if is_tei(item, *SPECS):
        return [mode_of(item), SPECS[item.local], item.attrs["ident"], *fields_of(file, item, kept)]
    return None


def doc_of(file, kept):
    """What a file declares that breaks no rule of form."""
    items = [words_of_item(file, item, kept) for item in file.items]
    start = sorted(set(start_words(file)), key=str.encode)
    return merging.Doc(schema_attribute(file, "ident", "bare"), start, [item for item in items if item])


def places_of(file):
    """The bytes at which the items of the doc begin."""
    return [item.at for item in file.items if is_tei(item, "moduleRef", *SPECS, *TAKEN)]


def item_offences(file, library, doc):
    """The places and the rules of the offences of a file's items against the library before it."""
    places = places_of(file)
    for number, rule in merging.offences(library, doc):
        yield places[number - 1], rule


def library_of(files):
    """The start words and the library after files without an offence, and what this tells by its place."""
    library, kept, start = {}, [], ["TEI"]
    for file in files:
        doc = doc_of(file, kept)
        library, start = merging.held_after(library, doc), doc.start
    return start, library, kept


def names_of(element):
    """What a content or a part names, at any depth, as checks/merging.py writes it."""
    if element.local in attribute_forms.PART_RULES:
        yield "data/" + element.attrs["key"] if element.local == "dataRef" and "key" in element.attrs else "value"
    elif element.local in TAKEN:
        kind = TAKEN[element.local]
        yield element.attrs["key"] if kind == "element" else f"{kind}/{element.attrs['key']}"
    for part in parts_of(element):
        yield from names_of(part)


def is_data(part):
    """Whether a part is data content where the macros are that it names."""
    if part.local == "alternate":
        return bounds_of(part) == (1, 1) and parts_of(part) != [] and all(map(is_data, parts_of(part)))
    return part.local in attribute_forms.PART_RULES or part.local == "macroRef" and bounds_of(part) == (1, 1)


def named_in(content):
    """What a content names: an alternation where it may be data content, and else a sequence."""
    parts, names = parts_of(content), list(names_of(content))
    return "|".join(names) if len(parts) == 1 and is_data(parts[0]) else ",".join([*names, "text"])


def naming(library, kept):
    """The library, with what each content names in its place, and without attributes."""
    return {key: part._replace(content=named_in(kept[int(part.content)]) if part.content.isdigit() else "", atts="") for key, part in library.items()}


def edits_in(library, kept):
    """The edits of attributes of each component."""
    places = {key: re.findall(r"\d+(?=:)", part.atts) for key, part in library.items()}
    return {key: attribute_forms.edits_of(kept[int(place)].tree for place in places[key]) for key in library}


def breaks(library, kept):
    """The rules that components of a library break, each with its key."""
    yield from merging.breaks(naming(library, kept))
    yield from attribute_forms.breaks(library, edits_in(library, kept))


# The schema of a library.


def bounds_of(part):
    """The minimum and the maximum, which is None where there is none."""
    least, greatest = (part.attrs.get(name, "1") for name in ("minOccurs", "maxOccurs"))
    return int(least), None if greatest == "unbounded" else int(greatest)


def condition_of(part):
    """The namespaces that are required and those and the names that are excepted, each in order and each once."""
    words = set(excepted(part))
    names = {word for word in words if isinstance(word, tuple)}
    return tuple(tuple(sorted(some)) for some in (set(words_of(part.attrs.get("require", ""))), words - names, names))


def conditions_in(element):
    """The conditions of a content or of a part, at any depth."""
    if element.local == "anyElement":
        yield condition_of(element)
    for part in parts_of(element):
        yield from conditions_in(part)


def members_of(library):
    """The idents of the elements that are members of each held class, in order."""
    members = {key[1]: [] for key in library if key[0] == "class"}
    for key in sorted(library, key=merging.key_order):
        if key[0] == "element":
            for _, ident in merging.reached(library, key, merging.links):
                members[ident].append(key[1])
    return members


def one_of(idents):
    """A choice of references to elements."""
    return joined("choice", "notAllowed", once(*(reference("e." + ident) for ident in idents)))


def class_pattern(part, held):
    """The pattern of a reference to a class, that stands once."""
    ident = part.attrs["key"]
    if ident not in held.members:
        return markup("notAllowed")
    include, excluded = (words_of(part.attrs.get(name, "")) for name in ("include", "except"))
    if include:
        return one_of(member for member in held.members[ident] if member in include)
    if excluded:
        return one_of(member for member in held.members[ident] if member not in excluded)
    return reference("c." + ident)


def pattern_of(part, held, numbers):
    """The pattern of a part, where this is held and the conditions have these numbers."""
    if part.local == "textNode":
        return markup("text")
    if part.local == "empty":
        return markup("empty")
    if part.local in attribute_forms.PART_RULES:
        return attribute_forms.part_pattern(part.tree)
    if part.local == "elementRef":
        key = part.attrs["key"]
        pattern = reference("e." + key) if key in held.elements else markup("notAllowed")
    elif part.local == "macroRef":
        pattern = reference("m." + part.attrs["key"])
    elif part.local == "classRef":
        pattern = class_pattern(part, held)
    elif part.local == "anyElement":
        pattern = reference(f"a.{numbers[condition_of(part)]}")
    else:
        joint = ("group", "empty") if part.local == "sequence" else ("choice", "notAllowed")
        pattern = joined(*joint, patterns_of(part, held, numbers))
    return repeated(pattern, *bounds_of(part))


def patterns_of(element, held, numbers):
    return once(*(pattern_of(part, held, numbers) for part in parts_of(element)))


def content_pattern(content, held, numbers):
    return joined("group", "empty", patterns_of(content, held, numbers) if content else [])


def element_define(ident, part, content, held, numbers):
    attributes = attribute_forms.attribute_patterns(held.offers["element", ident])
    body = markup("element", once(*attributes, content_pattern(content, held, numbers)), name=part.alt or ident, ns=part.ns)
    return markup("define", once(body), name="e." + ident)


def define_of(key, part, content, held, numbers):
    """The define of a component, or none of a class of attributes."""
    kind, ident = key
    if kind == "element":
        return [element_define(ident, part, content, held, numbers)]
    if kind == "class":
        return [markup("define", once(one_of(held.members[ident])), name="c." + ident)] if part.type == "model" else []
    return [markup("define", once(content_pattern(content, held, numbers)), name=f"{kind[0]}.{ident}")]


def grammar_of(start, library, kept):
    offers = attribute_forms.offers_of(library, edits_in(library, kept))
    held = Held({ident for kind, ident in library if kind == "element"}, members_of(library), offers)
    content_of = {key: kept[int(part.content)] if part.content.isdigit() else None for key, part in library.items()}
    conditions = sorted({condition for content in content_of.values() if content for condition in conditions_in(content)})
    numbers = {condition: number for number, condition in enumerate(conditions, 1)}
    defines = [condition_define(f"a.{number}", condition) for condition, number in numbers.items()]
    for key, part in library.items():
        defines += define_of(key, part, content_of[key], held, numbers)
    inside = [markup("start", once(one_of(start))), *sorted(defines, key=lambda define: define.pairs["name"].encode())]
    return markup("grammar", once(*inside), xmlns=RELAX_NG, datatypeLibrary=DATATYPE_LIBRARY)


def unread(chain):
    """The answer to the first file that is not there or whose end is left out."""
    for file, data in enumerate(chain, 1):
        if data is None:
            return Answer(6, f"odd: read fault file {file}\n", "")
        if not data.endswith(b">"):
            return Answer(3, f"odd: file {file}: byte {data.rindex(b'<')}: not XML\n", "")
    return None


def refusal(files):
    """The first offence of a chain: of the first file that has one, those of form before those of its items."""
    library, kept = {}, []
    for number, file in enumerate(files, 1):
        first = min(form_offences(file), default=None)
        if not first:
            doc = doc_of(file, kept)
            first = min(item_offences(file, library, doc), default=None)
        if first:
            return Answer(2, f"odd: file {number}: byte {first[0]}: rule {first[1]}\n", "")
        library = merging.held_after(library, doc)
        broken = min(breaks(library, kept), key=lambda found: (found[0], merging.key_order(found[1:])), default=None)
        if broken:
            return Answer(2, f"odd: file {number}: {broken[1]} {broken[2]}: rule {broken[0]}\n", "")
    return None


def done(files, aside, root):
    """The answer that this is written."""
    note = f"odd: set aside {sum(file.asides for file in files)}\n" if aside else ""
    return Answer(0, note, '<?xml version="1.0" encoding="UTF-8"?>\n' + written(root))


def compiled(files, aside):
    """The answer to a chain that has no offence."""
    start, library, kept = library_of(files)
    missing = {word for word in start if ("element", word) not in library}
    if missing:
        return Answer(2, f"odd: start {min(missing, key=str.encode)}: rule 20\n", "")
    grammar = grammar_of(start, library, kept)
    if grammar.size > MOST_NODES:
        return Answer(5, "odd: limit nodes\n", "")
    return done(files, aside, grammar)


def answer(chain, aside, command=compiled):
    """What the documents say of the chain, with the word `aside` before the command or without it. The command answers where there is no offence."""
    if len(chain) > 16:
        return Answer(5, "odd: limit files\n", "")
    if missing := unread(chain):
        return missing
    files = [read(data, aside) for data in chain]
    return refusal(files) or command(files, aside)


# The comparison.

# What is looked for in the schemas, to tell how many have it.
FORMS = [
    *'name="c. name="m. name="d.'.split(),
    *"<group <choice <optional <zeroOrMore <oneOrMore <notAllowed <nsName <name <attribute <list <data <param <value".split(),
    *('define name="a.1"', 'define name="a.10"', '<param name="pattern"/>'),
]


def shown(text):
    return text if len(text) < 5000 else f"{text[:5000]} .. of {len(text)} characters"


def put(folder, chain):
    """Writes the files of the chain, and gives their names."""
    names = [f"{file}.odd" for file in range(1, len(chain) + 1)]
    for name, data in zip(names, chain):
        if data is None:
            (folder / name).unlink(missing_ok=True)
        else:
            (folder / name).write_bytes(data)
    return names


def cause_of(file, at, rule):
    """What is told of an offence of form beside its rule: of groups, of constraints and of schemaSpec, and of names, attribute lists and data."""
    named = {element.local for element in [*file.schemas, *file.groups] if element.at == at}
    for item in file.items:
        if item.at == at:
            named |= attribute_forms.forms_broken(item.tree, rule)
            if rule == 2 and any(constraints_of(item)):
                named.add("constraintSpec" if item.local == "constraintSpec" else f"constraintSpec in {item.local}")
            if is_tei(item, "specGrpRef"):
                named.add("specGrpRef to an item" if rule == 4 and 4 in target_rules(item, file) else "specGrpRef")
    return sorted(named)


def told_of(chain, note, aside):
    """A note without what it names, and of a rule of form also what broke it."""
    plain = re.sub(r"file \d+|start \S+|byte \d+|(element|class|macro|datatype) \S+(?=: rule)|aside \d+", lambda named: named[0].split()[0] + " ..", note)
    place = re.fullmatch(r"odd: file (\d+): byte (\d+): rule ([1-4])\n", note)
    if not place:
        return plain or "the schema is written\n"
    file, at, rule = map(int, place.groups())
    return " ".join([plain[:-1], *cause_of(read(chain[file - 1], aside), at, rule)]) + "\n"


def features_of(chain, aside):
    """What a chain has of groups, constraints and files without a schemaSpec."""
    files = [(read(data, False), read(data, aside)) for data in chain if data and data.endswith(b">")]
    features = {"the word aside": aside}
    for whole, file in files:
        for feature, has in {
            "a group": whole.groups,
            "a group in a group": any(list(found(group, "specGrp"))[1:] for group in whole.groups),
            "a group among the items": whole.schemas and any(is_tei(item, "specGrp") for item in whole.items),
            "a group that is referred to": any(is_tei(item, "specGrpRef") and group_of(item, whole.groups) for item in whole.items),
            "no schemaSpec": not whole.schemas,
            "no schemaSpec and a declaration": not whole.schemas and whole.items,
            "several schemaSpec": whole.schemas[1:],
            "a constraint that breaks rule 2": any(any(constraints_of(item)) for item in whole.items),
            "constraints taken out": file.asides,
        }.items():
            features[feature] = features.get(feature) or bool(has)
    return {feature for feature, has in features.items() if has}


def main(program, count):
    resource.setrlimit(resource.RLIMIT_AS, (MOST_MEMORY, MOST_MEMORY))
    program = pathlib.Path(program).resolve()
    rng, differing, told, forms, lengths, features, asides = random.Random(9), 0, *(collections.Counter() for _ in range(5))
    with tempfile.TemporaryDirectory() as name:
        folder = pathlib.Path(name)
        for _ in range(count):
            aside = rng.random() < 0.4
            chain = spoiled(rng, brought_near(rng, made_files(rng, aside), aside))
            wanted = answer(chain, aside)
            words = ["aside"] * aside + ["compile", *put(folder, chain)]
            result = subprocess.run([program, *words], capture_output=True, cwd=folder)
            given = Answer(result.returncode, result.stderr.decode(), result.stdout.decode())
            told[told_of(chain, wanted.note, aside)] += 1
            lengths[len(chain)] += 1
            forms.update(form for form in FORMS if form in wanted.schema)
            features.update(features_of(chain, aside))
            asides.update(re.findall(r"aside (\d+)", wanted.note))
            if given != wanted:
                differing += 1
                print(words, *(data and data.decode() for data in chain), *map(shown, map(str, [*wanted, *given])), sep="\n", end="\n\n")
    for line, number in told.most_common():
        print(number, line, end="")
    print("chains of", ", ".join(f"{length}: {number}" for length, number in sorted(lengths.items())))
    print("chains with", ", ".join(f"{feature}: {number}" for feature, number in features.most_common()))
    print("set aside", ", ".join(f"{number}: {asides[number]}" for number in sorted(asides, key=int)))
    print("schemas with", ", ".join(f"{form}: {forms[form]}" for form in FORMS))
    print(f"{count} chains, {differing} that differ")
    return 1 if differing else 0


if __name__ == "__main__":
    sys.exit(main(sys.argv[1], int(sys.argv[2]) if len(sys.argv) > 2 else 20000))
