#!/usr/bin/env python3
"""Works out what attribute lists say and what edits of them make, apart from odd.

    checks/attributes.py FOLDER

Writes the cases of crates/odd_cases/data/cases/attributes into FOLDER: each edit over each other, each fault beside each
other, lists in one another, and random chains of lists, as docs/odd-files.md and docs/merging.md say.
"""

import pathlib
import random
import re
import sys
from xml.etree import ElementTree

sys.path.insert(0, str(pathlib.Path(__file__).parent))
from values import NAME_CHAR, NAME_START, collapsed, item, picture

SEED = 20261130
TEI = "http://www.tei-c.org/ns/1.0"
RELAX_NG = "http://relaxng.org/ns/structure/1.0"
PASSED_OVER = "gloss desc equiv exemplum remarks listRef model modelGrp modelSequence moduleSpec defaultVal".split()
MODES = ["add", "delete", "change", "replace"]
NCNAME = re.compile(f"[{NAME_START}][{NAME_CHAR}]*")

# What an attribute list breaks.


def local(element):
    """The local name of an element of TEI."""
    return element.tag.removeprefix("{%s}" % TEI) if element.tag.startswith("{%s}" % TEI) else None


def children(element, name):
    return [child for child in element if local(child) == name]


def own_text(element):
    """The text of an element without that of the elements in it, collapsed."""
    return collapsed("".join([element.text or "", *(child.tail or "" for child in element)]))


def is_attribute_name(text):
    return bool(NCNAME.fullmatch(text.removeprefix("xml:")))


def is_number(text):
    return bool(re.fullmatch("[0-9]{1,9}", text))


def broken_by_children(element, often, once=(), left_out=()):
    """The rules that an element breaks by children that may not stand there, and by two that may stand once."""
    for child in element:
        name = local(child)
        if child.tag.startswith("{%s}" % RELAX_NG) or name in left_out:
            yield 2
        elif name and name not in (*often, *once, *PASSED_OVER):
            yield 3
    for name in once:
        if len(children(element, name)) > 1:
            yield 4


def broken_by_word(element, attribute, words, left_out=()):
    """The rule that an attribute breaks by being none of the words."""
    word = element.get(attribute)
    if word in left_out:
        yield 2
    elif word is not None and word not in words:
        yield 3


def is_twice(items):
    return len(set(items)) < len(items)


def broken_by_list(element, is_outer=True):
    """The rules that an `attList` breaks."""
    yield from broken_by_word(element, "org", ["group"], ["choice"])
    yield from broken_by_children(element, ["attDef", "attList"], left_out=["attRef"])
    for definition in children(element, "attDef"):
        yield from broken_by_definition(definition)
    for inner in children(element, "attList"):
        yield from broken_by_list(inner, False)
    if is_outer and is_twice([definition.get("ident") for definition in definitions(element) if definition.get("ident") is not None]):
        yield 4


def broken_by_definition(element):
    if not is_attribute_name(element.get("ident", "")):
        yield 1
    yield from broken_by_word(element, "mode", MODES)
    yield from broken_by_word(element, "usage", ["req", "rec", "opt"], ["mwa"])
    yield from broken_by_children(element, [], ["altIdent", "datatype", "valList"], ["constraintSpec"])
    for alt in children(element, "altIdent"):
        yield from broken_by_children(alt, [])
        if not is_attribute_name(own_text(alt)):
            yield 1
    for datatype in children(element, "datatype"):
        yield from broken_by_datatype(datatype)
    for values in children(element, "valList"):
        yield from broken_by_values(values)


def broken_by_datatype(element):
    least, most = element.get("minOccurs", "1"), element.get("maxOccurs", "1")
    if not is_number(least) or not (is_number(most) or most == "unbounded"):
        yield 1
    if is_number(least) and is_number(most) and int(most) < int(least):
        yield 3
    yield from broken_by_children(element, [], ["dataRef"])
    if not children(element, "dataRef"):
        yield 3
    for reference in children(element, "dataRef"):
        yield from broken_by_reference(reference)


def broken_by_reference(element):
    key, name, pattern, facets = element.get("key"), element.get("name"), element.get("restriction"), children(element, "dataFacet")
    if key is not None and not NCNAME.fullmatch(key):
        yield 1
    if element.get("ref") is not None or element.get("source") is not None:
        yield 2
    if key is None and name is None:
        yield 1
    if key is not None and name is not None:
        yield 3
    if key is not None and (pattern is not None or facets):
        yield 2
    if pattern is not None and facets:
        yield 3
    yield from broken_by_children(element, ["dataFacet"])
    for facet in facets:
        yield from broken_by_children(facet, [])
        if facet.get("name") is None or facet.get("value") is None:
            yield 1
    if name is not None and (rule := re.fullmatch("rule (.)", item(name, facets_of(element)))):
        yield int(rule[1])


def facets_of(element):
    """The facets that a `dataRef` gives, which break nothing by themselves."""
    found = [("pattern", element.get("restriction"))] if element.get("restriction") is not None else []
    for facet in children(element, "dataFacet"):
        if facet.get("name") is not None and facet.get("value") is not None:
            found.append((facet.get("name"), facet.get("value")))
    return found


def broken_by_values(element):
    yield from broken_by_word(element, "type", ["closed", "semi", "open"])
    yield from broken_by_word(element, "mode", MODES)
    yield from broken_by_children(element, ["valItem"])
    for value in children(element, "valItem"):
        if not collapsed(value.get("ident", "")):
            yield 1
        yield from broken_by_word(value, "mode", MODES)
        yield from broken_by_children(value, [], left_out=["altIdent"])
    if is_twice([collapsed(value.get("ident")) for value in children(element, "valItem") if value.get("ident") is not None]):
        yield 4


# What it says: an edit is its kind and its fields, and a field that is not given is not among them.


def definitions(element):
    """The `attDef` of an `attList` and of those in it."""
    for child in element:
        if local(child) == "attDef":
            yield child
        elif local(child) == "attList":
            yield from definitions(child)


def list_edit(element):
    """The edit of a list of values."""
    mode, kind = element.get("mode", "add"), element.get("type")
    if mode == "delete":
        return ("delete",)
    items = [(collapsed(value.get("ident")), value.get("mode", "add")) for value in children(element, "valItem")]
    if mode == "change":
        return "change", kind, {value: does != "delete" for value, does in items if does != "change"}
    return "set", kind or "open", {value for value, does in items if does != "delete"}


def datatype_said(element):
    reference = children(element, "dataRef")[0]
    said = f"key={reference.get('key')}" if reference.get("key") is not None else f"type={item(reference.get('name'), facets_of(reference))}"
    least, most = (element.get(name, "1") for name in ("minOccurs", "maxOccurs"))
    return f"{said} {int(least)}..{'*' if most == 'unbounded' else int(most)}"


def edit_said(element):
    """The edit of an attribute."""
    mode = element.get("mode", "add")
    if mode == "delete":
        return "delete", {}
    fields = {"ns": element.get("ns"), "usage": {"req": "req", "rec": "opt", "opt": "opt"}.get(element.get("usage"))}
    for name, child, said in (("alt", "altIdent", own_text), ("datatype", "datatype", datatype_said), ("list", "valList", list_edit)):
        if found := children(element, child):
            fields[name] = said(found[0])
    fields = {name: value for name, value in fields.items() if value is not None}
    if mode == "change":
        return "change", fields
    return "set", changed({"usage": "opt"}, fields)


def changed_list(before, edit):
    """A list of values, or none, with an edit laid over it."""
    if edit[0] != "change":
        return edit if edit[0] == "set" else None
    if before is None:
        return None
    _, kind, values = before
    kept = {value for value in values if edit[2].get(value, True)}
    return "set", edit[1] or kind, kept | {value for value, is_put in edit[2].items() if is_put}


def changed(before, fields):
    """A definition with a change laid over it."""
    after = {**before, **fields}
    if "list" in fields:
        after["list"] = changed_list(before.get("list"), fields["list"])
    return {name: value for name, value in after.items() if value is not None}


def joined_lists(earlier, later):
    """Two edits of a list of values as one."""
    if later[0] != "change" or earlier[0] == "delete":
        return later if later[0] != "change" else earlier
    if earlier[0] == "set":
        return changed_list(earlier, later)
    return "change", later[1] or earlier[1], {**earlier[2], **later[2]}


def joined(earlier, later):
    """Two edits of an attribute as one."""
    if earlier is None or later[0] != "change" or earlier[0] == "delete":
        return later if earlier is None or later[0] != "change" else earlier
    if earlier[0] == "set":
        return "set", changed(earlier[1], later[1])
    fields = {**earlier[1], **later[1]}
    if "list" in earlier[1] and "list" in later[1]:
        fields["list"] = joined_lists(earlier[1]["list"], later[1]["list"])
    return "change", fields


def edits_of(lists):
    """The edits of lists as one, or the rule that the first of them breaks which breaks one."""
    edits = {}
    for text in lists:
        element = ElementTree.fromstring(f'<attList xmlns="{TEI}"{text}')
        if rules := list(broken_by_list(element)):
            return min(rules)
        for definition in definitions(element):
            ident = definition.get("ident")
            edits[ident] = joined(edits.get(ident), edit_said(definition))
    return edits


# How it is told.


def told_values(edit):
    if edit[0] == "delete":
        return " no list"
    if edit[0] == "set":
        return f" {edit[1]}" + "".join(f"|{value}" for value in sorted(edit[2], key=str.encode))
    return " list" + (f" {edit[1]}" if edit[1] else "") + "".join(f"|{'+' if edit[2][value] else '-'}{value}" for value in sorted(edit[2], key=str.encode))


def told_fields(fields):
    told = f" {fields['usage']}" if "usage" in fields else ""
    told += "".join(f" {name}={picture(fields[name])}" for name in ("alt", "ns") if name in fields)
    told += f" {fields['datatype']}" if "datatype" in fields else ""
    return told + (told_values(fields["list"]) if "list" in fields else "")


def told_edit(edit):
    kind, fields = edit
    return {"set": "", "change": " change", "delete": " delete"}[kind] + told_fields(fields)


def told(call, lists):
    edits = edits_of(lists)
    if isinstance(edits, int):
        return f"rule {edits}"
    if call == "definitions":
        edits = {ident: edit for ident, edit in edits.items() if edit[0] == "set"}
    return " ; ".join(ident + told_edit(edits[ident]) for ident in sorted(edits, key=str.encode))


def lines(*lists):
    """The lines of a question on lists, which are without their beginnings."""
    return ["\t".join([call, *map(picture, lists), told(call, lists)]) for call in ("edits", "definitions")]


# Each edit over each other.

LIST_EDITS = [
    "",
    '<valList type="closed"><valItem ident="a"/><valItem ident="b"/></valList>',
    '<valList><valItem ident="c"/><valItem ident="d" mode="delete"/><valItem ident="e" mode="change"/></valList>',
    '<valList mode="change" type="semi"><valItem ident="b" mode="delete"/><valItem ident="f"/></valList>',
    '<valList mode="change"><valItem ident="a" mode="change"/><valItem ident="f" mode="delete"/><valItem ident="g" mode="replace"/></valList>',
    '<valList mode="delete"/>',
]
FIELDS = [
    "",
    ' usage="req"',
    ' usage="rec" ns="urn:x"',
    ' usage="opt" ns=""',
    "><altIdent> u </altIdent>",
    '><datatype maxOccurs="unbounded"><dataRef key="d"/></datatype>',
    '><datatype minOccurs="0"><dataRef name="token" restriction="a+"/></datatype>',
]


def definition(mode, fields="", values=""):
    """An `attDef` of `t` in a mode, with fields and a list."""
    attributes, _, inside = fields.partition(">")
    return f'<attDef ident="t" mode="{mode}"{attributes}>{inside}{values}</attDef>'


def each_over_each():
    """The modes of two edits, with each field of the one given or not, and the edits of lists in them."""
    for first in MODES:
        for second in MODES:
            for one in FIELDS:
                for other in FIELDS:
                    yield from lines(f">{definition(first, one)}</attList>", f">{definition(second, other)}</attList>")
    for first in ("add", "change"):
        for one in LIST_EDITS:
            for other in LIST_EDITS:
                yield from lines(f">{definition(first, values=one)}</attList>", f">{definition('change', values=other)}</attList>")


def threes():
    """Three edits, one after the other."""
    edits = [definition("add", FIELDS[1], LIST_EDITS[1]), definition("change", FIELDS[5], LIST_EDITS[3]), definition("change", FIELDS[4], LIST_EDITS[4]), definition("delete")]
    for one in edits:
        for two in edits:
            for three in edits:
                yield from lines(*(f">{edit}</attList>" for edit in (one, two, three)))


# Each fault beside each other: each is a part of a list. A `@` stands for its number.

FAULTS = [
    '<attDef/>', '<attDef ident="1"/>', '<attDef ident="xml:"/>', '<attDef ident="x:a@"/>', '<attDef ident="a@" mode="x"/>', '<attDef ident="a@" mode=""/>',
    '<attDef ident="a@" usage="mwa"/>', '<attDef ident="a@" usage="x"/>', '<attDef ident="a@"><constraintSpec/></attDef>', '<attDef ident="a@"><attDef/></attDef>',
    '<attDef ident="a@"/><attDef ident="a@"/>', '<attDef ident="a@"/><attList><attDef ident="a@"/></attList>', '<attRef/>', '<valList/>',
    '<attList org="choice"/>', '<attList org="x"/>', '<attList><attRef/></attList>', '<r:text xmlns:r="http://relaxng.org/ns/structure/1.0"/>',
    '<attDef ident="a@"><altIdent>1</altIdent></attDef>', '<attDef ident="a@"><altIdent/></attDef>', '<attDef ident="a@"><altIdent>b</altIdent><altIdent>c</altIdent></attDef>',
    '<attDef ident="a@"><altIdent>b<p/></altIdent></attDef>',
    *('<attDef ident="a@"><datatype%s</datatype></attDef>' % inside for inside in (
        '>', '><dataRef key="d"/><dataRef key="e"/>', ' minOccurs="x"><dataRef key="d"/>', ' maxOccurs="1234567890"><dataRef key="d"/>', ' minOccurs="2"><dataRef key="d"/>',
        '><dataRef/>', '><dataRef key="1"/>', '><dataRef key="d" name="token"/>', '><dataRef key="1" name="token"/>', '><dataRef key="d" name="double"/>', '><dataRef key="d" restriction="a"/>',
        '><dataRef key="d"><dataFacet name="length" value="1"/></dataRef>', '><dataRef name="token" ref="x"/>', '><dataRef name="token" source="x"/>',
        '><dataRef name="token" restriction="a"><dataFacet name="length" value="1"/></dataRef>', '><dataRef name="token" restriction="["/>', '><dataRef name="double"/>',
        '><dataRef name="integer"><dataFacet name="length" value="x"/></dataRef>', '><dataRef name="integer"><dataFacet name="length" value="1"/></dataRef>',
        '><dataRef name="token"><dataFacet name="length"/></dataRef>', '><dataRef name="token"><dataFacet value="1"/></dataRef>',
        '><dataRef name="token"><dataFacet name="length" value="1"/><dataFacet name="length" value="2"/></dataRef>', '><dataRef name="token"><p/></dataRef>',
        '><dataRef name="token" restriction="a"><dataFacet name="pattern" value="b"/></dataRef>',
    )),
    *('<attDef ident="a@"><valList%s</valList></attDef>' % inside for inside in (
        ' type="x">', ' mode="x">', '><valItem/>', '><valItem ident=" "/>', '><valItem ident="v" mode="x"/>', '><valItem ident="v"><altIdent>w</altIdent></valItem>', '><p/>',
        '><valItem ident="v w"/><valItem ident=" v&#9;w "/>', '><valItem ident="v" mode="delete"/><valItem ident="v"/>',
    )),
]


def each_beside_each():
    """Each fault alone, and two in both orders."""
    for number, one in enumerate(FAULTS):
        yield lines(">" + one.replace("@", "1") + "</attList>")[0]
        for other in FAULTS[number + 1 :]:
            for pair in ((one, other), (other, one)):
                inside = "".join(fault.replace("@", str(place)) for place, fault in enumerate(pair, 1))
                yield lines(f">{inside}</attList>")[0]


# What breaks nothing though it might seem to.

SOUND = [
    '/>', ' org="group"/>', '><desc><attDef/></desc></attList>', '><x:y xmlns:x="urn:x"><attDef xmlns="urn:x"/></x:y></attList>', '>text</attList>',
    '><attDef ident="xml:id"/><attDef ident="id"/></attList>', '><attList><attList><attDef ident="b"/></attList><attDef ident="c"/></attList><attDef ident="a"/></attList>',
    '><attDef ident="a"><altIdent>b<x:y xmlns:x="urn:x">z</x:y>&#10;</altIdent><desc/><defaultVal>v</defaultVal></attDef></attList>',
    '><attDef ident="a"><altIdent>xml:b</altIdent><datatype minOccurs="2" maxOccurs="2"><dataRef name="ID"/></datatype></attDef></attList>',
    '><attDef ident="a"><valList type="closed"><valItem ident=" New&#9; York "><gloss/></valItem><valItem ident="b"/><valItem ident="A"/></valList></attDef></attList>',
    '><attDef ident="a"><datatype><dataRef name="integer"><dataFacet name="minInclusive" value="1"/><dataFacet name="maxInclusive" value="+09"/></dataRef></datatype></attDef></attList>',
    '><attDef ident="a"><datatype><dataRef name="token" minOccurs="x"><dataFacet name="pattern" value="a|b"><desc/></dataFacet></dataRef></datatype></attDef></attList>',
    # in the shape of the Guidelines' own: att.global, att.typed, att.pointing and their datatypes
    '><attDef ident="xml:id" usage="opt"><equiv/><gloss>identifier</gloss><desc>..</desc><datatype><dataRef name="ID"/></datatype><remarks/></attDef>'
    '<attDef ident="n" usage="opt"><datatype><dataRef key="teidata.text"/></datatype></attDef>'
    '<attDef ident="xml:lang" usage="opt"><datatype><dataRef key="teidata.language"/></datatype></attDef>'
    '<attDef ident="xml:space" usage="opt"><datatype><dataRef key="teidata.enumerated"/></datatype><valList type="closed"><valItem ident="default"/><valItem ident="preserve"/></valList></attDef></attList>',
    '><attDef ident="type" usage="opt"><datatype minOccurs="1" maxOccurs="1"><dataRef key="teidata.enumerated"/></datatype></attDef>'
    '<attDef ident="subtype" usage="opt"><datatype><dataRef key="teidata.enumerated"/></datatype><remarks/></attDef></attList>',
    '><attDef ident="targetLang"><datatype><dataRef key="teidata.language"/></datatype></attDef>'
    '<attDef ident="target" usage="opt"><datatype minOccurs="1" maxOccurs="unbounded"><dataRef key="teidata.pointer"/></datatype></attDef>'
    '<attDef ident="evaluate"><datatype><dataRef key="teidata.enumerated"/></datatype><valList type="closed"><valItem ident="all"/><valItem ident="one"/><valItem ident="none"/></valList></attDef></attList>',
]


def sound():
    for text in SOUND:
        yield from lines(text)


# Random chains.


def random_values(rng):
    if rng.random() < 0.5:
        return ""
    mode = rng.choice(["add", "change", "change", "replace", "delete"])
    kind = rng.choice(["", ' type="closed"', ' type="semi"'])
    items = "".join(f'<valItem ident="{value}" mode="{rng.choice(MODES)}"/>' for value in rng.sample("abcde", rng.randrange(5)))
    return f'<valList mode="{mode}"{kind}>{items}</valList>'


def random_definition(rng, ident):
    fields = rng.choice(["", ' usage="req"', ' usage="opt"']) + rng.choice(["", ' ns="urn:x"', ' ns=""'])
    inside = rng.choice(["", "<altIdent>x</altIdent>", "<altIdent>xml:y</altIdent>"])
    inside += rng.choice(["", '<datatype><dataRef key="d"/></datatype>', '<datatype minOccurs="0" maxOccurs="7"><dataRef name="token"/></datatype>'])
    return f'<attDef ident="{ident}" mode="{rng.choice([*MODES, "change"])}"{fields}>{inside}{random_values(rng)}</attDef>'


def random_list(rng):
    found = [random_definition(rng, ident) for ident in rng.sample("pqrst", rng.randrange(1, 5))]
    at = rng.randrange(len(found) + 1)
    return f'>{"".join(found[:at])}<attList>{"".join(found[at:])}</attList></attList>'


def random_chains():
    rng = random.Random(SEED)
    for _ in range(400):
        yield from lines(*(random_list(rng) for _ in range(rng.randrange(2, 5))))


def main(folder):
    for name, found in {
        "each_over_each": each_over_each(),
        "threes": threes(),
        "each_beside_each": each_beside_each(),
        "sound": sound(),
        "random": random_chains(),
    }.items():
        (folder / name).write_text("\n".join(["=== values", *found, ""]))


if __name__ == "__main__":
    main(pathlib.Path(sys.argv[1]))
