"""Attribute lists, lists of values and data in ODD files, for checks/offences.py: such at random, what they break by their form,
what the attributes of a library are and break, and what they give in its schema.

Worked out apart from odd, as docs/odd-files.md, docs/merging.md and docs/schema.md say: what an attribute list breaks and what edits make
of one another by checks/attributes.py, names and memberships by checks/merging.py. Elements are those of Python's own XML.
"""

import collections
import re

import attributes
import merging
import values
from schema_markup import escaped, joined, markup, once, reference, repeated

# A datatype of a key, or of XML Schema with its facets, and its bounds, of which the most is None where there is none.
Datatype = collections.namedtuple("Datatype", "key name facets least most")


# How attribute lists and data are made.

DATATYPES, DATA_MACROS = ["d1", "d2", "d.3", "d4"], ["w1", "w2"]
# What elements set themselves, and two attributes that each class has for itself, so that few definitions contradict one another.
SHARED = ["n", "N", "type", "xml:id", "xml:lang", "a-1", "\u00e9", "xmlns"]
ENDS = [".a", ".b"]
ALTS = ["n", "u", "v", "w", "u.1", "u-2", "\u00e9.1", "xml:u", "xml:id", "id", "k1.a"]
SPACES = ["urn:x", "urn:x", "", merging.XML, "a\"<>&'b", "a\tb\nc\rd"]
USAGES = ["", "", "", ' usage="req"', ' usage="req"', ' usage="rec"', ' usage="opt"']
PATTERNS = ["", " ", "[^ ]+", "<&>\"'", "a\n\tb", "\r", "\u00e9|\\.", "[0-9]{4}(-[0-9]{2})?"]
NUMBERS = {True: ["0", "7", "007", "123456789"], False: ["-3", "+5", "0", "9" * 18]}
WORDS = ["a", "b", "A", "10", "9", "\u00e9", "New  York", " c\n", "<&>", "\"'", "d|e", "]]>"]
BOUNDS = [
    *[""] * 8,
    *(' maxOccurs="unbounded"', ' minOccurs="0"', ' minOccurs="0" maxOccurs="unbounded"', ' minOccurs="2" maxOccurs="3"', ' minOccurs="2" maxOccurs="unbounded"'),
    *(' minOccurs="1" maxOccurs="01"', ' minOccurs="0" maxOccurs="0"', ' maxOccurs="30"', ' minOccurs="0" maxOccurs="000000002"'),
]
ONCE = [*[""] * 12, ' minOccurs="1"', ' maxOccurs="01"', ' minOccurs="000000001" maxOccurs="1"']
ORGS = ["", "", ' org="group"']
# What is passed over: children, and attributes that are not listed.
BESIDE = ["", "", "", "", "text", "<desc><attDef/></desc>", "<gloss/>", "<defaultVal>a</defaultVal>", "<remarks/>"]
UNLISTED = [""] * 20 + [' rend="x"', ' y:mode="x"', ' y:ident="1"', ' xml:id="i"', ' n=""']


def put_into(form, *insides):
    return [form % inside for inside in insides]


# How an `altIdent` is written.
NAMED = put_into("<altIdent>%s</altIdent>", "{}", "{}", "{}", " {}\n<x:x>z</x:x>\t", "<desc>z</desc>{}", "<![CDATA[{}]]><!--z-->", "&#x75;{}")
# What several classes may set, by the ident: what is put into a definition. The first three of each say the same.
TWINS = {
    "s1": ["/>", ' usage="opt"><desc/></attDef>', ' mode="replace" usage="rec"/>', ' ns=""/>'],
    "s2": put_into(
        "><datatype%s</datatype></attDef>",
        '><dataRef name="token" restriction="a"/>',
        ' minOccurs="1"><dataRef name="token"><dataFacet name="pattern" value="a"/></dataRef>',
        ' maxOccurs="000000001"><dataRef restriction="a" name="token"/>',
        ' maxOccurs="2"><dataRef name="token" restriction="a"/>',
        '><dataRef name="token"/>',
    ),
    "s3": put_into(
        "><valList%s</valList></attDef>",
        ' type="closed"><valItem ident="a"/><valItem ident="b c"/>',
        ' mode="replace" type="closed"><valItem ident=" b &#10;c"/><valItem ident="d" mode="delete"/><valItem ident="a" mode="change"/>',
        ' type="closed" mode="add"><desc/><valItem ident="b c" mode="replace"/><valItem ident="a" mode="add"/>',
        ' type="semi"><valItem ident="a"/><valItem ident="b c"/>',
    ),
    "s4": put_into(
        ' usage="req"><datatype><dataRef name="%s</dataRef></datatype></attDef>',
        'ID"><dataFacet name="maxLength" value="7"/><dataFacet name="minLength" value="1"/>',
        'ID"><dataFacet name="minLength" value="1"/><dataFacet name="maxLength" value="7"/>',
        'ID"><dataFacet value="1" name="minLength"/><dataFacet value="7" name="maxLength"/>',
        'NCName"><dataFacet name="minLength" value="1"/><dataFacet name="maxLength" value="7"/>',
        'ID"><dataFacet name="minLength" value="1"/><dataFacet name="maxLength" value="07"/>',
    ),
}
# What elements do to them: the first of each makes all of them the same.
TWIN_EDITS = {
    "s1": [' mode="change" ns="urn:x"/>', ' ns="urn:x"/>'],
    "s2": [' mode="change"><datatype><dataRef key="d1"/></datatype></attDef>', ' mode="change" usage="req"/>'],
    "s3": put_into(
        ' mode="change"><valList mode=%s</valList></attDef>',
        '"delete">',
        '"change"><valItem ident="a" mode="delete"/><valItem ident="f" mode="change"/>',
        '"change" type="open"><valItem ident="e"/>',
        '"change" type="closed"><valItem ident="e" mode="delete"/><valItem ident="b c" mode="replace"/>',
        '"change"><valItem ident="g"/><valItem ident="a" mode="add"/>',
    ),
    "s4": [' mode="change"><datatype maxOccurs="2"><dataRef name="language"/></datatype></attDef>', ' mode="delete"/>'],
}
# What breaks a form, but for a few that break none: by standing in an attribute list, in an element, in a content or in a datatype.
LIST_FAULTS = [
    *attributes.FAULTS,
    *('<attList org=""/>', '<attDef ident=""/>', '<attDef ident=" a@"/>', '<attDef ident="xml:1"/>', '<attDef ident="xml:xml:a@"/>', '<attDef ident="a@" usage=""/>'),
    *('<attDef ident="a@" mode="Change"/>', '<attDef ident="a@"><valList type="Closed"/></attDef>'),
    *put_into('<attDef ident="a@"><altIdent>%s</altIdent></attDef>', "a b", "xml:"),
    *put_into('<attDef ident="a@">%s</attDef>', "<datatype/><datatype/>", "<valList/><valList/>", "<r:text/>", "<attList/>"),
    *put_into('<attDef ident="a@"><datatype %s</datatype></attDef>', 'maxOccurs="0"><dataRef key="d1"/>', 'minOccurs="\u0661"><dataRef key="d1"/>', '><dataRef name=" token"/>'),
    '<attDef ident="a@"><datatype><dataRef name="token"><r:text/></dataRef></datatype></attDef>',
]
NAME_FAULTS = put_into("<altIdent>%s</altIdent>", "", " ", "1", "a b", "xml:a", "a<p/>", "a<r:text/>")
PART_FAULTS = [
    *put_into("<dataRef %s/>", "", 'key="1"', 'key="d1" name="token"', 'key="d1" name="double"', 'key="" name="token"', 'name="double"', 'key="d1" restriction="a"'),
    *put_into('<dataRef name="token" %s/>', 'ref="u"', 'source="u"', 'restriction="["', 'restriction="\\d"', 'minOccurs="0"', 'maxOccurs="unbounded"', 'maxOccurs="x"'),
    *put_into('<dataRef name="token" minOccurs=%s/>', '"2" maxOccurs="2"', '"unbounded"'),
    *put_into("<dataRef name=%s</dataRef>", '"token"><p/>', '"token"><x:x/>', '"token"><r:text/>', '"boolean"><dataFacet name="length" value="1"/>'),
    *put_into('<dataRef name="token" restriction="a"><dataFacet name=%s/></dataRef>', '"length" value="1"', '"pattern" value="b"'),
    *put_into('<dataRef name="token"><dataFacet %s</dataRef>', 'name="length" value="x"/>', 'value="1"/>', 'name="whiteSpace" value="1"/>'),
    *put_into('<dataRef name="token"><dataFacet name="length" value="1"%s</dataRef>', '/><dataFacet name="length" value="1"/>', "><x:x/></dataFacet>", "><p/></dataFacet>"),
    *put_into('<dataRef key="d1"><dataFacet name="length"%s/></dataRef>', "", ' value="1"'),
    '<dataRef name="integer"><dataFacet name="minInclusive" value="1.0"/></dataRef>',
    *put_into("<valList%s</valList>", ' type="x">', ' type="">', ' mode="x">', ' mode="change">', ' mode="delete">', "><p/>", "><x:x/>", "><r:text/>"),
    *put_into("<valList><valItem%s</valList>", "/>", ' ident=" &#10;"/>', ' ident="a" mode="x"/>', ' ident="a"/><valItem ident=" a"/>'),
    '<valList><valItem ident="a b" mode="delete"/><valItem ident="a  b"/></valList>',
    *put_into('<valList><valItem ident="a">%s</valItem></valList>', "<altIdent>b</altIdent>", "<x:x/>", "<p/>"),
]
DATATYPE_FAULTS = put_into(
    "<content>%s</content>",
    *("", "<desc/>", '<dataRef name="token"/><valList/>', '<dataRef name="token"/><textNode/>', "<textNode/>", "<empty/>", '<elementRef key="a"/>', "<elementRef/>"),
    *('<macroRef key="w1"/>', '<classRef key="k1" expand="sequence"/>', '<anyElement except="z:a"/>', "<x:x/>", "<r:text/>", "<valList/></content><content><valList/>"),
    *put_into("<sequence%s</sequence>", '><dataRef name="token"/>', '><alternate minOccurs="0"/>', ' preserveOrder="x">'),
    *put_into("<alternate%s</alternate>", "><textNode/>", '><sequence><alternate maxOccurs="2"/></sequence>', '><alternate maxOccurs="2"/>', "><p/>"),
    *put_into('<alternate%s><dataRef name="token"/></alternate>', ' minOccurs="0"', ' maxOccurs="unbounded"', ' minOccurs="x"', ' minOccurs="2" maxOccurs="1"'),
    *("<alternate>" * levels + "</alternate>" * levels for levels in (60, 61)),
)
# Each with what it is put into.
FAULTS_IN = {"attList": LIST_FAULTS, "elementSpec": NAME_FAULTS, "(?:content|sequence|alternate)": PART_FAULTS, "dataSpec": DATATYPE_FAULTS}
FAULTS = [(local, fault) for local, faults in FAULTS_IN.items() for fault in faults]


def made_alt(rng, names):
    return rng.choice(NAMED).format(rng.choice(names))


def made_element_alt(rng):
    return made_alt(rng, [name for name in ALTS if ":" not in name])


def prefixed(rng, text):
    """The text, seldom with some of its elements under a prefix."""
    return re.sub(r"<(/?)(attList|attDef|altIdent|datatype|dataRef|dataFacet|valList|valItem)\b", r"<\1t:\2", text) if rng.random() < 0.05 else text


def made_facet(rng, name):
    """A value of a facet that is of its form."""
    if name == "pattern":
        return rng.choice([rng.choice(PATTERNS), values.made(rng, 1)])
    return rng.choice(NUMBERS[name in values.LENGTHS])


def made_item(rng):
    """A datatype of XML Schema with facets, which mostly makes an item."""
    if rng.random() < 0.005:
        return values.random_item(rng)
    if rng.random() < 0.005:
        return "token", [("pattern", values.any_text(rng))]
    kind = rng.choice(sorted(values.FORMS))
    names = [name for name in [*values.LENGTHS, *values.BOUNDS, "pattern"] if values.takes(kind, name) and rng.random() < 0.25]
    return kind, [(name, made_facet(rng, name)) for name in rng.sample(names, len(names))]


def made_reference(rng, keys, bounds=""):
    """A reference to a datatype of one of the keys, where there are any, or of XML Schema."""
    bounds += rng.choice(UNLISTED)
    if keys and rng.random() < 0.45:
        return f'<dataRef key="{rng.choice(keys) if rng.random() < 0.995 else "d9"}"{bounds}/>'
    kind, facets = made_item(rng)
    if [name for name, _ in facets] == ["pattern"] and rng.random() < 0.7:
        return f'<dataRef{bounds} name="{kind}" restriction="{escaped(facets[0][1])}"/>'
    inside = "".join(f'<dataFacet name="{name}" value="{escaped(value)}"{rng.choice(UNLISTED)}/>' for name, value in facets)
    return f'<dataRef name="{kind}"{bounds}>{inside}{rng.choice(BESIDE)}</dataRef>'


def made_values(rng, modes):
    """A list of values in one of the modes."""
    mode, kind = rng.choice(modes), rng.choice(["", "", *[' type="closed"'] * 4, ' type="semi"', ' type="open"'])
    items = (f'<valItem ident="{escaped(word)}"{made_item_mode(rng)}>{rng.choice(BESIDE)}</valItem>' for word in rng.sample(WORDS, rng.randrange(6)))
    return f'<valList{mode}{rng.choice(UNLISTED)}{kind}>{rng.choice(BESIDE)}{"".join(items)}</valList>'


def made_item_mode(rng):
    return f' mode="{rng.choice(attributes.MODES)}"' if rng.random() < 0.3 else ""


def made_definition(rng, ident, mode):
    """An attribute in a mode that is written as it stands."""
    fields = rng.choice(USAGES) + (f' ns="{escaped(rng.choice(SPACES))}"' if rng.random() < 0.12 else "")
    list_modes = ["", ' mode="add"', ' mode="replace"', *([' mode="change"'] * 6 + [' mode="delete"'] if "change" in mode or rng.random() < 0.1 else [])]
    inside = [rng.choice(BESIDE), *(["<x:x/>"] if rng.random() < 0.05 else [])]
    if rng.random() < 0.14:
        inside.append(made_alt(rng, ALTS))
    if rng.random() < 0.45:
        named = made_reference(rng, DATATYPES, rng.choice(["", "", "", ' minOccurs="x"', ' maxOccurs="0"']))
        inside.append(f"<datatype{rng.choice(BOUNDS)}{rng.choice(UNLISTED)}>{rng.choice(BESIDE)}{named}</datatype>")
    if rng.random() < (0.6 if "change" in mode else 0.35):
        inside.append(made_values(rng, list_modes))
    rng.shuffle(inside)
    return f'<attDef ident="{ident}"{mode}{fields}{rng.choice(UNLISTED)}>{"".join(inside)}</attDef>'


def made_mode(rng, is_set):
    """A mode that mostly sets the attribute, or else mostly edits it."""
    if rng.random() < (0.95 if is_set else 0.25):
        return rng.choice(["", "", "", ' mode="add"', ' mode="replace"'])
    return rng.choice([' mode="change"'] * 3 + [' mode="delete"'])


# How many attributes of its own a class or an element has in a list, and how many others.
COUNTS = {"class": ([0, 1, 1, 2], [0, 0, 1, 2]), "element": ([0, 1, 1, 2], [0, 1, 2, 4]), "change": ([0, 0, 1], [1, 2, 3, 4])}


def made_attributes(rng, own, others, counts):
    """Attributes: its own, which are mostly set, and others, which are mostly edited."""
    are_set = dict.fromkeys(rng.sample(own, rng.choice(counts[0])), True)
    are_set |= dict.fromkeys(rng.sample(others, min(rng.choice(counts[1]), len(others))), False)
    for ident, is_set in are_set.items():
        yield made_definition(rng, ident, made_mode(rng, is_set))


def made_twins(rng, twins, chance, edited):
    """Attributes that several classes have, of each ident one or none, and sooner of one that is edited or offered."""
    for ident, insides in twins.items():
        if rng.random() < (2 * chance if ident in edited else chance):
            yield f'<attDef ident="{ident}"{rng.choice(insides)}'


def made_attribute_list(rng, classes, holder=None, edited=()):
    """An attribute list, with lists in it, of a class that is told or of an element: over these attributes, or else those of classes."""
    own = [holder + end for end in ENDS] if holder else SHARED
    others = [ident for ident in edited or [name + end for name in classes for end in ENDS] if ident not in TWINS]
    inside = list(made_attributes(rng, own, others, COUNTS["change" if edited else "class" if holder else "element"]))
    inside += made_twins(rng, *((TWINS, 0.12) if holder else (TWIN_EDITS, 0.4)), edited)
    rng.shuffle(inside)
    for _ in range(rng.choice([0, 0, 0, 1, 2])):
        first, last = sorted((rng.randrange(len(inside) + 1), rng.randrange(len(inside) + 1)))
        inside[first:last] = [f"<attList{rng.choice(ORGS)}>{rng.choice(BESIDE)}{''.join(inside[first:last])}</attList>"]
    return prefixed(rng, f"<attList{rng.choice(ORGS)}>{''.join(inside)}</attList>")


def made_part(rng, keys=DATATYPES):
    """A part of a content that is data by itself."""
    if rng.random() < 0.4:
        return prefixed(rng, made_values(rng, ["", "", ' mode="add"', ' mode="replace"']))
    return prefixed(rng, made_reference(rng, keys, rng.choice(ONCE)))


def made_once(rng):
    """Bounds that are mostly 1 and 1."""
    return rng.choice(ONCE) if rng.random() < 0.98 else rng.choice([' minOccurs="0"', ' maxOccurs="2"', ' maxOccurs="unbounded"'])


def made_data(rng, keys, macros, levels):
    """Mostly data content over these datatypes and macros, with at most so many levels."""
    if levels and rng.random() < 0.3:
        bounds = made_once(rng)
        count = rng.choice([1, 2, 2, 3]) if rng.random() < 0.97 else 0
        return f"<alternate{bounds}>{rng.choice(BESIDE)}{''.join(made_data(rng, keys, macros, levels - 1) for _ in range(count))}</alternate>"
    if macros and rng.random() < 0.2:
        return f'<macroRef key="{rng.choice(macros)}"{made_once(rng)}/>'
    return made_part(rng, keys)


def made_data_content(rng, keys, macros):
    """A content that is mostly data content, seldom of about as many levels as may be."""
    levels = rng.choice([58, 59, 60, 60, 61]) if rng.random() < 0.005 else 0
    data = made_data(rng, keys, macros, 0 if levels else 3)
    return f"<content>{rng.choice(BESIDE)}{'<alternate>' * levels}{data}{'</alternate>' * levels}</content>"


def with_fault(rng, text):
    """A file with something in it, where there is a place for it, that mostly breaks a form of attributes or of data."""
    local, fault = rng.choice(FAULTS)
    places = [tag.end() for tag in re.finditer(rf'<(?:t:)?{local}(?: [^ =]+="[^"]*")*>', text)]
    if not places:
        return text
    at = rng.choice(places)
    return text[:at] + fault.replace("@", rng.choice(ENDS)) + text[at:]


# What they break by their form.


def name_given(element):
    """The name in documents that the `altIdent` of an element gives."""
    return attributes.own_text(element)


def name_rules(element):
    """The rules that such an `altIdent` breaks."""
    yield from attributes.broken_by_children(element, [])
    if not attributes.NCNAME.fullmatch(name_given(element)):
        yield 1


def list_rules(element):
    """The rules that an attribute list breaks."""
    yield from attributes.broken_by_list(element)


def once_rules(element):
    """The rules that bounds break which are to be 1 and 1."""
    for name in ("minOccurs", "maxOccurs"):
        value = element.get(name, "1")
        if not attributes.is_number(value) and (name, value) != ("maxOccurs", "unbounded"):
            yield 1
        if not attributes.is_number(value) or int(value) != 1:
            yield 2


def stranger_rules(element, items):
    """The rule that elements of other namespaces break in a part of a content and in its items."""
    for inner in (element, *attributes.children(element, items)):
        if any(not child.tag.startswith(("{%s}" % attributes.TEI, "{%s}" % attributes.RELAX_NG)) for child in inner):
            yield 3


def reference_rules(element):
    """The rules that a `dataRef` breaks in a content."""
    yield from attributes.broken_by_reference(element)
    yield from once_rules(element)
    yield from stranger_rules(element, "dataFacet")


def values_rules(element):
    """The rules that a `valList` breaks in a content."""
    yield from attributes.broken_by_values(element)
    yield from stranger_rules(element, "valItem")
    if element.get("mode") in ("change", "delete"):
        yield 3


# The parts of contents that are data by themselves, with what each breaks.
PART_RULES = {"dataRef": reference_rules, "valList": values_rules}


def forms_broken(item, rule):
    """The names of the forms of names, attributes and data in an item that break a rule of form."""
    found = [(local, rules(child)) for local, rules in (("altIdent", name_rules), ("attList", list_rules)) for child in attributes.children(item, local)]
    for around in item.iter():
        if attributes.local(around) in ("content", "sequence", "alternate"):
            found += [(local, rules(child)) for local, rules in PART_RULES.items() for child in attributes.children(around, local)]
    return {local for local, rules in found if rule in rules} | ({"dataSpec"} if attributes.local(item) == "dataSpec" else set())


# What the attributes of a library are, and what they break. An edit is that of checks/attributes.py, with a Datatype.


def datatype_of(element):
    """What a `datatype` says."""
    named = attributes.children(element, "dataRef")[0]
    least, most = (element.get(name, "1") for name in ("minOccurs", "maxOccurs"))
    return Datatype(named.get("key"), named.get("name"), facets_of(named), int(least), None if most == "unbounded" else int(most))


def facets_of(element):
    """The facets of a `dataRef` in order of their names."""
    return tuple(sorted(attributes.facets_of(element)))


def edit_of(definition):
    kind, fields = attributes.edit_said(definition)
    if "datatype" in fields:
        fields["datatype"] = datatype_of(attributes.children(definition, "datatype")[0])
    return kind, fields


def edits_of(lists):
    """The edits of attribute lists, each laid behind those before it."""
    edits = {}
    for element in lists:
        for definition in attributes.definitions(element):
            ident = definition.get("ident")
            edits[ident] = attributes.joined(edits.get(ident), edit_of(definition))
    return edits


def frozen(fields):
    """A definition as a set, whose list of values is a set too."""
    return frozenset((name, (value[1], frozenset(value[2])) if name == "list" else value) for name, value in fields.items())


def thawed(definition):
    """The fields of such a definition."""
    return {name: ("set", *value) if name == "list" else value for name, value in definition}


def passed(offer, edits):
    """What a holder with these edits makes of an offer that it inherits."""
    kind, fields = edits.get(offer.ident, ("change", {}))
    if kind == "change":
        yield offer._replace(definition=frozen(attributes.changed(thawed(offer.definition), fields)))


def offers_of(library, edits):
    """What each element and class offers."""
    set_here = [
        (key, merging.Offer(ident, frozen(fields), key))
        for key in library
        for ident, (kind, fields) in edits[key].items()
        if kind == "set"
    ]
    return merging.handed_on(library, set_here, lambda offer, member: passed(offer, edits[member]))


def contradicts(library, edits, offers, key):
    """Whether an element inherits different definitions of an attribute that it does not itself set or delete."""
    found = collections.defaultdict(set)
    for class_key in merging.links(library, key):
        for offer in offers[class_key]:
            if any(passed(offer, edits[key])):
                found[offer.ident].add(offer.definition)
    return any(len(definitions) > 1 for definitions in found.values())


def lacks_datatype(library, edits):
    """Whether one of the edits names a datatype that is not held."""
    given = (fields["datatype"].key for _, fields in edits.values() if "datatype" in fields)
    return any(key is not None and ("datatype", key) not in library for key in given)


def idents_of(library, edits):
    """The idents of the attributes that each component edits or offers."""
    offers = offers_of(library, edits)
    return {key: sorted({*edits[key], *(offer.ident for offer in offers[key])}) for key in library}


def breaks(library, edits):
    """The rules that components of a library break by their attributes, each with its key."""
    offers = offers_of(library, edits)
    for key in library:
        if lacks_datatype(library, edits[key]):
            yield 12, *key
        if key[0] == "element" and contradicts(library, edits, offers, key):
            yield 15, *key
        if key[0] == "element" and merging.shares_name(offers[key]):
            yield 16, *key


# What they give in a schema.


def item_pattern(key, name, facets):
    """The pattern of a datatype that is held, or of one of XML Schema."""
    if key is not None:
        return reference("d." + key)
    params = (markup("param", text=value, name=facet) for facet, value in facets)
    return markup("data", once(*params), type="NCName" if name in ("ID", "IDREF") else name)


def list_pattern(kind, listed, otherwise):
    """The pattern of a list of values, where one that is not closed says nothing."""
    if kind != "closed":
        return otherwise
    return joined("choice", "notAllowed", once(*(markup("value", text=value) for value in sorted(listed, key=str.encode))))


def part_pattern(element):
    """The pattern of a part of a content that is data by itself."""
    if attributes.local(element) == "dataRef":
        return item_pattern(element.get("key"), element.get("name"), facets_of(element))
    return list_pattern(*attributes.list_edit(element)[1:], markup("data", type="string"))


def attribute_pattern(offer):
    fields = dict(offer.definition)
    datatype = fields.get("datatype")
    pattern = item_pattern(*datatype[:3]) if datatype else markup("text")
    if "list" in fields:
        pattern = list_pattern(*fields["list"], pattern)
    if datatype and datatype[3:] != (1, 1):
        pattern = markup("list", once(repeated(pattern, *datatype[3:])))
    ns, local = merging.name_in_documents(offer)
    attribute = markup("attribute", once(pattern), name=local, **({"ns": ns} if ns else {}))
    return attribute if fields["usage"] == "req" else markup("optional", once(attribute))


def attribute_patterns(offers):
    """The patterns of what an element offers, in order of the idents."""
    given = {offer.ident: offer for offer in offers}
    return [attribute_pattern(given[ident]) for ident in sorted(given, key=str.encode)]
