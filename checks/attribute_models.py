"""Attributes, datatypes and data contents for random libraries, values for documents, and which values are admitted.

What docs/merging.md, docs/values.md and docs/admission.md say is worked out here on what an ODD file gives. Nothing here reads a
schema.
"""

import collections
import functools
import random
import re
from xml.sax.saxutils import quoteattr

from attributes import changed
from values import BORDERS, BOUNDS, FORMS, LENGTHS, collapsed, fits, meaning_of_text, takes

XML = "http://www.w3.org/XML/1998/namespace"

# Data: an item, which is a datatype of XML Schema with its facets, pairs of a name and a value, or the key of a datatype of the
# library; a list of values; one of several branches, which are data; what a macro has. A library has data for each datatype.
Typed = collections.namedtuple("Typed", "type facets")
Key = collections.namedtuple("Key", "key")
Listed = collections.namedtuple("Listed", "type idents")
Either = collections.namedtuple("Either", "branches")
Macro = collections.namedtuple("Macro", "key")

# The edit of an attribute is its kind, `set`, `change` or `delete`, and of the fields `usage`, `alt`, `ns`, `datatype` and `list`
# those that are given. A list is `set` with a type and values, `change` with a type or None and of each value whether it is put
# in or taken out, or `delete`. A definition is the fields that an attribute has; a list in it is set.
Datatype = collections.namedtuple("Datatype", "item low high")

# How libraries are made. No attribute is named xmlns: that name stands in no document, and validators refuse a schema with it.
ATTRIBUTES = ["n", "type", "a", "e.a", "a-1", "\u00e9", "id", "xml:id", "xml:lang", "xml:space"]
ALTERNATIVES = ["n", "b", "type", "id", "xml:id", "xml:k"]
NAMESPACES = ["", "urn:x", "http://y/", "http://www.tei-c.org/ns/1.0", XML]
DATATYPES = ["d.a", "d.b", "a", "data.x"]
VALUES = ["a", "b", "A", "New York", "x y z", "1", "true", "\u00e9", "a-1"]
OFTEN = {(1, 1): 12, (1, None): 4, (0, None): 2, (0, 1): 2, (2, 2): 2, (1, 3): 2, (2, None): 1, (0, 2): 1, (2, 4): 1, (3, 3): 1, (0, 0): 1}
GROUP = ' org="group"'

LEAST = {"integer": -12, "nonNegativeInteger": 0, "positiveInteger": 1}
NUMBERS = ["-12", "-3", "-0", "0", "1", "+1", "3", "007", "12", "+99"]
COUNTS = ["0", "1", "2", "3", "03", "5"]
# Patterns, each with texts at its border. In classes `-` stands at no end: jing refuses it there.
PATTERNS = {
    "[a-c]+": ["a", "abc", "abd", "a b"],
    "[^ ]+": ["x", "a b", "\u00e9\u00a0"],
    "a{2,4}": ["a", "aa", "aaaa", "aaaaa"],
    "(ab|c)*": ["ab", "cab", "abab", "ba", "abca"],
    "a|b|": ["a", "b", "ab"],
    "[0-9]{3}": ["12", "123", "007", "1234"],
    "-?[0-9]+": ["-5", "5", "+5", "--5", "-"],
    "[1-9][0-9]*": ["10", "01", "9"],
    ".\\..": ["a.b", "axb", "a.", "...", "-.5"],
    "[0-9]{4}(\\-[0-9]{2}){0,2}": ["1999", "1999-12", "1999-12-31", "1999-1", "1999-12-31-01"],
    "[^a-z]*": ["A1", "Ab", "1 2"],
    "\\^|$|\\|": ["^", "$", "|", "^$"],
    "(a(b(c)?)?)?d": ["d", "ad", "abcd", "acd"],
    "[a-zA-Z]{2}(-[A-Z]{2})?": ["en", "en-GB", "en-gb", "e"],
    "true|0": ["true", "0", "false", "1"],
    "x*y+z?": ["y", "xxyyz", "xz", "yzz"],
    "a +b": ["a b", "a  b", "ab"],
}

# Texts at the borders of types. Not `:`, which validators do not take for an anyURI; no character that is one of names by later
# editions of XML alone, as they go by the fourth; no number of more than 12 digits, which stands there twice after some changes,
# since libxml2 reads no more than 24.
SHORT = [text for text in BORDERS if text != ":" and len(text) <= 12 and max(text, default="") < "\u0100"]
TEXTS = [*SHORT, "  a  b ", "\t1\n", "\r", "9" * 12]
AROUND = [" ", "  ", "\n", "\t ", "\r\n"]


def data_of(content):
    """The data that a content is; None where it is no data content."""
    is_data = content is not None and content.kind == "sequence" and [part.kind for part in content.of] == ["data"]
    return content.of[0].of if is_data else None


# Data


def made_datatypes(rng):
    """Datatypes, of which none reaches itself: each may name those that are made before it."""
    made = {}
    for ident in rng.sample(DATATYPES, rng.choice([0, 0, 1, 1, 2, 3, 4])):
        made[ident] = Either([]) if rng.random() < 0.03 else made_data(rng, list(made), [])
    return made


def made_data(rng, keys, macros, levels=2):
    """Data that may name these datatypes and macros, with at most so many levels of branches."""
    kind = rng.choice(["item"] * 6 + ["list"] * 2 + ["either"] * 3 * bool(levels) + ["macro"] * 8 * bool(macros))
    if kind == "item":
        return made_item(rng, keys)
    if kind == "list":
        return Listed(rng.choice(["closed", "closed", "semi", "open"]), made_values(rng))
    if kind == "macro":
        return Macro(rng.choice(macros))
    return Either([made_data(rng, keys, macros, levels - 1) for _ in range(rng.choice([1, 2, 2, 3]))])


def made_item(rng, keys):
    """An item, which may be the key of one of these datatypes."""
    if keys and rng.random() < 0.4:
        return Key(rng.choice(keys))
    kind = rng.choice(list(FORMS))
    facets = {**made_facets(rng, kind), **(made_bounds(rng, kind) if takes(kind, BOUNDS[0]) else {})}
    return Typed(kind, tuple(sorted(facets.items())))


def made_facets(rng, kind):
    """A pattern and lengths for a type. Few of those with which libxml2 takes white space wrongly."""
    if has_wrong_space(kind) and rng.random() < 0.9:
        return {}
    names = [name for name in ["pattern", *LENGTHS] if takes(kind, name)]
    taken = rng.sample(names, min(len(names), rng.choice([0, 1, 1, 1, 2])))
    return {name: rng.choice(list(PATTERNS) if name == "pattern" else COUNTS) for name in taken}


def has_wrong_space(kind):
    """Whether libxml2 takes white space wrongly for a pattern or the lengths of a type."""
    return kind in ("normalizedString", "anyURI") or not takes(kind, LENGTHS[0])


def made_bounds(rng, kind):
    """Bounds for a type of numbers. Jing refuses them past those of the type itself, and a least that is above the greatest."""
    values = sorted(rng.sample([number for number in NUMBERS if int(number) >= LEAST[kind]], 2), key=int)
    return {name: value for name, value in zip(BOUNDS, values) if rng.random() < 0.4}


def made_values(rng):
    """The idents of a list of values."""
    return rng.sample(VALUES, rng.choice([0, *[1] * 4, *[2] * 6, *[3] * 4, 4]))


# Edits of attributes


def made_edits(rng, known, keys):
    """Edits of attributes that are known and of others, which may name these datatypes."""
    kinds = {ident: rng.choice([*["change"] * 4, "delete", "set", *[None] * 6]) for ident in known}
    for ident in rng.sample(ATTRIBUTES, rng.choice([0, 0, 1, 1, 2, 3])):
        kinds.setdefault(ident, rng.choice(["change", "delete", *["set"] * 20]))
    return {ident: made_edit(rng, kind, keys) for ident, kind in kinds.items() if kind}


def made_edit(rng, kind, keys):
    """An edit of an attribute."""
    if kind == "delete":
        return kind, {}
    fields = {"usage": rng.choice(["req", "opt", "opt"])} if kind == "set" or rng.random() < 0.4 else {}
    if rng.random() < 0.15:
        fields["alt"] = rng.choice(ALTERNATIVES)
    if rng.random() < 0.15:
        fields["ns"] = rng.choice(NAMESPACES)
    if rng.random() < (0.75 if kind == "set" else 0.3):
        fields["datatype"] = Datatype(made_item(rng, keys), *rng.choices(list(OFTEN), list(OFTEN.values()))[0])
    if rng.random() < 0.35:
        fields["list"] = made_list(rng, rng.choice([*["set"] * 8, "change"] if kind == "set" else ["set", "change", "change", "delete"]))
    return kind, fields


def made_list(rng, kind):
    """An edit of a list of values."""
    if kind == "set":
        return kind, rng.choice(["closed", "closed", "closed", "semi", "open"]), set(made_values(rng))
    if kind == "change":
        return kind, rng.choice([None, None, "closed", "semi"]), {value: rng.random() < 0.6 for value in made_values(rng)}
    return (kind,)


def repaired(rng, classes, element, keys):
    """An element with more edits, so that it neither inherits two definitions of an attribute nor has two attributes of one name."""
    edits, names = dict(element.edits), set()
    for ident, definitions in inherited(classes, element).items():
        if len(definitions) > 1 and edits.get(ident, ("change",))[0] == "change":
            edits[ident] = made_edit(rng, rng.choice(["set", "delete"]), keys)
    for ident, definitions in offered(classes, element._replace(edits=edits)).items():
        name = attribute_name(ident, definitions[0])
        if name in names:
            edits[ident] = made_edit(rng, "delete", keys)
        names.add(name)
    return element._replace(edits=edits)


# What is offered


def offered(classes, holder):
    """The definitions of each attribute that an element or a class offers, by its ident."""
    found = inherited(classes, holder)
    for ident, (kind, fields) in holder.edits.items():
        if kind == "set":
            found[ident] = [changed({}, fields)]
        elif kind == "delete":
            found.pop(ident, None)
        elif ident in found:
            found[ident] = [changed(definition, fields) for definition in found[ident]]
    return found


def inherited(classes, holder):
    """The different definitions of each attribute that the classes offer of which an element or a class is said to be a member."""
    found = {}
    for key in holder.classes:
        for ident, definitions in (offered(classes, classes[key]) if key in classes else {}).items():
            known = found.setdefault(ident, [])
            known += [definition for definition in definitions if definition not in known]
    return found


def attribute_name(ident, definition):
    """The namespace and the local name of an attribute in documents."""
    name = definition.get("alt", ident)
    return (XML, name[4:]) if name.startswith("xml:") else (definition.get("ns", ""), name)


def attributes_of(library, ident):
    """What a held element offers: definitions by the names of attributes in documents, each with the attribute's ident in it."""
    found = offered(library.classes, library.elements[ident])
    return {attribute_name(ident, definition): {**definition, "ident": ident} for ident, [definition] in found.items()}


# Which values are admitted


def are_admitted(library, offers, attributes):
    """Whether an element that offers these may have the attributes, and has those that it needs."""
    is_complete = all(name in attributes for name, definition in offers.items() if is_needed(definition))
    return is_complete and all(name in offers and is_admitted(library, offers[name], text) for name, text in attributes.items())


def is_needed(definition):
    """Whether an element has to have the attribute."""
    return definition["usage"] == "req"


def is_admitted(library, definition, text):
    """Whether a definition admits a value: the whole of it where its bounds are 1 and 1, and else its words."""
    if is_whole(definition):
        return is_piece(library, definition, text)
    words, (_item, low, high) = [word for word in collapsed(text).split(" ") if word], definition["datatype"]
    return low <= len(words) and (high is None or len(words) <= high) and all(is_piece(library, definition, word) for word in words)


def is_whole(definition):
    """Whether the whole value is tested."""
    return "datatype" not in definition or definition["datatype"][1:] == (1, 1)


def is_piece(library, definition, text):
    """Whether a definition admits a text as a piece of a value."""
    data = piece_of(definition)
    return data is None or is_value(library, data, text)


def piece_of(definition):
    """The data that test a piece of a value: a closed list in place of the item. None where any text is admitted."""
    if "list" in definition and definition["list"][1] == "closed":
        return Listed("closed", sorted(definition["list"][2]))
    return definition["datatype"].item if "datatype" in definition else None


def is_value(library, data, text):
    """Whether data admits a text."""
    if isinstance(data, Typed):
        return is_typed(data, text)
    if isinstance(data, Listed):
        return data.type != "closed" or collapsed(text) in data.idents
    if isinstance(data, Either):
        return any(is_value(library, branch, text) for branch in data.branches)
    return is_value(library, named_data(library, data), text)


@functools.cache
def is_typed(item, text):
    """Whether a text is of a datatype of XML Schema, and meets its facets."""
    return fits(item.type, text) == "yes" and all(meets(treated(item.type, text), *facet) for facet in item.facets)


def named_data(library, data):
    """The data that a key or a macro names."""
    return library.datatypes[data.key] if isinstance(data, Key) else data_of(library.macros[data.key])


def treated(kind, text):
    """What a type tests of a text."""
    if kind == "normalizedString":
        return re.sub("[\t\n\r]", " ", text)
    return text if kind == "string" else collapsed(text)


def meets(text, name, value):
    """Whether a treated text meets a facet."""
    if name == "pattern":
        return bool(re.fullmatch(meaning_of_text(value), text))
    measure, bound = int(text) if name in BOUNDS else len(text), int(value)
    return {"min": measure >= bound, "max": measure <= bound}.get(name[:3], measure == bound)


# Values for documents


def bordering(library, data):
    """Texts at the borders of what data admits. Without data they are those of all types."""
    if data is None:
        return TEXTS
    if isinstance(data, Typed):
        return TEXTS + [text for facet in data.facets for text in bordering_facet(*facet)] * 3
    if isinstance(data, Listed):
        return ["", "none", *(text for ident in data.idents for text in bordering_ident(ident))]
    if isinstance(data, Either):
        return TEXTS[:8] + [text for branch in data.branches for text in bordering(library, branch)]
    return bordering(library, named_data(library, data))


def bordering_ident(ident):
    """An ident of a list of values and texts that are nearly it."""
    return [*[ident] * 3, ident.swapcase(), ident + "x", ident[1:], ident.replace(" ", "\n ")]


def bordering_facet(name, value):
    """Texts at the border of a facet."""
    if name == "pattern":
        return PATTERNS[value] * 3
    numbers = [int(value) + more for more in (-1, 0, 1)]
    if name in BOUNDS:
        return [form.format(number) for number in numbers for form in ("{}", "{}", "{:+}", "{:05}")]
    return [(piece * number)[:number] for number in numbers if number >= 0 for piece in ("a", "12", "\u00e9b", " a", "a\t ")]


def admitted_texts(library, data):
    """Those of the texts that are admitted."""
    return [text for text in bordering(library, data) if data is None or is_value(library, data, text)]


def spaced(rng, texts):
    """One of the texts, at times with white space around it; None of none."""
    around = [rng.choice(AROUND) if rng.random() < 0.1 else "" for _ in range(2)]
    return rng.choice(texts).join(around) if texts else None


def words_of(rng, words, count):
    """So many of the words, with white space between them."""
    return rng.choice([" ", " ", "  ", "\n"]).join(rng.choices(words, k=count))


def admitted_words(library, definition):
    """Those of the texts that a definition admits as a piece, and that are words."""
    return [text for text in admitted_texts(library, piece_of(definition)) if text and " " not in text and text == collapsed(text)]


def grown_value(rng, library, definition):
    """A value that a definition mostly admits, or None."""
    if is_whole(definition):
        return spaced(rng, admitted_texts(library, piece_of(definition)))
    words, (_item, low, high) = admitted_words(library, definition), definition["datatype"]
    count = rng.randint(low, low + 2 if high is None else min(high, low + 2)) if words else 0
    return spaced(rng, [words_of(rng, words, count)]) if count >= low else None


def bordering_value(rng, library, definition):
    """A value at a border of what a definition admits: one of the texts, or words, perhaps with one of the texts among them."""
    texts = bordering(library, piece_of(definition))
    if is_whole(definition):
        return spaced(rng, texts)
    words, (_item, low, high) = admitted_words(library, definition), definition["datatype"]
    count = rng.choice([low - 1, low, low + 1] if high is None else [low - 1, low, high, high + 1])
    value = words_of(rng, words or texts, max(0, count))
    return spaced(rng, [value] if rng.random() < 0.6 else [f"{value} {rng.choice(texts)}"])


def is_possible(library, ident):
    """Whether there are values, as far as they are looked for, for all attributes that a held element needs."""
    needed = [definition for definition in attributes_of(library, ident).values() if is_needed(definition)]
    return all(grown_value(random.Random(0), library, definition) is not None for definition in needed)


def grown_attributes(rng, library, offers):
    """Attributes for an element that offers these: those that it needs and at most three others."""
    others = [name for name in offers if not is_needed(offers[name])]
    left_out = rng.sample(others, max(len(others) - 3, rng.randint(0, len(others))))
    values = {name: grown_value(rng, library, definition) for name, definition in offers.items() if name not in left_out}
    return {name: value for name, value in values.items() if value is not None}


# Changes of a document, each at a node that was grown for a held element which offers attributes or has data


def set_value(grower, node):
    """An attribute that is offered has a value at a border."""
    name, definition = grower.rng.choice(list(grower.offers[node.ident].items()))
    node.attributes[name] = bordering_value(grower.rng, grower.library, definition)


def drop_attribute(grower, node):
    """An attribute is left out."""
    node.attributes.pop(grower.rng.choice(list(node.attributes)))


def rename_attribute(grower, node):
    """An attribute is in another namespace, or has its ident for a name."""
    name = grower.rng.choice(list(node.attributes))
    ident = grower.offers[node.ident].get(name, {"ident": name[1]})["ident"]
    names = [(grower.rng.choice(NAMESPACES), name[1]), (name[0], ident.rpartition(":")[2]), attribute_name(ident, {})]
    node.attributes[grower.rng.choice(names)] = node.attributes.pop(name)


def set_text(grower, node):
    """The text of an element is one at a border of its data."""
    data = data_of(grower.library.elements[node.ident].content)
    node.children = [grower.rng.choice(bordering(grower.library, data))]


def kinds_at(grower, node):
    """The changes that may be made at a node, as often as they shall be."""
    if node.ident not in grower.offers:
        return []
    at_offers = [set_value] * 4 if grower.offers[node.ident] else []
    at_attributes = [drop_attribute, rename_attribute] if node.attributes else []
    return at_offers + at_attributes + ([set_text] * 4 if data_of(grower.library.elements[node.ident].content) else [])


def change(grower, root):
    """Changes a value or an attribute of a document once, and tells how; None where it has none."""
    changes = [(kind, node) for node in root.nodes() for kind in kinds_at(grower, node)]
    if not changes:
        return None
    kind, node = grower.rng.choice(changes)
    kind(grower, node)
    return kind.__name__


# How it is written in an ODD file


def written_attributes(rng, edits):
    """The attList of an element or a class, where it has edits; some of them stand in a list of their own in it."""
    written = [written_edit(rng, ident, *edit) for ident, edit in rng.sample(list(edits.items()), len(edits))]
    if not written:
        return "<attList/>" if rng.random() < 0.05 else ""
    at = rng.choice([len(written), len(written), rng.randint(0, len(written))])
    inner = f"<attList{rng.choice(['', GROUP])}>{''.join(written[at:])}</attList>" if at < len(written) or rng.random() < 0.05 else ""
    return f"<attList{rng.choice(['', '', GROUP])}>{inner}{''.join(written[:at])}</attList>"


def written_edit(rng, ident, kind, fields):
    """The attDef of an edit."""
    ns = f" ns={quoteattr(fields['ns'])}" if "ns" in fields else ""
    inside = [rng.choice(["", "", "", "<desc>d</desc>"])]
    if "alt" in fields:
        inside.append(f"<altIdent>{rng.choice(['', ' ', '<!--c-->'])}{fields['alt']}{rng.choice(['', '&#10;'])}</altIdent>")
    if "datatype" in fields:
        inside.append(written_datatype(rng, fields["datatype"]))
    if "list" in fields:
        inside.append(written_list(rng, *fields["list"]))
    words = written_mode(rng, kind) + written_usage(rng, kind, fields.get("usage"))
    return f'<attDef ident="{ident}"{words}{ns}>{"".join(rng.sample(inside, len(inside)))}</attDef>'


def written_mode(rng, kind):
    """The mode of an edit of an attribute or of a list."""
    return rng.choice(["", "", ' mode="add"', ' mode="replace"']) if kind == "set" else f' mode="{kind}"'


def written_usage(rng, kind, usage):
    """The usage that an edit gives. An attribute that is set is not needed where it has none."""
    if usage == "opt":
        return rng.choice([' usage="opt"', ' usage="rec"', *([""] if kind == "set" else [])])
    return f' usage="{usage}"' if usage else ""


def written_datatype(rng, datatype):
    """The datatype of an attribute. A bound of 1 may be absent."""
    low = "" if datatype.low == 1 and rng.random() < 0.7 else f' minOccurs="{datatype.low}"'
    high = "unbounded" if datatype.high is None else datatype.high
    high = "" if datatype.high == 1 and rng.random() < 0.7 else f' maxOccurs="{high}"'
    return f"<datatype{low}{high}>{written_item(rng, datatype.item, '')}</datatype>"


def written_item(rng, item, bounds):
    """The dataRef of an item."""
    if isinstance(item, Key):
        return f'<dataRef key="{item.key}"{bounds}/>'
    if [name for name, _value in item.facets] == ["pattern"] and rng.random() < 0.5:
        return f'<dataRef name="{item.type}" restriction={quoteattr(item.facets[0][1])}{bounds}/>'
    facets = rng.sample(item.facets, len(item.facets))
    inside = "".join(f"<dataFacet name={quoteattr(name)} value={quoteattr(value)}/>" for name, value in facets)
    return f'<dataRef name="{item.type}"{bounds}>{inside}</dataRef>'


def written_list(rng, kind, of_type=None, values=()):
    """The valList of an edit of a list. One that is set is open where it has no type."""
    is_put = values if kind == "change" else dict.fromkeys(values, True)
    inside = "".join(written_value(rng, value, is_put[value]) for value in rng.sample(sorted(is_put), len(is_put)))
    is_absent = of_type is None or (kind, of_type) == ("set", "open") and rng.random() < 0.5
    words = "" if is_absent else f' type="{of_type}"'
    return f"<valList{written_mode(rng, kind)}{words}>{inside}</valList>"


def written_value(rng, value, is_put):
    """The valItem of a value, whose ident may have more white space."""
    mode = written_mode(rng, "set" if is_put else "delete")
    ident = spaced(rng, [value.replace(" ", rng.choice([" ", " ", "\t "]))])
    return f"<valItem ident={quoteattr(ident)}{mode}>{rng.choice(['', '', '<desc>d</desc>'])}</valItem>"


def written_data(rng, data):
    """Data in a content. Their bounds are 1 and 1; a valList has none."""
    bounds = rng.choice(["", "", "", ' minOccurs="1"', ' minOccurs="01" maxOccurs="1"'])
    if isinstance(data, Listed):
        return written_list(rng, "set", data.type, data.idents)
    if isinstance(data, Either):
        return f"<alternate{bounds}>{''.join(written_data(rng, branch) for branch in data.branches)}</alternate>"
    if isinstance(data, Macro):
        return f'<macroRef key="{data.key}"{bounds}/>'
    return written_item(rng, data, bounds)


def written_datatypes(rng, datatypes):
    """The dataSpec of each datatype."""
    return [f'<dataSpec ident="{ident}"><content>{written_data(rng, data)}</content></dataSpec>\n' for ident, data in datatypes.items()]
