"""Random libraries with content models and attributes, documents for them, and which of these are admitted.

What docs/content.md, docs/odd-files.md and docs/admission.md say is worked out here on the parts of a `content` as the ODD
file has them: by the places where a piece of the children that a part admits may end. Attributes and data are in
attribute_models.py. Nothing here reads a schema.
"""

import collections
import random
import xml.etree.ElementTree as Tree
from xml.sax.saxutils import escape, quoteattr

import attribute_models
from attribute_models import data_of

TEI = "http://www.tei-c.org/ns/1.0"
XML = "http://www.w3.org/XML/1998/namespace"
WHITE = " \t\r\n"
SEED = 20261128
DOCUMENTS = 20

# A part of a content. What it is of: the key of an elementRef or a macroRef, the class of a classRef with what is picked of
# its members, the condition of an anyElement, the data of what is data content, the parts of a sequence or an alternate. A
# high of None is unbounded. What is picked: all ("all"), or those with one of some idents ("include") or with none of them
# ("except"). A condition has namespaces that it requires and excepts, and names that it excepts, as pairs of a namespace and a
# local name.
Part = collections.namedtuple("Part", "kind low high of", defaults=(1, 1, None))
Condition = collections.namedtuple("Condition", "required namespaces names")
Members = collections.namedtuple("Members", "key pick idents", defaults=("all", ()))

# The start words, the ns of the schemaSpec, and for each ident the ns of its elementSpec, its content, its classes, its edits of
# attributes and its altIdent; the classes, the macros and the data of datatypes by their idents. A content is a sequence of the
# parts that stand in it, or None where there is none. An ns or an altIdent that is absent is None.
Library = collections.namedtuple("Library", "start ns elements classes macros datatypes", defaults=({}, {}, {}))
Spec = collections.namedtuple("Spec", "ns content classes edits alt", defaults=((), {}, None))
Class = collections.namedtuple("Class", "type classes edits")

# What a content may name: macros of data stand apart.
Names = collections.namedtuple("Names", "elements classes macros datatypes data_macros")

# How a library is made.
IDENTS = ["a", "b", "c", "d", "x", "e.a", "a-1", "_z", "\u00e9"]
LOCALS = [*IDENTS, "k", "other"]
ALTERNATIVES = ["b", "x", "k", "alt"]
NOT_HELD = ["absent", "other"]
CLASSES = ["model.a", "model.b", "a", "c.k", "k-1"]
ATTRIBUTE_CLASSES = ["att.a", "b"]
MACROS = ["macro.a", "a", "m.x"]
NAMESPACES = [TEI, "urn:x", "http://y/", "z"]
EXCEPTED_NAMESPACES = ["http://y/", "z", TEI, "urn:", "http://none/"]
PREFIXES = ["p", "q", "urn", "tei.1"]
LEAVES = {"empty": 2, "textNode": 5, "elementRef": 16, "classRef": 10, "macroRef": 6, "anyElement": 5}
BRANCHES = {"sequence": 8, "alternate": 8}
BOUNDS = {
    **{(1, 1): 12, (0, 0): 1, (0, 1): 6, (0, None): 5, (1, None): 5, (2, 4): 2, (1, 2): 2, (2, None): 2},
    **{(0, 2): 1, (0, 3): 1, (1, 3): 1, (1, 4): 1, (2, 2): 1, (2, 3): 1, (3, 3): 1, (3, None): 1, (3, 5): 1},
}
GREATEST_WEIGHT, GREATEST_SIZE, ENOUGH = 150, 60, 30
NEVER = float("inf")

TEXTS = ["x", "some words", "a < b & c > d", "\u00a0", "\u00e9\u2003", " y ", "1"]
SPACES = [" ", "\n", "\t", "  \n ", "\r\n"]
ASIDES = ["<!--c-->", "<!-- <a/> -->", "<?p q?>"]
ATTRIBUTES = {
    **{("", "n"): "1", ("", "ident"): "a b", (TEI, "n"): "<&>", ("urn:x", "n"): "", ("http://u/", "a"): "'\""},
    **{(XML, "lang"): "en", (XML, "space"): "preserve"},
}


def chosen(rng, weights):
    """One of the keys, by their weights."""
    return rng.choices(list(weights), list(weights.values()))[0]


# Libraries


def made_library(rng):
    """A library at random. For most of them there is a document, and most have a start word with more than a part or two."""
    while True:
        idents = rng.sample(IDENTS, rng.randrange(1, 6))
        start = rng.choices(idents, k=rng.choice([1, 1, 1, 2, 3]))
        ns = rng.choice([None, None, None, "", *NAMESPACES])
        datatypes = attribute_models.made_datatypes(rng)
        classes = made_classes(rng, list(datatypes))
        macros = made_macros(rng, idents, classes, list(datatypes))
        names = names_of(idents, classes, macros, list(datatypes))
        elements = {ident: made_element(rng, names) for ident in idents}
        library = Library(start, ns, elements, classes, macros, datatypes)
        size = min(sizes(library)[word] for word in start)
        plain = max(weight(macros, elements[word].content or Part("empty")) for word in start) < 4
        if (size <= GREATEST_SIZE or size == NEVER and rng.random() < 0.1) and (not plain or rng.random() < 0.1):
            return library


def made_element(rng, names):
    """An element that breaks no rule."""
    spec = Spec(made_ns(rng), made_content(rng, names), made_memberships(rng, list(names.classes)))
    known = list(attribute_models.inherited(names.classes, spec))
    spec = spec._replace(edits=attribute_models.made_edits(rng, known, names.datatypes))
    alt = rng.choice(ALTERNATIVES) if rng.random() < 0.15 else None
    return attribute_models.repaired(rng, names.classes, spec._replace(alt=alt), names.datatypes)


def names_of(idents, classes, macros, datatypes):
    """What a content may name."""
    data = [ident for ident, content in macros.items() if data_of(content)]
    return Names(idents, classes, {ident: content for ident, content in macros.items() if ident not in data}, datatypes, data)


def made_classes(rng, datatypes):
    """Classes, of which none is a member of itself."""
    idents, made = rng.sample(CLASSES, rng.choice([0, 1, 2, 2, 3, 4])) + rng.sample(ATTRIBUTE_CLASSES, rng.choice([0, 0, 1, 2])), {}
    for ident in rng.sample(idents, len(idents)):
        each = Class("atts" if ident in ATTRIBUTE_CLASSES else "model", made_memberships(rng, list(made)), {})
        known = list(attribute_models.inherited(made, each))
        made[ident] = each._replace(edits=attribute_models.made_edits(rng, known, datatypes))
    return made


def made_memberships(rng, classes):
    """The classes that something is said to be a member of: some of those that are there, and at times one that is not."""
    words = rng.sample(classes, rng.randint(0, min(2, len(classes)))) if rng.random() < 0.8 else []
    return tuple(words + (["absent"] if rng.random() < 0.05 else []))


def made_macros(rng, idents, classes, datatypes):
    """Macros, of which none reaches itself: each may name those that are made before it."""
    made = {}
    for ident in rng.sample(MACROS, rng.choice([0, 1, 1, 2, 3])):
        made[ident] = made_content(rng, names_of(idents, classes, made, datatypes))
    return made


def members(library, key):
    """The idents of the elements that are members of a held class, by their own classes or through classes of classes."""
    found, new = set(), set(library.classes) & {key}
    while new:
        found |= new
        new = {ident for ident, each in library.classes.items() if set(each.classes) & new} - found
    return sorted(ident for ident, spec in library.elements.items() if set(spec.classes) & found)


def picked_members(library, reference):
    """Those of the members of a class that a reference picks."""
    tests = {"all": lambda ident: True, "include": lambda ident: ident in reference.idents, "except": lambda ident: ident not in reference.idents}
    return [ident for ident in members(library, reference.key) if tests[reference.pick](ident)]


def made_ns(rng):
    """The ns of an elementSpec, or None."""
    return rng.choice(["", *NAMESPACES]) if rng.random() < 0.35 else None


def made_content(rng, names):
    """The content of an elementSpec or a macroSpec, or None."""
    if rng.random() < 0.05:
        return None
    if rng.random() < 0.25:
        return Part("sequence", of=[Part("data", of=attribute_models.made_data(rng, names.datatypes, names.data_macros))])
    while True:
        levels = rng.choice([0, 1, 1, 2, 2, 3, 4])
        parts = [made_part(rng, names, levels) for _ in range(rng.choice([0, 1, 1, 1, 1, 2, 2, 3, 4]))]
        content = Part("sequence", of=parts)
        if weight(names.macros, content) <= GREATEST_WEIGHT:
            return content


def made_part(rng, names, levels):
    """A part with at most so many levels of sequence and alternate."""
    leaves = {kind: much for kind, much in LEAVES.items() if (kind != "classRef" or names.classes) and (kind != "macroRef" or names.macros)}
    kind = chosen(rng, {**leaves, **BRANCHES, **dict.fromkeys(BRANCHES, 12)} if levels else leaves)
    if kind in ("empty", "textNode"):
        return Part(kind)
    low, high = chosen(rng, BOUNDS)
    if kind == "elementRef":
        return Part(kind, low, high, rng.choice(names.elements if rng.random() < 0.97 else NOT_HELD))
    if kind == "classRef":
        return Part(kind, low, high, made_reference(rng, names))
    if kind == "macroRef":
        return Part(kind, low, high, rng.choice(list(names.macros)))
    if kind == "anyElement":
        return Part(kind, low, high, made_condition(rng))
    count = rng.choice([0, *[1] * 4, *[2] * 9, *[3] * 6, 4, 4, 4])
    return Part(kind, low, high, [made_part(rng, names, levels - 1) for _ in range(count)])


def made_reference(rng, names):
    """What a classRef names: a class that is of type model where it is held, and perhaps some of its members."""
    classes = [ident for ident, each in names.classes.items() if each.type == "model"]
    key = rng.choice(classes) if classes and rng.random() < 0.97 else "absent"
    pick = rng.choice(["all", "all", "all", "include", "except"])
    words = rng.sample(names.elements, rng.randint(1, len(names.elements))) + (["absent"] if rng.random() < 0.1 else [])
    return Members(key, pick, tuple(words)) if pick != "all" else Members(key)


def made_condition(rng):
    """The condition of an anyElement."""
    required = rng.sample(NAMESPACES, rng.choice([0, 0, 0, 1, 1, 2]))
    namespaces = rng.sample(EXCEPTED_NAMESPACES, rng.choice([0, 0, 1, 2]))
    names = {(rng.choice([*NAMESPACES, XML]), rng.choice(LOCALS)) for _ in range(rng.choice([0, 0, 1, 2, 3]))}
    return Condition(required, namespaces, sorted(names))


def weight(macros, part):
    """How large a part becomes where its bounds are written out, and its macros too."""
    inside = 1
    if part.kind in BRANCHES:
        inside += sum(weight(macros, each) for each in part.of)
    if part.kind == "macroRef":
        inside += weight(macros, macros[part.of] or Part("empty"))
    return inside * max(1, part.high or part.low + 1)


def greatest_depth(library):
    """How deep a document may be before it gets no larger. Where a child can be taken in many ways, validators may take time
    that is a power of the depth: what they hold at once is bounded so."""
    heaviest = max(weight(library.macros, spec.content or Part("empty")) for spec in library.elements.values())
    return next(depth for depth in (5, 4, 3, 2) if depth == 2 or heaviest**depth <= 20_000)


def element_name(library, ident):
    """The namespace and the local name in documents of a held element."""
    own, alt = library.elements[ident].ns, library.elements[ident].alt
    given = library.ns if own is None else own
    return (TEI if given is None else given), alt or ident


# The ODD file of a library


def odd_file(rng, library):
    """The ODD file of a library, in one of the many ways to write it."""
    scope = dict(zip(PREFIXES, rng.sample([*NAMESPACES, "http://hidden/"], len(PREFIXES))))
    items = [written_spec(rng, ident, spec, scope) for ident, spec in library.elements.items()]
    items += [written_class(rng, ident, each) for ident, each in library.classes.items()]
    items += [written_macro(rng, ident, content, scope) for ident, content in library.macros.items()]
    items += attribute_models.written_datatypes(rng, library.datatypes)
    specs = "".join(rng.sample(items, len(items)))
    words = rng.choice([" ", "\t ", "\n"]).join(library.start)
    ns = "" if library.ns is None else f" ns={quoteattr(library.ns)}"
    return f'<schemaSpec xmlns="{TEI}"{declarations(scope)} ident="s" start="{words}"{ns}>\n{specs}</schemaSpec>\n'


def written_spec(rng, ident, spec, scope):
    """The elementSpec of an element."""
    ns = "" if spec.ns is None else f" ns={quoteattr(spec.ns)}"
    inside = [written_memberships(rng, spec.classes), written_content(rng, spec.content, scope)]
    inside += [attribute_models.written_attributes(rng, spec.edits), f"<altIdent>{spec.alt}</altIdent>" if spec.alt else ""]
    return f'<elementSpec ident="{ident}"{ns}>{"".join(rng.sample(inside, 4))}</elementSpec>\n'


def written_class(rng, ident, each):
    """The classSpec of a class."""
    inside = [written_memberships(rng, each.classes), attribute_models.written_attributes(rng, each.edits)]
    return f'<classSpec ident="{ident}" type="{each.type}">{"".join(rng.sample(inside, 2))}</classSpec>\n'


def written_macro(rng, ident, content, scope):
    """The macroSpec of a macro."""
    kind = rng.choice(["", "", ' type="pe"', ' type="dt"'])
    return f'<macroSpec ident="{ident}"{kind}>{written_content(rng, content, scope)}</macroSpec>\n'


def written_memberships(rng, classes):
    """The classes of a component."""
    keys = "".join(f'<memberOf key="{key}"/>' for key in rng.sample(classes, len(classes)))
    return f"<classes>{keys}</classes>" if classes or rng.random() < 0.1 else ""


def written_content(rng, content, scope):
    """The content of a component, where it has one."""
    return "" if content is None else written_branch(rng, "content", "", content.of, scope)


def written_branch(rng, tag, attributes, parts, scope):
    """A content, sequence or alternate, which may bind some prefixes anew."""
    bound = {prefix: rng.choice(NAMESPACES) for prefix in PREFIXES if rng.random() < 0.05}
    inside = "".join(written_aside(rng) + written_part(rng, part, {**scope, **bound}) for part in parts)
    return f"<{tag}{declarations(bound)}{attributes}>{inside}{written_aside(rng)}</{tag}>"


def written_part(rng, part, scope):
    """The element of a part."""
    bounds = written_bounds(rng, part)
    if part.kind == "data":
        return attribute_models.written_data(rng, part.of)
    if part.kind == "elementRef":
        return f'<elementRef key="{part.of}"{bounds}/>'
    if part.kind == "macroRef":
        return f'<macroRef key="{part.of}"{bounds}/>'
    if part.kind == "classRef":
        words = written_words(rng, part.of.pick, part.of.idents) if part.of.pick != "all" else ""
        return f'<classRef key="{part.of.key}"{words}{bounds}/>'
    if part.kind == "anyElement":
        return f"<anyElement{written_condition(rng, part.of, scope)}{bounds}/>"
    if part.kind in BRANCHES:
        order = rng.choice(["", "", ' preserveOrder="true"', ' preserveOrder="1"']) if part.kind == "sequence" else ""
        return written_branch(rng, part.kind, bounds + order, part.of, scope)
    return f"<{part.kind}/>"


def written_bounds(rng, part):
    """The bounds of a part. A bound of 1 may be absent, and a number may begin with zeros."""
    low, high = (rng.choice(["", "", "", "0"]) + str(bound) for bound in (part.low, part.high))
    minimum = "" if part.low == 1 and rng.random() < 0.7 else f' minOccurs="{low}"'
    maximum = "" if part.high == 1 and rng.random() < 0.7 else f' maxOccurs="{high if part.high is not None else "unbounded"}"'
    return minimum + maximum


def written_condition(rng, condition, scope):
    """The attributes of an anyElement. Prefixes that its names need, and are not in force, are bound on its tag."""
    bound, used, words = {}, ["xml"], list(condition.namespaces)
    for ns, local in condition.names:
        fitting = [prefix for prefix, uri in {**scope, **bound, "xml": XML}.items() if uri == ns]
        if not fitting or ns != XML and rng.random() < 0.1:
            fitting = [next(prefix for prefix in PREFIXES if prefix not in used)]
            bound[fitting[0]] = ns
        used.append(rng.choice(fitting))
        words.append(f"{used[-1]}:{local}")
    return declarations(bound) + written_words(rng, "require", condition.required) + written_words(rng, "except", words)


def written_words(rng, name, words):
    """An attribute that holds words, in any order and perhaps twice. Without words it may be absent."""
    words = rng.sample(words, len(words))
    if words and rng.random() < 0.2:
        words.append(words[0])
    space = rng.choice([" ", " ", "  ", "\n", "&#9;"])
    return f' {name}="{space.join(words)}"' if words or rng.random() < 0.1 else ""


def written_aside(rng):
    """What says nothing in a content."""
    return rng.choice(["\n", "", "", "<!--c-->", "<desc>d<p/></desc>", " "]) if rng.random() < 0.3 else ""


def declarations(bound):
    """The namespace declarations of a tag."""
    return "".join(f" xmlns{':' if prefix else ''}{prefix}={quoteattr(ns)}" for prefix, ns in bound.items())


# Which documents are admitted


class Verdicts:
    """What a library says of a document."""

    def __init__(self, library):
        self.library, self.known = library, {}
        self.offers = {ident: attribute_models.attributes_of(library, ident) for ident in library.elements}

    def is_admitted(self, document):
        """Whether the library admits the document."""
        root = Tree.fromstring(document)
        return any(self.is_valid(root, word) for word in self.library.start)

    def is_valid(self, element, ident):
        """Whether the element is valid for the held element of the ident; it is for none where none is held."""
        question = element, ident
        if question not in self.known:
            self.known[question] = ident in self.library.elements and self.is_valid_for_held(element, ident)
        return self.known[question]

    def is_valid_for_held(self, element, ident):
        """The same, worked out."""
        content = self.library.elements[ident].content or Part("empty")
        data, attributes = data_of(content), {split_name(name): value for name, value in element.attrib.items()}
        if split_name(element.tag) != element_name(self.library, ident):
            return False
        if not attribute_models.are_admitted(self.library, self.offers[ident], attributes):
            return False
        if data:
            return not len(element) and attribute_models.is_value(self.library, data, element.text or "")
        return any(len(items) in self.ends(content, items, 0) for items in significant(element))

    def ends(self, part, items, begin):
        """Where the items that the part admits, as often as its bounds say, may end if they begin there."""
        reached, count = {begin}, 0
        found = set(reached) if part.low == 0 else set()
        while reached and count != part.high:
            reached, count = {end for at in reached for end in self.ends_once(part, items, at)}, count + 1
            if count >= part.low:
                if reached <= found:
                    break
                found |= reached
        return found

    def ends_once(self, part, items, begin):
        """The same for one time."""
        if part.kind == "empty":
            return {begin}
        if part.kind == "sequence":
            return self.ends_in_order(part.of, items, begin)
        if part.kind == "alternate":
            return {end for each in part.of for end in self.ends(each, items, begin)}
        if part.kind == "macroRef":
            return self.ends(self.library.macros[part.of] or Part("empty"), items, begin)
        if part.kind == "textNode":
            end = next((at for at in range(begin, len(items)) if not isinstance(items[at], str)), len(items))
            return set(range(begin, end + 1))
        return {begin + 1} if begin < len(items) and self.counts(items[begin], part) else set()

    def ends_in_order(self, parts, items, begin):
        """Where the items that the parts admit in their order may end."""
        reached = {begin}
        for part in parts:
            reached = {end for at in reached for end in self.ends(part, items, at)}
        return reached

    def counts(self, item, part):
        """Whether the item is an element that an elementRef, a classRef or an anyElement admits."""
        if isinstance(item, str):
            return False
        if part.kind == "elementRef":
            return self.is_valid(item, part.of)
        if part.kind == "classRef":
            return any(self.is_valid(item, ident) for ident in picked_members(self.library, part.of))
        return all(is_met(part.of, *split_name(element.tag)) for element in item.iter())


def is_met(condition, ns, local):
    """Whether an element of that name meets the condition, apart from what is in it."""
    required = not condition.required or ns in condition.required
    return required and ns not in condition.namespaces and (ns, local) not in condition.names


def split_name(tag):
    """The namespace and the local name of a tag."""
    ns, closed, local = tag.rpartition("}")
    return (ns[1:] if closed else ""), local


def significant(element):
    """The lists of significant children: two where the only child is a text of white space, and else one."""
    items = [element.text, *(item for child in element for item in (child, child.tail))]
    items = [item for item in items if item is not None and item != ""]
    if len(element):
        return [[item for item in items if not isinstance(item, str) or item.strip(WHITE)]]
    return [items] if not items or items[0].strip(WHITE) else [items, []]


# Documents


class Node:
    """An element of a document: its name, its attributes by their names, its children, which are nodes and texts, and for which
    held element it was grown, if for one."""

    def __init__(self, ns, local, attributes=(), children=(), ident=None):
        self.ns, self.local, self.attributes, self.children, self.ident = ns, local, dict(attributes), list(children), ident

    def nodes(self):
        """The node and all that are inside."""
        yield self
        for child in self.children:
            if isinstance(child, Node):
                yield from child.nodes()

    def copied(self):
        """The same once more."""
        children = [child.copied() if isinstance(child, Node) else child for child in self.children]
        return Node(self.ns, self.local, self.attributes, children, self.ident)


def sizes(library):
    """For each ident how many elements the smallest tree has that is valid for it."""
    found, before = dict.fromkeys(library.elements, NEVER), None
    possible = [ident for ident in library.elements if attribute_models.is_possible(library, ident)]
    contents = {ident: library.elements[ident].content or Part("empty") for ident in possible}
    while found != before:
        before = found
        found = before | {ident: 1 + least(library, content, before) for ident, content in contents.items()}
    return found


def least(library, part, found):
    """How many elements a part has at least."""
    return part.low * least_once(library, part, found) if part.low else 0


def least_once(library, part, found):
    """The same for one time."""
    if part.kind == "elementRef":
        return found.get(part.of, NEVER)
    if part.kind == "classRef":
        return min((found[ident] for ident in picked_members(library, part.of)), default=NEVER)
    if part.kind == "macroRef":
        return least(library, library.macros[part.of] or Part("empty"), found)
    if part.kind == "anyElement":
        return 1 if meeting_names(part.of) else NEVER
    if part.kind == "data":
        return 0 if attribute_models.admitted_texts(library, part.of) else NEVER
    if part.kind == "sequence":
        return sum(least(library, each, found) for each in part.of)
    if part.kind == "alternate":
        return min((least(library, each, found) for each in part.of), default=NEVER)
    return 0


def meeting_names(condition):
    """Names that meet a condition."""
    return [(ns, local) for ns in ["", "urn:", *NAMESPACES] for local in LOCALS if is_met(condition, ns, local)]


class Grower:
    """Grows documents for a library from its contents."""

    def __init__(self, rng, library):
        self.rng, self.library, self.sizes = rng, library, sizes(library)
        self.offers = {ident: attribute_models.attributes_of(library, ident) for ident in library.elements}
        self.grown = self.depth = 0
        self.deep = greatest_depth(library)

    def document(self):
        """A document that the library admits, where there is one."""
        self.grown, start = 0, self.library.start
        return self.element(self.rng.choice([word for word in start if self.sizes[word] != NEVER] or start))

    def element(self, ident):
        """An element that is valid for a held element, where one is held."""
        if ident not in self.library.elements:
            return Node(TEI, ident)
        self.grown, self.depth = self.grown + 1, self.depth + 1
        children = self.part(self.library.elements[ident].content or Part("empty"))
        self.depth -= 1
        attributes = attribute_models.grown_attributes(self.rng, self.library, self.offers[ident])
        return Node(*element_name(self.library, ident), attributes, children, ident)

    def is_large(self):
        """Whether what is to come shall be as small as can be: a validator may take long for a deep document."""
        return self.grown > ENOUGH or self.depth >= self.deep

    def part(self, part):
        """Children that the part admits. Where it admits nothing, none."""
        each = least_once(self.library, part, self.sizes)
        if each == NEVER:
            return []
        more = 0 if self.is_large() and each else self.rng.choice([0, 0, 1, 1, 2, 3])
        most = part.low + more if part.high is None else min(part.low + more, part.high)
        return [child for _ in range(most) for child in self.once(part)]

    def once(self, part):
        """The same for one time."""
        if part.kind == "sequence":
            return [child for each in part.of for child in self.part(each)]
        if part.kind == "alternate":
            return self.part(self.alternative(part.of))
        if part.kind == "textNode":
            return [self.rng.choice(TEXTS)] if self.rng.random() < 0.6 else []
        if part.kind == "data":
            return [attribute_models.spaced(self.rng, attribute_models.admitted_texts(self.library, part.of))]
        if part.kind == "macroRef":
            return self.part(self.library.macros[part.of] or Part("empty"))
        if part.kind == "elementRef":
            return [self.element(part.of)]
        if part.kind == "classRef":
            return [self.element(self.member(picked_members(self.library, part.of)))]
        return [self.meeting(part.of, 0)] if part.kind == "anyElement" else []

    def member(self, idents):
        """One of the idents for which there is an element."""
        if self.is_large():
            return min(idents, key=self.sizes.get)
        return self.rng.choice([ident for ident in idents if self.sizes[ident] != NEVER])

    def alternative(self, parts):
        """One of the parts that admit something."""
        if self.is_large():
            return min(parts, key=lambda part: least(self.library, part, self.sizes))
        return self.rng.choice([part for part in parts if least(self.library, part, self.sizes) != NEVER])

    def meeting(self, condition, depth):
        """An element that meets a condition, with attributes and texts, and such elements inside."""
        self.grown += 1
        children = []
        for _ in range(self.rng.choice([0, 0, 1, 1, 3]) if depth < 2 else 0):
            children.append(self.rng.choice(TEXTS) if self.rng.random() < 0.4 else self.meeting(condition, depth + 1))
        attributes = self.rng.sample(list(ATTRIBUTES.items()), self.rng.choice([0, 0, 1, 2, 3]))
        return Node(*self.rng.choice(meeting_names(condition)), attributes, children)

    def other(self):
        """Any element: one that is grown for an ident, or one of any name."""
        if self.rng.random() < 0.6:
            return self.element(self.rng.choice(list(self.library.elements)))
        return self.meeting(Condition([], [], []), 1)


# Changes of a document, each at a child of a node, or at a node


def leave_out(_grower, parent, at):
    """A child is left out."""
    del parent.children[at]


def double(_grower, parent, at):
    """A child stands there twice."""
    child = parent.children[at]
    parent.children.insert(at, child.copied() if isinstance(child, Node) else child)


def exchange(grower, parent, at):
    """A child is exchanged with another, where there is one."""
    children, others = parent.children, [other for other in range(len(parent.children)) if other != at]
    other = grower.rng.choice(others or [at])
    children[at], children[other] = children[other], children[at]


def replace(grower, parent, at):
    """Another element stands in place of a child."""
    parent.children[at] = grower.other()


def wrap(grower, parent, at):
    """Another element stands around a child."""
    around = grower.other()
    around.children = [parent.children[at]]
    parent.children[at] = around


def unwrap(_grower, parent, at):
    """The children of a child stand in its place."""
    if isinstance(parent.children[at], Node):
        parent.children[at : at + 1] = parent.children[at].children


def rename(grower, node):
    """An element has another name, which may be the ident of one that has an altIdent."""
    node.local = grower.rng.choice([*grower.library.elements, grower.rng.choice(LOCALS)])


def put_in_namespace(grower, node):
    """An element is in another namespace."""
    node.ns = grower.rng.choice(["", "urn:", XML, *NAMESPACES])


def put_attribute(grower, node):
    """An attribute is put on an element."""
    name = grower.rng.choice(list(ATTRIBUTES))
    node.attributes[name] = ATTRIBUTES[name]


def put_text(grower, node):
    """A text is put in."""
    node.children.insert(grower.rng.randint(0, len(node.children)), grower.rng.choice(TEXTS))


def put_space(grower, node):
    """White space is put in."""
    node.children.insert(grower.rng.randint(0, len(node.children)), grower.rng.choice(SPACES))


def put_element(grower, node):
    """An element is put in."""
    node.children.insert(grower.rng.randint(0, len(node.children)), grower.other())


def empty(_grower, node):
    """An element loses its children."""
    node.children = []


def move(grower, root, parent):
    """A child is put elsewhere."""
    child = parent.children.pop(grower.rng.randrange(len(parent.children)))
    node = picked(grower.rng, root)
    node.children.insert(grower.rng.randint(0, len(node.children)), child)


AT_CHILDREN = [leave_out, leave_out, double, double, exchange, exchange, replace, wrap, unwrap, move]
AT_NODES = [rename, rename, put_in_namespace, put_attribute, put_text, put_space, put_element, put_element, empty]


def change(grower, root):
    """Changes a document once, and tells how."""
    rng, node = grower.rng, picked(grower.rng, root)
    if rng.random() < 0.5 and (title := attribute_models.change(grower, root)):
        return title
    kind = rng.choice(AT_CHILDREN if node.children and rng.random() < 0.6 else AT_NODES)
    if kind is move:
        move(grower, root, node)
    elif kind in AT_CHILDREN:
        kind(grower, node, rng.randrange(len(node.children)))
    else:
        kind(grower, node)
    return kind.__name__


def picked(rng, root):
    """A node, more often one that is near the root."""
    inside = [child for child in root.children if isinstance(child, Node)]
    return picked(rng, rng.choice(inside)) if inside and rng.random() < 0.5 else root


# How documents are written


def made_documents(rng, library):
    """Documents for a library, as pairs of a title and a text: those that grew, and half of them changed once."""
    grower = Grower(rng, library)
    for number in range(DOCUMENTS):
        root, title = grower.document(), "grown"
        if number % 2:
            title = change(grower, root)
        yield title, written_document(rng, root)


def written_document(rng, root):
    """A document with the root, in one of the many ways to write it."""
    opening = rng.choice(["", "", '<?xml version="1.0" encoding="UTF-8"?>\n', "<!--c-->\n"])
    return opening + written_node(rng, root, {"xml": XML}) + rng.choice(["", "\n", "<?p q?>"])


def written_node(rng, node, scope):
    """An element, with the namespace declarations that it needs and perhaps others."""
    bound = {}
    name = written_name(rng, node.ns, node.local, scope, bound)
    attributes = "".join(
        f" {written_attribute_name(rng, *attribute, scope, bound)}={written_value(rng, value)}" for attribute, value in node.attributes.items()
    )
    inside = written_children(rng, node, {**scope, **bound})
    if not inside and rng.random() < 0.5:
        return f"<{name}{declarations(bound)}{attributes}/>"
    return f"<{name}{attributes}{declarations(bound)}>{inside}</{name}>"


def written_name(rng, ns, local, scope, bound):
    """The name of an element. Where no prefix is in force for it, and at times else, one is bound."""
    if not ns:
        if scope.get(""):
            bound[""] = ""
        return local
    fitting = [prefix for prefix, uri in scope.items() if uri == ns]
    if not fitting or ns != XML and rng.random() < 0.05:
        fitting = [rng.choice(["", "", "p", f"n{len(scope)}"])]
        bound[fitting[0]] = ns
    prefix = rng.choice(fitting)
    return f"{prefix}:{local}" if prefix else local


def written_attribute_name(rng, ns, local, scope, bound):
    """The name of an attribute. Where no prefix is in force for it, a new one is bound."""
    if not ns:
        return local
    force = {**scope, **bound}
    fitting = [prefix for prefix, uri in force.items() if uri == ns and prefix]
    if not fitting:
        fitting = [f"n{len(force)}"]
        bound[fitting[0]] = ns
    return f"{rng.choice(fitting)}:{local}"


def written_value(rng, text):
    """The value of an attribute. At times its line feeds are no references, and so are spaces."""
    return quoteattr(text).replace("&#10;", "\n") if rng.random() < 0.2 else quoteattr(text)


def written_children(rng, node, scope):
    """What stands in an element: between its children comments and, where it says nothing, white space."""
    written = [written_text(rng, child) if isinstance(child, str) else written_node(rng, child, scope) for child in node.children]
    spaced = any(isinstance(child, Node) for child in node.children) or not node.children and rng.random() < 0.1
    gaps = [written_gap(rng, spaced) for _ in range(len(written) + 1)]
    return gaps[0] + "".join(child + gap for child, gap in zip(written, gaps[1:]))


def written_gap(rng, spaced):
    """Perhaps a comment or a processing instruction, and perhaps white space around it."""
    spaces = [rng.choice(SPACES) if spaced and rng.random() < 0.2 else "" for _ in range(2)]
    return spaces[0] + (rng.choice(ASIDES) if rng.random() < 0.06 else "") + spaces[1]


def written_text(rng, text):
    """A text, in two pieces with perhaps a comment between them."""
    at = rng.randint(0, len(text))
    return written_piece(rng, text[:at]) + written_gap(rng, False) + written_piece(rng, text[at:])


def written_piece(rng, text):
    """A piece of a text: a CDATA section, references, or as it is."""
    kind = rng.random()
    if kind < 0.1:
        return f"<![CDATA[{text}]]>"
    return "".join(f"&#{ord(character)};" for character in text) if kind < 0.2 else escape(text)
