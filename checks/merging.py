#!/usr/bin/env python3
"""Works out what chains of docs give, apart from odd.

    checks/merging.py [FILE..]

Prints the case crates/odd_cases/data/cases/merging/random: chains made from a fixed seed, with the library after each, what
its elements offer and what its last doc chooses, or the first offence, as docs/merging.md says. With FILES, which are cases of
docs, prints each answer that says otherwise, and ends with 1 where there is one.
"""

import collections
import pathlib
import random
import re
import sys

SEED = 20261128
COUNT = 1000
TEI = "http://www.tei-c.org/ns/1.0"
KINDS = ["element", "class", "macro", "datatype"]
XML = "http://www.w3.org/XML/1998/namespace"
IDENTS, MODULES = "abcdef", "mno"
# How many of the idents components of a kind have.
HELD = {"element": 6, "class": 4, "macro": 2, "datatype": 3}
NAMESPACES = ["", "urn:x", "urn:y", TEI]
# Mostly such as break no rule.
DATA = ["data/a", "value", "data/a|value"]
NAMING = ["class/a", "class/b", "class/c", "macro/a", "macro/b", "text,class/d", "macro/b,a,class/a", "a|text"]
CONTENTS = 8 * ["empty", "text", "a", "b"] + DATA + NAMING
MIXED = ["text,value", "text|data/a", "a,data/b|value", "macro/a|value", "macro/b,value", "value,data/a", "macro/a|text|macro/b"]
DATATYPES = {
    "a": ["value", "data/b", "data/c|value", "data/b|data/c"],
    "b": ["value", "data/c", "value|data/c"],
    "c": ["value", "value|value"],
}
TYPES, CLASSES = ["model", "model", "atts"], {"element": "abcdu", "class": "abcdv"}
ATTRIBUTES = ["p", "q", "xml:p"]
# The fields that a declaration of a kind may have.
FIELDS = {
    "element": "module ns alt classes content atts",
    "class": "module type classes atts",
    "macro": "module content",
    "datatype": "module content",
}
MODES = ["add", "delete", "change", "replace"]

# A key is a kind and an ident. A library is a dictionary from keys to components. An item is the list of its words. An offer is of
# an attribute with a definition, a dictionary of what that gives as pairs, and its giver is the key of the component that sets it.
Component = collections.namedtuple("Component", "module ns alt type classes content atts")
Doc = collections.namedtuple("Doc", "ident start items")
Offer = collections.namedtuple("Offer", "ident definition giver")
BY_ITSELF = Component("", TEI, "", "model", "", "empty", "")


class Offence(Exception):
    """The first offence of a chain: its file, its place or component, and its rule."""


# What docs/merging.md says.


def by_module(library):
    """The keys of a library by their modules."""
    modules = collections.defaultdict(set)
    for key, part in library.items():
        modules[part.module].add(key)
    return modules


def elements(words):
    """The keys of the elements of these idents."""
    return {("element", ident) for ident in words}


def named(keys, pick):
    """Those of a module's keys that a reference to it chooses. What is no element comes in either case."""
    match pick:
        case ["include", *words]:
            return keys & elements(words) | {key for key in keys if key[0] != "element"}
        case ["except", *words]:
            return keys - elements(words)
    return keys


def chosen(library, doc):
    """The keys of the components that a doc chooses."""
    modules, keys = by_module(library), set()
    for item in doc.items:
        match item:
            case ["module", module, *pick]:
                keys |= named(modules[module], pick)
            case ["take", *key]:
                keys |= {tuple(key)} & library.keys()
    return keys


def declaration(item):
    """The mode, the key and the fields of a declaration."""
    if item[0] not in MODES:
        return None
    mode, kind, ident, *fields = item
    return mode, (kind, ident), dict(field.split("=", 1) for field in fields)


def broken_by_reference(library, modules, item):
    """The rules that an item breaks as a reference."""
    match item:
        case ["take", *key] if tuple(key) not in library:
            yield 6
        case ["module", module, *pick]:
            if not modules[module]:
                yield 7
            if not elements(pick[1:]) <= modules[module]:
                yield 8


def broken_by_declaration(library, taken, item):
    """The rules that an item breaks as a declaration."""
    if found := declaration(item):
        mode, key, fields = found
        if (key in taken) == (mode == "add"):
            yield 5 if mode == "add" else 6
        elif mode == "change" and key[0] == "class" and fields.get("type", library[key].type) != library[key].type:
            yield 9


def offences(library, doc, of_references_alone=False):
    """The places and the rules of the offences of a doc."""
    modules, taken = by_module(library), chosen(library, doc)
    for place, item in enumerate(doc.items, 1):
        yield from ((place, rule) for rule in broken_by_reference(library, modules, item))
        if not of_references_alone:
            yield from ((place, rule) for rule in broken_by_declaration(library, taken, item))


def memberships(before, fields):
    """The classes, with commas between them, where a declaration with these fields is laid over them."""
    if "classes" in fields:
        return ",".join(sorted(set(split(fields["classes"]))))
    marks = split(fields.get("change", ""))
    taken, added = ({mark[1:] for mark in marks if mark[0] == sign} for sign in "-+")
    return ",".join(sorted(set(split(before)) - taken | added))


def split(words):
    return words.split(",") if words else []


# An edit of an attribute: `set`, `change` or `delete`, and a dictionary of what it gives.
USAGES = ("req", "opt")


def edits_of(words):
    """The edits of attributes by their idents."""
    found = (re.fullmatch(r"((?:xml:)?[^:]*):(.*)", edit).groups() for edit in split(words))
    return {ident: read_edit(edit) for ident, edit in found}


def read_edit(words):
    """The kind of an edit and what it gives."""
    kind, *words = words.split(".")
    return kind, dict(map(read_word, words))


def read_word(word):
    """What a word of an edit gives."""
    if "=" in word:
        return word.split("=", 1)
    return ("usage" if word in USAGES else "datatype"), word


def shown_edit(kind, given):
    """An edit in the order of its words."""
    return ".".join(word for word in (kind, shown_given(given)) if word)


def shown_given(given):
    """The words of what is given."""
    words = [given.get("usage"), given.get("datatype"), *(f"{name}={given[name]}" for name in ("alt", "ns") if name in given)]
    return ".".join(word for word in words if word)


def edit_after(earlier, later):
    """An edit and then another as one."""
    if earlier is None or later[0] != "change":
        return later
    if earlier[0] == "delete":
        return earlier
    return earlier[0], earlier[1] | later[1]


def attributes(before, later):
    """Edits and then others as one, in the order of their idents."""
    edits = edits_of(before)
    for ident, edit in edits_of(later).items():
        edits[ident] = edit_after(edits.get(ident), edit)
    return ",".join(f"{ident}:{shown_edit(*edits[ident])}" for ident in sorted(edits))


def laid_over(part, fields):
    """A component with these fields in place of its own."""
    given = {name: value for name, value in fields.items() if name in Component._fields}
    edited = {"classes": memberships(part.classes, fields), "atts": attributes(part.atts, fields.get("atts", ""))}
    return part._replace(**{**given, **edited})


def held_after(library, doc):
    """The library after a doc that breaks no rule."""
    made = {key: library[key] for key in chosen(library, doc)}
    for mode, key, fields in filter(None, map(declaration, doc.items)):
        if mode == "delete":
            del made[key]
        elif mode == "change":
            made[key] = laid_over(made[key], {**fields, "module": made[key].module})
        else:
            made[key] = laid_over(BY_ITSELF, fields)
    return made


def library_after(docs, is_asked=True):
    """The library after docs, or their first offence. Where libraries are not asked, that of their items."""
    library = {}
    for file, doc in enumerate(docs, 1):
        if found := list(offences(library, doc)):
            place, rule = min(found)
            raise Offence(file, f"at {place}", rule)
        library = held_after(library, doc)
        if is_asked and (broken := list(breaks(library))):
            rule, *key = min(broken, key=lambda found: (found[0], key_order(found[1:])))
            raise Offence(file, " ".join(key), rule)
    return library


# What components name.

NAMED = {"class": "class", "macro": "macro", "data": "datatype"}


def leaves(content):
    """The parts of a content that are no sequence and no alternate."""
    return re.split("[,|]", content)


def links(library, key):
    """The held classes of which a component is said to be a member."""
    return {("class", ident) for ident in split(library[key].classes)} & library.keys()


def names_in(library, key):
    """The classes, macros and datatypes that a content names."""
    found = (part.split("/") for part in leaves(library[key].content) if "/" in part)
    return {(NAMED[kind], ident) for kind, ident in found}


def names_of_attributes(library, key):
    """The datatypes that the edits of attributes name."""
    given = (given for _, given in edits_of(library[key].atts).values())
    return {("datatype", fields["datatype"]) for fields in given if "datatype" in fields}


def macros(library, key):
    """The held macros that a content names."""
    return {other for other in names_in(library, key) & library.keys() if other[0] == "macro"}


def datatypes(library, key):
    """The held datatypes that a content names."""
    return {other for other in names_in(library, key) & library.keys() if other[0] == "datatype"}


def reached(library, key, links_of):
    """What a component leads to, by one step or more."""
    found, waiting = set(), [key]
    while waiting:
        new = links_of(library, waiting.pop()) - found
        found |= new
        waiting.extend(new)
    return found


# What elements and classes offer of attributes.


def offers_of(library):
    """What each element and class offers."""
    edits = {key: edits_of(part.atts) for key, part in library.items()}
    set_here = [
        (key, Offer(ident, frozenset(given.items()), key))
        for key in library
        for ident, (kind, given) in edits[key].items()
        if kind == "set"
    ]
    return handed_on(library, set_here, lambda offer, member: passed(offer, edits[member]))


def handed_on(library, waiting, made_of):
    """The offers of each holder: each is handed on to the members of its holder, which make of it what `made_of` says."""
    members = collections.defaultdict(set)
    for key in library:
        for class_key in links(library, key):
            members[class_key].add(key)
    found = {key: set() for key in library}
    while waiting:
        key, offer = waiting.pop()
        if offer not in found[key]:
            found[key].add(offer)
            waiting.extend((member, made) for member in members[key] for made in made_of(offer, member))
    return found


def passed(offer, edits):
    """What a holder with these edits makes of an offer that it inherits."""
    kind, given = edits.get(offer.ident, ("change", {}))
    if kind == "change":
        yield offer._replace(definition=frozenset((dict(offer.definition) | given).items())) if given else offer


def contradicts(library, offers, key):
    """Whether different definitions of an attribute are inherited that is not itself set or deleted."""
    edits, found = edits_of(library[key].atts), collections.defaultdict(set)
    for class_key in links(library, key):
        for offer in offers[class_key]:
            if any(passed(offer, edits)):
                found[offer.ident].add(offer.definition)
    return any(len(definitions) > 1 for definitions in found.values())


def name_in_documents(offer):
    """The namespace and the local name of an attribute."""
    definition = dict(offer.definition)
    name = definition.get("alt", offer.ident)
    return (XML, name[4:]) if name.startswith("xml:") else (definition.get("ns", ""), name)


def shares_name(offers):
    """Whether attributes of two idents have one name in documents."""
    idents = collections.defaultdict(set)
    for offer in offers:
        idents[name_in_documents(offer)].add(offer.ident)
    return any(len(found) > 1 for found in idents.values())


def broken_by_offers(library, offers, key):
    """The rules that an element breaks by what it offers."""
    if contradicts(library, offers, key):
        yield 15
    if shares_name(offers[key]):
        yield 16


# Data content.


def least(library, holds):
    """The least set of macros of whose contents something holds, which is asked of a content and such a set."""
    namers, found = collections.defaultdict(set), set()
    waiting = [key for key in library if key[0] == "macro"]
    for key in waiting:
        for other in macros(library, key):
            namers[other].add(key)
    while waiting:
        key = waiting.pop()
        if key not in found and holds(library[key].content, found):
            found.add(key)
            waiting.extend(namers[key])
    return found


def is_item(part, found):
    """Whether a part is a value, or a macro among those found."""
    return part == "value" or part.startswith("data/") or tuple(part.split("/")) in found


def is_data(content, found):
    """Whether a content is data content, where these macros are."""
    return "," not in content and all(is_item(part, found) for part in leaves(content))


def reaches_data(content, found):
    """Whether a content reaches data, where these macros do."""
    return any(is_item(part, found) for part in leaves(content))


# What a library breaks.


def breaks(library):
    """The rules that components of a library break, each with its key."""
    offers = offers_of(library)
    reaching, data = least(library, reaches_data), least(library, is_data)
    for key, part in library.items():
        yield from ((rule, *key) for rule in broken_by_names(library, key))
        yield from ((rule, *key) for rule in broken_by_cycles(library, key))
        if key[0] == "element":
            yield from ((rule, *key) for rule in broken_by_offers(library, offers, key))
        if key[0] in ("element", "macro") and reaches_data(part.content, reaching) and not is_data(part.content, data):
            yield 18, *key


def broken_by_names(library, key):
    """The rules that a component breaks by what it names."""
    names = names_in(library, key)
    if any(other[0] == "macro" and other not in library for other in names):
        yield 11
    if any(other[0] == "datatype" and other not in library for other in names | names_of_attributes(library, key)):
        yield 12
    if any(other[0] == "class" and other in library and library[other].type == "atts" for other in names):
        yield 17


LINKS = {"class": (13, links), "macro": (14, macros), "datatype": (14, datatypes)}


def broken_by_cycles(library, key):
    """The rule that a component breaks by leading to itself."""
    if key[0] in LINKS:
        rule, links_of = LINKS[key[0]]
        if key in reached(library, key, links_of):
            yield rule


def broken_by_offering(library, offers, key):
    """The rules for which it is not told what an element offers."""
    if any(class_key in reached(library, class_key, links) for class_key in reached(library, key, links)):
        yield 13
    yield from broken_by_offers(library, offers, key)


# What is told of it.


def key_order(key):
    kind, ident = key
    return KINDS.index(kind), ident.encode()


def told_component(key, component):
    """A key, and the fields in which a component differs from what is declared without any."""
    fields = [
        f"{name}={SHOWN.get(name, str)(value)}"
        for name, value, without in zip(Component._fields, component, BY_ITSELF)
        if value != without
    ]
    return " ".join([*key, *fields])


def shown_content(content):
    """A content as the cases show it."""
    for sign, name in ((",", "sequence"), ("|", "alternate")):
        if sign in content:
            return f"{name}({', '.join(map(shown_content, content.split(sign)))}) 1..1"
    if content == "value":
        return "value type=token"
    if content.startswith("data/"):
        return content.replace("data/", "value key=")
    return content if content in ("text", "empty") else f"{content.replace('/', ' ')} 1..1"


def told_edits(edits):
    """Edits of attributes as the cases show them."""
    found = edits_of(edits)
    return " ; ".join(" ".join([ident, *([] if kind == "set" else [kind]), *told_given(given)]) for ident, (kind, given) in found.items())


def told_given(given):
    """What an edit or a definition gives, as the cases show it."""
    if "usage" in given:
        yield given["usage"]
    yield from (f"{name}={given[name]}" for name in ("alt", "ns") if name in given)
    if "datatype" in given:
        yield f"key={given['datatype']} 1..1"


SHOWN = {"content": shown_content, "atts": told_edits}


def told_library(docs):
    """The lines of the library after docs."""
    library = library_after(docs)
    ident, start = docs[-1][:2] if docs else ("bare", ["TEI"])
    return [" ".join([ident, *start]), *(told_component(key, library[key]) for key in sorted(library, key=key_order))]


def told_members(docs):
    """A line for each class of the library after docs, with the elements that are its members."""
    library = library_after(docs)
    elements_of = {key: reached(library, key, links) for key in library if key[0] == "element"}
    for key in sorted(library, key=key_order):
        if key[0] == "class":
            found = sorted((ident for (_, ident), classes in elements_of.items() if key in classes), key=str.encode)
            yield " ".join([key[1], *found])


def told_offers(docs, is_asked=True):
    """A line for each element of the library after docs, with what it offers."""
    library = library_after(docs, is_asked)
    offers = offers_of(library)
    for key in sorted(library, key=key_order):
        if key[0] == "element":
            rules = list(broken_by_offering(library, offers, key))
            told = f"rule {min(rules)}" if rules else " ; ".join(told_attributes(offers[key], key))
            yield f"{key[1]} {told}" if told else key[1]


def told_unasked(docs):
    """The same where no library is asked for what it breaks, with the least rule that the element breaks on what it offers."""
    return told_offers(docs, is_asked=False)


def told_attributes(offers, key):
    """What an element offers, of each attribute the definition and the least giver."""
    for ident in sorted({offer.ident for offer in offers}, key=str.encode):
        best = min((offer for offer in offers if offer.ident == ident), key=lambda offer: offer.giver[1].encode())
        yield " ".join([ident, *told_given(dict(best.definition)), f"@{'-' if best.giver == key else best.giver[1]}"])


def told_chosen(docs):
    """The lines of what the last of the docs chooses: where there is none, nothing."""
    if not docs:
        return []
    *before, last = docs
    library = library_after(before, is_asked=False)
    if found := list(offences(library, last, of_references_alone=True)):
        place, rule = min(found)
        raise Offence(len(docs), f"at {place}", rule)
    return [" ".join(key) for key in sorted(chosen(library, last), key=key_order)]


def answer(told, docs):
    """The lines that a question is answered by."""
    try:
        return list(told(docs))
    except Offence as offence:
        return ["file {} {} rule {}".format(*offence.args)]


# Random chains.


def random_pick(rng, library, module):
    """What of a module a reference names: mostly elements of the module."""
    idents = sorted(ident for kind, ident in by_module(library)[module] if kind == "element")
    word = rng.choice(["", "include", "except"])
    wrong = rng.choices(IDENTS, k=1 if rng.random() < 0.04 else 0)
    words = [*rng.choices(idents, k=rng.randrange(1, 4) if idents else 0), *wrong]
    return [word, *words] if word and words else []


def random_reference(rng, library):
    """A reference, mostly to what is held."""
    if not library or rng.random() < 0.04:
        module = rng.choice(MODULES)
        of_module = ["module", module, *random_pick(rng, library, module)]
        return rng.choice([of_module, ["take", rng.choice(KINDS), rng.choice(IDENTS)]])
    key = rng.choice(sorted(library))
    module = library[key].module
    if module and rng.random() < 0.75:
        return ["module", module, *random_pick(rng, library, module)]
    return ["take", *key]


# How likely a field is given.
LIKELY = {"module": 0.8, "classes": 0.65, "atts": 0.6, "type": 0.5}


def random_classes(rng, kind, ident):
    """Idents of classes: for a class mostly those behind it, so that few are members of themselves."""
    idents = CLASSES[kind]
    if kind == "class" and rng.random() < 0.96:
        idents = [class_ident for class_ident in idents if class_ident > ident]
    return sorted(rng.sample(idents, rng.randrange(min(len(idents), 3) + 1)))


def random_content(rng, kind, ident):
    """A content for a component of the kind: for a datatype mostly of those behind it."""
    if kind == "datatype":
        return rng.choice(DATATYPES[ident] if rng.random() < 0.9 else DATA)
    return rng.choice(MIXED if rng.random() < 0.02 else CONTENTS)


def random_fields(rng, kind, ident):
    """Fields that a declaration of the kind may have."""
    for name in FIELDS[kind].split():
        if rng.random() > LIKELY.get(name, 0.4):
            continue
        if name == "classes":
            classes = random_classes(rng, kind, ident)
            is_change = classes and rng.random() < 0.6
            yield f"change={','.join(rng.choice('++-') + name for name in classes)}" if is_change else f"classes={','.join(classes)}"
        elif name == "atts":
            yield f"atts={','.join(f'{ident}:{random_edit(rng, kind)}' for ident in rng.sample(ATTRIBUTES, rng.randrange(1, 3)))}"
        elif name == "content":
            yield f"content={random_content(rng, kind, ident)}"
        else:
            values = {"module": MODULES, "ns": NAMESPACES, "alt": "xy", "type": TYPES}
            yield f"{name}={rng.choice(values[name])}"


def random_edit(rng, of_kind):
    """An edit of an attribute: of a class mostly such as set it."""
    kind = rng.choice(["set", "change", "change", "delete"] if of_kind == "element" else ["set", "set", "set", "change", "delete"])
    if kind == "delete":
        return kind
    given = {"usage": rng.choice(USAGES)} if kind == "set" or rng.random() < 0.4 else {}
    for name, values, likely in (("datatype", "abc", 0.2), ("alt", ["p", "q", "xml:p"], 0.12), ("ns", ["", "urn:y"], 0.08)):
        if rng.random() < likely:
            given[name] = rng.choice(values)
    return shown_edit(kind, given)


def random_declaration(rng, taken, key):
    """A declaration at the key, mostly in a mode that it may have."""
    is_taken = key in taken
    is_wrong = rng.random() < (0.06 if is_taken else 0.02 if taken else 0.005)
    mode = "add" if is_taken == is_wrong else rng.choice(["delete", "change", "change", "replace"])
    return [mode, *key, *random_fields(rng, *key)]


def datatypes_lacked(rng, taken, doc):
    """Declarations of most of the datatypes that those of a doc name, where it does not have them."""
    declared = {tuple(item[1:3]) for item in doc.items if item[0] in MODES}
    made = held_after({}, Doc("", [], [["add", *item[1:]] for item in doc.items if item[0] in MODES]))
    names = {other for key in made for other in names_in(made, key) | names_of_attributes(made, key) if other[0] == "datatype"}
    return [["add", *key, "content=value"] for key in sorted(names - taken - declared) if rng.random() < 0.94]


# How likely a doc takes what it does not choose otherwise.
KEPT = {"element": 0.7, "class": 0.85, "macro": 0.9, "datatype": 0.96}


def random_doc(rng, library):
    """A doc over a library, its items in any order."""
    ident, start = rng.choice("stu"), sorted(rng.sample(IDENTS, rng.randrange(1, 3)))
    count = rng.randrange(1, 4) if library else rng.random() < 0.05
    doc = Doc(ident, start, [random_reference(rng, library) for _ in range(count)])
    taken = chosen(library, doc)
    missing = [key for key in sorted(library.keys() - taken) if rng.random() < KEPT[key[0]]]
    doc.items.extend(["take", *key] for key in missing)
    taken |= set(missing)
    keys = [(kind, ident) for kind in KINDS for ident in IDENTS[: HELD[kind]]]
    declared = rng.sample(keys, rng.randrange(5) if library else rng.randrange(7, 13))
    doc.items.extend(random_declaration(rng, taken, key) for key in declared)
    doc.items.extend(datatypes_lacked(rng, taken, doc))
    rng.shuffle(doc.items)
    return doc


def random_chain(rng):
    """Docs of a chain. What is over a doc that offends is over the library before it."""
    library, docs = {}, []
    for _ in range(rng.randrange(1, 5)):
        docs.append(random_doc(rng, library))
        if not list(offences(library, docs[-1])):
            library = held_after(library, docs[-1])
    return docs


def random_case():
    """The case of random chains. Where a library breaks a rule, it is asked what is offered where none is asked for what it breaks."""
    rng, lines = random.Random(SEED), []
    for _ in range(COUNT):
        docs = random_chain(rng)
        lines += ["=== docs", *(line for doc in docs for line in written(doc))]
        is_broken = re.fullmatch(r"file \d+ [a-z]{3,} .*", answer(told_library, docs)[0])
        for head in ("library", "members", "offers unasked" if is_broken else "offers", "chosen"):
            lines += [f"=== {head}", *answer(QUESTIONS[head], docs)]
    return "\n".join([*lines, ""])


def written(doc):
    """The lines of a doc."""
    return [" ".join(words) for words in (["doc", doc.ident, *doc.start], *doc.items)]


# Cases.

QUESTIONS = {"library": told_library, "members": told_members, "offers": told_offers, "offers unasked": told_unasked, "chosen": told_chosen}


def sections(case):
    """The heads of a case with the lines below them. What goes on with a text is put to it."""
    found = []
    for head, body in re.findall(r"^=== (.*)\n((?:(?!=== ).*\n)*)", case, re.M):
        kind, *words = head.split()
        text = body[:-1] if words and words[-1] == "bare" else body
        if kind not in ("each", "then"):
            found.append([head.removesuffix(" bare"), text])
        elif kind == "then":
            found[-1][1] += text
        else:
            first, last = int(words[0]), int(words[1])
            step = 1 if first <= last else -1
            found[-1][1] += "".join(text.replace("#+", str(number + 1)).replace("#", str(number)) for number in range(first, last + step, step))
    return [(kind, text.splitlines()) for kind, text in found]


def read_docs(lines):
    """The docs of their lines."""
    docs = []
    for words in map(str.split, lines):
        if words[0] == "doc":
            docs.append(Doc(words[1], words[2:], []))
        else:
            docs[-1].items.append(words)
    return docs


def differences(case):
    """What the answers of a case say otherwise than is worked out."""
    docs, number = None, 0
    for kind, lines in sections(case):
        if kind == "docs":
            docs, number = read_docs(lines), number + 1
        elif lines != (worked_out := answer(QUESTIONS[kind], docs)):
            yield f"chain {number} {kind}, {shown(lines, worked_out)}, and not {shown(worked_out, lines)}"


def shown(lines, others):
    """The number of the first line where others differ, and the line."""
    at = next((at for at, (line, other) in enumerate(zip(lines, others)) if line != other), min(len(lines), len(others)))
    return f"line {at + 1}: {lines[at] if at < len(lines) else 'none'}"


def main(files):
    if not files:
        sys.stdout.write(random_case())
    found = [f"{file}: {told}" for file in files for told in differences(pathlib.Path(file).read_text())]
    for told in found:
        print(told)
    return 1 if found else 0


if __name__ == "__main__":
    sys.exit(main(sys.argv[1:]))
