"""Groups of items, files without a schemaSpec and constraints in ODD files, for checks/offences.py: such at random, made of the text of a
schemaSpec or of a file. Prefixes are those that checks/offences.py binds.
"""

import collections
import re
import xml.parsers.expat

# What stands around groups in prose, or around the items of a file without a schemaSpec, with how often.
PROSE = [
    *[("%s", 6), ("<p>t %s</p>", 3), ("<div><p/><list><item>%s</item></list></div>", 3), ("<exemplum>%s</exemplum>", 2), ("<desc>%s</desc>", 2)],
    *[("<constraintSpec>%s</constraintSpec>", 1), ("<content>%s</content>", 1), ("<specGrp>%s</specGrp>", 1), ("<x:x>%s</x:x>", 0.05)],
]
# Declarations that are no items where there is a schemaSpec.
DECLARED = [('<elementSpec ident="a">%s</elementSpec>', 1), ("<t:classSpec><t:attList>%s</t:attList></t:classSpec>", 1)]
# What stands around a group in a schemaSpec or in another group, and in a declaration.
AMONG_ITEMS = [("<desc>%s</desc>", 6), ("<exemplum><p>%s</p></exemplum>", 3), ("<altIdent>%s</altIdent>", 1), ("<constraintSpec>%s</constraintSpec>", 0.3), ("<p>%s</p>", 0.2)]
IN_DECLARATIONS = [("<desc>%s</desc>", 6), ("<exemplum>%s</exemplum>", 3), ("<constraintSpec>%s</constraintSpec>", 0.5), ("%s", 0.3), ("<x:x>%s</x:x>", 0.1)]
IDS = ["g", "G", "h", "i", "j", "a", "", "\u00e9", "1 2", "#g"]
BINDINGS = [*[""] * 30, ' xmlns:p="urn:a:c"', ' xmlns:q="urn:a:b"', ' xmlns:z="urn:x"', ' xmlns:x="urn:a:b"']
# References to the group @, and such with a fault.
REFERENCES = [
    *['target="#@"/>'] * 30,
    *('target="#@">t<desc/></specGrpRef>', 'target="#@"><x:x/></specGrpRef>', 'rend="x" y:target="@" target="#@"/>', 'target="&#35;@" xml:id="@"/>'),
]
WRONG_REFERENCES = [
    *('target="@"/>', 'target=""/>', 'target=" #@"/>', 'target="x#@"/>', 'target="#none"/>', 'target="#@ "/>', "/>", 'y:target="#@"/>', 'key="@"/>'),
    *('target="#none"/>\n<specGrpRef target="#none"/>', 'target="@"/><specGrpRef target="@"/>', 'target="#@"><specGrpRef target="#@"/></specGrpRef>'),
    *('target="#@"><p/></specGrpRef>', 'target="#@"><r:text/></specGrpRef>'),
]
# What a group may hold that has the id of another.
IN_GROUPS = ["", "", "<desc/>", "<p/>", "<elementSpec/>", '<elementSpec ident="a"/>', "<constraintSpec/>", '<specGrpRef target="#@"/>', "<specGrpRef/>", "<r:text/>"]
CONSTRAINTS = [
    *["<constraintSpec/>", '<constraintSpec ident="c" scheme="schematron">t<desc/><constraint><x:x>t</x:x></constraint></constraintSpec>', "<t:constraintSpec> </t:constraintSpec>"] * 4,
    "<constraintSpec><constraintSpec/><p><constraintSpec/></p></constraintSpec>",
    '<constraintSpec><r:text/><content><p/></content><elementSpec ident="a"><constraintSpec/></elementSpec></constraintSpec>',
    '<constraintSpec><specGrp xml:id="g"><constraintSpec/></specGrp><specGrpRef target="#g"/></constraintSpec>',
    '<constraintSpec><schemaSpec ident="s" start="a"><elementSpec ident="a"/></schemaSpec></constraintSpec>',
]
# How often a constraint is put to where it breaks rule 2, to where it breaks none, and to where it breaks another.
CONSTRAINED = {"schemaSpec": 4, "specGrp": 5, "elementSpec": 4, "classSpec": 4, "macroSpec": 2, "dataSpec": 2, "attDef": 8}
UNCONSTRAINED = dict.fromkeys("desc exemplum p body remarks TEI div item gloss".split(), 1)
MISPLACED = dict.fromkeys("attList content classes valList valItem datatype sequence alternate dataRef altIdent constraintSpec".split(), 1)
START_TAG = r'<(?:t:)?(?:%s)(?: [^ =]+="[^"]*")*>'


def put_around(rng, weighted, inside):
    """One of the weighted texts with this inside."""
    return rng.choices([text for text, _ in weighted], [weight for _, weight in weighted])[0].replace("%s", inside)


def put_into(rng, text, locals, inside):
    """A file with something put into an element of one of these names, where there is one."""
    places = [tag.end() for tag in re.finditer(START_TAG % "|".join(locals), text)]
    if not places:
        return text
    at = rng.choice(places)
    return text[:at] + inside + text[at:]


def put_among(rng, pieces, piece):
    pieces.insert(rng.randrange(len(pieces) + 1), piece)


def children_written(text):
    """What stands before the children of an element, each child with what stands after it, and the end tag."""
    data, starts, levels = text.encode(), [], collections.deque()
    parser = xml.parsers.expat.ParserCreate()

    def start(name, attrs):
        if len(levels) == 1:
            starts.append(parser.CurrentByteIndex)
        levels.append(name)

    parser.StartElementHandler, parser.EndElementHandler = start, lambda name: levels.pop()
    parser.Parse(data, True)
    cuts = [*starts, data.rindex(b"</")]
    return data[: cuts[0]].decode(), [data[first:last].decode() for first, last in zip(cuts, cuts[1:])], data[cuts[-1] :].decode()


def made_group(rng, ident, inside):
    named = "" if ident is None else f' xml:id="{ident}"'
    tag, ns = rng.choice(["specGrp"] * 9 + ["t:specGrp"]), rng.choice(["", "", "", ' ns="urn:g"'])
    return f"<{tag}{ns}{named}{rng.choice(BINDINGS)}>{rng.choice(['', '', 't'])}{inside}</{tag}>"


def put_apart(rng, group, around, outside):
    """Puts a group to where it does not stand among the items: outside of the schemaSpec, or into what is passed over."""
    place, pieces = rng.random(), rng.choice(around)
    tags = {at: tag.end() for at, piece in enumerate(pieces) if (tag := re.match(START_TAG % r"\w+Spec", piece))}
    if place < 0.7:
        put_among(rng, rng.choice(outside), put_around(rng, PROSE + DECLARED, group))
    elif place < 0.85 or not tags:
        put_among(rng, pieces, put_around(rng, AMONG_ITEMS, group))
    else:
        at = rng.choice(sorted(tags))
        pieces[at] = pieces[at][: tags[at]] + put_around(rng, IN_DECLARATIONS, group) + pieces[at][tags[at] :]


def grouped(rng, schema):
    """What stands before a schemaSpec, the schemaSpec with some of its items in groups, and what stands after it."""
    head, items, end = children_written(schema)
    ids, outside = rng.sample(IDS, rng.choice([1, 1, 2, 2, 3, 4, 6])), ([], [])
    groups = [items]
    for _ in ids:
        around = rng.choice(groups)
        moved = sorted(rng.sample(range(len(around)), rng.randrange(min(len(around), 8) + 1)), reverse=True)
        groups.append([around.pop(at) for at in moved])
    # What is in a group is put there before the group is written.
    for at in range(len(ids), 0, -1):
        ident, inside, around = ids[at - 1], "".join(groups[at]), groups[:at]
        if rng.random() < 0.4:
            put_among(rng, rng.choice(around), made_group(rng, ident if rng.random() < 0.7 else None, inside))
            continue
        put_apart(rng, made_group(rng, ident, inside), around, outside)
        if rng.random() < 0.95:
            put_among(rng, rng.choice(around), f"<specGrpRef {rng.choice(REFERENCES)}".replace("@", ident))
    return "".join(outside[0]), head + "".join(items) + end, "".join(outside[1])


def without_schema(rng, schema):
    """A file that has the items of a schemaSpec and none itself, seldom a declaration alone."""
    pieces = children_written(schema)[1]
    alone = [piece for piece in pieces if re.fullmatch(r"<((?:t:)?\w+Spec) .*</\1>", piece, re.S)]
    if alone and rng.random() < 0.03:
        return rng.choice(alone)
    rng.shuffle(pieces)
    for _ in range(rng.randrange(6)):
        first, last = sorted((rng.randrange(len(pieces) + 1), rng.randrange(len(pieces) + 1)))
        inside, ident = "".join(pieces[first:last]), rng.choice([None, rng.choice(IDS)])
        pieces[first:last] = [made_group(rng, ident, inside) if rng.random() < 0.4 else put_around(rng, PROSE + DECLARED[rng.randrange(20) :], inside)]
    if rng.random() < 0.1:
        put_among(rng, pieces, f"<specGrpRef {rng.choice(WRONG_REFERENCES)}".replace("@", "g"))
    root = rng.choice(["TEI"] * 80 + ["t:TEI", "specGrp", "div"] * 8 + ["x:x"])
    return f"<{root}>{''.join(pieces)}</{root}>"


def with_fault(rng, text):
    """A file with something in it that mostly breaks a rule of groups."""
    ids = re.findall(r'xml:id="([^"]*)"', text) or IDS[:1]
    ident = rng.choice(ids)
    if rng.random() < 0.6:
        return put_into(rng, text, ["schemaSpec", "specGrp"], f"<specGrpRef {rng.choice(WRONG_REFERENCES + REFERENCES[:6])}".replace("@", ident))
    group = made_group(rng, ident, rng.choice(IN_GROUPS).replace("@", rng.choice(ids)))
    return put_into(rng, text, rng.choice([["schemaSpec", "specGrp"], UNCONSTRAINED, CONSTRAINED]), group)


def with_constraints(rng, text, aside):
    """A file with constraints, more of them where they are to be taken out."""
    for _ in range(rng.choice([0, 0, 1, 1, 2, 3, 6]) if aside else rng.random() < 0.04):
        places = {**(CONSTRAINED if aside or rng.random() < 0.3 else {}), **UNCONSTRAINED, **(MISPLACED if rng.random() < 0.02 else {})}
        text = put_into(rng, text, rng.choices(list(places), list(places.values())), rng.choice(CONSTRAINTS))
    return text
