#!/usr/bin/env python3
"""What an element inherits of one attribute, worked out apart from the program.

    checks/inherited.py PROGRAM RUNS SEED

makes RUNS libraries of two to nine classes, each a member of some of those behind it, and of an element that is a member of some. Each class, and the element, sets the attribute `t`,
deletes it, changes it (its other name, its usage, its datatype, and its list, which is given anew, taken away, or changed value by value) or says nothing of it. All definitions that each
class offers are worked out here, each with the class that set it, as docs/merging.md says, and kept in a set. `odd explain` has to answer rule 15 where the element inherits two that differ and
neither sets nor deletes the attribute, and else what it offers: the usage and the least giver. A difference is printed and its file kept; any ends this with 1.
"""
import collections
import pathlib
import random
import subprocess
import sys
import tempfile

WORDS = ("p", "q", "r", "s")
KINDS = ("closed", "semi", "open")
TYPES = ("token", "NCName")
NAMES = ("x", "y")

Definition = collections.namedtuple("Definition", "alt needed datatype values")
Change = collections.namedtuple("Change", "alt needed datatype values")
DELETE = "delete"


def some(dice, odds, choices):
    """One of the choices, or None."""
    return dice.choice(choices) if dice.random() < odds else None


def made_list(dice):
    """The type of a list, and its values."""
    return dice.choice(KINDS), frozenset(word for word in WORDS if dice.random() < 0.5)


def made_definition(dice):
    values = made_list(dice) if dice.random() < 0.7 else None
    return Definition(some(dice, 0.1, NAMES), dice.random() < 0.3, some(dice, 0.3, TYPES), values)


def made_change(dice):
    """A change; of a list it is the list that is put, DELETE, or a type and marks of values."""
    roll = dice.random()
    if roll < 0.1:
        values = made_list(dice)
    elif roll < 0.15:
        values = DELETE
    elif roll < 0.75:
        values = some(dice, 0.2, KINDS), {word: dice.random() < 0.5 for word in WORDS if dice.random() < 0.4}
    else:
        values = None
    return Change(some(dice, 0.15, NAMES), some(dice, 0.15, (True, False)), some(dice, 0.15, TYPES), values)


def made_edit(dice, none, put, gone):
    """Nothing, a definition, DELETE or a change."""
    roll = dice.random()
    if roll < none:
        return None
    if roll < put:
        return made_definition(dice)
    return DELETE if roll < gone else made_change(dice)


def changed_list(edit, values):
    if edit is None or isinstance(edit[1], frozenset):
        return values if edit is None else edit
    if edit == DELETE or values is None:
        return None
    kind, marks = edit
    words = {word for word in values[1] if marks.get(word, True)} | {word for word, put in marks.items() if put}
    return kind or values[0], frozenset(words)


def changed(change, definition):
    """The definition after a change."""
    return Definition(
        definition.alt if change.alt is None else change.alt,
        definition.needed if change.needed is None else change.needed,
        definition.datatype if change.datatype is None else change.datatype,
        changed_list(change.values, definition.values),
    )


def offered(edit, inherited, giver):
    """What comes of what is inherited by an edit: definitions with their givers."""
    if edit is None:
        return set(inherited)
    if edit == DELETE:
        return set()
    if isinstance(edit, Definition):
        return {(edit, giver)}
    return {(changed(edit, definition), by) for definition, by in inherited}


def list_text(values):
    """The `valList` of a definition or a change."""
    if values is None:
        return ""
    if values == DELETE:
        return '<valList mode="delete"/>'
    kind, words = values
    said = f' type="{kind}"' if kind else ""
    if isinstance(words, frozenset):
        return f"<valList{said}>" + "".join(f'<valItem ident="{word}"/>' for word in sorted(words)) + "</valList>"
    items = "".join(f'<valItem ident="{word}"/>' if put else f'<valItem ident="{word}" mode="delete"/>' for word, put in words.items())
    return f'<valList{said} mode="change">{items}</valList>'


def edit_text(edit):
    """The `attList` of an edit."""
    if edit is None:
        return ""
    if edit == DELETE:
        return '<attList><attDef ident="t" mode="delete"/></attList>'
    mode = ' mode="change"' if isinstance(edit, Change) else ""
    usage = "" if edit.needed is None else f' usage="{"req" if edit.needed else "opt"}"'
    name = f"<altIdent>{edit.alt}</altIdent>" if edit.alt else ""
    datatype = f'<datatype><dataRef name="{edit.datatype}"/></datatype>' if edit.datatype else ""
    return f'<attList><attDef ident="t"{mode}{usage}>{name}{datatype}{list_text(edit.values)}</attDef></attList>'


def spec_text(kind, ident, memberships, edit):
    keys = "".join(f'<memberOf key="{key}"/>' for key in memberships)
    return f'<{kind} ident="{ident}"{" type=" + chr(34) + "atts" + chr(34) if kind == "classSpec" else ""}><classes>{keys}</classes>{edit_text(edit)}</{kind}>'


def made_library(dice):
    """The text of a library, and what the element inherits with its own edit."""
    count = dice.randint(2, 9)
    names = [f"c{at}" for at in range(count)]
    dice.shuffle(names)
    offers, specs = {}, []
    for at in reversed(range(count)):
        of = [names[other] for other in range(at + 1, count) if dice.random() < 0.5]
        edit = made_edit(dice, 0.25, 0.4, 0.43) if of or dice.random() < 0.2 else made_definition(dice)
        offers[names[at]] = offered(edit, set().union(*(offers[name] for name in of)), names[at])
        specs.append(spec_text("classSpec", names[at], of, edit))
    of, edit = [name for name in names if dice.random() < 0.5], made_edit(dice, 0.6, 0.7, 0.8)
    specs.append(spec_text("elementSpec", "e", of, edit))
    text = '<schemaSpec xmlns="http://www.tei-c.org/ns/1.0" ident="s" start="e">' + "".join(specs) + "</schemaSpec>"
    return text, set().union(*(offers[name] for name in of)), edit


def wanted(inherited, edit):
    """The code, and the line on the attribute or on the offence."""
    settles = edit == DELETE or isinstance(edit, Definition)
    if not settles and len({definition for definition, _ in inherited}) > 1:
        return 2, "odd: file 1: element e: rule 15\n"
    of_element = offered(edit, inherited, "-")
    if not of_element:
        return 0, ""
    definition, giver = min(of_element, key=lambda offer: offer[1])
    return 0, f'attribute t {"req" if definition.needed else "opt"} {giver}\n'


def told(program, path):
    run = subprocess.run([program, "explain", "e", path], capture_output=True, text=True)
    lines = run.stderr.splitlines() if run.returncode else [line for line in run.stdout.splitlines() if line.startswith("attribute")]
    return run.returncode, "".join(f"{line}\n" for line in lines)


def main(program, runs, seed):
    dice, counts, wrong = random.Random(seed), collections.Counter(), 0
    folder = pathlib.Path(tempfile.mkdtemp())
    for at in range(int(runs)):
        text, inherited, edit = made_library(dice)
        path = folder / "library.odd"
        path.write_text(text)
        right, answer = wanted(inherited, edit), told(program, path)
        counts["rule 15" if right[0] else "offered" if right[1] else "not offered"] += 1
        counts["of more than two definitions"] += len({definition for definition, _ in inherited}) > 2
        if answer != right:
            kept = path.rename(folder / f"differs{at}.odd")
            print(f"{kept}: {answer}, wanted {right}")
            wrong += 1
    print(f"{runs} libraries, {wrong} differ: " + ", ".join(f"{name} {count}" for name, count in sorted(counts.items())))
    sys.exit(wrong > 0)


if __name__ == "__main__":
    main(*sys.argv[1:])
