#!/usr/bin/env python3
"""How long many groups, files without a schemaSpec and many constraints take, and how much memory.

    checks/group_sizes.py PROGRAM [COUNT]

PROGRAM is the built program odd. Makes files with COUNT groups, declarations or constraints (100,000 where it is not given) and with half as
many, runs `PROGRAM compile` or `PROGRAM aside compile` on each three times, and prints the bytes of the file, the least processor time (user
and system) in seconds, the greatest memory in MB, the answer, and how many times the half takes of each. Ends with 1 where an answer is not the
one that is worked out here.

GNU time (Debian's package `time`) starts each run and tells its memory.
"""

import os
import random
import re
import subprocess
import sys
import tempfile

TEI = "http://www.tei-c.org/ns/1.0"
RUNS = 3
IN_ONE_ANOTHER = 190
ELEMENT = '<elementSpec ident="a"/>'
REFUSED = "odd: file 1: byte {}: rule {}\n"


def in_schema(inside, before="", after="", bound=""):
    return f'<TEI xmlns="{TEI}"{bound}>{before}<schemaSpec ident="s" start="a">{inside}</schemaSpec>{after}</TEI>\n'


def reference(number):
    return f'<specGrpRef target="#g{number}"/>'


def group(number, inside):
    return f'<specGrp xml:id="g{number}">{inside}</specGrp>\n'


def each_to_the_next(count, order, last=ELEMENT):
    """Groups that each refer to the next, written in an order, of which the schemaSpec refers to the first."""
    groups = [group(number, reference(number + 1) if number < count - 1 else last) for number in range(count)]
    return in_schema(reference(0), after="".join(groups[number] for number in order))


def rising(count):
    return each_to_the_next(count, range(count)), 0, ""


def falling(count):
    return each_to_the_next(count, reversed(range(count))), 0, ""


def shuffled(count):
    order = list(range(count))
    random.Random(1).shuffle(order)
    return each_to_the_next(count, order), 0, ""


def ring(count):
    """The last group refers to the first, to which the schemaSpec refers before it."""
    text = each_to_the_next(count, range(count), reference(0) + ELEMENT)
    return text, 2, REFUSED.format(text.rindex(reference(0)), 4)


def each_by_the_schema(count):
    numbers = list(range(count))
    random.Random(1).shuffle(numbers)
    return in_schema("".join(map(reference, numbers)) + ELEMENT, before="".join(group(number, "") for number in range(count))), 0, ""


def among_the_items(count):
    """Groups among the items that each refer to the one before: the first such reference is to an item."""
    groups = [group(number, reference(number - 1) if number else ELEMENT) for number in range(count)]
    text = in_schema("".join(groups))
    return text, 2, REFUSED.format(text.index(reference(0)), 4)


def in_one_another(count):
    """Groups of as many levels as may be, to which the schemaSpec refers."""
    towers = count // IN_ONE_ANOTHER
    tower = "<specGrp>" * (IN_ONE_ANOTHER - 1)
    groups = [f'<specGrp xml:id="g{number}">{tower}{"</specGrp>" * (IN_ONE_ANOTHER - 1)}</specGrp>' for number in range(towers)]
    return in_schema("".join(map(reference, range(towers))) + ELEMENT, after="".join(groups)), 0, ""


def without_schema(count):
    """Declarations in divisions, and no schemaSpec."""
    divisions = "".join(f'<div><p>t</p><elementSpec ident="a{number}"/></div>\n' for number in range(count))
    return f'<TEI xmlns="{TEI}">{divisions}<specGrp><elementSpec ident="TEI"/></specGrp></TEI>\n', 0, ""


def constraints(count):
    """Elements with a constraint each, of which each second one stands in an attribute."""
    constraint = '<constraintSpec ident="c"><constraint><p/></constraint></constraintSpec>'
    inside = [constraint, f'<attList><attDef ident="t">{constraint}</attDef></attList>']
    return in_schema("".join(f'<elementSpec ident="e{number}">{inside[number % 2]}</elementSpec>\n' for number in range(count)) + ELEMENT), 0, f"odd: set aside {count}\n"


def under_declarations(count):
    """Half as many prefixes that are bound around a group, and half as many elements in it that each name one of them."""
    half = count // 2
    bound = "".join(f' xmlns:p{number}="urn:p"' for number in range(half))
    elements = "".join(f'<elementSpec ident="e{number}"><content><anyElement except="p{number}:b"/></content></elementSpec>\n' for number in range(half))
    return in_schema(reference(0) + ELEMENT, after=f"<div{bound}>{group(0, elements)}</div>"), 0, ""


MADE = {
    "each group refers to the next": rising,
    "each refers to the one before": falling,
    "the same, shuffled": shuffled,
    "in a ring": ring,
    "the schemaSpec refers to each": each_by_the_schema,
    "among the items, each refers to the one before": among_the_items,
    f"in one another, {IN_ONE_ANOTHER} levels": in_one_another,
    "declarations in divisions, without a schemaSpec": without_schema,
    "constraints, with the word": constraints,
    "half as many prefixes, and half as many elements that name one": under_declarations,
}


def ran(program, words, folder):
    """The processor time in seconds, the peak memory in MB, and the code and the note of one run."""
    told = os.path.join(folder, "told")
    result = subprocess.run(["time", "-f", "%U %S %M", "-o", told, program, *words], stdout=subprocess.DEVNULL, stderr=subprocess.PIPE, cwd=folder)
    with open(told) as file:
        user, system, memory = file.read().split("\n")[-2].split()
    return float(user) + float(system), int(memory) / 1024, result.returncode, result.stderr.decode()


def measured(program, made, count):
    """The bytes of a file, the least time, the most memory, and whether each answer is the one that is wanted."""
    text, code, note = made(count)
    words = ["aside"] * note.startswith("odd: set aside") + ["compile", "f"]
    with tempfile.TemporaryDirectory() as folder:
        with open(os.path.join(folder, "f"), "w") as file:
            file.write(text)
        runs = [ran(program, words, folder) for _ in range(RUNS)]
    given = {run[2:] for run in runs}
    return len(text.encode()), min(run[0] for run in runs), max(run[1] for run in runs), given == {(code, note)}


def main(program, count):
    program, are_right = os.path.abspath(program), True
    for title, made in MADE.items():
        (_, half_time, half_memory, half_is_right), (size, time, memory, is_right) = (measured(program, made, number) for number in (count // 2, count))
        are_right = are_right and half_is_right and is_right
        growth = f"{time / half_time if half_time else 0:.1f} and {memory / half_memory:.1f} times the half ({half_time:.2f} s, {half_memory:.0f} MB)"
        print(f"{title}: {size / 1e6:.1f} MB, {time:.2f} s, {memory:.0f} MB, {growth}{'' if half_is_right and is_right else ', ANOTHER ANSWER'}", flush=True)
    return 0 if are_right else 1


if __name__ == "__main__":
    sys.exit(main(sys.argv[1], int(sys.argv[2]) if len(sys.argv) > 2 else 100_000))
