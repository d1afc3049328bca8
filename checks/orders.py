#!/usr/bin/env python3
"""Asks whether the answers to a chain of ODD files depend on the order in which its files say things.

    checks/orders.py PROGRAM [COUNT]

PROGRAM is the built program odd, COUNT how many chains are made (2,000 where it is not given), from a fixed seed and by checks/offences.py; only those
count that merge. Each file is then said in another order: the items under one `schemaSpec` or `specGrp`, the children of one `attList`, the `memberOf` of
one `classes` and the `valItem` of one `valList` are shuffled, and white space is put between elements. `merge`, `compile` and `explain` of up to four
elements have to answer the same, byte for byte, with the word `aside` and without it. The same is asked of the source and the customisation of examples/
that are of the shape of TEI's own.

Ends with 1 where an answer differs. A run has 2 GiB of memory at most, and no chain needs as much.
"""

import collections
import pathlib
import random
import re
import resource
import subprocess
import sys
import tempfile
import xml.parsers.expat

import offences
from offences import TEI, Answer

SEED = 20261203
COUNT = 2000
EXPLAINED = 4
EXAMPLES = pathlib.Path(__file__).resolve().parent.parent / "examples"
TAG = re.compile(rb"""<(?:[^"'>]|"[^"]*"|'[^']*')*>""")
SPECS = ("elementSpec", "classSpec", "macroSpec", "dataSpec")
ITEMS = (*SPECS, "moduleRef", "elementRef", "classRef", "macroRef", "dataRef", "specGrp", "specGrpRef")
# What may be shuffled in each element.
LOOSE = {"schemaSpec": ITEMS, "specGrp": ITEMS, "attList": ("attDef", "attRef", "attList"), "classes": ("memberOf",), "valList": ("valItem",)}


class Element:
    """An element, with the bytes at which it begins and ends and what stands in it. Until its end tag is read, it ends with its start tag."""

    def __init__(self, name, start, end):
        ns, _, self.local = name.rpartition("|")
        self.is_tei, self.start, self.end, self.inside, self.prose = ns == TEI, start, end, [], False


def parsed(data):
    """The root element."""
    top = Element("|", 0, 0)
    held = [top]
    parser = xml.parsers.expat.ParserCreate(namespace_separator="|")

    def begin(name, _):
        at = parser.CurrentByteIndex
        element = Element(name, at, TAG.match(data, at).end())
        held[-1].inside.append(element)
        held.append(element)

    def end(_):
        element = held.pop()
        if data[element.end - 2 : element.end] != b"/>":
            element.end = TAG.match(data, parser.CurrentByteIndex).end()

    def text(given):
        held[-1].prose |= bool(given.strip())

    parser.StartElementHandler, parser.EndElementHandler, parser.CharacterDataHandler = begin, end, text
    parser.Parse(data, True)
    return top.inside[0]


def order_of(rng, element):
    """The children of an element in another order, where it may have one."""
    loose = [at for at, child in enumerate(element.inside) if element.is_tei and child.is_tei and child.local in LOOSE.get(element.local, ())]
    made = list(element.inside)
    for at, new in zip(loose, rng.sample(loose, len(loose))):
        made[at] = element.inside[new]
    return made


def space(rng, element):
    """White space to put beside a child of an element without prose."""
    return b"" if element.prose or rng.random() < 0.8 else rng.choice([b" ", b"\n", b"\t", b"\r\n", b"\n    "])


def said(rng, data, element):
    """The bytes of an element, said in another order."""
    made, at = [], element.start
    for old, new in zip(element.inside, order_of(rng, element)):
        made += [data[at : old.start], space(rng, element), said(rng, data, new), space(rng, element)]
        at = old.end
    return b"".join([*made, data[at : element.end]])


def in_another_order(rng, data):
    root = parsed(data)
    return data[: root.start] + said(rng, data, root) + data[root.end :]


def run(program, folder, words):
    result = subprocess.run([program, *words], capture_output=True, cwd=folder)
    return Answer(result.returncode, result.stderr.decode(), result.stdout.decode())


def commands_for(rng, merged):
    """The commands that are compared."""
    idents = re.findall('<elementSpec [^>]*ident="([^"]*)"', merged)
    return [["merge"], ["compile"], *(["explain", ident] for ident in rng.sample(idents, min(EXPLAINED, len(idents))))]


def compared(program, chain, rng, counts):
    """Compares the answers to a chain in two orders, and gives what differs."""
    found = []
    with tempfile.TemporaryDirectory() as name:
        folder = pathlib.Path(name)
        names = offences.put(folder, chain)
        for before in ([], ["aside"]):
            merged = run(program, folder, [*before, "merge", *names])
            if merged.code:
                continue
            shuffled = [in_another_order(rng, data) for data in chain]
            others = [f"other{number}" for number in range(len(chain))]
            for other, data in zip(others, shuffled):
                (folder / other).write_bytes(data)
            counts["files that are said otherwise"] += sum(map(bytes.__ne__, chain, shuffled))
            for command in commands_for(rng, merged.schema):
                first, second = (run(program, folder, [*before, *command, *files]) for files in (names, others))
                counts[f"{' '.join(before + command[:1])} {first.code}"] += 1
                if first != second:
                    found += [" ".join(before + command), *(data.decode() for data in shuffled), *map(offences.shown, map(str, [*first, *second]))]
    return found


def main(program, count):
    resource.setrlimit(resource.RLIMIT_AS, (offences.MOST_MEMORY, offences.MOST_MEMORY))
    program, rng, counts, differing = pathlib.Path(program).resolve(), random.Random(SEED), collections.Counter(), 0
    chains = [[(EXAMPLES / name).read_bytes().rstrip() for name in names] for names in (["tei-like.odd"], ["tei-like.odd", "letters-custom.odd"])]
    chains += [offences.made_files(rng, rng.random() < 0.4) for _ in range(count)]
    for number, chain in enumerate(chains):
        if found := compared(program, chain, rng, counts):
            differing += 1
            print(f"chain {number}", *(data.decode() for data in chain), *found, sep="\n", end="\n\n", flush=True)
    print("answers by command and code", ", ".join(f"{what}: {number}" for what, number in sorted(counts.items())))
    print(f"{len(chains)} chains, {differing} that differ")
    return 1 if differing else 0


if __name__ == "__main__":
    sys.exit(main(sys.argv[1], int(sys.argv[2]) if len(sys.argv) > 2 else COUNT))
