#!/usr/bin/env python3
"""Compares the accounts of elements that odd writes with accounts that are worked out apart from it.

    checks/accounts.py PROGRAM [COUNT]

PROGRAM is the built program odd, COUNT how many chains are made (1,000 where it is not given), from a fixed seed and by checks/offences.py. Of each
chain, with the word `aside` and without it, the account of each element of the library after it is asked for, and that of an ident at which no element
is held; and each account again with a merged ODD in the place of the first files. The same is asked of the source and the customisation of examples/
that are of the shape of TEI's own. What is wanted comes from the library that checks/merging.py and checks/attribute_forms.py give.

Ends with 1 where an answer differs. A run has 2 GiB of memory at most, and no chain needs as much.
"""

import pathlib
import random
import resource
import subprocess
import sys
import tempfile

import attribute_forms
import merging
import offences
from merged_odd import shifted, taken_out
from offences import Answer

SEED = 20261202
COUNT = 1000
EXAMPLES = pathlib.Path(__file__).resolve().parent.parent / "examples"


def in_bytes(words):
    """Words in the order of their bytes, each once."""
    return sorted(set(words), key=str.encode)


def givers(offers, key):
    """What gives each attribute: the least class, or `-` where the element sets it."""
    of = {}
    for offer in offers:
        of.setdefault(offer.ident, []).append(offer)
    for ident in in_bytes(of):
        classes = in_bytes(offer.giver[1] for offer in of[ident] if offer.giver != key)
        yield ident, dict(of[ident][0].definition)["usage"], classes[0] if classes else "-"


class Accounts:
    """The accounts of the elements of a chain that has no offence."""

    def __init__(self, files, aside):
        _, self.library, kept = offences.library_of(files)
        self.offers = attribute_forms.offers_of(self.library, offences.edits_in(self.library, kept))
        self.note = f"odd: set aside {sum(file.asides for file in files)}\n" if aside else ""

    def idents(self):
        return [ident for kind, ident in self.library if kind == "element"]

    def lines(self, ident):
        """The lines of the account of a held element."""
        key = "element", ident
        part = self.library[key]
        yield f"element {ident}"
        yield f"name {{{part.ns}}}{part.alt or ident}"
        if part.module:
            yield f"module {part.module}"
        for name in in_bytes(name for _, name in merging.reached(self.library, key, merging.links)):
            yield f"member {name}"
        for name, usage, giver in givers(self.offers[key], key):
            yield f"attribute {name} {'req' if usage == 'req' else 'opt'} {giver}"

    def of(self, ident):
        """The answer of `explain` of the ident."""
        if ("element", ident) not in self.library:
            return Answer(2, f"odd: explain {ident}: rule 21\n", "")
        return Answer(0, self.note, "".join(line + "\n" for line in self.lines(ident)))


def wanted(chain, aside):
    """The answers of `explain` to a chain, by the idents that are asked for: all elements after the files, where they have no offence, and two others."""
    made = []
    refused = offences.answer(chain, aside, lambda files, aside: made.append(Accounts(files, aside)))
    idents = in_bytes(["nothing", "att.global", *(made[0].idents() if made else [])])
    return {ident: made[0].of(ident) if made else refused for ident in idents}


def run(program, folder, words):
    result = subprocess.run([program, *words], capture_output=True, cwd=folder)
    return Answer(result.returncode, result.stderr.decode(), result.stdout.decode())


def compared(program, chain, counts):
    """Compares the accounts of a chain, and gives what differs."""
    found = []
    with tempfile.TemporaryDirectory() as name:
        folder = pathlib.Path(name)
        names = offences.put(folder, chain)
        for aside in (False, True):
            before = ["aside"] * aside
            base = run(program, folder, [*before, "merge", names[0]])
            (folder / "base").write_text(base.schema, newline="")
            for ident, answer in wanted(chain, aside).items():
                given = run(program, folder, [*before, "explain", ident, *names])
                counts[given.code] = counts.get(given.code, 0) + 1
                if given != answer:
                    found += [f"explain {ident}, aside {aside}", *map(offences.shown, map(str, [*answer, *given]))]
                if base.code == 0 and (after := run(program, folder, [*before, "explain", ident, "base", *names[1:]])) != shifted(given, 1, taken_out(base)):
                    found += [f"explain {ident} with a base, aside {aside}", *map(offences.shown, map(str, [*given, *after]))]
    return found


def main(program, count):
    resource.setrlimit(resource.RLIMIT_AS, (offences.MOST_MEMORY, offences.MOST_MEMORY))
    program, rng, counts, differing = pathlib.Path(program).resolve(), random.Random(SEED), {}, 0
    chains = [[(EXAMPLES / name).read_bytes().rstrip() for name in names] for names in (["tei-like.odd"], ["tei-like.odd", "letters-custom.odd"])]
    for number in range(count):
        aside = rng.random() < 0.4
        chains.append(offences.spoiled(rng, offences.brought_near(rng, offences.made_files(rng, aside), aside)))
    for number, chain in enumerate(chains):
        if found := compared(program, chain, counts):
            differing += 1
            print(f"chain {number}", *(data and data.decode() for data in chain), *found, sep="\n", end="\n\n", flush=True)
    print("answers by code", ", ".join(f"{code}: {number}" for code, number in sorted(counts.items())))
    print(f"{len(chains)} chains, {differing} that differ")
    return 1 if differing else 0


if __name__ == "__main__":
    sys.exit(main(sys.argv[1], int(sys.argv[2]) if len(sys.argv) > 2 else COUNT))
