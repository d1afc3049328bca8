#!/usr/bin/env python3
"""How fast a class on a cycle is found, or that there is none, in libraries of many classes.

    bench/classes.py PROGRAM

PROGRAM is the built program of crates/odd_cases. For each shape of a library it is given one case, a doc that adds the
classes, with the answer worked out here, at two sizes. The least processor time of three runs in seconds, the greatest memory
in MB and how many times the smaller size that is are printed; a wrong answer ends with 1.

GNU time (Debian's package `time`) starts each run and tells its memory.
"""
import os
import pathlib
import subprocess
import sys
import tempfile

SIZES = (50_000, 100_000)
RUNS = 3


def chain(count):
    """Each class is a member of the next: no cycle."""
    return [(f"c{at:06}", [f"c{at + 1:06}"]) for at in range(count)], None


def wide(count):
    """All classes are members of one: no cycle."""
    return [(f"c{at:06}", ["d"]) for at in range(count)] + [("d", [])], None


def cycle(count):
    """One cycle of all."""
    return [(f"c{at:06}", [f"c{(at + 1) % count:06}"]) for at in range(count)], "c000000"


def pairs(count):
    """Many cycles of two."""
    return [(f"c{at:06}", [f"c{at ^ 1:06}"]) for at in range(count)], "c000000"


def between(count):
    """A chain from one cycle to another, which has the greater idents."""
    links = [(f"c{at:06}", [f"c{at + 1:06}"]) for at in range(count - 1)]
    return links + [(f"c{count - 1:06}", ["d"]), ("d", ["d"]), ("e", ["c000000", "e"])], "d"


def crossings(count):
    """Many classes, each between the same two cycles: each costs a search of its own."""
    return [(f"c{at:06}", ["d"]) for at in range(count)] + [("d", ["d"]), ("e", ["e", *(f"c{at:06}" for at in range(count))])], "d"


def case_of(classes, told):
    """The case of a library of these classes."""
    lines = ["=== docs", "doc s a"]
    lines += [f"add class {ident}" + (f" classes={','.join(of)}" if of else "") for ident, of in classes]
    lines += ["=== library"]
    if told:
        return "\n".join([*lines, f"file 1 class {told} rule 13", ""])
    shown = [f"class {ident}" + (f" classes={','.join(sorted(of))}" if of else "") for ident, of in sorted(classes)]
    return "\n".join([*lines, "s a", *shown, ""])


def measured(program, text):
    """The least time in seconds, and the greatest memory in MB."""
    times, sizes = [], []
    with tempfile.TemporaryDirectory() as folder:
        for name in ("cases", "wrong", "malformed"):
            (pathlib.Path(folder) / name).mkdir()
        (pathlib.Path(folder) / "cases" / "one").write_text(text)
        for _ in range(RUNS):
            run = subprocess.run(["/usr/bin/time", "-f", "%U %S %M", program], cwd=folder, capture_output=True, text=True)
            if run.stdout != "1 cases, 0 differ\n":
                sys.exit(f"another answer: {run.stdout[:200]}")
            user, system, kilobytes = run.stderr.split()[-3:]
            times.append(float(user) + float(system))
            sizes.append(int(kilobytes) / 1000)
    return min(times), max(sizes)


def main(program):
    program = os.path.abspath(program)
    print(f"{'library':12} {'classes':>8} {'seconds':>8} {'MB':>6}   times the time, the memory of the smaller")
    for shape in (chain, wide, cycle, pairs, between, crossings):
        before = None
        for count in SIZES:
            time, size = measured(program, case_of(*shape(count)))
            growth = f"{time / before[0]:.1f}, {size / before[1]:.1f}" if before and before[0] else ""
            print(f"{shape.__name__:12} {count:8} {time:8.2f} {size:6.0f}   {growth}")
            before = time, size


if __name__ == "__main__":
    main(sys.argv[1])
