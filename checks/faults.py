#!/usr/bin/env python3
"""Makes each read and each write of a run over memory fault in turn, and compares status, note and output with what docs/commands.md says.

    checks/faults.py CASES PROGRAM

CASES is the built program of crates/odd_cases, whose files and outputs stand in memory: a read brings 16 bytes and an output takes 10 at a time.
PROGRAM is the built program odd, by which the answers without a fault are had. The runs are `merge`, `compile` and `explain` of the two files of
examples/, `compile` with `aside` of two files with a constraint, and one that is refused. For each run every call on the files, on the output and on
the note faults once, and one more, which does not come. Prints each answer that differs and how many runs there were. Ends with 0 only where none
differed. Where the note faults, a beginning of its line has to stand there.
"""

import pathlib
import subprocess
import sys
import tempfile

EXAMPLES = pathlib.Path(__file__).resolve().parent.parent / "examples"
READ, PUT = 16, 10
CHAIN = [(EXAMPLES / name).read_text() for name in ("source.odd", "edition.odd")]
ASIDE = [
    '<schemaSpec xmlns="http://www.tei-c.org/ns/1.0" ident="s" start="a"><elementSpec ident="a"><constraintSpec ident="c"/></elementSpec></schemaSpec>',
    '<schemaSpec xmlns="http://www.tei-c.org/ns/1.0" ident="t" start="a"><elementRef key="a"/></schemaSpec>',
]
REFUSED = [CHAIN[0], ASIDE[0]]
RUNS = [
    (["merge", "f", "g"], CHAIN),
    (["compile", "f", "g"], CHAIN),
    (["explain", "p", "f", "g"], CHAIN),
    (["aside", "compile", "f", "g"], ASIDE),
    (["compile", "f", "g"], REFUSED),
]


def escaped(text):
    return text.replace("\\", "\\\\").replace("\n", "\\n").replace("\t", "\\t").replace("\r", "\\r")


def calls_of(size):
    """The calls on a file: it is begun, and read until nothing is left."""
    return 1 + -(-size // READ) + 1


def case(words, files, device, call, answer):
    """A case of crates/odd_cases."""
    status, out, note = answer
    parts = [f"=== words {' '.join(words)}"]
    for name, text in zip("fg", files):
        parts += [f"=== file {name} escaped", escaped(text)]
    parts += [f"=== fails {device} {call}", f"=== code {status}"]
    parts += ["=== note escaped", escaped(note)] if note else []
    parts += ["=== out escaped", escaped(out)] if out else []
    return "\n".join(parts) + "\n"


def proper(program, words, files):
    """The answer without a fault."""
    with tempfile.TemporaryDirectory() as folder:
        for name, text in zip("fg", files):
            (pathlib.Path(folder) / name).write_text(text, newline="")
        given = subprocess.run([program, *words], cwd=folder, capture_output=True, text=True, timeout=60)
    return given.returncode, given.stdout, given.stderr


def answers(words, files, answer):
    """Each device, the number of a call on it, and the answers of which one has to come where that call faults."""
    status, out, note = answer
    first, second = (calls_of(len(text.encode())) for text in files)
    for call in range(1, first + second + 1):
        yield "shelf", call, [(6, "", f"odd: read fault file {1 if call <= first else 2}\n")]
    yield "shelf", first + second + 1, [answer]
    puts = -(-len(out.encode()) // PUT)
    for call in range(1, puts + 1):
        yield "out", call, [(7, out[: PUT * (call - 1)], "odd: write fault\n")]
    yield "out", puts + 1, [answer]
    # The line is put part by part: what stands on the note is a beginning of it, and all of it where the call does not come.
    for call in range(1, len(note) + 1):
        yield "note", call, [(status, out, note[:end]) for end in range(len(note) + 1)]
    yield "note", len(note) + 1, [answer]


def main(cases, program):
    runs = []
    with tempfile.TemporaryDirectory() as name:
        folder = pathlib.Path(name)
        for sub in ("cases", "wrong", "malformed"):
            (folder / sub).mkdir()
        for words, files in RUNS:
            answer = proper(program, words, files)
            print(f"{' '.join(words)}: status {answer[0]}, {len(answer[1])} bytes, note {answer[2]!r}")
            for device, call, wanted in answers(words, files, answer):
                made = [f"{len(runs):05}_{number:02}_{'_'.join(words)}_{device}_{call}" for number in range(len(wanted))]
                for path, one in zip(made, wanted):
                    (folder / "cases" / path).write_text(case(words, files, device, call, one), newline="")
                runs.append(made)
        told = subprocess.run([cases], cwd=folder, capture_output=True, text=True).stdout.splitlines()
    count = sum(len(made) for made in runs)
    differ = {line.removeprefix("cases/").partition(":")[0]: line for line in told[:-1]}
    wrong = [made for made in runs if all(path in differ for path in made)]
    for made in wrong:
        print(differ[made[0]][:200])
    print(f"{len(runs)} runs, of which {len(wrong)} end otherwise; {told[-1] if told else 'no answer'}")
    return 0 if told and told[-1] == f"{count} cases, {len(differ)} differ" and not wrong else 1


if __name__ == "__main__":
    sys.exit(main(*(str(pathlib.Path(word).resolve()) for word in sys.argv[1:3])))
