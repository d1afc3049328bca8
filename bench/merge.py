#!/usr/bin/env python3
"""How fast chains are merged, and in how much memory, beside their compilation and xmllint.

    bench/merge.py PROGRAM

Of each of these chains

- the source of examples/ that is of the shape of TEI's own, alone and with the customisation of letters,
- the made sources of TEI's size of bench/schemas.py, with 600 elements and with 1,200, each alone and with a customisation,

it runs `PROGRAM merge` and `PROGRAM compile`, the same over the merged ODD alone, and `xmllint --noout` over the files of the chain, which only reads
them, five times each. It prints the least processor time (user and system) in seconds and the greatest memory in MB, how many bytes the files and the
merged ODD have, and how many times the time and the memory of the half `merge` takes. A merged ODD that is not the same when it is merged again, or whose schema is not that
of its chain, ends this with 1, as does a program that does not end as it should.

GNU time (Debian's package `time`) starts each run and tells its memory.
"""
import os
import pathlib
import subprocess
import sys
import tempfile

from schemas import EXAMPLES, attributes_edition, attributes_source, measured

SIZES = (600, 1200)


def written(program, command, files):
    return subprocess.run([program, command, *files], check=True, capture_output=True).stdout


def merged(program, files, folder):
    """The file of a merged ODD, which stands for the files."""
    path = folder / "merged.odd"
    path.write_bytes(written(program, "merge", files))
    for command in ("merge", "compile"):
        if written(program, command, [path]) != written(program, command, files):
            sys.exit(f"{command} says otherwise of the merged ODD of {files}")
    return path


def row(title, program, files, folder, again, half=None):
    """Prints how a chain compares, and gives the time and the memory of `merge`."""
    path = merged(program, files, folder)
    commands = {
        "merge": [program, "merge", *files],
        "compile": [program, "compile", *files],
        "merge of the merged ODD": [program, "merge", path],
        "compile of the merged ODD": [program, "compile", path],
        "xmllint --noout": ["xmllint", "--noout", *files],
        "xmllint --noout of the merged ODD": ["xmllint", "--noout", path],
    }
    print(f"{title}: {sum(file.stat().st_size for file in files):,} bytes, merged {path.stat().st_size:,}")
    found = {name: measured(command, 0, again) for name, command in commands.items()}
    for name, (time, size) in found.items():
        growth = f", {time / half[0]:.1f} and {size / half[1]:.1f} times the half" if half and name == "merge" else ""
        print(f"  {name:34} {time:7.4f} s {size:5.0f} MB{growth}", flush=True)
    return found["merge"]


def main(program):
    program = os.path.abspath(program)
    source, edition = EXAMPLES / "tei-like.odd", EXAMPLES / "letters-custom.odd"
    with tempfile.TemporaryDirectory() as name:
        folder, halves = pathlib.Path(name), {}
        row("examples/tei-like.odd", program, [source], folder, 10)
        row("the same and examples/letters-custom.odd", program, [source, edition], folder, 10)
        source, edition = folder / "source.odd", folder / "edition.odd"
        for count in SIZES:
            source.write_text(attributes_source(count), encoding="utf-8")
            edition.write_text(attributes_edition(count), encoding="utf-8")
            for title, files in ((f"{count} elements with 60 attributes", [source]), ("the same and a customisation", [source, edition])):
                halves[len(files)] = row(title, program, files, folder, 10, halves.get(len(files)))


if __name__ == "__main__":
    main(sys.argv[1])
