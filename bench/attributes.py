#!/usr/bin/env python3
"""How fast attribute lists are read, and edits of them laid over one another, at two sizes.

    bench/attributes.py PROGRAM

PROGRAM is the built program of crates/odd_cases. Each question is given to it as one case, with the answer worked out here; a wrong answer
ends with 1. What is printed is as of bench/values.py; beside it stand the time and memory of `xmllint --noout` over a file with the same
lists.
"""
import pathlib
import sys
import tempfile

from values import of_program, shown, timed

TEI = "http://www.tei-c.org/ns/1.0"


def falling(size, letter):
    """So many idents, the last of their order first."""
    return [f"{letter}{number:06}" for number in range(size, 0, -1)]


def values(size):
    """an attribute with a list of so many values"""
    idents = falling(size, "v")
    items = "".join(f'<valItem ident="{ident}"/>' for ident in idents)
    return [f'><attDef ident="a"><valList type="closed">{items}</valList></attDef></attList>'], f"a opt closed|{'|'.join(reversed(idents))}"


def attributes(size):
    """so many attributes"""
    idents = falling(size, "a")
    return ["".join([">", *(f'<attDef ident="{ident}"/>' for ident in idents), "</attList>"])], " ; ".join(f"{ident} opt" for ident in reversed(idents))


def nested(size):
    """so many attributes, in 100 lists in one another"""
    idents = falling(size, "a")
    each = size // 100
    parts = ["".join(f'<attDef ident="{ident}"/>' for ident in idents[each * level : each * (level + 1)]) for level in range(100)]
    return [">" + "<attList>".join(parts) + "</attList>" * 100], " ; ".join(f"{ident} opt" for ident in reversed(idents))


def edits(size):
    """so many edits over as many"""
    idents = falling(size, "a")
    first = "".join(f'<attDef ident="{ident}" usage="req"/>' for ident in idents)
    second = "".join(f'<attDef ident="{ident}" mode="change"><datatype><dataRef key="d"/></datatype></attDef>' for ident in idents)
    return [f">{first}</attList>", f">{second}</attList>"], " ; ".join(f"{ident} req key=d 1..1" for ident in reversed(idents))


QUESTIONS = [(values, 100_000, 200_000), (attributes, 50_000, 100_000), (nested, 50_000, 100_000), (edits, 50_000, 100_000)]


def of_xmllint(lists):
    """What xmllint takes to read the lists."""
    with tempfile.TemporaryDirectory() as folder:
        text = "".join(f"<attList{text}" for text in lists)
        (pathlib.Path(folder) / "l.xml").write_text(f'<lists xmlns="{TEI}">{text}</lists>\n')
        return timed(["xmllint", "--huge", "--noout", "l.xml"], folder, lambda run: run.returncode == 0)


def main(program):
    program = str(pathlib.Path(program).resolve())
    print("question | size | odd | times the smaller: time, memory | xmllint")
    for question, *sizes in QUESTIONS:
        before = None
        for size in sizes:
            lists, answer = question(size)
            own = of_program(program, "\t".join(["edits", *lists, answer]))
            growth = "" if before is None else f"{own[0] / max(before[0], 0.01):.1f}, {own[1] / before[1]:.1f}"
            print(f"{question.__doc__} | {size:,} | {shown(own)} | {growth} | {shown(of_xmllint(lists))}", flush=True)
            before = own


if __name__ == "__main__":
    main(sys.argv[1])
