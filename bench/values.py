#!/usr/bin/env python3
"""How fast patterns of values are read and matched, texts are tested and collapsed, and items are made, at two sizes.

    bench/values.py PROGRAM

PROGRAM is the built program of crates/odd_cases. Each question is given to it as one case, with the answer worked out here; a wrong answer
ends with 1. The least processor time of three runs in seconds, the greatest memory in MB and how many times those of the smaller size
that is are printed. Beside them stand the time and memory of `xmllint --noout --relaxng` over a schema with that pattern or type and a small
document, of `jing` for the same files, and of Python's `re` for the match alone; a dash where it refuses them or is not asked, and "longer"
where it has not ended after 20 seconds.

GNU time (Debian's package `time`) starts each run and tells its memory.
"""
import pathlib
import random
import re
import string
import subprocess
import sys
import tempfile
from xml.sax.saxutils import escape

RUNS = 3
LIMIT = 20  # seconds for one run
LONGER = "longer"
SCHEMA = """<element name="a" xmlns="http://relaxng.org/ns/structure/1.0" datatypeLibrary="http://www.w3.org/2001/XMLSchema-datatypes">
<data type="{kind}">{param}</data>
</element>
"""


def class_of_many(size):
    """A class with so many members."""
    text = "[" + "ab" * (size // 2) + "]"
    return f"pattern\t{text}\t{text}", "token", text, "a"


def branches(size):
    """So many branches."""
    text = "|".join(["a"] * size)
    return f"pattern\t{text}\t{text}", "token", text, "a"


def too_deep(size):
    """So many levels of parentheses, which are never closed."""
    return f"pattern\t{'(' * size}\tnone at {size}", None, None, None


def too_large(size):
    """So many characters, which pass the limit of the size."""
    return f"pattern\t{'a' * size}\tnone at {size}", None, None, None


def digits(size):
    """A whole number of so many digits."""
    text = "-" + "7" * size
    return f"fits\tinteger\t{text}\tyes", "integer", None, text


def name(size):
    """A name of so many characters."""
    return f"fits\tNCName\t{'a' * size}\tyes", "NCName", None, "a" * size


def words(size):
    """So many words of one letter, collapsed."""
    return f"collapse\t {'a  ' * size}\t{' '.join('a' * size)}", "token", None, " " + "a  " * size


def facets(size):
    """An item with so many facets, of which one is twice."""
    return "item\ttoken" + "\tpattern=a" * size + "\trule 4", None, None, None


def matched(pattern, texts, told=None):
    """A question of texts, of which other validators are asked where it is one."""
    told = told or ["yes" if re.fullmatch(pattern, text) else "no" for text in texts]
    line = "\t".join(["match", pattern, *texts, " ".join(told)])
    return (line, "token", pattern, texts[0]) if len(texts) == 1 else (line, None, None, None)


def optional_copies(size):
    """(a?){n}a{n}, and so many letters."""
    return matched(f"(a?){{{size}}}a{{{size}}}", ["a" * size], ["yes"])


def stars(size):
    """(a*)*b, and so many letters."""
    return matched("(a*)*b", ["a" * size + "b"], ["yes"])


def late(size):
    """[ab]*a[ab]{14}, and so many letters."""
    letters = random.Random(size).choices("ab", k=size)
    letters[-15] = "a"
    return matched("[ab]*a[ab]{14}", ["".join(letters)])


def ranges(size):
    """A class of 10,000 ranges, and so many characters of them."""
    low = [chr(0x4E00 + 2 * place) for place in range(10_000)]
    return matched("[" + "".join(f"{c}-{c}" for c in low) + "]*", ["".join(random.Random(size).choices(low, k=size))])


def alternation(size):
    """So many words of four letters as branches, and each of them."""
    rng = random.Random(size)
    words = set()
    while len(words) < size:
        words.add("".join(rng.choices(string.ascii_lowercase, k=4)))
    return matched("|".join(sorted(words)), sorted(words))


def others(size):
    """[^ ]+, and so many letters."""
    return matched("[^ ]+", ["a" * size])


def unmatched(size):
    """The same letters beside a pattern that is none: what it takes to read them, and no more."""
    return f"match\t(\t{'a' * size}\tno pattern", None, None, None


QUESTIONS = [
    (class_of_many, 500_000, 1_000_000),
    (branches, 9_500, 19_000),
    (too_deep, 8_000_000, 16_000_000),
    (too_large, 8_000_000, 16_000_000),
    (digits, 4_000_000, 8_000_000),
    (name, 4_000_000, 8_000_000),
    (words, 2_000_000, 4_000_000),
    (facets, 500_000, 1_000_000),
    (optional_copies, 250, 500),
    (stars, 50_000, 100_000),
    (late, 50_000, 100_000),
    (ranges, 166_666, 333_333),
    (alternation, 2_450, 4_900),
    (others, 5_000_000, 10_000_000),
    (unmatched, 5_000_000, 10_000_000),
]
MATCHING = """import re, sys, time
pattern, *texts = open(sys.argv[1], encoding="utf-8").read().split("\\t")
begun = time.process_time()
pattern = re.compile(pattern)
for text in texts:
    pattern.fullmatch(text)
print(time.process_time() - begun)
"""


def timed(command, folder, wants):
    """The least time in seconds and the greatest memory in MB of a command, LONGER, or None where it does not answer what it should."""
    times, sizes = [], []
    for _ in range(RUNS):
        command_timed = ["timeout", str(LIMIT), "/usr/bin/time", "-f", "%U %S %M", *command]
        run = subprocess.run(command_timed, cwd=folder, capture_output=True, text=True)
        if run.returncode == 124:
            return LONGER
        if not wants(run):
            return None
        user, system, kilobytes = run.stderr.split()[-3:]
        times.append(float(user) + float(system))
        sizes.append(int(kilobytes) / 1000)
    return min(times), max(sizes)


def of_program(program, line):
    with tempfile.TemporaryDirectory() as folder:
        for sub in ("cases", "wrong", "malformed"):
            (pathlib.Path(folder) / sub).mkdir()
        (pathlib.Path(folder) / "cases" / "one").write_text("=== values\n" + line + "\n", encoding="utf-8")
        return timed([program], folder, lambda run: run.stdout == "1 cases, 0 differ\n") or sys.exit(f"another answer: {line[:60]}")


def of_other(command, kind, pattern, text):
    """What another validator takes, or None where it is not asked or refuses."""
    if kind is None:
        return None
    with tempfile.TemporaryDirectory() as folder:
        param = "" if pattern is None else f'<param name="pattern">{escape(pattern)}</param>'
        (pathlib.Path(folder) / "s.rng").write_text(SCHEMA.format(kind=kind, param=param))
        (pathlib.Path(folder) / "d.xml").write_text(f"<a>{escape(text)}</a>\n")
        return timed([*command, "s.rng", "d.xml"], folder, lambda run: run.returncode == 0)


def of_python(line):
    """The processor time in seconds that Python's `re` takes for the patterns and texts of a question, or None where it is another or has no pattern."""
    call, *fields = line.split("\t")
    if call != "match":
        return None
    with tempfile.NamedTemporaryFile("w", encoding="utf-8", newline="") as file:
        file.write("\t".join(fields[:-1]))
        file.flush()
        try:
            run = subprocess.run([sys.executable, "-c", MATCHING, file.name], capture_output=True, text=True, timeout=LIMIT)
        except subprocess.TimeoutExpired:
            return LONGER
        return None if run.returncode else f"{float(run.stdout):.3f} s"


def shown(figures):
    if figures == LONGER:
        return LONGER
    return "-" if figures is None else f"{figures[0]:.2f} s, {figures[1]:.0f} MB"


def main(program):
    program = str(pathlib.Path(program).resolve())
    print("question | size | odd | times the smaller: time, memory | xmllint | jing | Python's re")
    for question, *sizes in QUESTIONS:
        before = None
        for size in sizes:
            line, kind, pattern, text = question(size)
            own = of_program(program, line)
            growth = "" if before is None else f"{own[0] / max(before[0], 0.01):.1f}, {own[1] / before[1]:.1f}"
            validators = [of_other(command, kind, pattern, text) for command in (["xmllint", "--huge", "--noout", "--relaxng"], ["jing"])]
            print(f"{question.__doc__} | {size:,} | {shown(own)} | {growth} | {shown(validators[0])} | {shown(validators[1])} | {of_python(line) or '-'}", flush=True)
            before = own


if __name__ == "__main__":
    main(sys.argv[1])
