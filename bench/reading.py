#!/usr/bin/env python3
"""How fast large files are read, and in how much memory, beside xmllint.

    bench/reading.py PROGRAM [FOLDER]

writes files into FOLDER (a new one under /tmp where none is given):

- an ODD file of 15 MB with 20,000 elementSpec among comments, prose, references and CDATA sections;
- 14 MB of empty elements, and nothing else;
- 140 KB with a namespace of 100 KB, which 10,000 elements have;
- 333,000 elementSpec and nothing else, with their idents rising, falling and shuffled;
- 10,000 elementSpec with a content of 30 parts each, in a sequence or an alternate, with bounds of all forms;
- one elementSpec with a content of 100,000 parts, with the same bounds;
- one elementSpec that is a member of 100,000 classes, their keys falling;
- a chain of two files: a source of 2,000 elements in 40 modules, each with prose and a content of 8 parts, and a
  customisation that takes half of each module and changes 100 elements; and a chain of twice as many;
- a chain of sixteen files: a source of 5 MB in 106 modules, fourteen files that take all of them and change 100 elements each, and
  one that takes one element;
- a root with 200,000 attributes.

The two files with contents, that of memberships and those of declarations, rising and shuffled, are also made at half their size, for the
growth, and the shuffled one at a quarter too.

Then it runs `PROGRAM compile FILE..` and `xmllint --noout FILE..` in turn, five times each, and prints the least processor time
(user and system) in seconds, the greatest memory in MB, how many times the file that is, and how many times xmllint's time
and memory the program takes; where there is a half, also how many times the time and the memory that the half takes. The
program compiles the first, the declarations and the contents, and answers the others with code 10. The last file goes to
PROGRAM alone: xmllint compares its attributes in pairs, for many minutes. The chain of sixteen is also read as XML
alone: in the place of the last file one with an offence of form then stands first, after which none is merged.

GNU time (Debian's package `time`) starts each run and tells its memory: the peak of a program that this interpreter starts
counts what the interpreter held.
"""
import os
import random
import shutil
import sys
import tempfile

SPECS = 20_000
EMPTY = 3_500_000
IN_NAMESPACE = 10_000
DECLARATIONS = 333_000
MODELS = 10_000
PARTS_OF_EACH = 30
PARTS_OF_ONE = 100_000
MEMBERSHIPS = 100_000
ATTRIBUTES = 200_000
CHAINED = 4_000
IN_SIXTEEN = 5_300
IN_MODULE = 50
CHANGED = 20
PARTS_OF_CHAINED = 8
RUNS = 5
# Small bounds of all forms: a part with them has three elements of the schema on an average.
BOUNDS = (
    "",
    ' minOccurs="0"',
    ' minOccurs="0" maxOccurs="unbounded"',
    ' maxOccurs="unbounded"',
    ' minOccurs="2" maxOccurs="2"',
    ' maxOccurs="2"',
    ' minOccurs="2" maxOccurs="unbounded"',
    ' minOccurs="0" maxOccurs="2"',
)
WORDS = "the name of a person, place or thing as it stands in the source".split()


def prose(number):
    words = " ".join(WORDS[(number + i) % len(WORDS)] for i in range(32))
    return f"<p xml:id=\"p{number}\" rend='it&#x61;lic &amp; bold'>{words} &#8212; {words} &lt;hi&gt;</p>"


def spec(number):
    return (
        f"  <!-- specification {number} of {SPECS} -->\r\n"
        f'  <elementSpec ident="e{number}" module="m{number % 20}">\n'
        f"    <gloss xml:lang='en'>an element</gloss>\n"
        f"    <desc>{WORDS[number % len(WORDS)]} &quot;quoted&quot;, caf\u00e9</desc>\n"
        f"    <content><textNode/></content>\n"
        f"    <exemplum><egXML xmlns='http://www.tei-c.org/ns/Examples'><![CDATA[<e{number} n=\"1\">text</e{number}>]]></egXML></exemplum>\n"
        f"    <remarks>{prose(number)}</remarks>\n"
        f"  </elementSpec>\n"
    )


def odd_file():
    specs = "".join(spec(number) for number in range(SPECS))
    return (
        '<?xml version="1.0" encoding="UTF-8"?>\n<?xml-model href="odd.rng"?>\n'
        '<TEI xmlns="http://www.tei-c.org/ns/1.0"><text><body>\n'
        f'<schemaSpec ident="large" start="e0">\n{specs}</schemaSpec>\n</body></text></TEI>\n'
    )


def empty_file():
    return "<a>" + "<a/>" * EMPTY + "</a>\n"


def namespace_file():
    return f'<a xmlns="urn:{"x" * 100_000}">' + "<a/>" * IN_NAMESPACE + "</a>\n"


def schema_file(specs):
    return f'<schemaSpec xmlns="http://www.tei-c.org/ns/1.0" ident="s" start="a000000">{"".join(specs)}</schemaSpec>\n'


def declarations_file(numbers):
    return schema_file(f'<elementSpec ident="a{number:06}"/>\n' for number in numbers)


def shuffled(count):
    numbers = list(range(count))
    random.Random(1).shuffle(numbers)
    return numbers


def part(key, number):
    return f'<elementRef key="a{key:06}"{BOUNDS[number % len(BOUNDS)]}/>\n'


def model_spec(number, models):
    """An element with a content of its own, whose parts are any of so many elements."""
    kind = ("sequence", "alternate")[number % 2]
    parts = "".join(part((number * 7919 + index * 31) % models, number + index) for index in range(PARTS_OF_EACH))
    return f'<elementSpec ident="a{number:06}"><content><{kind}>\n{parts}</{kind}></content></elementSpec>\n'


def models_file(models):
    return schema_file(model_spec(number, models) for number in range(models))


def parts_file(count):
    """One element whose content has so many parts."""
    parts = "".join(part(0, number) for number in range(count))
    return schema_file([f'<elementSpec ident="a000000"><content>\n{parts}</content></elementSpec>\n'])


def memberships_file(count):
    """One element that is a member of so many classes."""
    keys = "".join(f'<memberOf key="k{number:06}"/>\n' for number in range(count, 0, -1))
    return schema_file([f'<elementSpec ident="a000000"><classes>\n{keys}</classes></elementSpec>\n'])


def content_of(number, count):
    parts = "".join(part((number * 7919 + index * 31) % count, number + index) for index in range(PARTS_OF_CHAINED))
    return f"<content><alternate>\n{parts}</alternate></content>"


def source_spec(number, count):
    return (
        f'<elementSpec ident="a{number:06}" module="m{number // IN_MODULE}">\n<gloss xml:lang="en">an element</gloss>\n'
        f"<desc>{prose(number)}</desc>\n{content_of(number, count)}\n</elementSpec>\n"
    )


def module_half(module):
    """A reference to a module that takes each second element of it."""
    words = " ".join(f"a{number:06}" for number in range(module * IN_MODULE, (module + 1) * IN_MODULE, 2))
    return f'<moduleRef key="m{module}" include="{words}"/>\n'


def chain_files(count):
    """A source of so many elements, and a customisation that takes half of them and changes one in twenty."""
    taken = "".join(module_half(module) for module in range(count // IN_MODULE))
    changes = "".join(
        f'<elementSpec ident="a{number:06}" mode="change">{content_of(number + 1, count)}</elementSpec>\n'
        for number in range(0, count, CHANGED)
    )
    return schema_file(source_spec(number, count) for number in range(count)), schema_file([taken, changes])


def sixteen_files():
    """A source, fourteen files that take all of it and change some elements, and one that takes one element."""
    source = schema_file(source_spec(number, IN_SIXTEEN) for number in range(IN_SIXTEEN))
    taken = "".join(f'<moduleRef key="m{module}"/>\n' for module in range(IN_SIXTEEN // IN_MODULE))
    changing = [
        schema_file(
            [taken]
            + [
                f'<elementSpec ident="a{number:06}" mode="change">{content_of(number + file, IN_SIXTEEN)}</elementSpec>\n'
                for number in range(file, IN_SIXTEEN, IN_SIXTEEN // 100)
            ]
        )
        for file in range(14)
    ]
    return [source, *changing, schema_file(['<elementRef key="a000000"/>\n'])]


def wide_file():
    attributes = "".join(f" a{number}='{number}'" for number in range(ATTRIBUTES))
    return f"<wide{attributes}/>\n"


def run(words):
    """The processor time in seconds, the peak memory in MB and the exit code of one run."""
    with tempfile.NamedTemporaryFile("r") as told:
        child = os.fork()
        if child == 0:
            null = os.open(os.devnull, os.O_RDWR)
            for stream in (0, 1, 2):
                os.dup2(null, stream)
            os.execvp("time", ["time", "-f", "%M", "-o", told.name, *words])
        _, status, usage = os.wait4(child, 0)
        memory = int(told.read().split()[-1])
    return usage.ru_utime + usage.ru_stime, memory / 1024, os.waitstatus_to_exitcode(status)


# The name of a file or a chain, how it is made, and whether xmllint reads it too. A half stands before its whole.
FILES = (
    ("large.odd", odd_file, True),
    ("empty.xml", empty_file, True),
    ("namespace.xml", namespace_file, True),
    ("rising-half.odd", lambda: declarations_file(range(DECLARATIONS // 2)), True),
    ("rising.odd", lambda: declarations_file(range(DECLARATIONS)), True),
    ("falling.odd", lambda: declarations_file(reversed(range(DECLARATIONS))), True),
    ("shuffled-half-half.odd", lambda: declarations_file(shuffled(DECLARATIONS // 4)), True),
    ("shuffled-half.odd", lambda: declarations_file(shuffled(DECLARATIONS // 2)), True),
    ("shuffled.odd", lambda: declarations_file(shuffled(DECLARATIONS)), True),
    ("contents-half.odd", lambda: models_file(MODELS // 2), True),
    ("contents.odd", lambda: models_file(MODELS), True),
    ("parts-half.odd", lambda: parts_file(PARTS_OF_ONE // 2), True),
    ("parts.odd", lambda: parts_file(PARTS_OF_ONE), True),
    ("memberships-half.odd", lambda: memberships_file(MEMBERSHIPS // 2), True),
    ("memberships.odd", lambda: memberships_file(MEMBERSHIPS), True),
    ("chain-half.odd", lambda: chain_files(CHAINED // 2), True),
    ("chain.odd", lambda: chain_files(CHAINED), True),
    ("sixteen.odd", sixteen_files, True),
    ("wide.xml", wide_file, False),
)


def measured(readers):
    """The least time, the most memory and the exit codes of each reader, over all runs."""
    runs = [[] for _ in readers]
    for _ in range(RUNS):
        for which, words in enumerate(readers):
            runs[which].append(run(words))
    for each in runs:
        seconds, memory, codes = zip(*each)
        yield min(seconds), max(memory), sorted(set(codes))


def put(folder, name, made):
    """Writes a file, or the files of a chain, and gives the paths."""
    texts = [made] if isinstance(made, str) else made
    paths = [os.path.join(folder, f"{number}-{name}" if number else name) for number in range(len(texts))]
    for path, text in zip(paths, texts):
        with open(path, "w", encoding="utf-8", newline="") as file:
            file.write(text)
    return paths


def compared(title, one, other):
    print(f"  against {title}: {one[0] / other[0]:.2f} times the time, {one[1] / other[1]:.2f} times the memory")


def main():
    if len(sys.argv) not in (2, 3):
        sys.exit(__doc__)
    for needed in ("time", "xmllint"):
        if not shutil.which(needed):
            sys.exit(f"{needed} is needed")
    program = sys.argv[1]
    folder = sys.argv[2] if len(sys.argv) == 3 else tempfile.mkdtemp(prefix="odd-bench-")
    os.makedirs(folder, exist_ok=True)
    own = {}
    for name, make, beside in FILES:
        paths = put(folder, name, make())
        size = sum(map(os.path.getsize, paths))
        print(f"{name}: {size} bytes")
        readers = [[program, "compile", *paths]]
        if beside:
            readers.append(["xmllint", "--huge", "--noout", *paths])
        if len(paths) > 2:
            refused = put(folder, "refused.odd", '<schemaSpec xmlns="http://www.tei-c.org/ns/1.0" start=""/>')
            readers.append([program, "compile", *refused, *paths[:-1]])
        results = list(measured(readers))
        for words, (seconds, memory, codes) in zip(readers, results):
            print(f"  {os.path.basename(words[0])}: {seconds:.3f} s, {memory:.0f} MB, {memory * 1048576 / size:.1f} times the file, codes {codes}")
        if beside:
            compared("xmllint", *results[:2])
        if len(paths) > 2:
            compared("reading as XML alone", results[0], results[2])
        own[name] = results[0]
        half = own.get(name.replace(".", "-half."))
        if half:
            compared("the half", results[0], half)
        sys.stdout.flush()


if __name__ == "__main__":
    main()
