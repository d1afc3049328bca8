#!/usr/bin/env python3
"""How fast libraries of classes and macros are compiled, and in how much memory, beside xmllint and jing.

    bench/schemas.py PROGRAM

compiles, each five times:

- the chain of examples/, a source of the shape of TEI's own and a customisation, and the source alone;
- made sources of TEI's size: 600 elements with 60 attributes each from 180 classes, in 5.5 MB with prose as TEI's own has it, and twice as many; and the
  same with a customisation that changes an attribute of each of 100 elements;
- made files of classes of type `model`, of elements that are members of them, and of contents that name the classes: 900
  elements in 100 classes, where each class but the first ten is a member of another, and the same five and ten times as large;
- 400 classes, each a member of the next, with an element each, so that their schema has 80,000 references to members; and twice as many;
- 10,000 macros, each of which names the next, and twice as many;
- 10,000 classes that give an element one attribute, and 8,000 elements below 8,000 classes of type `atts`, each a member of the next, and twice as many;
- 100 levels of two classes that are members of both of the level before, and of which each adds a value to a list, which the element below deletes; and twice as many;
- two files whose schemas pass the limit of a million elements, which is the answer that is wanted: one of repetitions in one another
  whose numbers multiply to more than 64 bits hold, and one of a class of 100,000 members that is listed 10 times, and of half as many.

In turn it runs `xmllint --noout` over the same files, which only reads them, and prints the least processor time (user and
system) in seconds, the greatest memory in MB, and how many times xmllint's and the half's that is. Then it asks xmllint, and
jing where it is installed, for a verdict on examples/letter.xml by the schema of the examples, and prints their times too. A
program that does not end as it should ends this with 1.

GNU time (Debian's package `time`) starts each run and tells its memory.
"""
import os
import pathlib
import shutil
import subprocess
import sys
import tempfile

RUNS = 5
LIMIT = 5
EXAMPLES = pathlib.Path(__file__).resolve().parent.parent / "examples"
JING = pathlib.Path("/usr/share/java/jing.jar")


def schema_spec(start, items):
    """An ODD file of some declarations."""
    inside = "\n".join(items)
    return f'<schemaSpec xmlns="http://www.tei-c.org/ns/1.0" ident="s" start="{start}">\n{inside}\n</schemaSpec>\n'


def class_spec(ident, of):
    """A class that is a member of others."""
    keys = "".join(f'<memberOf key="{key}"/>' for key in of)
    return f'<classSpec ident="{ident}" type="model"><classes>{keys}</classes></classSpec>'


def element_spec(ident, of, content):
    """An element that is a member of classes."""
    keys = "".join(f'<memberOf key="{key}"/>' for key in of)
    return f'<elementSpec ident="{ident}"><classes>{keys}</classes><content>{content}</content></elementSpec>'


def many_classes(classes):
    """So many classes and nine times as many elements."""
    items = [class_spec(f"c{at:05}", [f"c{at % 10:05}"] if at >= 10 else []) for at in range(classes)]
    for at in range(9 * classes):
        one, other = (at * 7) % classes, (at * 13 + 5) % classes
        content = (
            f'<alternate minOccurs="0" maxOccurs="unbounded"><textNode/><classRef key="c{one:05}"/>'
            f'<classRef key="c{other:05}" except="e{at:05}"/></alternate>'
        )
        items.append(element_spec(f"e{at:05}", [f"c{at % classes:05}"], content))
    return schema_spec("e00000", items)


def nested_classes(classes):
    """Classes in one another, each with an element of its own."""
    items = [class_spec(f"c{at:05}", [f"c{at + 1:05}"] if at + 1 < classes else []) for at in range(classes)]
    items += [element_spec(f"e{at:05}", [f"c{at:05}"], f'<classRef key="c{at:05}" minOccurs="0"/>') for at in range(classes)]
    return schema_spec("e00000", items)


def nested_macros(macros):
    """Macros in one another."""
    items = [element_spec("e", [], '<macroRef key="m00000"/>')]
    items += [f'<macroSpec ident="m{at:05}"><content><macroRef key="m{at + 1:05}" minOccurs="0"/></content></macroSpec>' for at in range(macros)]
    items += [f'<macroSpec ident="m{macros:05}"><content><textNode/></content></macroSpec>']
    return schema_spec("e", items)


def attribute_class(ident, of, attributes):
    """A class of attributes that is a member of others."""
    keys = "".join(f'<memberOf key="{key}"/>' for key in of)
    return f'<classSpec ident="{ident}" type="atts"><classes>{keys}</classes><attList>{attributes}</attList></classSpec>'


def givers(classes):
    """Classes that give an element one attribute."""
    names = [f"c{at:05}" for at in range(classes)]
    return schema_spec("e", [attribute_class(name, [], '<attDef ident="n"/>') for name in names] + [element_spec("e", names, "<empty/>")])


def below_classes(count):
    """Elements below as many classes of attributes in one another."""
    items = [attribute_class(f"c{at:05}", [f"c{at + 1:05}"] if at + 1 < count else [], "") for at in range(count)]
    return schema_spec("e00000", items + [element_spec(f"e{at:05}", ["c00000"], "<empty/>") for at in range(count)])


def levels(count):
    """Levels of two classes, each a member of both of the level before, and each with a value of its own for a list."""
    change = '<attDef ident="n" mode="change"><valList mode="change"><valItem ident="{}"/></valList></attDef>'
    items = [attribute_class(f"{name}{count:04}", [], '<attDef ident="n"><valList type="closed"/></attDef>' if name == "a" else "") for name in "ab"]
    for at in range(count):
        items += [attribute_class(f"{name}{at:04}", [f"a{at + 1:04}", f"b{at + 1:04}"], change.format(f"{name}{at:04}")) for name in "ab"]
    below = '<elementSpec ident="e"><classes><memberOf key="a0000"/><memberOf key="b0000"/></classes><attList><attDef ident="n" mode="delete"/></attList></elementSpec>'
    return schema_spec("e", [*items, below])


def nested_repetitions(depth):
    """A content whose repetitions in one another are written out, as far as the limit allows."""
    inside = '<elementRef key="e"/>'
    for _ in range(depth):
        inside = f'<sequence minOccurs="999999999" maxOccurs="999999999">{inside}</sequence>'
    return schema_spec("e", [element_spec("e", [], inside)])


def listed_members(members):
    """A class of so many members, whose list stands ten times in a content, as one of them is left out."""
    items = [class_spec("c", [])]
    items += [element_spec(f"e{at:06}", ["c"], "<textNode/>") for at in range(members)]
    items += [element_spec("f", [], '<classRef key="c" except="e000000"/>' * 10)]
    return schema_spec("f", items)


PROSE = "Some words on what this is for, as the source of the Guidelines has them in a dozen languages, with examples and remarks. "


def attribute_spec(number, prose):
    """An attribute with a datatype, a list of values or neither."""
    said = [
        '<datatype><dataRef key="data.word"/></datatype>',
        '<datatype maxOccurs="unbounded"><dataRef name="token"><dataFacet name="maxLength" value="40"/></dataRef></datatype>',
        '<valList type="closed"><valItem ident="one"/><valItem ident="two"/><valItem ident="three"/></valList>',
        "",
    ][number % 4]
    return f'<attDef ident="a{number:05}"><desc>{prose}</desc>{said}</attDef>'


def attributes_source(elements):
    """So many elements with 60 attributes each, which come from classes in rows of three with four attributes a class."""
    rows = elements // 10
    items = ['<dataSpec ident="data.word" module="m"><content><dataRef name="token" restriction="[^ ]+"/></content></dataSpec>']
    for at in range(3 * rows):
        of = f'<classes><memberOf key="att.{at + rows}"/></classes>' if at < 2 * rows else ""
        given = "".join(attribute_spec(4 * at + number, PROSE) for number in range(4))
        items.append(f'<classSpec ident="att.{at}" type="atts" module="m">{of}<attList>{given}</attList></classSpec>')
    items.append('<classSpec ident="model.all" type="model" module="m"/>')
    for at in range(elements):
        keys = "".join(f'<memberOf key="att.{(at * 7 + number) % rows}"/>' for number in range(5))
        content = '<alternate minOccurs="0" maxOccurs="unbounded"><textNode/><classRef key="model.all"/></alternate>'
        aside = f"<desc>{PROSE}</desc><exemplum><p>{PROSE * 67}</p></exemplum><remarks><p>{PROSE}</p></remarks>"
        items.append(f'<elementSpec ident="e{at:05}" module="m">{aside}<classes><memberOf key="model.all"/>{keys}</classes><content>{content}</content></elementSpec>')
    return schema_spec("e00000", items)


def attributes_edition(elements):
    """A customisation that takes all, and changes an attribute of each of a hundred elements."""
    rows = elements // 10
    items = ['<moduleRef key="m"/>']
    for at in range(100):
        ident = f"a{4 * ((at * 7) % rows):05}"
        items.append(f'<elementSpec ident="e{at:05}" mode="change"><attList><attDef ident="{ident}" mode="change" usage="req"/></attList></elementSpec>')
    return schema_spec("e00000", items)


def attribute_rows(program, folder):
    """Prints the rows of the sources of TEI's size."""
    alone, chains = {}, {}
    for count in (600, 1200):
        source, edition = folder / f"source{count}.odd", folder / f"edition{count}.odd"
        source.write_text(attributes_source(count), encoding="utf-8")
        edition.write_text(attributes_edition(count), encoding="utf-8")
        title = f"{count} elements with 60 attributes, {source.stat().st_size / 1e6:.2f} MB"
        alone[count] = row(title, program, [source], alone.get(count // 2), again=10)
        chains[count] = row("the same and a customisation", program, [source, edition], chains.get(count // 2), again=10)


def measured(command, status=0, again=1):
    """The least time in seconds, and the greatest memory in MB, of a command that ends with the status. A quick one is run so often again at a time, since
    GNU time counts in hundredths of a second."""
    loop = ["sh", "-c", 'n=$0; while [ "$n" -gt 0 ]; do "$@" >/dev/null || exit; n=$((n - 1)); done', str(again), *map(str, command)]
    times, sizes = [], []
    for _ in range(RUNS):
        run = subprocess.run(["/usr/bin/time", "-f", "%U %S %M", *(loop if again > 1 else command)], stdout=subprocess.DEVNULL, stderr=subprocess.PIPE, text=True)
        if run.returncode != status:
            sys.exit(f"{command}: status {run.returncode}\n{run.stderr}")
        user, system, kilobytes = run.stderr.split()[-3:]
        times.append((float(user) + float(system)) / again)
        sizes.append(int(kilobytes) / 1000)
    return min(times), max(sizes)


def row(title, program, files, before=None, status=0, again=1):
    """Prints how a chain compares, and gives the program's time and memory."""
    time, size = measured([program, "compile", *files], status, again)
    reads, holds = measured(["xmllint", "--noout", *files], 0, again)
    growth = f", {time / before[0]:.1f} and {size / before[1]:.1f} times the half" if before and before[0] else ""
    print(f"{title:44} {time:7.3f} s {size:5.0f} MB; xmllint --noout {reads:7.3f} s {holds:5.0f} MB{growth}")
    return time, size


def main(program):
    program = os.path.abspath(program)
    source, edition = EXAMPLES / "tei-like.odd", EXAMPLES / "letters-custom.odd"
    row("examples/tei-like.odd", program, [source], again=40)
    row("the same and examples/letters-custom.odd", program, [source, edition], again=40)
    with tempfile.TemporaryDirectory() as name:
        folder = pathlib.Path(name)
        attribute_rows(program, folder)
        for title, made, counts in (("classes", many_classes, (100, 500, 1000)), ("nested classes", nested_classes, (400, 800)), ("nested macros", nested_macros, (10_000, 20_000)),
                                    ("classes that give one attribute", givers, (10_000, 20_000)), ("elements below as many classes", below_classes, (8_000, 16_000)),
                                    ("levels of two classes that add a value", levels, (100, 200))):
            found = {}
            for count in counts:
                path = folder / f"{made.__name__}{count}.odd"
                path.write_text(made(count), encoding="utf-8")
                found[count] = row(f"{count} {title}, {path.stat().st_size / 1e6:.2f} MB", program, [path], found.get(count // 2))
        for title, made, counts in (("nested repetitions", nested_repetitions, (9,)), ("members, listed 10 times", listed_members, (50_000, 100_000))):
            found = {}
            for count in counts:
                path = folder / f"{made.__name__}{count}.odd"
                path.write_text(made(count), encoding="utf-8")
                status = 0 if count == 50_000 else LIMIT
                found[count] = row(f"{count} {title}, {path.stat().st_size / 1e6:.2f} MB, status {status}", program, [path], found.get(count // 2), status)
        schema = folder / "letters.rng"
        with open(schema, "wb") as out:
            subprocess.run([program, "compile", source, edition], check=True, stdout=out)
        validators = {"xmllint": ["xmllint", "--noout", "--relaxng", schema]}
        if JING.exists() and shutil.which("java"):
            validators["jing"] = ["java", "-jar", str(JING), schema]
        for title, command in validators.items():
            time, size = measured([*command, EXAMPLES / "letter.xml"])
            print(f"examples/letter.xml by {title}: {time:.2f} s, {size:.0f} MB")


if __name__ == "__main__":
    main(sys.argv[1])
