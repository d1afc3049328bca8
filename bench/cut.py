#!/usr/bin/env python3
"""How long tools/cut.xsl takes over a source of the shape and size of TEI's own, and the compiler over what it writes.

    bench/cut.py PROGRAM

The source is that of bench/schemas.py (600 elements, 180 classes) without a schemaSpec, in TEI's 21 modules, with glosses in eight languages, exempla and what the
program does not read: attRef, dates, escapes in patterns, usage mwa, constraints. It is compiled alone and with a customisation.
"""
import os
import pathlib
import subprocess
import sys
import tempfile
import time

import schemas

MODULES = (
    "tei header core textstructure verse drama transcr linking analysis iso-fs namesdates figures gaiji certainty nets spoken dictionaries msdescription tagdocs textcrit corpus"
).split()
LANGUAGES = ["en", "de", "es", "fr", "it", "ja", "ko", "zh-TW"]
TYPES = ["date", "dateTime", "gYear", "gMonth", "time", "duration", "double"]


def source():
    """The made source."""
    text = schemas.attributes_source(600).replace('"e00000"', '"TEI"').replace('restriction="[^ ]+"', 'restriction="[^\\p{C}\\p{Z}]+"')
    items = text[text.index(">") + 1 : text.rindex("</schemaSpec>")]
    dates = "".join(f'<dataRef name="{name}"/>' for name in TYPES)
    items += f'<dataSpec ident="data.date" module="m"><content><alternate>{dates}</alternate></content></dataSpec>'
    glosses = "".join(f'<gloss versionDate="2020-01-01" xml:lang="{language}">some words of a gloss</gloss>' for language in LANGUAGES)
    parts = items.split("<elementSpec ")
    for number, part in enumerate(parts[1:], 1):
        given = '<attList><attRef class="att.0" name="a00000"/><attDef ident="own" usage="mwa"><datatype><dataRef key="data.date"/></datatype></attDef></attList>'
        constraint = f'<constraintSpec ident="c{number}" scheme="schematron"><constraint><p>x</p></constraint></constraintSpec>'
        part = part.replace('module="m"', f'module="{MODULES[number % len(MODULES)]}"', 1)
        parts[number] = part.replace("<desc>", glosses + "<desc>", 1).replace("</elementSpec>", given + constraint + "</elementSpec>", 1)
    specs = "<elementSpec ".join(parts).replace('module="m"', 'module="tei"')
    return f'<TEI xmlns="http://www.tei-c.org/ns/1.0"><text><body>{specs}</body></text></TEI>\n'


def edition():
    modules = "".join(f'<moduleRef key="{module}"/>' for module in MODULES)
    return schemas.attributes_edition(600).replace('"e00000"', '"TEI"').replace('<moduleRef key="m"/>', modules)


def measured(title, command, out):
    begun = time.time()
    with open(out, "wb") as file:
        process = subprocess.Popen(command, stdout=file)
        _, status, usage = os.wait4(process.pid, 0)
    print(f"{title} | {time.time() - begun:.2f} s, {usage.ru_utime + usage.ru_stime:.2f} s of processor, {usage.ru_maxrss / 1024:.0f} MB | {out.stat().st_size / 1e6:.2f} MB written | status {os.waitstatus_to_exitcode(status)}", flush=True)


def main(program):
    cut = pathlib.Path(__file__).resolve().parent.parent / "tools/cut.xsl"
    with tempfile.TemporaryDirectory() as name:
        folder = pathlib.Path(name)
        (folder / "p5.xml").write_text(source(), encoding="utf-8")
        (folder / "edition.odd").write_text(edition(), encoding="utf-8")
        print(f"source | {(folder / 'p5.xml').stat().st_size / 1e6:.2f} MB")
        measured("cut", ["xsltproc", cut, folder / "p5.xml"], folder / "source.odd")
        measured("compile", [program, "aside", "compile", folder / "source.odd"], folder / "a.rng")
        measured("compile with a customisation", [program, "aside", "compile", folder / "source.odd", folder / "edition.odd"], folder / "b.rng")


if __name__ == "__main__":
    main(str(pathlib.Path(sys.argv[1]).resolve()))
