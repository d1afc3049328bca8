#!/usr/bin/env python3
"""Compares what a schema accepts before and after tools/for-xmllint.xsl, and what xmllint makes of both.

    checks/folded.py PROGRAM [COUNT]

PROGRAM is the built program odd. The ODD files and documents are those of checks/validators.py, COUNT of them at random (200 where
it is not given). `jing` has to judge each document by the folded schema as docs/admission.md says, and so has `xmllint` wherever it
reads the schema as written rightly. Of the others how many it reads rightly is told, as written and folded. It wants xsltproc, xmllint
and jing. Ends with 1 where a verdict differs.
"""

import concurrent.futures
import functools
import os
import pathlib
import shutil
import subprocess
import sys
import tempfile

import validators

FOLD = ["xsltproc", str(pathlib.Path(__file__).resolve().parent.parent / "tools/for-xmllint.xsl"), "c.rng"]


def folded(folder, made):
    """A folder with the folded schema of one that was made, and the same documents."""
    other = folder / made.folder.name
    other.mkdir()
    with open(other / "c.rng", "wb") as schema:
        subprocess.run(FOLD, check=True, stdout=schema, cwd=made.folder)
    for document in made.folder.glob("*.xml"):
        os.link(document, other / document.name)
    return made._replace(folder=other)


def main(program, count):
    with tempfile.TemporaryDirectory() as name, concurrent.futures.ProcessPoolExecutor() as pool:
        written, fold = pathlib.Path(name) / "written", pathlib.Path(name) / "folded"
        written.mkdir()
        fold.mkdir()
        numbers = range(len(validators.LIBRARIES) + count)
        made = list(pool.map(functools.partial(validators.make, program), [written / str(number) for number in numbers], numbers, chunksize=10))
        others = list(pool.map(functools.partial(folded, fold), made, chunksize=10))
        differing = [("jing", path) for path in validators.jing_differs(fold, sum(each.documents + 1 for each in made))]
        before = list(pool.map(validators.xmllint_differs, [each.folder for each in made]))
        after = list(pool.map(validators.xmllint_differs, [each.folder for each in others]))
        differing += [("xmllint", path) for each, paths in zip(made, after) if not each.misread for path in paths]
        for validator, path in differing:
            print(validators.told(validator, path))
        print(f"{len(made)} libraries, {validators.documents_of(made)} documents; jing and xmllint: {len(differing)} verdicts differ by the folded schema; "
              f"of {sum(each.misread for each in made)} libraries that xmllint is known to misread as written it reads {sum(each.misread and not paths for each, paths in zip(made, before))} "
              f"rightly, and folded {sum(each.misread and not paths for each, paths in zip(made, after))}")
    return 1 if differing else 0


if __name__ == "__main__":
    for wanted in ("xsltproc", "xmllint", "java"):
        shutil.which(wanted) or sys.exit(f"{wanted} is missing")
    sys.exit(main(sys.argv[1], int(sys.argv[2]) if len(sys.argv) > 2 else 200))
