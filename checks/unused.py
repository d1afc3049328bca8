#!/usr/bin/env python3
"""Prints the imports of .rt and .antt files that nothing uses, and the lemmas of proofs/ that nothing cites.

    checks/unused.py        at the top of the repository; it prints nothing where all is used

It reads text and knows no scopes, so a name that stands for two things counts as used where either is. The small theorems (files that end
in Examples, and those of ExampleTrees) are cited by nobody on purpose.
"""
import glob
import os
import re
import sys

IMPORT = re.compile(r"^\s*(?:ghost )?use (Rattle\.[\w.+]+)\.\{(.*)\};?$")
ALIAS = re.compile(r"^\s*(?:ghost )?use (Rattle\.[\w.+]+) as (\w+);?$")
DECLARED = re.compile(r"^(?:abbrev |data |record |pub )*([\w'-]+) :", re.M)


def read(path):
    with open(path, encoding="utf-8") as file:
        return file.read()


def body_of(path, text):
    """The text without comments and imports."""
    comment = r"(--|//).*" if path.endswith(".rt") else r"^\s*--.*"
    lines = [re.sub(comment, "", line) for line in text.split("\n") if not re.match(r"^\s*(ghost )?use Rattle", line)]
    return "\n".join(lines)


def stands(part, body):
    """Whether a name, or a part of an operator, stands in a text."""
    if part[0].isalnum() or part[0] == "_":
        return re.search(r"(?<![\w.])" + re.escape(part) + r"(?!\w)", body)
    return part in body


def unused_imports(path, text):
    body = body_of(path, text)
    for line in text.split("\n"):
        taken = IMPORT.match(line)
        for name in taken.group(2).split(",") if taken else ():
            here = name.strip().split(" as ")[-1]
            if not all(stands(part, body) for part in [it for it in here.split("◌") if it] or [here]):
                yield here


def citations(texts):
    """The names that are taken of each module; * for all."""
    taken = {}
    for text in texts.values():
        for line in text.split("\n"):
            names, alias = IMPORT.match(line), ALIAS.match(line)
            if names:
                taken.setdefault(names.group(1), set()).update(it.strip().split(" as ")[0] for it in names.group(2).split(","))
            if alias:
                taken.setdefault(alias.group(1), set()).add("*")
        for module, name in re.findall(r"using\(crate::proofs::(\w+)::(\w+)\)", text):
            taken.setdefault(module, set()).add(name)
    return taken


def uncited_lemmas(path, text, taken):
    module = "Rattle." + path[len("crates/"):-len(".antt")].replace("/", ".")
    cited = taken.get(module, set()) | taken.get(module.split(".")[-1], set())
    for name in DECLARED.findall(text):
        mine = r"^(?:abbrev |data |record |pub )*" + re.escape(name) + r"(?![\w'-])"
        used = any(
            re.search(r"(?<![\w'.-])" + re.escape(name) + r"(?![\w'-])", line) and not re.match(mine, line)
            for line in text.split("\n")
            if not line.strip().startswith("--")
        )
        if not used and not {name, "*"} & cited:
            yield name


def main():
    paths = sorted(it for it in glob.glob("crates/**/*", recursive=True) if it.endswith((".rt", ".antt")) and "/out/" not in it)
    texts = {it: read(it) for it in paths}
    taken = citations(texts)
    found = 0
    for path, text in texts.items():
        names = [f"import {it}" for it in unused_imports(path, text)]
        last = os.path.basename(path)
        if "/proofs/" in path and last not in ("Answers.antt", "Invariants.antt") and "Example" not in last:
            names += [f"lemma {it}" for it in uncited_lemmas(path, text, taken)]
        for name in names:
            print(f"{path}: {name}")
        found += len(names)
    return 1 if found else 0


sys.exit(main())
