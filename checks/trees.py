#!/usr/bin/env python3
"""Compares the trees that odd reads of the XML files of a system with those of expat.

    checks/trees.py PROGRAM FOLDER..

PROGRAM is the built program of crates/odd_cases. Every XML file below the folders is taken as it is, where it is of the XML that docs/xml.md goes
through; one with a document type declaration or in another encoding as `xmllint --noent --dropdtd --encode UTF-8` writes it, and is left out where
that refuses it. The tree of each is worked out by Python's expat, with prefixes resolved here, and given to the program as the wanted answer of one
case. Prints what differs and how many files had a tree. Ends with 0 only where none differed.
"""
import pathlib
import re
import subprocess
import sys
import tempfile
from xml.parsers import expat

KINDS = {".xml", ".svg", ".xsl", ".xslt", ".xsd", ".rng", ".xhtml", ".odd", ".rdf", ".xmi", ".ui", ".pom", ".glade", ".sch", ".xlf", ".dae", ".tei", ".docbook"}
XML = "http://www.w3.org/XML/1998/namespace"
LEVELS = 200
SIZE = 4_000_000


class NoTree(Exception):
    """The file spells no tree."""


class Maker:
    """Makes the text that the cases of crates/odd_cases show of a tree."""

    def __init__(self, parser):
        self.parser, self.out, self.open, self.text = parser, [], [], []

    def resolved(self, written, scope, is_attribute=False):
        prefix, colon, local = written.rpartition(":")
        if not prefix and is_attribute:
            return local
        if prefix not in scope and prefix:
            raise NoTree
        ns = scope.get(prefix, "")
        return f"{{{ns}}}{local}" if ns else local

    def child(self):
        """What stands before the next child."""
        if self.open:
            self.out.append(" " if self.open[-1][1] else "(")
            self.open[-1][1] = True

    def characters(self, text):
        self.text.append(text)

    def end_text(self):
        if self.text:
            self.child()
            self.out.append("'" + "".join(self.text) + "'")
            self.text = []

    def start(self, name, attributes):
        self.end_text()
        self.child()
        pairs = list(zip(attributes[::2], attributes[1::2]))
        binds = [(written[6:], ns) for written, ns in pairs if written == "xmlns" or written.startswith("xmlns:")]
        if any(prefix and not ns or (prefix == "xml") != (ns == XML) for prefix, ns in binds):
            raise NoTree
        scope = {**(self.open[-1][0] if self.open else {"xml": XML}), **dict(binds)}
        named = [(self.resolved(written, scope, True), value) for written, value in pairs if not (written == "xmlns" or written.startswith("xmlns:"))]
        if len({name for name, _ in named}) < len(named) or len(self.open) == LEVELS:
            raise NoTree
        self.out.append(f"{self.resolved(name, scope)}@{self.parser.CurrentByteIndex}")
        self.out += [f" {prefix}:={ns}" for prefix, ns in binds]
        self.out += [f" {name}='{value}'" for name, value in named]
        self.open.append([scope, False])

    def end(self, _):
        self.end_text()
        if self.open.pop()[1]:
            self.out.append(")")


def tree_of(data):
    """The tree as it is shown, or "no tree"."""
    parser = expat.ParserCreate()
    parser.ordered_attributes = True
    maker = Maker(parser)
    parser.StartElementHandler, parser.EndElementHandler, parser.CharacterDataHandler = maker.start, maker.end, maker.characters
    try:
        parser.Parse(data, True)
    except (NoTree, expat.ExpatError):
        return "no tree"
    return "".join(maker.out)


def as_read(path):
    """The bytes of a file in the XML that is read, or None."""
    data = path.read_bytes()
    if len(data) > SIZE:
        return None
    declared = re.match(rb"(?:\xef\xbb\xbf)?<\?xml[^>]*?encoding\s*=\s*[\"']([^\"']*)", data)
    if b"<!DOCTYPE" in data or data[:2] in (b"\xff\xfe", b"\xfe\xff") or (declared and declared[1].upper() != b"UTF-8"):
        written = subprocess.run(["xmllint", "--nonet", "--noent", "--dropdtd", "--encode", "UTF-8", path], capture_output=True)
        data = written.stdout if written.returncode == 0 else None
    try:
        data and data.decode()
    except UnicodeDecodeError:
        return None
    return data


def escaped(text):
    text = text.replace("\\", "\\\\").replace("\r", "\\r").replace("\t", "\\t").replace("\n", "\\n")
    return re.sub(r"[\x00-\x1f\x7f-\x9f]", lambda m: f"\\u{{{ord(m[0]):X}}}", text)


def main(program, folders):
    paths = sorted({path for folder in folders for path in pathlib.Path(folder).rglob("*") if path.suffix in KINDS and path.is_file() and not path.is_symlink()})
    trees = left = 0
    with tempfile.TemporaryDirectory() as name:
        for sub in ("cases", "wrong", "malformed"):
            (pathlib.Path(name) / sub).mkdir()
        for number, path in enumerate(paths):
            data = as_read(path)
            if not data:
                left += 1
                continue
            tree = tree_of(data)
            trees += tree != "no tree"
            case = f"=== file f escaped\n{escaped(data.decode())}\n=== tree escaped\n{escaped(tree)}\n"
            (pathlib.Path(name) / f"cases/{number:06}").write_text(case, encoding="utf-8", newline="")
        told = subprocess.run([program], cwd=name, capture_output=True, text=True, errors="replace").stdout.splitlines()
    for line in told[:-1]:
        found = re.match(r"cases/(\d+)", line)
        print(f"{paths[int(found[1])]}: {line[:200]}" if found else line[:200])
    print(f"{len(paths)} files, {left} left out, {trees} with a tree; {told[-1] if told else 'no answer'}")
    return 0 if told and told[-1].endswith(" 0 differ") else 1


if __name__ == "__main__":
    sys.exit(main(str(pathlib.Path(sys.argv[1]).resolve()), sys.argv[2:]))
