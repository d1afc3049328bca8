#!/usr/bin/env python3
"""Compares the place of a fault that odd tells with one that is worked out apart from it.

    checks/places.py PROGRAM [RUNS]

PROGRAM is the built program odd, RUNS the number of files (20,000 unless given), made from a fixed seed: small files of
XML with some of their bytes changed, and rows of pieces of markup. Here a file is read by regular expressions for whole
tokens: the place is where the first token begins that does not fit, as docs/xml.md says. Ends with 1 where the program's
answer differs.
"""

import os
import random
import re
import subprocess
import sys
import tempfile

SEED = 20261127
XML = "http://www.w3.org/XML/1998/namespace"
XMLNS = "http://www.w3.org/2000/xmlns/"
STARTS = (
    "A-Z_a-z\u00c0-\u00d6\u00d8-\u00f6\u00f8-\u02ff\u0370-\u037d\u037f-\u1fff\u200c-\u200d\u2070-\u218f\u2c00-\u2fef"
    "\u3001-\ud7ff\uf900-\ufdcf\ufdf0-\ufffd\U00010000-\U000effff"
)
NAME = f"[{STARTS}][{STARTS}\\-.0-9\u00b7\u0300-\u036f\u203f-\u2040]*"
QNAME = f"(?:{NAME}:)?{NAME}"
CHAR = "[\t\n\r\u0020-\ud7ff\ue000-\ufffd\U00010000-\U0010ffff]"
SPACE = "[ \t\r\n]"
REFERENCE = "&(?:lt|gt|amp|apos|quot|#[0-9]+|#x[0-9a-fA-F]+);"
VALUE = f"\"(?:(?![<&\"]){CHAR}|{REFERENCE})*\"|'(?:(?![<&']){CHAR}|{REFERENCE})*'"
ATTRIBUTE = re.compile(f"{SPACE}+({QNAME}){SPACE}*={SPACE}*({VALUE})")
TAG = re.compile(f"<({QNAME})((?:{SPACE}+{QNAME}{SPACE}*={SPACE}*(?:{VALUE}))*){SPACE}*(/?)>")
END = re.compile(f"</({QNAME}){SPACE}*>")
COMMENT = re.compile(f"<!--(?:(?!--){CHAR})*-->")
CDATA = re.compile(f"<!\\[CDATA\\[(?:(?!\\]\\]>){CHAR})*\\]\\]>")
INSTRUCTION = re.compile(f"<\\?({NAME})(?:|{SPACE}(?:(?!\\?>){CHAR})*)\\?>")
REFERENCES = re.compile(REFERENCE)


def setting(name, value):
    return f"{SPACE}+{name}{SPACE}*={SPACE}*(?:\"{value}\"|'{value}')"


DECLARATION = re.compile(
    "<\\?xml" + setting("version", "1\\.0") + f"(?:{setting('encoding', '[uU][tT][fF]-8')})?"
    f"(?:{setting('standalone', '(?:yes|no)')})?{SPACE}*\\?>"
)
ENTITIES = {"lt": "<", "gt": ">", "amp": "&", "apos": "'", "quot": '"'}
FILES = [
    b"<a/>", b"<a>t</a>", b"<a b='c' d=\"e\"/>", b"<a><b/>t<c></c></a>", b"<?xml version='1.0' encoding='utf-8'?>\n<a/>\n<!--c-->",
    b"<a xmlns='n' xmlns:p='m'><p:b p:c='1' c='2'/><c xmlns=''/></a>", b"<a>&lt;&#60;&#x3c;]]&gt;<![CDATA[<&]]]]></a>",
    b"<p:a xmlns:p='n'><p:b xmlns:p='m'/></p:a>", b"\xef\xbb\xbf<?p d?><a>\xc3\xa4\xe2\x82\xac\xf0\x9d\x84\x9e</a>", b"<a xml:lang='de'/>",
    b"<a>t<?p?>u<?q\td ?><!--c--><?xmlp e>?><b/><?r \xc3\xa4?></a>",
]
PIECES = [
    b"<", b">", b"/>", b"</a>", b"=", b'"', b"'", b"&", b"&amp;", b"&#60;", b"&#x", b";", b"<!--", b"-->", b"--", b"<![CDATA[", b"]]>", b"]]",
    b"<?", b"?>", b"<?xml ", b"<?p ", b"<!DOCTYPE", b" xmlns='n'", b" xmlns:p='m'", b" p:b='1'", b" b='1'", b" b='2'", b"<p:a>", b"</p:a>",
    b"<a>", b"<b/>", b":", b" ", b"\n", b"\r", b"\t", b"\0", b"\xef\xbb\xbf", b"\xc3\xa9", b"\xff", b"\xed\xa0\x80", b"\xef\xbf\xbe", b"t", b"xml",
    b" version='1.0'", b" encoding='utf-8'",
]


def is_char(number):
    return number in (9, 10, 13) or 0x20 <= number <= 0xD7FF or 0xE000 <= number <= 0xFFFD or 0x10000 <= number <= 0x10FFFF


def character(reference):
    name = reference[1:-1]
    if name[0] != "#":
        return ord(ENTITIES[name])
    return int(name[2:], 16) if name[1] == "x" else int(name[1:])


def references_fit(text):
    return all(is_char(character(found.group())) for found in REFERENCES.finditer(text))


def value_of(quoted):
    plain = re.sub("\r\n|[\t\r\n]", " ", quoted[1:-1])
    return REFERENCES.sub(lambda found: chr(character(found.group())), plain)


def declared(attributes):
    """The namespace declarations of a tag, or None where one is not allowed."""
    binds = {}
    for name, value in attributes:
        if name == "xmlns" or name.startswith("xmlns:"):
            prefix, ns = name[6:], value_of(value)
            if (prefix == "xml") != (ns == XML) or prefix == "xmlns" or ns == XMLNS or (prefix and not ns):
                return None
            binds[prefix] = ns
    return binds


def resolved(name, default, scope):
    if ":" not in name:
        return default, name
    prefix, local = name.split(":")
    ns = XML if prefix == "xml" else scope.get(prefix)
    return None if ns is None else (ns, local)


def tag_fits(tag, elements):
    """The declarations of a tag that fits inside these elements, or None."""
    attributes = [found.groups() for found in ATTRIBUTE.finditer(tag.group(2))]
    names = [name for name, _ in attributes]
    binds = declared(attributes)
    if binds is None or len(set(names)) < len(names) or not references_fit(tag.group(2)):
        return None
    scope = {}
    for _, outer in elements:
        scope.update(outer)
    scope.update(binds)
    expanded = [resolved(n, "", scope) for n in names if n != "xmlns" and not n.startswith("xmlns:")]
    if None in expanded or len(set(expanded)) < len(expanded) or resolved(tag.group(1), scope.get("", ""), scope) is None:
        return None
    return binds


def place(data):
    """The place of the fault, ("deep", place), or None where the file spells a tree."""
    text, is_cut = data, False
    try:
        text = data.decode("utf-8")
    except UnicodeDecodeError as error:
        text, is_cut = data[: error.start].decode("utf-8"), True
    at = 1 if text.startswith("\ufeff") else 0
    declaration = DECLARATION.match(text, at)
    at = declaration.end() if declaration else at
    elements, has_root, last = [], False, ""
    while True:
        here = len(text[:at].encode("utf-8"))
        if at == len(text):
            return None if has_root and not elements and not is_cut else here
        tag, end, found = TAG.match(text, at), END.match(text, at), None
        before, last = last, ""
        binds = tag_fits(tag, elements) if tag and (elements or not has_root) else None
        instruction = INSTRUCTION.match(text, at)
        if binds is not None:
            if len(elements) >= 200:
                return "deep", here
            found = tag
            if not tag.group(3):
                elements.append((tag.group(1), binds))
            elif not elements:
                has_root = True
        elif end and elements and elements[-1][0] == end.group(1):
            found = end
            elements.pop()
            has_root = not elements
        elif COMMENT.match(text, at):
            found = COMMENT.match(text, at)
        elif instruction and instruction.group(1).lower() != "xml":
            found = instruction
        elif elements and CDATA.match(text, at):
            found = CDATA.match(text, at)
        elif elements and REFERENCES.match(text, at) and references_fit(REFERENCES.match(text, at).group()):
            found = REFERENCES.match(text, at)
        if found:
            at = found.end()
            continue
        c = text[at]
        if elements:
            fits = c not in "<&" and is_char(ord(c)) and not (c == ">" and before.endswith("]]"))
        else:
            fits = c in " \t\r\n"
        if not fits:
            return here
        last = (before + c)[-2:] if elements else ""
        at += 1


def made(rand):
    """The next file."""
    if rand.random() < 0.1:
        return b"".join(rand.choice(PIECES) for _ in range(rand.randrange(25)))
    data = bytearray(rand.choice(FILES))
    for _ in range(rand.choice([0, 1, 1, 2, 3, 6])):
        at = rand.randrange(len(data) + 1)
        kind = rand.randrange(4)
        if kind == 0:
            data[at:at] = rand.choice(PIECES)
        elif kind == 1:
            del data[at : at + rand.choice([1, 1, 2, 5])]
        elif kind == 2:
            data[at:at] = rand.choice(FILES)
        else:
            data[at : at + 2] = rand.choice(PIECES)
    return (b"<a>" * rand.choice([199, 200, 201]) if rand.random() < 0.01 else b"") + bytes(data)


def answer(program, path):
    """The program's answer, in the form of `place`."""
    line = subprocess.run([program, "compile", path], capture_output=True).stderr.decode()
    fault = re.fullmatch(r"odd: file 1: byte (\d+): not XML\n", line)
    depth = re.fullmatch(r"odd: limit depth file 1 byte (\d+)\n", line)
    if depth:
        return "deep", int(depth.group(1))
    return int(fault.group(1)) if fault else None


def main(program, runs):
    rand = random.Random(SEED)
    trees, differences = 0, 0
    with tempfile.TemporaryDirectory() as folder:
        path = os.path.join(folder, "x.xml")
        for _ in range(runs):
            data = made(rand)
            with open(path, "wb") as file:
                file.write(data)
            told, expected = answer(program, path), place(data)
            trees += expected is None
            if told != expected:
                differences += 1
                print(f"{data!r}: {told}, and not {expected}")
    print(f"{runs} files, {trees} with a tree, {differences} differences")
    return 1 if differences else 0


if __name__ == "__main__":
    sys.exit(main(sys.argv[1], int(sys.argv[2]) if len(sys.argv) > 2 else 20_000))
