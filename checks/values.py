#!/usr/bin/env python3
"""Works out what values are, apart from odd: patterns of the dialect, texts of datatypes, collapsed texts and typed items.

    checks/values.py FOLDER

Writes the cases of crates/odd_cases/data/cases/values, from fixed seeds. A pattern is read here by trying the rules of
docs/values.md in all ways at once, with the places where each may end, and not by a machine; a text that ends within a rule
may go on. So the place of a fault is found by asking of each front whether it may go on. What a pattern means is compared with
Python's `re`, on random words, before it is written.
"""

import functools
import pathlib
import random
import re
import sys

SEED = 20261130
PATTERNS, MEANINGS, WORDS = 2000, 2000, 5000
MORE = -1  # in place of an end: the text ends before this does

SPECIAL = ".\\?*+{}()[]|"
ESCAPED = SPECIAL + "-^"


class Reading:
    """The ways in which a text may be read. Each call gives pairs of an end and a value."""

    def __init__(self, text):
        self.text = text

    def branches(self, at):
        for end, first in self.any_number(self.piece, at):
            if end == MORE:
                yield MORE, None
                continue
            yield end, (first,)
            if end == len(self.text):
                yield MORE, None
            elif self.text[end] == "|":
                for last, others in self.branches(end + 1):
                    yield last, None if last == MORE else (first, *others)

    def any_number(self, one, at):
        """None of them, or one and then any number."""
        yield at, ()
        for end, first in one(at):
            if end == MORE:
                yield MORE, None
            else:
                for last, others in self.any_number(one, end):
                    yield last, None if last == MORE else (first, *others)

    def piece(self, at):
        for end, atom in self.atom(at):
            if end == MORE:
                yield MORE, None
            else:
                for last, bounds in self.quantifier(end):
                    yield last, None if last == MORE else (atom, bounds)

    def quantifier(self, at):
        yield at, (1, 1)
        if at == len(self.text):
            yield MORE, None
            return
        signs = {"?": (0, 1), "*": (0, None), "+": (1, None)}
        if self.text[at] in signs:
            yield at + 1, signs[self.text[at]]
        if self.text[at] == "{":
            yield from self.braces(at + 1)

    def braces(self, at):
        for end, least in self.number(at, 0):
            if end in (MORE, len(self.text)):
                yield MORE, None
            elif self.text[end] == "}":
                yield end + 1, (least, least)
            elif self.text[end] == ",":
                if end + 1 == len(self.text):
                    yield MORE, None
                elif self.text[end + 1] == "}":
                    yield end + 2, (least, None)
                for last, most in self.number(end + 1, least):
                    if last in (MORE, len(self.text)):
                        yield MORE, None
                    elif self.text[last] == "}":
                        yield last + 1, (least, most)

    def number(self, at, least):
        """One to four digits that tell `least` or more. Where the text ends, more digits may come."""
        end = at
        while end < len(self.text) and self.text[end] in "0123456789" and end - at < 4:
            end += 1
            if int(self.text[at:end]) >= least:
                yield end, int(self.text[at:end])
        if end == len(self.text) and end - at < 4 and int(self.text[at:] + "9" * (4 - (end - at))) >= least:
            yield MORE, None

    def atom(self, at):
        if at == len(self.text):
            yield MORE, None
            return
        c = self.text[at]
        if c not in SPECIAL:
            yield at + 1, c
        elif c == ".":
            yield at + 1, ("any",)
        elif c == "\\":
            if at + 1 == len(self.text):
                yield MORE, None
            elif self.text[at + 1] in ESCAPED:
                yield at + 2, self.text[at + 1]
        elif c == "[":
            yield from self.in_class(at + 1)
        elif c == "(":
            for end, branches in self.branches(at + 1):
                if end in (MORE, len(self.text)):
                    yield MORE, None
                elif self.text[end] == ")":
                    yield end + 1, ("nested", branches)

    def in_class(self, at):
        if at == len(self.text):
            yield MORE, None
        elif self.text[at] == "^":
            yield from self.members(at + 1, True)
        else:
            yield from self.members(at, False)

    def members(self, at, negated):
        """A `-`, members and a `-`, of which there is one at least, and the end of the class."""
        for begin, first in self.hyphen(at):
            if begin == MORE:
                yield MORE, None
                continue
            for middle, listed in self.any_number(self.member, begin):
                if middle == MORE:
                    yield MORE, None
                    continue
                for end, last in self.hyphen(middle):
                    if end in (MORE, len(self.text)):
                        yield MORE, None
                    elif self.text[end] == "]" and first + listed + last:
                        yield end + 1, ("class", negated, first + listed + last)

    def hyphen(self, at):
        yield at, ()
        if at == len(self.text):
            yield MORE, None
        elif self.text[at] == "-":
            yield at + 1, ("-",)

    def member(self, at):
        for end, low in self.single(at, ""):
            yield end, low
            if end not in (MORE, len(self.text)) and self.text[end] == "-":
                for last, high in self.single(end + 1, low):
                    yield last, None if last == MORE else (low, high)

    def single(self, at, least):
        """A character from the least on."""
        if at == len(self.text):
            yield MORE, None
            return
        c = self.text[at]
        if c not in "[]\\-" and c >= least:
            yield at + 1, c
        elif c == "\\":
            if at + 1 == len(self.text):
                if least <= max(ESCAPED):
                    yield MORE, None
            elif self.text[at + 1] in ESCAPED and self.text[at + 1] >= least:
                yield at + 2, self.text[at + 1]


def read(text):
    """The patterns that the text spells, of which there is one at most, and whether it begins one."""
    ends = list(Reading(text).branches(0))
    return {value for end, value in ends if end == len(text)}, any(end in (MORE, len(text)) for end, _ in ends)


def size_and_levels(text, branches):
    """The size of a pattern and its levels. The size is that of what is written, so it is counted on the text."""
    depth = levels = 0
    sizes = [[0, 0]]  # of each open level: the whole, and the last atom
    at = 0
    while at < len(text):
        c = text[at]
        if c == "\\":
            at += 2
            sizes[-1] = [sum(sizes[-1]), 1]
            continue
        if c == "[":
            at = class_end(text, at)
            sizes[-1] = [sum(sizes[-1]), 1]
            continue
        if c == "(":
            sizes.append([0, 0])
            depth += 1
            levels = max(levels, depth)
        elif c == ")":
            inner = sum(sizes.pop())
            depth -= 1
            sizes[-1] = [sum(sizes[-1]), inner + 1]
        elif c in "?*+":
            sizes[-1][1] += 1
        elif c == "{":
            end = text.index("}", at)
            least, comma, most = text[at + 1 : end].partition(",")
            factor = int(least) + 1 if comma and not most else int(most or least)
            sizes[-1][1] *= factor if comma and not most else max(factor, 1)
            at = end
        elif c != "|":
            sizes[-1] = [sum(sizes[-1]), 1]
        at += 1
    return sum(sizes[0]), levels


def class_end(text, at):
    """Behind the class that begins there."""
    at += 1
    while text[at] != "]":
        at += 2 if text[at] == "\\" else 1
    return at + 1


def told(text):
    """The pattern as the case shows it, or the byte where there is none."""
    patterns, _ = read(text)
    if patterns:
        (branches,) = patterns
        size, levels = size_and_levels(text, branches)
        if size <= 20000 and levels <= 60:
            return shown(branches)
        return f"none at {len(text.encode())}"
    front = max(end for end in range(len(text) + 1) if read(text[:end])[1])
    return f"none at {len(text[:front].encode())}"


def shown(branches):
    return "|".join("".join(map(shown_piece, pieces)) for pieces in branches)


def shown_piece(piece):
    atom, (least, most) = piece
    if isinstance(atom, str):
        text = shown_character(atom)
    elif atom[0] == "any":
        text = "."
    elif atom[0] == "nested":
        text = f"({shown(atom[1])})"
    else:
        members = [shown_character(m) if isinstance(m, str) else f"{shown_character(m[0])}-{shown_character(m[1])}" for m in atom[2]]
        text = ("[^" if atom[1] else "[") + "".join(members) + "]"
    if (least, most) == (1, 1):
        return text
    return f"{text}{{{least},{'' if most is None else most}}}"


def shown_character(c):
    return "\\" + c if c in ESCAPED else c


# What a pattern means, once from what was read and once from the text, for Python's `re`.


def meaning_of(branches):
    return "|".join("".join(map(meaning_of_piece, pieces)) for pieces in branches)


def meaning_of_piece(piece):
    atom, (least, most) = piece
    if isinstance(atom, str):
        text = re.escape(atom)
    elif atom[0] == "any":
        text = "[^\\n\\r]"
    elif atom[0] == "nested":
        text = meaning_of(atom[1])
    else:
        members = [re.escape(m) if isinstance(m, str) else f"{re.escape(m[0])}-{re.escape(m[1])}" for m in atom[2]]
        text = ("[^" if atom[1] else "[") + "".join(members) + "]"
    return f"(?:{text}){{{least},{'' if most is None else most}}}"


def meaning_of_text(text):
    """The text itself, with what means something else to `re` written otherwise."""
    out, at = [], 0
    while at < len(text):
        if text[at] == "\\":
            out.append(text[at : at + 2])
            at += 2
        elif text[at] == "[":
            end = class_end(text, at)
            inner = text[at + 1 : end - 1]
            sign, inner = ("^", inner[1:]) if inner.startswith("^") else ("", inner)
            out.append("[" + sign + re.sub(r"(?<!\\)([&~|^#])", r"\\\1", inner) + "]")
            at = end
        else:
            out.append({".": "[^\\n\\r]", "^": "\\^", "$": "\\$"}.get(text[at], text[at]))
            at += 1
    return "".join(out)


def agree(text, branches, rng):
    """Whether both mean the same on random words of the letters that stand there."""
    one, other = re.compile(meaning_of(branches)), re.compile(meaning_of_text(text))
    letters = sorted(set(text) - set("{},")) + list("ab\n\r")
    for _ in range(30):
        word = "".join(rng.choice(letters) for _ in range(rng.randrange(8)))
        if bool(one.fullmatch(word)) != bool(other.fullmatch(word)):
            return False
    return True


# Random patterns

SIGNS = "aab-b0119.\\?*+{},()[]|^^$-é~"


def any_text(rng):
    return "".join(rng.choice(SIGNS) for _ in range(rng.randrange(1, 10)))


def made(rng, depth):
    """A pattern that is spelled rightly."""
    return "|".join("".join(made_piece(rng, depth) for _ in range(rng.choice([0, 1, 1, 2, 3]))) for _ in range(rng.choice([1, 1, 1, 2, 3])))


def made_piece(rng, depth):
    kind = rng.random()
    if kind < 0.5:
        atom = rng.choice("abc-^$é,")
    elif kind < 0.6:
        atom = "\\" + rng.choice(ESCAPED)
    elif kind < 0.65:
        atom = "."
    elif kind < 0.85 or depth == 0:
        atom = made_class(rng)
    else:
        atom = f"({made(rng, depth - 1)})"
    least, more = rng.randrange(3), rng.randrange(3)
    return atom + rng.choice(["", "", "", "?", "*", "+", f"{{{least}}}", f"{{{least},}}", f"{{{least},{least + more}}}"])


def made_class(rng):
    members = [made_member(rng) for _ in range(rng.randrange(1, 4))]
    if members[0].startswith("^"):
        members[0] = "\\" + members[0]
    return "[" + rng.choice(["", "", "^"]) + rng.choice(["", "", "-"]) + "".join(members) + rng.choice(["", "", "-"]) + "]"


def made_member(rng):
    low, high = sorted(rng.choice("abcdef^.$") for _ in range(2))
    return rng.choice([low, low, "\\" + rng.choice(ESCAPED), f"{low}-{high}"])


# Datatypes, by patterns of Python's own

NAME_START = (
    "A-Z_a-z\u00c0-\u00d6\u00d8-\u00f6\u00f8-\u02ff\u0370-\u037d\u037f-\u1fff\u200c-\u200d\u2070-\u218f\u2c00-\u2fef"
    "\u3001-\ud7ff\uf900-\ufdcf\ufdf0-\ufffd\U00010000-\U000effff"
)
NAME_CHAR = NAME_START + "\\-.0-9\u00b7\u0300-\u036f\u203f-\u2040"
FORMS = {
    "string": "(?s:.*)",
    "normalizedString": "(?s:.*)",
    "token": "(?s:.*)",
    "NMTOKEN": f"[{NAME_CHAR}:]+",
    "Name": f"[{NAME_START}:][{NAME_CHAR}:]*",
    "NCName": f"[{NAME_START}][{NAME_CHAR}]*",
    "ID": f"[{NAME_START}][{NAME_CHAR}]*",
    "IDREF": f"[{NAME_START}][{NAME_CHAR}]*",
    "language": "[A-Za-z]{1,8}(-[A-Za-z0-9]{1,8})*",
    "anyURI": "(?s:.*)",
    "boolean": "true|false|1|0",
    "integer": "[+-]?[0-9]+",
    "nonNegativeInteger": "[+]?[0-9]+|-0+",
    "positiveInteger": "[+]?0*[1-9][0-9]*",
    "decimal": "[+-]?([0-9]+([.][0-9]*)?|[.][0-9]+)",
}


def collapsed(text):
    return " ".join(word for word in re.split("[ \t\n\r]+", text) if word)


def fits(kind, text):
    tested = text if kind in ("string", "normalizedString") else collapsed(text)
    return "yes" if re.fullmatch(FORMS[kind], tested) else "no"


BORDERS = [
    "", " ", "a", "A", "_", ":", "a:b", "a.b", "-a", "a-", "1a", "a1", "é", "\u00b7", "a\u00b7", "\u0300", "a\u0300", "\u00d7", "\u00f7", "\u037e",
    "\u2070", "\u218f", "\u2190", "\U000effff", "\U000f0000", "a b", " a ", "\ta\n", "a\u00a0", "en", "en-GB", "abcdefgh", "abcdefghi", "en-12345678",
    "en-123456789", "en-", "-en", "e1", "e1-a", "en--GB", "true", "TRUE", "false", "1", "0", "01", "2", " true ", "tr ue", "+", "-", "+1", "-1", "-0", "+0",
    "00", "-00", "-01", "--1", "+-1", "1.", ".1", ".", "1.0", "-.5", "+5.", "1.0.0", "1e5", "١", "0x1", "999999999999999999999", "-999999999999999999999", " 7 ",
    "1 2", "\u00a01",
]
LETTERS = "aAz09-+.:_ \t\n\ré·"


def picture(text):
    return text.replace("\t", "\u2409").replace("\n", "\u240a").replace("\r", "\u240d")


# Items

LENGTHS = ["length", "minLength", "maxLength"]
BOUNDS = ["minInclusive", "maxInclusive"]
WITH_LENGTH = ["string", "normalizedString", "token", "NMTOKEN", "Name", "NCName", "ID", "IDREF", "language", "anyURI"]
WITH_BOUNDS = ["integer", "nonNegativeInteger", "positiveInteger"]


def is_number(name, value):
    if name in LENGTHS:
        return re.fullmatch("[0-9]{1,9}", value)
    return re.fullmatch("[+-]?[0-9]{1,18}", value)


def takes(kind, name):
    return name == "pattern" or name in LENGTHS and kind in WITH_LENGTH or name in BOUNDS and kind in WITH_BOUNDS


def item(kind, facets):
    rules = [] if kind in FORMS else [2]
    names = [name for name, _ in facets]
    for name, value in facets:
        if name in LENGTHS + BOUNDS:
            if not is_number(name, value):
                rules.append(1)
        elif name != "pattern" or told(value).startswith("none at"):
            rules.append(2)
        if kind in FORMS and name in LENGTHS + BOUNDS + ["pattern"] and not takes(kind, name):
            rules.append(2)
        if name in LENGTHS + BOUNDS + ["pattern"] and names.count(name) > 1:
            rules.append(4)
    if rules:
        return f"rule {min(rules)}"
    return kind + "".join(f" {name}={value}" for name, value in sorted(facets))


def random_item(rng):
    facets = []
    for _ in range(rng.choice([0, 1, 1, 2, 2, 3])):
        name = rng.choice(LENGTHS + BOUNDS + ["pattern", "pattern", "whiteSpace", "Length"])
        values = ["a*", "[a-", "x{2,1}", "[0-9]+"] if name == "pattern" else ["1", "007", "+5", "-3", "x", "", " 1", "1 ", "123456789", "1234567890", "9" * 18, "9" * 19, "-" + "9" * 18, "+", "1.0"]
        facets.append((name, rng.choice(values)))
    return rng.choice(list(FORMS) + ["double", "Token", ""]), facets


def item_line(kind, facets):
    return "\t".join(["item", kind, *(f"{name}={value}" for name, value in facets), item(kind, facets)])


def all_facets():
    """Each facet on each type."""
    for kind in FORMS:
        for name in LENGTHS + BOUNDS + ["pattern"]:
            yield item_line(kind, [(name, "1")])
    for count in (9, 10, 18, 19):
        for kind, name in (("token", "length"), ("integer", "maxInclusive")):
            for sign in ("", "+", "-"):
                yield item_line(kind, [(name, sign + "9" * count)])


def meeting_line(kind, name, value, text):
    """Whether a text meets a facet of its type."""
    if fits(kind, text) == "no":
        told_so = "not of the type"
    elif name in BOUNDS:
        number, bound = int(collapsed(text)), int(value)
        told_so = "yes" if (number >= bound if name == "minInclusive" else number <= bound) else "no"
    else:
        tested = text if kind in ("string", "normalizedString") else collapsed(text)
        count, asked = len(tested), int(value)
        told_so = "yes" if {"length": count == asked, "minLength": count >= asked, "maxLength": count <= asked}[name] else "no"
    return f"meets\t{kind}\t{name}={value}\t{picture(text)}\t{told_so}"


def meetings(rng):
    """Lengths and bounds around the border, on texts of all types that take them."""
    for kind in WITH_LENGTH:
        for text in BORDERS + [" a  b ", "\t\ta\n", "éé", "\U00010000"]:
            yield meeting_line(kind, rng.choice(LENGTHS), str(len(collapsed(text)) + rng.choice([-1, 0, 0, 1])).replace("-1", "0"), text)
    numbers = ["0", "-0", "+0", "007", "7", "-7", "+8", "-08", "10", "99999", " 12 ", "-12", "9" * 18, "9" * 19, "-" + "9" * 40, "1" + "0" * 30, "0" * 50 + "1"]
    for kind in WITH_BOUNDS:
        for name in BOUNDS:
            for text in numbers:
                for value in ["0", "-0", "7", "+07", "-7", "-8", "9" * 18, "-" + "9" * 18, "0" * 17 + "1"]:
                    yield meeting_line(kind, name, value, text)


ROWS = ["a{2,1}", "[b-a]", "(a", "a**"]
PLACES = ["a{9999,1", "a{5,0000}", "a{5,0004}", "a{5,0005}", "[~-\\", "[~-\\}]", "[}-\\}]", "[a-\\-]", "[b-", "[a-b-", "[a-b-]", "[a-b-c]", "[--a]", "[a--]", "[-]", "[--]", "[---]",
          "[]", "[^]", "[^^]", "[a^]", "[^-]", "^$", "a|", "|", "||", "()", "(|)", ")", "a)", "(a))", "[", "[a", "{", "a{", "a{1", "a{1,", "a{1,2", "a{,2}", "a{12345}", "a{0}", "a{0,0}", "a{٣}",
          "]", "}", "a}", "\\", "\\d", "\\p{L}", "\\s", "a\\", "é{1}*", "é[b-a]", "(é]"]
LIMITS = [
    "(a{9999}){2}", "(a{9999}){2}a", "a" * 20000, "a" * 20001, "a{9999}a{9999}aa", "a{9999}a{9999}aaa", "a{4999,}b{4999,}c{4999,}d{4999,}",
    "a{4999,}b{4999,}c{4999,}d{5000,}", "(" * 60 + ")" * 60, "(" * 61 + ")" * 61, "(" * 61 + "a" + ")" * 60, "(" * 100 + "a**", "(a{4999}){4}", "(a{4999}){5}",
    "((a{9999}){9999}){9999}", "((a{9999}){9999}){9999}*", "((a{9999}){9999}){9999}**", "|" * 19000, "[" + "ab" * 5000 + "]", "a?" * 10000, "a?" * 10000 + "b",
]


def told_long(text):
    """As `told`, of long texts: of the front that `re` takes for whole tokens, and so without trying all ways."""
    token = re.compile(r"\\[.\\?*+{}()\[\]|^-]|\[[ab]+\]|[?*+]|\{[0-9]{1,4}(?:,(?:[0-9]{1,4})?)?\}|[()|]|[^.\\?*+{}()\[\]|]|\.")
    at, depth, may_repeat = 0, 0, False
    while at < len(text):
        found = token.match(text, at)
        word = found.group()
        if word[0] in "?*+{":
            if not may_repeat:
                return f"none at {at}"
            may_repeat = False
        elif word == ")":
            depth -= 1
            if depth < 0:
                return f"none at {at}"
            may_repeat = True
        else:
            depth += word == "("
            may_repeat = word not in "(|"
        at = found.end()
    size, levels = (0, 99) if depth else size_and_levels(text, None)
    if size > 20000 or levels > 60:
        return f"none at {len(text)}"
    sign = {"?": "{0,1}", "*": "{0,}", "+": "{1,}"}
    return re.sub(r"\{([0-9]+)\}", lambda m: "{%d,%d}" % (int(m[1]), int(m[1])), re.sub(r"[?*+]", lambda m: sign[m[0]], text))


def write(folder, name, lines):
    (folder / name).write_text("=== values\n" + "\n".join(lines) + "\n", encoding="utf-8", newline="\n")


def pattern_line(text):
    return f"pattern\t{text}\t{told(text)}"


def main(folder):
    folder.mkdir(parents=True, exist_ok=True)
    rng = random.Random(SEED)
    write(folder, "patterns", map(pattern_line, ROWS + PLACES))
    write(folder, "escapes", (pattern_line(text) for c in map(chr, range(0x20, 0x7F)) for text in ("\\" + c, c, f"[{c}]", f"[\\{c}]", f"[^{c}]")))
    whole = ["a?b*c+", "a{12,345}b{6}c{7890,}", "[^-a-c\\]\\--\\^x-]", "((a|b)|\\(c\\))*|", ".\\.[.]", "(()|[^\\-])?"]
    write(folder, "cut", (pattern_line(text[:end]) for text in whole for end in range(len(text) + 1)))
    write(folder, "limits", (f"pattern\t{text}\t{told_long(text)}" for text in LIMITS))
    write(folder, "random", (pattern_line(any_text(rng)) for _ in range(PATTERNS)))
    meanings = []
    while len(meanings) < MEANINGS:
        text = made(rng, 2)
        (branches,) = read(text)[0]
        if not agree(text, branches, rng):
            sys.exit(f"two meanings: {text}")
        meanings.append(pattern_line(text))
    write(folder, "meanings", meanings)
    words = ["".join(rng.choice(LETTERS) for _ in range(rng.randrange(7))) for _ in range(WORDS)]
    write(folder, "types", (f"fits\t{kind}\t{picture(text)}\t{fits(kind, text)}" for kind in FORMS for text in BORDERS))
    write(folder, "random_words", (f"fits\t{kind}\t{picture(text)}\t{fits(kind, text)}" for text in words for kind in [rng.choice(list(FORMS)[3:])]))
    write(folder, "white_space", (f"collapse\t{picture(text)}\t{picture(collapsed(text))}" for text in BORDERS + ["a \t\n\r b", "  a  b  ", "\u00a0 a", "a\u2003b"] + words[:500]))
    write(folder, "facets", all_facets())
    write(folder, "meetings", meetings(rng))
    write(folder, "items", (item_line(*random_item(rng)) for _ in range(2000)))


if __name__ == "__main__":
    main(pathlib.Path(sys.argv[1]))
