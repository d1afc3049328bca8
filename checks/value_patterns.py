#!/usr/bin/env python3
"""Works out, apart from odd, which texts match patterns of the dialect and which values patterns of values allow.

    checks/value_patterns.py FOLDER

Writes the cases `matching`, `allowed` and `borders` of crates/odd_cases/data/cases/values, from a fixed seed. Whether a text
matches is asked of Python's `re`; whether a list is allowed, of all splits of its words at white space.
"""

import itertools
import pathlib
import random
import re
import sys

import values
from values import BORDERS, BOUNDS, FORMS, LENGTHS, WITH_BOUNDS, WITH_LENGTH, collapsed, made, meaning_of, picture, read

SEED = 20261201
MATCHED, ALLOWED = 1000, 5000


def yes_or_no(yes):
    return "yes" if yes else "no"


def regex_of(pattern):
    (branches,) = read(pattern)[0]
    return re.compile(meaning_of(branches))


def match_line(pattern, words):
    regex = regex_of(pattern)
    return "\t".join(["match", pattern, *map(picture, words), " ".join(yes_or_no(regex.fullmatch(word)) for word in words)])


def near(pattern, rng):
    """A word of the letters that stand in a pattern, or of others."""
    letters = sorted(set(pattern) - set("{},\t")) + list("ab\n\r")
    return "".join(rng.choice(letters) for _ in range(rng.randrange(7)))


def matching(rng):
    for _ in range(MATCHED):
        pattern = made(rng, 2)
        yield match_line(pattern, [near(pattern, rng) for _ in range(8)])
    for least, most in ((0, 0), (0, 1), (1, 1), (2, 3), (0, 7), (7, 7), (3, 20), (99, 1000), (9998, 9999)):
        counts = sorted({max(n, 0) for n in (0, least - 1, least, least + 1, most - 1, most, most + 1)})
        yield match_line(f"a{{{least},{most}}}", ["a" * n for n in counts])
        if least < 5000:
            yield match_line(f"(ab){{{least}}}", ["ab" * n for n in counts])
        yield match_line(f"a{{{least},}}b", ["a" * n + "b" for n in counts])
    for count in (1, 10, 500):
        words = ["a" * n for n in (count - 1, count, 2 * count, 2 * count + 1)]
        told = [count <= len(word) <= 2 * count for word in words]
        yield "\t".join(["match", f"(a?){{{count}}}a{{{count}}}", *words, " ".join(map(yes_or_no, told))])
    yield "\t".join(["match", "(a*)*b", "a" * 1000 + "b", "a" * 1000, "b", "yes no yes"])
    around = "`abcdefg\n\r\u00e9\U00010000"
    for pattern in ("[b-e]", "[^b-e]", "[b-be-e]", "[^a]", ".", "[\\^-a]", "[-b]", "[^-]", "[\u00e0-\u00ff]", "[^\U00010000]"):
        yield match_line(pattern, list(around) + ["", "bb"])


# Patterns of values, as pairs of the fields that a case has for them, and of what tells whether a text is allowed.


def typed(kind, facets):
    tests = [test_of(kind, name, value) for name, value in facets]
    field = "\u241f".join([":" + kind, *(f"{name}={value}" for name, value in facets)])

    def allows(text):
        return values.fits(kind, text) == "yes" and all(test(treated(kind, text)) for test in tests)

    return [field], allows


def treated(kind, text):
    if kind == "string":
        return text
    return re.sub("[\t\n\r]", " ", text) if kind == "normalizedString" else collapsed(text)


def test_of(kind, name, value):
    if name == "pattern":
        regex = regex_of(value)
        return regex.fullmatch
    number = int(value)
    return {
        "length": lambda text: len(text) == number,
        "minLength": lambda text: len(text) >= number,
        "maxLength": lambda text: len(text) <= number,
        "minInclusive": lambda text: int(text) >= number,
        "maxInclusive": lambda text: int(text) <= number,
    }[name]


def same(own):
    return ["=" + picture(own)], lambda text: collapsed(text) == collapsed(own)


def either(one, other):
    return one[0] + other[0] + ["|"], lambda text: one[1](text) or other[1](text)


def listed(leaves, pattern):
    """A list. Its pattern has signs after their parts, and the numbers of leaves."""

    def allows(text):
        words = collapsed(text).split(" ") if collapsed(text) else []
        marks = [[leaf[1](word) for leaf in leaves] for word in words]
        return len(words) in ends(tree_of(pattern), marks, {0})

    return [field for leaf in leaves for field in leaf[0]] + ["[" + pattern], allows


def tree_of(pattern):
    parts = []
    for sign in pattern:
        if sign in "|.":
            right = parts.pop()
            parts.append((sign, parts.pop(), right))
        elif sign == "+":
            parts.append((sign, parts.pop()))
        else:
            parts.append((sign,))
    (tree,) = parts
    return tree


def ends(tree, marks, begun):
    """Where words that the pattern matches may end that begin at one of these places."""
    sign = tree[0]
    if sign == "|":
        return ends(tree[1], marks, begun) | ends(tree[2], marks, begun)
    if sign == ".":
        return ends(tree[2], marks, ends(tree[1], marks, begun))
    if sign == "+":
        found = new = ends(tree[1], marks, begun)
        while new:
            new = ends(tree[1], marks, new) - found
            found = found | new
        return found
    if sign in "!-":
        return begun if sign == "-" else set()
    return {at + 1 for at in begun if at < len(marks) and int(sign) < len(marks[at]) and marks[at][int(sign)]}


def any_pattern(rng, leaves, depth):
    kind = rng.random()
    if depth == 0 or kind < 0.3:
        return rng.choice([str(rng.randrange(leaves)), str(rng.randrange(leaves)), str(rng.randrange(leaves)), "-", "!", str(leaves)])
    if kind < 0.5:
        return any_pattern(rng, leaves, depth - 1) + "+"
    return any_pattern(rng, leaves, depth - 1) + any_pattern(rng, leaves, depth - 1) + ("|" if kind < 0.75 else ".")


WORDS = ["a", "b", "ab", "a b", "b  a", "7", "-0", "007", "true", "en-GB", "x:y", ".5", "\u00e9", ""]


def any_leaf(rng):
    kind = rng.random()
    if kind < 0.05:
        return ["!"], lambda text: False
    if kind < 0.1:
        return ["?"], lambda text: True
    if kind < 0.4:
        return same(rng.choice(WORDS))
    while True:
        name = rng.choice(list(FORMS))
        facets = any_facets(rng, name)
        if not values.item(name, facets).startswith("rule"):
            return typed(name, facets)


def any_facets(rng, kind):
    facets = {}
    for _ in range(rng.choice([0, 0, 0, 1, 2])):
        name = rng.choice([name for name in LENGTHS + BOUNDS + ["pattern"] if values.takes(kind, name)])
        facets[name] = made(rng, 1) if name == "pattern" else str(rng.randrange(4) if name in LENGTHS else rng.randrange(-9, 10))
    return sorted(facets.items())


def any_value(rng, depth):
    kind = rng.random()
    if depth == 0 or kind < 0.3:
        return any_leaf(rng)
    if kind < 0.5:
        return either(any_value(rng, depth - 1), any_value(rng, 0))
    leaves = [any_leaf(rng) for _ in range(rng.randrange(1, 4))]
    return listed(leaves, any_pattern(rng, len(leaves), 3))


def spaced(rng):
    words = [rng.choice(WORDS) for _ in range(rng.choice([0, 1, 1, 1, 2, 3, 5]))]
    gap = lambda: "".join(rng.choice(" \t\n\r") for _ in range(rng.choice([1, 1, 2])))
    return rng.choice(["", gap()]) + gap().join(words) + rng.choice(["", gap()])


def allows_line(value, text):
    return "\t".join(["allows", *value[0], picture(text), yes_or_no(value[1](text))])


def allowed(rng):
    for _ in range(ALLOWED):
        yield allows_line(any_value(rng, 2), spaced(rng))


def borders():
    """Each facet of each type, on texts around its border; lists of around as many words as they want."""
    for kind, name in itertools.product(WITH_LENGTH, LENGTHS):
        for text in BORDERS:
            for count in sorted({max(len(treated(kind, text)) + more, 0) for more in (-1, 0, 1)}):
                yield allows_line(typed(kind, [(name, str(count))]), text)
    for kind, name in itertools.product(WITH_BOUNDS, BOUNDS):
        for bound in ("0", "-0", "7", "+07", "-7", "9" * 18, "-" + "9" * 18):
            for text in sorted({str(int(bound) + more) for more in (-1, 0, 1)} | {" +0 ", "-0", "0007"}):
                yield allows_line(typed(kind, [(name, bound)]), text)
    for kind in FORMS:
        for text, pattern in itertools.product((" 1", "1", " a  b ", "a\tb"), ("1", " 1", "a b", "a  b", " a  b ", "a.b")):
            yield allows_line(typed(kind, [("pattern", pattern)]), text)
    for own, text in itertools.product(("a b", " a  b ", "", " ", "\u00a0"), ("a b", "\ta\n\nb ", "ab", "", "\r", "\u00a0")):
        yield allows_line(same(own), text)
    for pattern, count in itertools.product(("-", "!", "0", "0+", "-0+|", "00.", "000..0+.", "-0|-0|.", "0-0|.", "00|1.", "1", "9"), range(5)):
        yield allows_line(listed([same("a"), same("b")], pattern), " a" * count)


def main(folder):
    rng = random.Random(SEED)
    for name, lines in (("matching", matching(rng)), ("allowed", allowed(rng)), ("borders", borders())):
        values.write(folder, name, lines)


if __name__ == "__main__":
    main(pathlib.Path(sys.argv[1]))
