#!/usr/bin/env python3
"""Works out which words patterns match, apart from odd.

    checks/patterns.py [FILE..]

Prints the case crates/odd_cases/data/cases/patterns/random: patterns made from a fixed seed, what the calls `choice`,
`group` and `more` make of each as their docstrings say, and the words that it matches. These are found by Python's `re` and again
by trying all splits of a word, and both must agree. With FILES, which are cases of patterns whose words do not go on, prints each
line that says otherwise, and ends with 1 where there is one.
"""

import itertools
import pathlib
import random
import re
import sys

SEED = 20261128
COUNT, LEAST_SIZE, GREATEST_SIZE, GREATEST_LIST = 300, 4, 12, 5
LENGTH, LETTERS = 4, "abc"
GREATEST_MORE = 3  # where more of them nest, `re` may take minutes
LEAVES = {"a": 6, "b": 6, "c": 4, "-": 3, "!": 1}
SIGNS = {"|": 5, ".": 6, "+": 3}
NEVER, EMPTY = "!", "-"

# A pattern is a leaf in one character, or a tuple of its sign and its parts. The signs are '|' and '/' of a choice, '.' and ','
# of a group, and '+' of what stands once or more; '/' and ',' have any number of parts.


def chosen(rng, weights):
    """One of the keys, by their weights."""
    return rng.choices(list(weights), list(weights.values()))[0]


def made_pattern(rng, size, letters):
    """A pattern of so many nodes, over some of the letters."""
    if size == 1:
        return chosen(rng, {leaf: weight for leaf, weight in LEAVES.items() if leaf in letters + NEVER + EMPTY})
    sign = "+" if size == 2 else chosen(rng, SIGNS)
    if sign == "+":
        return "+", made_pattern(rng, size - 1, letters)
    left = rng.randrange(1, size - 1)
    return sign, made_pattern(rng, left, letters), made_pattern(rng, size - 1 - left, letters)


def made_list(rng, letters):
    """A choice or a group of any number of small patterns."""
    count = rng.randrange(GREATEST_LIST + 1)
    return rng.choice("/,"), *[made_pattern(rng, rng.randrange(1, 4), letters) for _ in range(count)]


def made_row(rng):
    """A row of a table: a pattern as it is written, and what is told of it beside the words."""
    letters = LETTERS[: rng.choice([2, 2, 3])]
    if rng.random() < 0.1:
        return spelled(made_list(rng, letters)), ""
    pattern = made_pattern(rng, rng.randrange(LEAST_SIZE, GREATEST_SIZE + 1), letters)
    return spelled(pattern), "= " + spelled(simplified(pattern))


def spelled(pattern):
    """A pattern as it is written: each sign after its parts."""
    return "".join(map(spelled, pattern[1:])) + pattern[0]


def read(text):
    """The pattern of a text."""
    parts = []
    for sign in text:
        count = {"|": 2, ".": 2, "+": 1, "/": len(parts), ",": len(parts)}.get(sign, 0)
        taken = parts[len(parts) - count :]
        del parts[len(parts) - count :]
        parts.append((sign, *taken) if sign in "|.+/," else sign)
    (pattern,) = parts
    return pattern


def simplified(pattern):
    """What the calls make of a pattern with the signs '|', '.' and '+'."""
    sign, parts = pattern[0], [simplified(part) for part in pattern[1:]]
    if sign == "|":
        parts = [part for part in parts if part != NEVER]
        return parts[0] if len(set(parts)) == 1 else ("|", *parts) if parts else NEVER
    if sign == ".":
        if NEVER in parts:
            return NEVER
        parts = [part for part in parts if part != EMPTY]
        return (".", *parts) if len(parts) == 2 else parts[0] if parts else EMPTY
    if sign == "+":
        (part,) = parts
        return part if part in (NEVER, EMPTY) or part[0] == "+" else ("+", part)
    return pattern


def letter(leaf):
    """The regular expression of a leaf over letters."""
    return leaf


def child(leaf):
    """The regular expression of a leaf over children: a text, or an element with the mark of a label."""
    return leaf if leaf == "t" else f"e[01]{{{leaf}}}1[01]*"


def expression(pattern, leaf):
    """The regular expression of a pattern."""
    sign, parts = pattern[0], [expression(part, leaf) for part in pattern[1:]]
    if sign in "|/":
        return f"(?:{'|'.join(parts)})" if parts else "(?!)"
    if sign in ".,":
        return f"(?:{''.join(parts)})"
    if sign == "+":
        return f"(?:{parts[0]})+"
    return {NEVER: "(?!)", EMPTY: "(?:)"}.get(sign) or leaf(sign)


def matches(pattern, word, leaf):
    """Whether a pattern matches a word, by all splits."""
    sign, parts = pattern[0], pattern[1:]
    if sign in "|/":
        return any(matches(part, word, leaf) for part in parts)
    if sign in ".,":
        return matches_each(parts, word, leaf)
    if sign == "+":
        (part,) = parts
        return matches(part, word, leaf) or any(
            matches(part, word[:at], leaf) and matches(pattern, word[at:], leaf) for at in range(1, len(word))
        )
    if sign in (NEVER, EMPTY):
        return sign == EMPTY and not word
    return bool(re.fullmatch(leaf(sign), word))


def matches_each(parts, word, leaf):
    """Whether a word is one piece for each of the parts, in order."""
    if not parts:
        return not word
    return any(
        matches(parts[0], word[:at], leaf) and matches_each(parts[1:], word[at:], leaf) for at in range(len(word) + 1)
    )


def matched(text, words, leaf):
    """The words that a pattern matches."""
    pattern = read(text)
    regular = re.compile(expression(pattern, leaf))
    found = [word for word in words if regular.fullmatch(word)]
    other = [word for word in words if matches(pattern, word, leaf)]
    assert found == other, f"{text}: {found} by re, {other} by splits"
    return found


def all_words(length, symbols):
    """All words of up to so many of the symbols."""
    return ["".join(word) for count in range(length + 1) for word in itertools.product(symbols, repeat=count)]


def line(text, told, words, leaf):
    """A line of a table."""
    return " ".join([text, *[told] * bool(told), ":", *[word or "-" for word in matched(text, words, leaf)]])


def random_case():
    """The case of random patterns, in which no pattern comes twice."""
    rng, rows = random.Random(SEED), {}
    while len(rows) < COUNT:
        text, told = made_row(rng)
        if text.count("+") <= GREATEST_MORE:
            rows[text] = told
    words = all_words(LENGTH, LETTERS)
    lines = [line(text, told, words, letter) for text, told in rows.items()]
    return "\n".join([f"=== all {LENGTH} {' '.join(LETTERS)}", "=== patterns", *lines, ""])


def asked_words(head, body):
    """The words of a head, or of the lines below it."""
    if head.startswith("=== all "):
        _, _, length, *symbols = head.split()
        return all_words(int(length), symbols)
    return [word.replace("-", "") for word in body.split()]


def differences(case):
    """The lines of a case that say otherwise than what is worked out."""
    first, second = re.findall(r"^(=== .*)\n((?:(?!=== ).*\n)*)", case, re.M)
    words = asked_words(*first)
    leaf = child if second[0] == "=== patterns of children" else letter
    for given in second[1].splitlines():
        text, told = given.split(" :")[0].partition(" ")[::2]
        if told.startswith("="):
            told = "= " + spelled(simplified(read(text)))
        worked_out = line(text, told, words, leaf)
        if given != worked_out:
            yield f"{given}\n  and not {worked_out}"


def main(files):
    if not files:
        sys.stdout.write(random_case())
    found = [difference for file in files for difference in differences(pathlib.Path(file).read_text())]
    for difference in found:
        print(difference)
    return 1 if found else 0


if __name__ == "__main__":
    sys.exit(main(sys.argv[1:]))
