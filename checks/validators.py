#!/usr/bin/env python3
"""Compares the schemas of ODD files, as jing and xmllint read them, with what the files admit.

    checks/validators.py PROGRAM [COUNT]

PROGRAM is the built program odd. Of the two validators those that are installed are asked, and one must be. The files are
twenty-six small ones, and COUNT at random with content models, attributes and data (2,000 where it is not given), from a fixed
seed. For each file and each of its documents the verdict that docs/admission.md gives is worked out apart from the program, and
compared with theirs. Ends with 1 where one of them differs. Schemas that libxml2 is known to misread, listed below, are jing's
alone.
"""

import collections
import concurrent.futures
import functools
import pathlib
import random
import re
import shutil
import subprocess
import sys
import tempfile
from xml.sax.saxutils import quoteattr

import attribute_models
import content_models
from attribute_models import Either, Listed, Typed
from content_models import BRANCHES, TEI, Library, Part, Spec, Verdicts, meeting_names

# Where Debian puts jing. Its driver for test suites reads all folders in one run, of which the program jing would take hours.
JING = pathlib.Path("/usr/share/java/jing.jar")
JING_TESTS = ["java", "-cp", str(JING), "com.thaiopensource.relaxng.util.TestDriver"]
XMLLINT = ["xmllint", "--noout", "--relaxng"]
LONGEST = 600

Case = collections.namedtuple("Case", "odd library documents")
Made = collections.namedtuple("Made", "folder documents admitted misread")

CONTENTS = {
    "none": "",
    "partless": "<content/>",
    "empty": "<content><empty/></content>",
    "text": "<content><textNode/></content>",
}

# Each library: the start words, and its elements with their contents, perhaps with a namespace after a space.
LIBRARIES = [
    ("a", {"a": "empty"}),
    ("a", {"a": "text"}),
    ("a", {"a": "none"}),
    ("a", {"a": "partless"}),
    ("a", {"a": "empty", "b": "text"}),
    ("b", {"a": "empty", "b": "text"}),
    ("b", {"b": "empty", "a": "text"}),
    ("a", {"b": "text", "a": "text"}),
    ("p", {"p": "text", "q": "none", "r": "empty"}),
    ("q", {"p": "text", "q": "none", "r": "empty"}),
    ("r", {"p": "text", "q": "none", "r": "empty"}),
    ("TEI", {"TEI": "text", "teiHeader": "empty", "text": "text"}),
    ("text", {"TEI": "empty", "teiHeader": "empty", "text": "text"}),
    ("_x", {"_x": "text", "x": "empty"}),
    ("a.b", {"a.b": "empty", "a": "text", "a-b": "text"}),
    ("a-b", {"a.b": "empty", "a": "text", "a-b": "text"}),
    ("a1", {"a1": "text", "a10": "empty", "a2": "empty"}),
    ("element", {"element": "text", "grammar": "empty"}),
    ("empty", {"empty": "empty", "text": "text"}),
    ("e.a", {"e.a": "text", "a": "empty"}),
    ("a", {"a": "text urn:x", "b": "empty"}),
    ("a", {"a": "empty ", "b": "text urn:x"}),
    ("a", {"a": 'text a"<>&\'b', "b": "text"}),
    ("a b", {"a": "text", "b": "empty urn:x", "c": "text"}),
    ("c b a", {"a": "text ", "b": "empty", "c": "text"}),
    ("b a b", {"a": "text urn:x", "b": "text urn:x"}),
]


def odd_file(start, elements):
    """The ODD file of a library."""
    specs = ""
    for ident, content in elements.items():
        content, given, ns = content.partition(" ")
        ns = f" ns={quoteattr(ns)}" if given else ""
        specs += f'<elementSpec ident="{ident}"{ns}>{CONTENTS[content]}</elementSpec>\n'
    return f'<schemaSpec xmlns="{TEI}" ident="s" start="{start}">\n{specs}</schemaSpec>\n'


def namespace(content):
    """The namespace that follows a content, or TEI's."""
    _content, given, ns = content.partition(" ")
    return ns if given else TEI


def documents(start, elements):
    """Documents for a library, as pairs of a title and a text."""
    words, start = start.split(), start.split()[0]
    other = next((ident for ident in elements if ident not in words), words[-1])
    ns = namespace(elements[start])
    bound = f"xmlns={quoteattr(ns)}"
    begin, end = f"<{start} {bound}>", f"</{start}>"
    yield "empty tag", f"<{start} {bound}/>"
    yield "nothing", begin + end
    yield "text", begin + "x" + end
    yield "white space", begin + " \t\n" + end
    yield "white space by references", begin + "&#32;&#9;&#10;&#13;" + end
    yield "a space that is no white space", begin + "&#160;" + end
    yield "comment", begin + "<!--c-->" + end
    yield "comment in white space", begin + " <!--c--> " + end
    yield "comment in text", begin + "x<!--c-->y" + end
    yield "processing instruction", begin + "<?p q?>" + end
    yield "CDATA", begin + "<![CDATA[<x>]]>" + end
    yield "CDATA of nothing", begin + "<![CDATA[]]>" + end
    yield "a child", begin + f"<{other}/>" + end
    yield "a child of its own name", begin + f"<{start}/>" + end
    yield "a child and text", begin + f"x<{other}/>y" + end
    yield "a child and white space", begin + f" <{other}/> " + end
    yield "an unknown child", begin + "<unknown/>" + end
    yield "another namespace", f'<{start} xmlns="urn:x">x</{start}>'
    yield "no namespace", f"<{start}/>"
    if ns:
        yield "a prefix", f"<t:{start} xmlns:t={quoteattr(ns)}>x</t:{start}>"
    yield "TEI's namespace", f'<{start} xmlns="{TEI}">x</{start}>'
    yield "an unknown attribute", f'<{start} {bound} n="1"/>'
    yield "an attribute in a namespace", f'<{start} {bound} xml:id="i"/>'
    yield "a declaration that is not used", f'<{start} {bound} xmlns:u="urn:u"/>'
    yield "another element as root", f"<{other} {bound}/>"
    yield "another element as root with text", f"<{other} {bound}>x</{other}>"
    yield "an unknown root", f"<unknown {bound}/>"
    yield "its name in other letters", f"<{start.swapcase()} {bound}/>"
    yield "comments around", f"<!--c--><{start} {bound}/><!--c-->"
    for word in words[1:]:
        yield "another start word", f"<{word} xmlns={quoteattr(namespace(elements[word]))}/>"
        yield "another start word with text", f"<{word} xmlns={quoteattr(namespace(elements[word]))}>x</{word}>"


def small_case(start, elements):
    """The case of a small library."""
    parts = {"empty": [Part("empty")], "text": [Part("textNode")]}
    specs = {}
    for ident, content in elements.items():
        content = content.partition(" ")[0]
        specs[ident] = Spec(namespace(elements[ident]), Part("sequence", of=parts.get(content, [])))
    return Case(odd_file(start, elements), Library(start.split(), None, specs), list(documents(start, elements)))


def random_case(number):
    """The case of a library at random, which is the same whenever it is made."""
    rng = random.Random(f"{content_models.SEED} {number}")
    library = content_models.made_library(rng)
    return Case(content_models.odd_file(rng, library), library, list(content_models.made_documents(rng, library)))


def case_of(number):
    """The case of a number: first the small libraries, then those at random."""
    return small_case(*LIBRARIES[number]) if number < len(LIBRARIES) else random_case(number - len(LIBRARIES))


# The schemas that libxml2 misreads (2.9.14), each a fault of its own, found where jing and the standard say something else: in
# its simplification of empty and notAllowed (xmlRelaxNGSimplify), in a choice of which it takes one branch alone
# (xmlRelaxNGCheckChoiceDeterminism), and in the text that it asks facets of (xmlSchemaValidateFacet). Patterns are those of
# docs/schema.md. A ref to the define of a class, a macro or a datatype has in it what the define holds.

Pattern = collections.namedtuple("Pattern", "kind inside part", defaults=((), None))
REPEATED = {(0, 1): "optional", (0, None): "zeroOrMore", (1, None): "oneOrMore"}


def often(one, low, high):
    """A pattern as often as bounds say."""
    if high == 0 or (low, high) == (1, 1):
        return one if high else Pattern("empty")
    if (low, high) in REPEATED:
        return Pattern(REPEATED[low, high], (one,))
    rest = [Pattern("zeroOrMore", (one,))] if high is None else [Pattern("optional", (one,))] * (high - low)
    return Pattern("group", (*[one] * low, *rest))


def joined(kind, inside):
    """A group or a choice of patterns."""
    if not inside:
        return Pattern({"group": "empty", "choice": "notAllowed"}[kind])
    return inside[0] if len(inside) == 1 else Pattern(kind, tuple(inside))


def pattern(library, part):
    """The pattern of a part."""
    return often(pattern_once(library, part), part.low, part.high)


def pattern_once(library, part):
    """The pattern of a part that stands once."""
    if part.kind in BRANCHES:
        return joined({"sequence": "group", "alternate": "choice"}[part.kind], [pattern(library, each) for each in part.of])
    if part.kind == "elementRef" and part.of not in library.elements:
        return Pattern("notAllowed")
    if part.kind == "macroRef":
        return Pattern("ref", (pattern(library, library.macros[part.of] or Part("empty")),))
    if part.kind == "classRef":
        members = [Part("elementRef", of=ident) for ident in content_models.picked_members(library, part.of)]
        choice = joined("choice", [Pattern("ref", (), member) for member in members])
        return Pattern("ref", (choice,)) if part.of.pick == "all" and part.of.key in library.classes else choice
    if part.kind == "data":
        return data_pattern(library, part.of)
    return Pattern({"empty": "empty", "textNode": "text"}.get(part.kind, "ref"), (), part)


def data_pattern(library, data):
    """The pattern of data."""
    if isinstance(data, Typed):
        return Pattern("data", (), data)
    if isinstance(data, Either):
        return joined("choice", [data_pattern(library, branch) for branch in data.branches])
    if isinstance(data, Listed) and data.type == "closed":
        return joined("choice", [Pattern("value")] * len(data.idents))
    if isinstance(data, Listed):
        return Pattern("data", (), Typed("string", ()))
    return Pattern("ref", (data_pattern(library, attribute_models.named_data(library, data)),))


def attribute_pattern(library, definition):
    """The pattern of an attribute's value."""
    data = attribute_models.piece_of(definition)
    piece = data_pattern(library, data) if data else Pattern("text")
    if attribute_models.is_whole(definition):
        return piece
    _item, low, high = definition["datatype"]
    return Pattern("list", (often(piece, low, high),))


def content_pattern(library, ident):
    """The pattern of an element's content."""
    return pattern(library, library.elements[ident].content or Part("empty"))


def within(whole):
    """A pattern and all that are in it."""
    yield whole
    for each in whole.inside:
        yield from within(each)


def reached(library, idents):
    """The held elements that stand in those of the idents, at any depth."""
    found, new = set(), set(idents)
    while new:
        parts = [each.part for ident in new for each in within(content_pattern(library, ident)) if each.kind == "ref"]
        new = {part.of for part in parts if part and part.kind == "elementRef"} - found
        found |= new
    return found


def is_misread(library):
    """Whether libxml2 misreads the schema of a library. It passes over elements that the start doesn't lead to."""
    return any(is_misread_at(library, ident) for ident in {*library.start, *reached(library, library.start)})


def is_misread_at(library, ident):
    """Whether libxml2 misreads the content of an element or its attributes."""
    content, again = content_pattern(library, ident), ident in reached(library, [ident])
    definitions = attribute_models.attributes_of(library, ident).values()
    values = [each for definition in definitions for each in within(attribute_pattern(library, definition))]
    if is_refused(content) or is_moved(again, definitions, content):
        return True
    by_context = functools.partial(is_cut_short, again), functools.partial(is_wrong_triage, library)
    wrong = is_wrong_repetition, is_wrong_choice, is_wrong_pattern, is_wrong_length, *by_context
    return any(test(each) for each in [*within(content), *values] for test in wrong)


def left(whole):
    """The kind that libxml2 leaves of a pattern once it has simplified what is inside."""
    inside = {left(each) for each in whole.inside}
    if whole.kind in ("group", "zeroOrMore", "oneOrMore") and inside:
        return "notAllowed" if "notAllowed" in inside else "empty" if inside == {"empty"} else whole.kind
    return whole.kind


def is_wrong_repetition(whole):
    """A zeroOrMore of what is not allowed becomes notAllowed, and is empty."""
    return whole.kind == "zeroOrMore" and left(whole) == "notAllowed"


def is_wrong_choice(whole):
    """A choice of which nothing is allowed accepts no child, or any value; one loses a branch that becomes empty by
    simplification."""
    lost = any(left(each) == "empty" and each.inside for each in whole.inside)
    return whole.kind == "choice" and (lost or all(left(each) == "notAllowed" for each in whole.inside))


def is_cut_short(again, whole):
    """Where a part of a group or choice goes, or is a group of which one part stays, the refs right before it go too. If the
    element may stand in itself, libxml2 comes by again, and then a ref that stayed of a group is one more of these refs."""
    gone = {"group": "empty", "choice": "notAllowed"}.get(whole.kind)
    stays = waiting = False
    for each in whole.inside:
        if waiting and (remaining(each) != each or stays and left(each) == gone):
            return True
        if each.kind == "ref" or again and remaining(each).kind == "ref":
            waiting = True
        elif left(each) != gone:
            stays, waiting = True, False
    return False


def remaining(whole):
    """The part that stays of a group if it is one; else the pattern."""
    parts = staying(whole)
    return remaining(parts[0]) if len(parts) == 1 else whole


def staying(whole):
    """The parts of a group that libxml2 leaves."""
    return [each for each in whole.inside if left(each) != "empty"] if whole.kind == "group" else []


def is_refused(whole):
    """The content of an element that is not allowed is taken for attributes, and then refused where something is in it."""
    return holds_nothing(whole) and any(not each.inside and each.kind not in ("empty", "notAllowed") for each in within(whole))


def holds_nothing(whole):
    """Whether libxml2 finds no element, text or empty in a pattern."""
    inside = staying(whole) or whole.inside
    return left(whole) == "notAllowed" or bool(inside) and all(holds_nothing(each) for each in inside)


def is_moved(again, definitions, content):
    """Where the element may stand in itself and has an attribute that it doesn't need, the one part that stays of a group of
    content is put among the attributes, and then refused."""
    return again and not all(map(attribute_models.is_needed, definitions)) and remaining(content) != content


def is_wrong_pattern(whole):
    """The pattern of a number, a boolean or an anyURI is asked of the text with the white space around it."""
    return "pattern" in facets_of(whole) and whole.part.type != "normalizedString" and attribute_models.has_wrong_space(whole.part.type)


def is_wrong_length(whole):
    """The length of a normalizedString is counted as if its white space were collapsed."""
    return bool({*facets_of(whole)} - {"pattern"}) and whole.part.type == "normalizedString"


def facets_of(whole):
    """The names of the facets of a pattern, where it is of a datatype."""
    return [name for name, _value in whole.part.facets] if whole.kind == "data" else []


def is_wrong_triage(library, whole):
    """Of a choice that holds each name once, and any name once, only one branch is tried for an element that two could take."""
    branches = [tops(library, each) for each in whole.inside if left(each) != "notAllowed"]
    keys = [key for branch in branches for key, _names in branch]
    if whole.kind != "choice" or is_nullable(whole) or not all(branches) or len(set(keys)) < len(keys):
        return False
    pairs = [(one, other) for at, one in enumerate(branches) for other in branches[:at]]
    return any(names & others for one, other in pairs for _key, names in one for _other_key, others in other)


def tops(library, whole):
    """The elements and texts of a pattern: the key under which libxml2 holds each, and names of elements that it takes."""
    if whole.kind == "text":
        return [("#text", set())]
    if whole.kind != "ref" or whole.inside:
        return [top for each in whole.inside if left(whole) != "notAllowed" for top in tops(library, each)]
    if whole.part.kind == "elementRef":
        name = content_models.element_name(library, whole.part.of)
        return [(name, {name})]
    names = set(meeting_names(whole.part.of))
    required = set(whole.part.of.required) - set(whole.part.of.namespaces)
    return [(("#any", *required) if len(required) == 1 else "#any", names)] if names else []


def is_nullable(whole):
    """Whether a pattern accepts no child."""
    if whole.kind in ("choice", "oneOrMore", "ref"):
        return any(is_nullable(each) for each in whole.inside)
    if whole.kind == "group":
        return all(is_nullable(each) for each in whole.inside)
    return whole.kind in ("empty", "text", "optional", "zeroOrMore")


# The comparison


def make(program, folder, number):
    """Writes the ODD file and the schema of a case, and its documents, each named by whether it is admitted."""
    case, admitted = case_of(number), 0
    folder.mkdir()
    (folder / "x.odd").write_text(case.odd, encoding="utf-8")
    with open(folder / "c.rng", "wb") as schema:
        subprocess.run([program, "compile", folder / "x.odd"], check=True, stdout=schema)
    for at, (_title, document) in enumerate(case.documents):
        wanted = Verdicts(case.library).is_admitted(document)
        admitted += wanted
        (folder / f"{at}.{'v' if wanted else 'i'}.xml").write_text(document, encoding="utf-8", newline="")
    return Made(folder, len(case.documents), admitted, is_misread(case.library))


def xmllint_differs(folder):
    """The documents in a folder of which xmllint says something else than their names, or the schema if it is refused."""
    documents = sorted(path.name for path in folder.glob("*.xml"))
    result = subprocess.run([*XMLLINT, "c.rng", *documents], capture_output=True, cwd=folder, timeout=LONGEST)
    said = result.stderr.decode(errors="replace")
    valid = re.findall(r"^(\d+\.[vi]\.xml) validates$", said, re.M)
    if sorted(valid + re.findall(r"^(\d+\.[vi]\.xml) fails to validate$", said, re.M)) != documents:
        return [folder / "c.rng"]
    return [folder / name for name in documents if (name in valid) != name.endswith(".v.xml")]


def jing_differs(folder, tests):
    """The same of jing for all folders in a folder, which holds so many documents and schemas."""
    command = [*JING_TESTS, folder / "log", folder]
    result = subprocess.run(command, capture_output=True, text=True, timeout=LONGEST)
    failed = [pathlib.Path(path) for path in re.findall(r"^Failed: *(.*)$", result.stderr, re.M)]
    if not failed and f"Number of tests: {tests}\n" not in result.stderr:
        sys.exit(f"{command}: status {result.returncode}\n{result.stdout}{result.stderr}")
    return failed


def told(validator, path):
    """The lines on a document of which a validator says something else, or on a schema that it refuses."""
    case = case_of(int(path.parent.name))
    said = f"{validator} refuses the schema"
    if path.suffix == ".xml":
        title, document = case.documents[int(path.name.partition(".")[0])]
        said = f"{validator} says {path.name.endswith('.i.xml')} of '{title}': {document}"
    return f"{said}\nby the file\n{case.odd}"


def compared(program, count, folder, pool):
    """What was made in a folder, and for each validator that is installed how much it was asked, and where it differs."""
    numbers = range(len(LIBRARIES) + count)
    made = list(pool.map(functools.partial(make, program), [folder / str(number) for number in numbers], numbers, chunksize=10))
    found = {}
    if JING.exists() and shutil.which("java"):
        found["jing"] = made, jing_differs(folder, sum(each.documents + 1 for each in made))
    if shutil.which("xmllint"):
        read = [each for each in made if not each.misread]
        found["xmllint"] = read, [path for paths in pool.map(xmllint_differs, [each.folder for each in read]) for path in paths]
    return made, found


def documents_of(made):
    """How many documents are in what was made."""
    return sum(each.documents for each in made)


def main(program, count):
    with tempfile.TemporaryDirectory() as name, concurrent.futures.ProcessPoolExecutor() as pool:
        made, found = compared(program, count, pathlib.Path(name), pool)
    if not found:
        sys.exit("neither validator is installed")
    for validator, (_asked, differing) in found.items():
        for path in differing:
            print(told(validator, path))
    admitted = sum(each.admitted for each in made)
    line = f"{len(made)} libraries, {documents_of(made)} documents, {admitted} of them admitted and {documents_of(made) - admitted} not"
    for validator, (asked, differing) in found.items():
        line += f"; {validator}: {len(differing)} of {documents_of(asked)} verdicts differ, over {len(asked)} libraries"
    print(line)
    return 1 if any(differing for _asked, differing in found.values()) else 0


if __name__ == "__main__":
    sys.exit(main(sys.argv[1], int(sys.argv[2]) if len(sys.argv) > 2 else 2000))
