"""Elements of a schema and their text, for checks that work schemas out apart from odd."""

import collections

# An element of a schema: its parts with how often each stands in turn, and how many elements it has.
Markup = collections.namedtuple("Markup", "tag pairs parts text size")


def escaped(value):
    for character, name in (("&", "&amp;"), ("<", "&lt;"), ('"', "&quot;"), ("\n", "&#10;"), ("\t", "&#9;"), ("\r", "&#13;")):
        value = value.replace(character, name)
    return value


def escaped_text(text):
    for character, name in (("&", "&amp;"), ("<", "&lt;"), (">", "&gt;"), ("\r", "&#13;")):
        text = text.replace(character, name)
    return text


def markup(tag, parts=(), text="", **pairs):
    """An element of the schema. Its parts are pairs of how often a part stands and the part."""
    return Markup(tag, pairs, list(parts), text, 1 + sum(times * part.size for times, part in parts))


def once(*parts):
    return [(1, part) for part in parts]


def reference(name):
    return markup("ref", name=name)


def joined(tag, none, parts):
    """A group or a choice of the parts: of none it is the element `none`, and of one that part."""
    parts = [(times, part) for times, part in parts if times]
    if not parts:
        return markup(none)
    return parts[0][1] if len(parts) == 1 and parts[0][0] == 1 else markup(tag, parts)


def repeated(part, least, greatest):
    """A part as often as bounds say, of which the greatest is None where there is none."""
    if (least, greatest) == (1, None):
        return markup("oneOrMore", once(part))
    if greatest is None:
        return joined("group", "empty", [(least, part), (1, markup("zeroOrMore", once(part)))])
    return joined("group", "empty", [(least, part), (greatest - least, markup("optional", once(part)))])


def excepting(tag, parts, **pairs):
    """A name class with what it leaves out."""
    return markup(tag, once(markup("except", once(*parts))) if parts else (), **pairs)


def names_among(names):
    return [markup("name", text=local, ns=ns) for ns, local in names]


def name_class(require, spaces, names):
    """The name class of a condition, and None where no name meets it."""
    if not require:
        return excepting("anyName", [*(markup("nsName", ns=ns) for ns in spaces), *names_among(names)])
    left = [ns for ns in require if ns not in spaces]
    classes = [excepting("nsName", names_among(name for name in names if name[0] == ns), ns=ns) for ns in left]
    return joined("choice", None, once(*classes)) if classes else None


def condition_define(name, condition):
    names = name_class(*condition)
    attributes = markup("zeroOrMore", once(markup("attribute", once(markup("anyName")))))
    inside = markup("zeroOrMore", once(markup("choice", once(markup("text"), reference(name)))))
    body = markup("element", once(names, attributes, inside)) if names else markup("notAllowed")
    return markup("define", once(body), name=name)


def written(element):
    """The text of an element of the schema."""
    pairs = "".join(f' {name}="{escaped(value).replace(">", "&gt;")}"' for name, value in element.pairs.items())
    if element.text:
        return f"<{element.tag}{pairs}>{escaped_text(element.text)}</{element.tag}>\n"
    inside = "".join(written(part) * times for times, part in element.parts)
    return f"<{element.tag}{pairs}>\n{inside}</{element.tag}>\n" if inside else f"<{element.tag}{pairs}/>\n"
