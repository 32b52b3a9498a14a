"""What is said of a text that is no TOML, and what to write instead."""

import re

from .places import bare, shown, shown_character
from .toml_nodes import Fault, written
from .toml_words import why_no_value

REST_OF_LINE = re.compile(r"[^\r\n]*")
HASH = "a comment begins with #, not with"


def rest_at(text, at):
    """The rest of the line from here on."""
    return REST_OF_LINE.match(text, at)[0]


def no_character(text, at):
    """Why the character at a place may not stand there."""
    if at >= len(text):
        return "the file ends here, in the middle of a statement"
    character = text[at]
    if character == "\r":
        return "a carriage return stands alone: lines end with LF, or with CR and LF"
    if character == "\n":
        return "the line ends here, in the middle of a statement"
    if character == "\0":
        return "a byte 0 stands here: the file is no text, or UTF-16; save it as UTF-8"
    return f"the character {shown_character(character)} may not stand here"


def no_key(text, at, comment_end):
    """What is wrong where a key or a header should begin. A comment that begins here reaches to
    `comment_end`, where it has a character that it may not have."""
    rest = rest_at(text, at)
    end = at + max(len(rest), 1)
    if rest.startswith("//"):
        return Fault(at, end, f"{HASH} //")
    if rest.startswith(";"):
        return Fault(at, end, f"{HASH} ;")
    if rest.startswith("="):
        return Fault(at, end, "a key is missing before =")
    if rest.startswith("#"):
        return Fault(comment_end, comment_end + 1, no_character(text, comment_end))
    if not rest.strip() or not rest[0].isprintable():
        return Fault(at, at + 1, no_character(text, at))
    message = (
        f"{shown(rest.strip())} is no line of TOML: write a header as [[graph]], a key as "
        "period = 10, or a comment behind #"
    )
    return Fault(at, end, message)


def no_sign(text, at, parts):
    """What is wrong where = should follow a key."""
    name = written(parts)
    rest = rest_at(text, at).strip()
    if not rest:
        line = "a key with a value, as period = 10, or a header, as [[graph]]"
        message = f"{name} stands alone: a line is {line}"
        return Fault(parts[0].start, parts[-1].end, message)
    if rest[0] == ":":
        value = bare(rest[1:].strip()) or "10"
        return Fault(at, at + 1, f"after the key {name} comes =, not a colon: write {name} = {value}")
    if at == parts[-1].end and ord(rest[0]) > 127:
        message = f"the character {bare(rest[0])} may not stand in a key: keys are plain ASCII, as period"
        return Fault(at, at + 1, message)
    return Fault(at, at + len(rest), f"= is missing after the key {name}: write {name} = {bare(rest)}")


def nothing_behind_sign(at, parts):
    name = written(parts)
    return Fault(parts[0].start, at, f"{name} has no value: write one behind the =, as {name} = 10")


def no_value(text, begin, end, deepest):
    """What is wrong with what stands where a value should."""
    if begin == len(text):
        return Fault(begin, begin, "the file ends here, where a value should stand")
    if text[begin] in "[{":
        return Fault(begin, end, f"lists and tables stand more than {deepest} deep in one another")
    if begin == end:
        return Fault(begin, begin + 1, f"a value is missing before {shown(text[begin])}")
    return Fault(begin, end, why_no_value(text[begin:end]))


def no_comma(text, at, closing):
    rest = rest_at(text, at)
    message = f"a comma, or the closing {closing}, is missing before {shown(rest.strip())}"
    return Fault(at, at + max(len(rest), 1), message)


def not_closed(begin, at, closing):
    what = "list" if closing == "]" else "table"
    message = f"the {what} that begins here is not closed: write {closing} behind its last entry"
    return Fault(begin, begin + 1, message, stopped=at)


def no_text(text, begin, at, quotes):
    """What is wrong where a text in these quotes cannot go on."""
    if at < len(text) and text[at] not in "\r\n":
        return Fault(at, at + 1, no_character(text, at))
    where = ", on the same line" if len(quotes) == 1 else ""
    end = begin + len(rest_at(text, begin))
    return Fault(begin, end, f"this text is not closed: write {quotes} at its end{where}", stopped=at)


def no_escape(text, begin, at):
    message = (
        f"{bare(text[begin : at + 1])} is no escape of TOML: write \\\\ for a backslash, "
        "or the text in single quotes"
    )
    return Fault(begin, at + 1, message)


def no_closing(text, begin, brackets):
    """What is wrong with a header that does not end as it begins."""
    opening, closing = "[" * brackets, "]" * brackets
    message = f"a header that begins with {opening} ends with {closing}, as [[graph]]"
    return Fault(begin, begin + len(rest_at(text, begin)), message)


def too_much(text, begin, at):
    """What is wrong with what follows a statement on its line."""
    rest = rest_at(text, at)
    before = text[begin:at].strip(" \t")
    if rest.startswith("//"):
        message = f"{HASH} //"
    elif rest.startswith("]") and not before.startswith("[["):
        message = "one ] is too many: a graph begins with [[graph]], and a list with one [ ends with one ]"
    elif rest[0] in ",;":
        message = f"the line ends after {bare(before)}, without {shown(rest[0])}"
    else:
        message = f"{shown(rest.strip())} is too much: the line ends after {bare(before)}"
    return Fault(at, at + len(rest), message)
