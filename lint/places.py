"""The characters of a file with their lines and columns, and what is found in them.

A place is a number of characters from the start of the file. Lines and columns count from 1, a
column for each character; a byte order mark at the start of a file has none.
"""

import bisect
import difflib
import re
from dataclasses import dataclass


class Text:
    """The characters of a file, and where its lines begin."""

    def __init__(self, characters, line_end=r"\n"):
        self.characters = characters
        self.starts = [0, *(it.end() for it in re.finditer(line_end, characters))]

    def line(self, place):
        return bisect.bisect_right(self.starts, place)

    def line_at(self, place):
        """The line in which a place stands, with its end."""
        line = self.line(place)
        end = self.starts[line] if line < len(self.starts) else len(self.characters)
        return self.characters[self.starts[line - 1] : end]

    def column(self, place):
        return place - self.starts[self.line(place) - 1] + 1


@dataclass
class Finding:
    """A fault, or a note where the program says nothing. `rule` is the short name of what was
    broken, `owner` the graph, task or row that has it, and `fault` the program's own line."""

    rule: str
    start: int
    end: int
    owner: str
    message: str
    fault: str = ""

    @property
    def words(self):
        return f"{self.owner}: {self.message}" if self.owner else self.message


def shown(text, most=40):
    """A text of a file in quotes, safe to print: cut where it is long, one line, no controls."""
    cut = text if len(text) <= most else text[: most - 2] + ".."
    return '"' + "".join(map(shown_character, cut)) + '"'


def bare(text, most=40):
    """The same without the quotes."""
    return shown(text, most)[1:-1]


def shown_character(character):
    """The character, or its number where it cannot be printed."""
    number = ord(character)
    if 0xDC80 <= number <= 0xDCFF:
        return f"\\x{number - 0xDC00:02X}"
    return character if character.isprintable() else f"\\u{number:04X}"


def ordinal(number):
    """1st, 2nd, 3rd, 4th, .., 11th, .."""
    last = 0 if number % 100 in (11, 12, 13) else number % 10
    return f"{number}{ {1: 'st', 2: 'nd', 3: 'rd'}.get(last, 'th') }"


def listed(words, last="and"):
    """The words as a reader lists them: a, b and c."""
    words = list(words)
    if len(words) < 2:
        return "".join(words)
    return f"{', '.join(words[:-1])} {last} {words[-1]}"


def counted(number, word):
    """1 slot, 2 slots."""
    return f"{number} {word}" if number == 1 else f"{number} {word}s"


def nearest(word, known):
    """The known word that this one was most likely meant to be, or none."""
    lower = {it.lower(): it for it in known}
    if word.lower() in lower:
        return lower[word.lower()]
    found = difflib.get_close_matches(word.lower(), lower, 1, 0.6)
    return lower[found[0]] if found else None


def did_you_mean(word, known):
    """The question after a word that is not known, or nothing where no word is near it."""
    meant = nearest(word, known)
    return f"; did you mean {shown(meant)}?" if meant else ""
