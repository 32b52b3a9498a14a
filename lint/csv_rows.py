"""The rows of an arrivals file with the places of their fields.

A row ends with LF, CR or both, and an empty line is none. A field may be quoted; a quote that is
left open reaches to the end of the file, and two quotes within quotes stand for one.
"""

import re
from dataclasses import dataclass

LINE_END = r"\r\n|\r|\n"
EMPTY_LINES = re.compile(r"[\r\n]*")
QUOTED = re.compile(r'"((?:[^"]+|"")*)("?)([^,\r\n]*)')
PLAIN = re.compile(r"[^,\r\n]*")


@dataclass
class Field:
    """A field, and whether it begins with a quote that nothing closes."""

    text: str
    start: int
    end: int
    is_open: bool = False


@dataclass
class Row:
    """A row: its number, counted from 1 without empty lines, and its fields."""

    number: int
    fields: list

    @property
    def start(self):
        return self.fields[0].start

    @property
    def end(self):
        return self.fields[-1].end

    @property
    def label(self):
        return f"row {self.number}"


def rows_of(characters):
    """The rows, one after the other."""
    at = EMPTY_LINES.match(characters).end()
    number = 0
    while at < len(characters):
        number += 1
        fields = [field_at(characters, at)]
        while characters.startswith(",", fields[-1].end):
            fields.append(field_at(characters, fields[-1].end + 1))
        yield Row(number, fields)
        at = EMPTY_LINES.match(characters, fields[-1].end).end()


def field_at(characters, start):
    """The field that begins here."""
    quoted = QUOTED.match(characters, start)
    if quoted is None:
        plain = PLAIN.match(characters, start)
        return Field(plain[0], start, plain.end())
    text = quoted[1].replace('""', '"') + quoted[3]
    return Field(text, start, quoted.end(), is_open=not quoted[2])
