"""Arrivals with times, with the faults of their rows.

A row ends with LF, and its fields have no quotes. The last field of a row reaches to its end, with
the commas in it. Each row is checked in the order in which slotunits does, so the first fault found
is the one that it tells.
"""

import re

from .arrivals import ArrivalsFile
from .csv_rows import Field, Row
from .places import shown
from .task_file import TaskSet
from .unit_file import PLACES, time_of

# The fields of each kind of row.
FORMS = {
    "soft": ["TIME", "soft", "TIME"],
    "firm": ["TIME", "firm", "TIME", "TIME"],
    "sporadic": ["TIME", "sporadic", "NAME"],
    "done": ["TIME", "done", "KEY"],
    "withdraw": ["TIME", "withdraw", "ROW"],
}

# A time of any length.
LONG_TIME = re.compile(r"([0-9]+)(?:\.([0-9]+))?(ns|us|ms|s)")
RULE = "a time is as 10ms or 0.25ms, in ns, us, ms or s"


class TimedFile(ArrivalsFile):
    """The rows of a file whose arrivals have times."""

    forms = FORMS
    front = "time"
    example = "0ms,soft,2ms"

    def __init__(self, text):
        super().__init__(text, timed_rows(text.characters), TaskSet([], [], False), None)

    def check_row(self, row):
        """Checks a row."""
        if len(row.fields) < 2:
            self.tell("fields", row, row, self.why_one_field(row), f"bad row {row.number}")
            return
        is_told = not self.has_time(row, 0)
        kind = row.fields[1].text
        form = FORMS.get(kind)
        if len(row.fields) < len(form or FORMS["soft"]):
            message = self.why_count(row, kind) if form else "there are two fields, and each row has three at least"
            self.tell("fields", row, row, message, f"bad row {row.number}")
        elif form is None:
            self.tell_kind(row, is_told)
        else:
            for index in range(2, len(form)):
                if form[index] == "TIME":
                    self.has_time(row, index)

    def has_time(self, row, index):
        """Whether a field is a time, of which the cause is told where it is none."""
        field = row.fields[index]
        if time_of(field.text) is not None:
            return True
        if index == 0 and row.number == 1 and re.match(r"[A-Za-z]", field.text):
            message = "this looks like a header: an arrivals file has none, so take the line out"
        elif "," in field.text:
            form = FORMS[row.fields[1].text]
            message = f"{form[1]} has {len(form)} fields: {','.join(form)}; {shown(field.text)} is more than the last"
        else:
            message = f"the time {why_no_time(field.text)}"
        self.tell("time", row, field, message, f"bad time {row.number} {index + 1}")
        return False


def timed_rows(characters):
    """The rows, one after the other."""
    start = number = 0
    for line in characters.split("\n"):
        if line:
            number += 1
            yield Row(number, list(fields_of(line, start)))
        start += len(line) + 1


def fields_of(line, start):
    """The fields of the row that begins here."""
    texts = line.split(",", 2)
    if len(texts) == 3 and texts[1] == "firm":
        texts[2:] = texts[2].split(",", 1)
    for text in texts:
        yield Field(text, start, start + len(text))
        start += len(text) + 1


def why_no_time(text):
    """Why a text is no time, and what to write."""
    plain = text.strip()
    written = f"is {shown(text)}"
    if not plain:
        return f"is empty: {RULE}"
    if text == f"{plain}\r":
        return f"{written}: its line ends with CR and LF; end it with LF alone"
    if text.startswith("\ufeff"):
        return f"{written}, behind a byte order mark: save the file without it"
    if time_of(plain) is not None:
        return f"{written} and has a space: write {plain} alone"
    if time_of(plain.strip('"')) is not None:
        return f"{written} and has quotes: write {plain.strip(chr(34))} alone"
    if re.fullmatch(r"[0-9]+(?:\.[0-9]+)?", plain):
        return f"{written} and has no unit: {RULE}"
    if match := LONG_TIME.fullmatch(plain):
        if len(match[1]) > 10:
            return f"{written}, and 10 digits are the most before a point and the unit"
        places = PLACES[match[3]]
        most = f"in {match[3]} {places} digits are the most behind the point" if places else "ns have no point"
        return f"{written}: a time is a whole number of nanoseconds, so {most}"
    return f"{written}, which is no time: {RULE}"
