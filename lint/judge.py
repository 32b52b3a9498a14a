"""What is found in a task file and in an arrivals file, from their bytes."""

from . import arrival_notes, task_notes
from .arrivals import ArrivalsFile
from .csv_rows import LINE_END, rows_of
from .places import Finding, Text
from .reading import byte_told, characters_of, encoding_of, is_task_file, look_of, strange_bytes
from .task_file import TaskFile, TaskSet
from .task_rules import RULES, cycle_length, demand
from .timed_rows import TimedFile
from .toml_text import Document
from .unit_file import UnitFile, cycle_in_slots

NOT_TOML = "tasks not toml"
NO_UNITS = "units not toml"

# How the name of a file of units ends.
UNITS_END = ".units.toml"


class Judged:
    """A file with its text, what was found in it in the order of the program's checks, and what it
    writes, where that is known."""

    def __init__(self, name, text, findings, content=None):
        self.name = name
        self.text = text
        self.findings = findings
        self.content = content

    @property
    def faults(self):
        return [it for it in self.findings if it.fault]

    @property
    def first_fault(self):
        """The fault that the program tells, or none."""
        return next((it for it in self.findings if it.fault), None)

    @property
    def in_order(self):
        """The findings by their places."""
        return sorted(self.findings, key=lambda it: (it.start, it.end))


def judge_tasks(name, data):
    """A task file, or a file of units, which its name tells."""
    if name.endswith(UNITS_END):
        return judge_units(name, data)
    text = Text(characters_of(data))
    encoding = encoding_of(data)
    message = f"the file is {encoding}, and a task file is UTF-8: save it as UTF-8" if encoding else None
    look = look_of(text.characters)
    if look and not message:
        message = f"this looks like {look}"
    if message:
        first_line = len(text.characters.split("\n")[0])
        return Judged(name, text, [Finding("syntax", 0, first_line, "", message, NOT_TOML)])
    document = Document(text)
    file = TaskFile(document, text)
    # (the program reads no further than a fault of the syntax)
    file.findings[:0] = syntax_faults(document, text, file.labels)
    for rule in RULES:
        rule(file)
    for note in task_notes.NOTES:
        note(file)
    return Judged(name, text, file.findings, file.set)


def judge_units(name, data):
    """A file of units."""
    text = Text(characters_of(data))
    document = Document(text)
    file = UnitFile(document, text)
    if faults := syntax_faults(document, text, file.labels, NO_UNITS):
        return Judged(name, text, [*faults, *file.findings])
    # (a set that does not fit has a task file all the same)
    for rule in RULES:
        if rule not in (cycle_length, demand):
            rule(file)
    if file.is_in_slots:
        cycle_in_slots(file)
    return Judged(name, text, file.findings)


def syntax_faults(document, text, labels, line=NOT_TOML):
    """What makes the bytes no UTF-8 or no TOML."""
    found = []
    for place in strange_bytes(text.characters):
        found.append(Finding("syntax", place, place + 1, "", byte_told(text.characters[place]), line))
    for fault, section in document.faults:
        owner = labels.get(id(section), "")
        found.append(Finding("syntax", fault.start, fault.end, owner, fault.message, line))
    return found


def judge_arrivals(name, data, tasks, slots):
    """An arrivals file beside its judged task file, if there is one, for a replay of so many slots,
    if that is known."""
    text = Text(characters_of(data), LINE_END)
    known = (tasks and tasks.content) or TaskSet([], [], False)
    file = ArrivalsFile(text, rows_of(text.characters), known, slots)
    if other := other_kind(data, file):
        return Judged(name, text, [other], file)
    if tasks and not tasks.faults:
        for note in arrival_notes.NOTES:
            note(file)
    return Judged(name, text, file.findings, file)


def judge_timed(name, data):
    """An arrivals file with times."""
    # (a mark at its front belongs to its first field)
    text = Text(data.decode("utf-8", "surrogateescape"))
    file = TimedFile(text)
    other = other_kind(data, file)
    return Judged(name, text, [other] if other else file.findings, file)


def other_kind(data, file):
    """What the bytes of a file with a fault are where they are no arrivals file at all, or none."""
    encoding = encoding_of(data)
    if not file.findings:
        return None
    if encoding:
        message = f"the file is {encoding}, and an arrivals file is ASCII: save it as CSV in UTF-8"
    elif is_task_file(file.text.characters):
        row = f"an arrivals file has rows as {file.example}"
        message = f"this looks like a task file, and {row}: are the two files swapped?"
    else:
        return None
    # (the fault of its first row is the one that the program tells)
    first = file.findings[0]
    return Finding("other kind", first.start, first.end, "", message, first.fault)
