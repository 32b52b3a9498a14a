"""An arrivals file beside the set of its task file, with the faults of its rows.

Each row is checked in the order in which the program does, so the first fault found is the one
that it tells.
"""

import re

from .limits import ARRIVAL_LIMIT, NUMBER_LIMIT, OFFER_LIMIT, REPLAY_LIMIT
from .places import Finding, bare, did_you_mean, listed, nearest, shown

# The fields of each kind of row.
FORMS = {
    "soft": ["SLOT", "soft", "SLOTS"],
    "firm": ["SLOT", "firm", "SLOTS", "WITHIN"],
    "sporadic": ["SLOT", "sporadic", "NAME"],
    "done": ["SLOT", "done", "KEY"],
    "withdraw": ["SLOT", "withdraw", "ROW"],
}

# Words for a kind that are none.
OTHER_KINDS = {
    "periodic": "periodic work is a graph of the task file, and needs no rows",
    "alarm": "the arrival of an alarm is sporadic",
    "event": "the arrival of an alarm is sporadic",
    "aperiodic": "aperiodic work is soft, or firm where it has a deadline",
    "hard": "work with a deadline is firm",
    "end": "an early end is done",
    "finish": "an early end is done",
    "cancel": "a request is taken back by withdraw",
}

OPEN_QUOTE = "the quote that opens here is not closed, so the rest of the file belongs to this field"


class ArrivalsFile:
    """The rows of a file, the set whose arrivals they are, and the slots of the replay, if told."""

    forms = FORMS
    # What a row begins with, and a row as an example.
    front = "slot"
    example = "0,soft,2"

    def __init__(self, text, rows, tasks, slots):
        self.text = text
        self.tasks = tasks
        self.slots = slots
        self.findings = []
        self.rows = []
        self.before = None
        for row in rows:
            if row.number > ARRIVAL_LIMIT:
                message = f"more than {ARRIVAL_LIMIT} rows: replay fewer at a time"
                self.tell("too many rows", row, row, message, "too many")
                break
            self.check_row(row)

    def tell(self, rule, row, place, message, fault):
        """Adds a fault of a row."""
        self.findings.append(
            Finding(rule, place.start, place.end, row.label, message, f"arrivals {fault}")
        )

    def note(self, rule, row, place, message):
        self.findings.append(Finding(rule, place.start, place.end, row.label, message))

    # Rows

    def check_row(self, row):
        """Checks a row, and keeps it where it has no fault."""
        told = len(self.findings)
        if len(row.fields) < 2:
            self.tell("fields", row, row, self.why_one_field(row), f"bad row {row.number}")
            return
        slot = self.number_at(row, 0, 0, NUMBER_LIMIT)
        kind = row.fields[1].text
        if kind not in FORMS:
            # (of a header, and of a row in another order, the first field is told)
            self.tell_kind(row, slot is None)
        elif len(row.fields) != len(FORMS[kind]):
            self.tell("fields", row, row, self.why_count(row, kind), f"bad row {row.number}")
        else:
            self.check_fields(row, kind)
        if slot is not None:
            self.check_slot(row, slot)
        if len(self.findings) == told:
            self.rows.append(row)

    def check_fields(self, row, kind):
        """Checks what follows the kind."""
        if kind in ("soft", "firm"):
            self.number_at(row, 2, 1, OFFER_LIMIT)
        if kind == "firm":
            self.number_at(row, 3, 0, OFFER_LIMIT)
        if kind == "withdraw":
            self.number_at(row, 2, 1, ARRIVAL_LIMIT)
        if kind == "sporadic":
            self.check_alarm(row)
        if kind == "done":
            self.check_key(row)

    def check_slot(self, row, slot):
        """Slots do not fall from row to row, and end before the replay does."""
        field = row.fields[0]
        before, self.before = self.before, (slot, row)
        if before and slot < before[0]:
            line = self.text.line(before[1].start)
            message = f"slot {slot} comes after slot {before[0]} (line {line}): sort the rows by their slots"
            self.tell("order", row, field, message, f"out of order {row.number} {before[0]} {slot}")
        most = self.slots or REPLAY_LIMIT
        if slot >= most:
            cure = "replay more slots, or cut the rows" if self.slots else "that is the longest"
            range_told = f"a replay of {most} slots has the slots 0 to {most - 1}"
            message = f"slot {slot} is past the end: {range_told}; {cure}"
            self.tell("past end", row, field, message, f"past end {row.number} {slot}")

    # Faults of a row

    def why_one_field(self, row):
        """What is wrong with a row that has no comma."""
        text = row.fields[0].text
        form = f"a row is {self.front.upper()},KIND,.., as {self.example}"
        if text and not text.strip():
            return "this line has spaces, so it is a row without fields: take them out; an empty line is none"
        if text.lstrip().startswith(("#", "//", ";", "%")):
            return "an arrivals file has no comments: take the line out"
        for mark, name in ((";", "semicolons"), ("\t", "tabs")):
            if mark in text:
                return f"fields are parted by commas, not by {name}: {form}"
        if text.lstrip().startswith("["):
            return f"{shown(text)} looks like a line of a task file, and here should be arrivals: {form}"
        if len(text.split()) > 1:
            return f"fields are parted by commas, not by spaces: {form}"
        return f"there is one field, {shown(text)}: {form}"

    def why_count(self, row, kind):
        """What is wrong with the number of fields."""
        fields = self.forms[kind]
        have = f"{len(row.fields)} fields, and {kind} has {len(fields)}: {','.join(fields)}"
        if len(row.fields) < len(fields):
            return f"{have}; {fields[len(row.fields)]} is missing"
        more = row.fields[len(fields)]
        if not more.text and more is row.fields[-1]:
            return f"{have}; take out the comma at the end"
        return f"{have}; {shown(more.text)} is too much"

    def tell_kind(self, row, is_told):
        """Tells that the second field is no kind, if nothing was told of the first."""
        if is_told:
            return
        field = row.fields[1]
        kinds = list(FORMS)
        word = field.text.strip()
        if field.is_open:
            message = OPEN_QUOTE
        elif word in FORMS:
            row_begins = f"{self.example.split(',')[0]},{word},.."
            message = f"{shown(field.text)} has a space in it: write none beside the commas, as {row_begins}"
        elif word.lower() in OTHER_KINDS:
            message = f"{shown(word)} is no kind of arrival: {OTHER_KINDS[word.lower()]}"
        elif nearest(word, kinds):
            message = f"{shown(word)} is no kind of arrival{did_you_mean(word, kinds)}"
        else:
            message = f"{shown(word)} is no kind of arrival: behind the {self.front} stands {listed(kinds, 'or')}"
        self.tell("kind", row, field, message, f"unknown kind {row.number}")

    # Fields

    def number_at(self, row, index, least, most):
        """The number in a field, or none, of which the cause is told."""
        field = row.fields[index]
        number = number_of(field.text)
        if number is not None and least <= number <= most:
            return number
        if field.is_open:
            message = OPEN_QUOTE
        elif index == 0:
            message = self.why_no_slot(row)
        else:
            name = FORMS[row.fields[1].text][index]
            message = f"{name} {why_no_number(field.text, least, most)}"
        self.tell("number", row, field, message, f"bad number {row.number} {index + 1}")
        return None

    def why_no_slot(self, row):
        """What is wrong with the first field of a row."""
        text = row.fields[0].text
        second = row.fields[1].text.strip()
        if row.number == 1 and re.match(r"[A-Za-z]", text.strip()) and text.strip() not in FORMS:
            return "this looks like a header: an arrivals file has none, so take the line out"
        if text.strip() in FORMS and number_of(second) is not None:
            return f"the slot comes first, and then the kind: {second},{text.strip()},.."
        if text.lstrip().startswith(("#", "//")):
            return "an arrivals file has no comments: take the line out"
        return f"the slot {why_no_number(text, 0, (self.slots or REPLAY_LIMIT) - 1)}"

    def check_alarm(self, row):
        """The name is that of a sporadic task."""
        field = row.fields[2]
        names = [task.name.data for task in self.tasks.sporadics if task.name]
        if field.text in names or not self.knows(self.tasks.sporadics):
            return
        message = f"no sporadic task has the name {shown(field.text)}"
        if field.is_open:
            message = OPEN_QUOTE
        elif field.text.strip() in names:
            message += ": take out the space"
        elif field.text in [graph.name.data for graph in self.tasks.graphs if graph.name]:
            message += ": it is a graph, which comes by its period and needs no rows"
        elif not names:
            message += ": the task file has no [[sporadic]]"
        else:
            message += did_you_mean(field.text, names) or f": there is {listed(map(shown, names))}"
        self.tell("alarm", row, field, message, f"unknown sporadic {row.number}")

    def knows(self, owners):
        """Whether the names of all these could be read."""
        return self.tasks.is_whole and all(it.name for it in owners)

    def check_key(self, row):
        """The key is that of a job of this set."""
        field = row.fields[2]
        why = self.why_no_key(field.text)
        if field.is_open and why:
            why = OPEN_QUOTE
        if why:
            self.tell("key", row, field, why, f"bad key {row.number}")

    def why_no_key(self, text):
        """What is wrong with the key of a job, or none."""
        if "#" in text or ("." in text and "@" not in text and ":" not in text):
            return self.why_no_instance(text)
        name, mark, number = text.partition("@")
        names = [task.name.data for task in self.tasks.sporadics if task.name]
        if mark:
            if name not in names and self.knows(self.tasks.sporadics):
                hint = did_you_mean(name, names)
                return f"{shown(text)}: no sporadic task has the name {shown(name)}{hint}"
            return self.why_no_row(text, number)
        word, mark, number = text.partition(":")
        if mark and word in ("firm", "soft"):
            return self.why_no_row(text, number)
        if text in names:
            return f"{shown(text)} names no job: its row is missing, as {bare(text)}@1"
        forms = "loop.read#0 (instance 0), alarm@1, firm:1 or soft:1 (row 1)"
        return f"{shown(text)} is no key of a job: a key is as {forms}"

    def why_no_row(self, text, number):
        row = number_of(number)
        if row is not None and 1 <= row <= ARRIVAL_LIMIT:
            return None
        return f"in {shown(text)} the row {why_no_number(number, 1, ARRIVAL_LIMIT)}"

    def why_no_instance(self, text):
        """What is wrong with a key of the form graph.task#instance, or none."""
        names, mark, instance = text.partition("#")
        graph_name, point, task_name = names.partition(".")
        graphs = {graph.name.data: graph for graph in self.tasks.graphs if graph.name}
        if not point:
            return f"{shown(text)} names no task: a key is GRAPH.TASK#INSTANCE, as loop.read#0"
        if graph_name not in graphs:
            if not self.knows(self.tasks.graphs):
                return None
            return f"{shown(text)}: there is no graph {shown(graph_name)}{did_you_mean(graph_name, graphs)}"
        tasks = [task.name.data for task in graphs[graph_name].tasks if task.name]
        if task_name not in tasks:
            if not self.knows(graphs[graph_name].tasks):
                return None
            hint = did_you_mean(task_name, tasks)
            return f"{shown(text)}: graph {shown(graph_name)} has no task {shown(task_name)}{hint}"
        if not mark:
            return f"{shown(text)} has no instance: write {bare(text)}#0 for the first job, #1 for the second"
        if number_of(instance) is None:
            return f"in {shown(text)} the instance {why_no_number(instance, 0, NUMBER_LIMIT)}"
        return None


def number_of(text):
    """The number that a field writes, or none."""
    if not re.fullmatch(r"0|[1-9][0-9]{0,9}", text) or int(text) > NUMBER_LIMIT:
        return None
    return int(text)


def why_no_number(text, least, most):
    """Why a field is no number of this range, and what to write."""
    plain = text.strip()
    rule = f"write a whole number, {least} to {most}"
    if number_of(text) is not None or re.fullmatch(r"[1-9][0-9]*", text):
        return f"= {bare(text)} is out of range, {least} to {most}"
    if not plain:
        return f"is empty: {rule}"
    written = f"is {shown(text)}"
    if "\0" in plain:
        return f"{written} and has a byte 0: the file is no text, or UTF-16; save it as UTF-8"
    if plain != text and number_of(plain) is not None:
        return f"{written} and has a space: write {plain} alone"
    if "#" in plain and number_of(plain.split("#")[0].strip()) is not None:
        return f"{written}: an arrivals file has no comments; take it out"
    if re.fullmatch(r"0[0-9]+", plain):
        return f"{written} and has a leading zero: write {plain.lstrip('0') or '0'}"
    if re.fullmatch(r"\+[0-9]+", plain):
        return f"{written} and has a sign: write {plain[1:]}"
    if re.fullmatch(r"-[0-9]+", plain):
        return f"{written}, below 0: {rule}"
    if re.fullmatch(r"[0-9]*\.[0-9]*", plain):
        return f"{written}: slots are whole; {rule}"
    unit = re.fullmatch(r"[0-9.]+ ?([A-Za-z\u00b5\u03bc]+)", plain)
    if unit:
        return f'{written} and has a unit, "{unit[1]}": it counts slots, without one; {rule}'
    row = re.fullmatch(r"(?:firm|soft):([0-9]+)", plain)
    if row:
        return f"{written}: here stands the row alone; write {row[1]}"
    return f"{written}: {rule}"
