"""A task file as a set of graphs, tasks and sporadic tasks, with the faults of its shape.

The parts are read in the order in which the program reads them, so the first fault found is the
one that it tells. What could not be read is left out, and nothing more is told of it.
"""

from dataclasses import dataclass, field

from .limits import (
    AFTER_LIMIT,
    GRAPH_LIMIT,
    SLOT_LIMIT,
    SOFT_DEFAULT,
    SOFT_LIMIT,
    SPORADIC_LIMIT,
    TASK_LIMIT,
)
from .places import Finding, bare, ordinal, shown
from .task_texts import (
    KEYS,
    LISTS,
    meant_keys,
    missing_key,
    too_many,
    unknown_key,
    why_no_name,
    wrong_kind,
)
from .toml_nodes import Scalar, Table


@dataclass
class Number:
    """A number of the file, or the default of an absent one. The value is none where it is not
    known; `entry` is none where the file has none."""

    value: int = None
    entry: object = None

    @property
    def is_known(self):
        return self.value is not None


@dataclass
class Part:
    """A table of the file: its kind, how a reader and how the program names it. It `has_strays`
    where a table stands in it under a name that is none, so that one of its own may be missing."""

    kind: str
    label: str
    part: str
    table: Table
    name: Scalar = None
    has_strays: bool = False


@dataclass
class Task(Part):
    wcet: Number = field(default_factory=Number)
    after: list = field(default_factory=list)


@dataclass
class Graph(Part):
    period: Number = field(default_factory=Number)
    offset: Number = field(default_factory=Number)
    deadline: Number = field(default_factory=Number)
    tasks: list = field(default_factory=list)


@dataclass
class Sporadic(Part):
    wcet: Number = field(default_factory=Number)
    separation: Number = field(default_factory=Number)
    deadline: Number = field(default_factory=Number)


@dataclass
class TaskSet:
    """What a file has. It `is_whole` where each part of it could be read."""

    graphs: list
    sporadics: list
    is_whole: bool


class TaskFile:
    """The set that a document writes, and the faults of its shape in the program's order. It has these
    keys, and its faults begin with this word."""

    keys = KEYS
    what = "tasks"

    def __init__(self, document, text):
        self.document = document
        self.text = text
        self.findings = []
        self.labels = {}
        self.top = Part("file", "", "top", document.top)
        self.set = self.read_top()

    @property
    def faults(self):
        return [it for it in self.findings if it.fault]

    # Tables

    def read_top(self):
        top = self.top
        self.check_keys(top)
        self.read_number(top, "soft", 1, SOFT_LIMIT, "soft jobs that may wait", SOFT_DEFAULT)
        graphs = self.read_tables(top, "graph", 1, GRAPH_LIMIT)
        graphs = [self.read_graph(index, table) for index, table in graphs]
        sporadics = self.read_tables(top, "sporadic", 0, SPORADIC_LIMIT)
        sporadics = [self.read_sporadic(index, table) for index, table in sporadics]
        return TaskSet(graphs, sporadics, not self.document.faults)

    def read_graph(self, index, table):
        graph = Graph("graph", self.label("graph", index, table), f"graph {index}", table)
        self.check_keys(graph)
        graph.name = self.read_name(graph)
        graph.period = self.read_number(graph, "period", 1, SLOT_LIMIT, "slots")
        graph.offset = self.read_offset(graph)
        graph.deadline = self.read_deadline(graph)
        for number, task in self.read_tables(graph, "task", 1, TASK_LIMIT):
            graph.tasks.append(self.read_task(graph, number, task))
        return graph

    def read_offset(self, graph):
        period = graph.period.value
        if not period:
            return self.read_number(graph, "offset", 0, SLOT_LIMIT - 1, "slots", 0)
        why = f": it is below the period, {self.where(graph.period)}"
        return self.read_number(graph, "offset", 0, period - 1, f"slots{why}", 0)

    def read_deadline(self, graph):
        period, offset = graph.period.value, graph.offset.value
        if not period or offset is None:
            return self.read_number(graph, "deadline", 1, period or SLOT_LIMIT, "slots")
        if graph.offset.entry is None:
            why = f": a job is due by the next release, so at most the period, {self.where(graph.period)}"
        else:
            why = (
                ": offset and deadline together are at most the period, and the offset is "
                f"{self.where(graph.offset)}, the period {self.where(graph.period)}"
            )
        return self.read_number(graph, "deadline", 1, period - offset, f"slots{why}", period - offset)

    def read_task(self, graph, index, table):
        label = f"{graph.label}, {self.label('task', index, table)}"
        self.labels[id(table)] = label
        task = Task("task", label, f"{graph.part} task {index}", table)
        self.check_keys(task)
        task.name = self.read_name(task)
        task.wcet = self.read_number(task, "wcet", 1, SLOT_LIMIT, "slots")
        task.after = self.read_after(task)
        return task

    def read_sporadic(self, index, table):
        label = self.label("sporadic task", index, table)
        task = Sporadic("sporadic task", label, f"sporadic {index}", table)
        self.check_keys(task)
        task.name = self.read_name(task)
        task.wcet = self.read_number(task, "wcet", 1, SLOT_LIMIT, "slots")
        task.separation = self.read_number(task, "separation", 1, SLOT_LIMIT, "slots")
        most = task.separation.value
        why = f": it is at most the separation, {self.where(task.separation)}" if most else ""
        task.deadline = self.read_number(task, "deadline", 1, most or SLOT_LIMIT, f"slots{why}", most)
        return task

    def label(self, kind, index, table):
        """How a reader names a table: by its name, where it has one."""
        name = table.entries.get("name")
        has_name = name and name.value.kind == "string" and name.value.data
        label = f"{kind} {shown(name.value.data)}" if has_name else f"{ordinal(index + 1)} {kind}"
        self.labels[id(table)] = label
        return label

    # Keys and values

    def check_keys(self, part):
        for key, entry in part.table.entries.items():
            value = entry.value
            # (of a key that stands alone, the fault of its line is told)
            if key in self.keys[part.kind] or (value.kind == "unreadable" and value.start == entry.key.start):
                continue
            line = self.text.line_at(entry.key.start).strip()
            message = f"unknown key {shown(key)}{unknown_key(part, key, line, self.text, self.keys)}"
            self.tell("unknown key", part, entry.key, message, f"unknown key in {part.part}")
            part.has_strays = part.has_strays or value.kind in ("table", "array")

    def read_name(self, part):
        """The name as the file has it, or none where it is no name."""
        entry = self.entry(part, "name", "string")
        why = why_no_name(entry.value.data) if entry else None
        if why:
            self.tell("bad name", part, entry.value, why, f"bad name {part.part} name")
        return entry.value if entry and not why else None

    def read_number(self, part, key, least, most, unit, default=None):
        """A number between these; where it is absent its default, if that is known."""
        if key not in part.table.entries and (default is not None or key == "deadline"):
            return Number(default)
        entry = self.entry(part, key, "integer")
        if entry is None:
            return Number(None, part.table.entries.get(key))
        value = entry.value.data
        if least <= value <= most:
            return Number(value, entry)
        message = f"{key} = {value} is out of range, {least} to {most} {unit}"
        self.tell("out of range", part, entry.value, message, f"out of range {part.part} {key} {value}")
        return Number(None, entry)

    def read_tables(self, part, key, least, most):
        """The tables of a list, each with its number in it."""
        if key not in part.table.entries and least == 0:
            return []
        entry = self.entry(part, key, "array")
        if entry is None:
            return []
        place = f"{part.part} {key}"
        items = entry.value.items
        wrong = next((item for item in items if item.kind not in ("table", "unreadable")), None)
        if wrong:
            tables = f"a list of tables, one for each {LISTS[key]}"
            message = f"{key} is {tables}, and {self.written(wrong)} is none"
            self.tell("wrong kind", part, wrong, message, f"wrong kind {place}")
        elif len(items) < least:
            message = f"the list is empty, so there is {missing_key(part.kind, key, False)}; take {key} = [] out"
            self.tell("missing", part, entry.value, message, f"missing {place}")
        elif len(items) > most:
            message = too_many(key, len(items), most)
            self.tell("too many", part, items[most], message, f"too many {place} {len(items)}")
        return [(index, item) for index, item in enumerate(items) if item.kind == "table"]

    def read_after(self, task):
        """The names that a task comes after."""
        entry = self.entry(task, "after", "array") if "after" in task.table.entries else None
        if entry is None:
            return []
        items = entry.value.items
        wrong = next((item for item in items if item.kind != "string"), None)
        if wrong:
            names = 'names of tasks in quotes, as after = ["read"]'
            message = f"after lists {names}, and {self.written(wrong)} is none"
            self.tell("wrong kind", task, wrong, message, f"wrong kind {task.part} after")
        elif len(items) > AFTER_LIMIT:
            message = too_many("after", len(items), AFTER_LIMIT)
            fault = f"too many {task.part} after {len(items)}"
            self.tell("too many", task, items[AFTER_LIMIT], message, fault)
        return [item for item in items if item.kind == "string"]

    def entry(self, part, key, kind):
        """The entry of a key whose value has this kind, or none, of which the cause is told."""
        entry = part.table.entries.get(key)
        if entry is None:
            self.tell_missing(part, key)
            return None
        value = entry.value
        if value.kind == kind:
            return entry
        # (where tables stand below a header that is misspelt, the header is told)
        is_below = self.may_miss_tables(part) and isinstance(value, Table) and value.made_by == "implicit"
        if value.kind != "unreadable" and not is_below:
            message = wrong_kind(key, value, self.written(value), kind)
            self.tell("wrong kind", part, value, message, f"wrong kind {part.part} {key}")
        return None

    def may_miss_tables(self, part):
        """Whether tables of a part may stand in the file in a way that could not be read."""
        return self.document.has_lost_tables or self.top.has_strays or part.has_strays

    def tell_missing(self, part, key):
        """Tells that a key is missing, unless it is misspelt or may stand in a faulty line."""
        is_lost = not part.table.is_whole or (key in LISTS and self.document.has_lost_tables)
        if is_lost or key in meant_keys(part, self.keys):
            return
        self.tell("missing", part, part.table, self.why_missing(part, key), f"missing {part.part} {key}")

    def why_missing(self, part, key):
        """How to write a key that has to be there."""
        return missing_key(part.kind, key, "sporadic" in self.document.top.entries)

    def written(self, value):
        """A value as the file has it, its first line."""
        return bare(self.text.characters[value.start : value.end].split("\n")[0])

    def where(self, number):
        """A number with the line in which it stands."""
        return f"{number.value} (line {self.text.line(number.entry.key.start)})"

    def tell(self, rule, owner, node, message, fault):
        """Adds a fault of the file."""
        self.tell_line(rule, owner, node, message, f"{self.what} {fault}")

    def tell_line(self, rule, owner, node, message, line=""):
        """Adds a fault for which the program has this line, or a note."""
        self.findings.append(Finding(rule, node.start, node.end, owner.label, message, line))
