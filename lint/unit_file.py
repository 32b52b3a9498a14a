"""A file of units as a set in slots, with the faults of its shape and of its times.

The parts are read in the order in which slotunits reads them. Then the times are rounded to slots,
in its order too; and what is wrong with the set in slots is found as in a task file.
"""

import math
import re

from .limits import GRAPH_LIMIT, SLOT_LIMIT, SOFT_DEFAULT, SOFT_LIMIT, SPORADIC_LIMIT, TASK_LIMIT
from .places import shown
from .task_file import Graph, Number, Sporadic, Task, TaskFile, TaskSet
from .task_texts import KEYS

UNIT_KEYS = {
    **KEYS,
    "file": ["slot", "overhead", "soft", "graph", "sporadic"],
    "sporadic task": ["name", "wcet", "separation", "plan", "deadline", "arrives"],
}
PLACES = {"ns": 0, "us": 3, "ms": 6, "s": 9}
TIME = re.compile(r"([0-9]{1,10})(?:\.([0-9]+))?(ns|us|ms|s)")
RULE = 'a time is a text, as "10ms" or "0.25ms": digits, a point and digits where there is a fraction, and ns, us, ms or s'
ARRIVES = ["anywhere", "boundaries"]


def time_of(text):
    """The nanoseconds that a text writes, or none."""
    match = TIME.fullmatch(text)
    if not match or len(match[2] or "") > PLACES[match[3]]:
        return None
    fraction = match[2] or ""
    return int(match[1]) * 10 ** PLACES[match[3]] + int(fraction or 0) * 10 ** (PLACES[match[3]] - len(fraction))


def time_text(time):
    """The text of so many nanoseconds, in the greatest unit that is no longer."""
    unit = max((unit for unit in PLACES if 10 ** PLACES[unit] <= max(time, 1)), key=PLACES.get)
    whole, rest = divmod(time, 10 ** PLACES[unit])
    fraction = f"{rest:0{PLACES[unit]}d}".rstrip("0") if rest else ""
    return f"{whole}{'.' if fraction else ''}{fraction}{unit}"


def up(size, time):
    return -(-time // size)


def cycle_in_slots(file):
    """The least common multiple of all periods and separations has a limit. A separation may be planned for
    as a shorter one."""
    cycle, slot = 1, file.slot.value
    numbers = [(graph, "period", graph.period) for graph in file.set.graphs]
    numbers += [(task, "separation", task.separation) for task in file.set.sporadics]
    for owner, key, number in numbers:
        longer = math.lcm(cycle, number.value or 1)
        if longer <= SLOT_LIMIT:
            cycle = longer
            continue
        message = (
            f"{key} comes to {number.value} slots of {time_text(slot)} and makes the cycle {longer} slots, and {SLOT_LIMIT} "
            "is the most: it is the least common multiple of all periods and separations"
        )
        if key == "separation":
            fits = max(it for it in range(1, number.value) if math.lcm(cycle, it) <= SLOT_LIMIT)
            divides = max(it for it in range(1, number.value) if cycle % it == 0)
            message += f'; plan for a shorter one: plan = "{time_text(fits * slot)}"'
            message += f', or "{time_text(divides * slot)}", which divides the cycle of the others' if divides != fits else ""
        else:
            message += f", {cycle} before this one"
        file.tell("cycle too long", owner, number.entry.value, message, f"cycle too long {longer}")


class UnitFile(TaskFile):
    """The set in slots that a file of units calls for."""

    keys = UNIT_KEYS
    what = "units"

    def __init__(self, document, text):
        super().__init__(document, text)
        self.is_in_slots = not self.findings and not document.faults and self.has_worth()
        if self.is_in_slots:
            self.to_slots()
        self.what = "tasks"

    # Times

    def read_top(self):
        top = self.top
        self.check_keys(top)
        self.slot = self.read_time(top, "slot")
        self.need_some_slot()
        self.overhead = self.read_time(top, "overhead", 0)
        self.read_number(top, "soft", 1, SOFT_LIMIT, "soft jobs that may wait", SOFT_DEFAULT)
        graphs = self.read_tables(top, "graph", 1, GRAPH_LIMIT)
        graphs = [self.read_graph(index, table) for index, table in graphs]
        sporadics = self.read_tables(top, "sporadic", 0, SPORADIC_LIMIT)
        sporadics = [self.read_sporadic(index, table) for index, table in sporadics]
        return TaskSet(graphs, sporadics, not self.document.faults)

    def need_some_slot(self):
        """A slot of no time is out of its range."""
        if self.slot.is_known and self.slot.value == 0:
            message = f"slot = {time_text(0)} is no time at all: a slot is longer than 0"
            self.tell("out of range", self.top, self.slot.entry.value, message, "out of range top slot 0")

    def read_graph(self, index, table):
        graph = Graph("graph", self.label("graph", index, table), f"graph {index}", table)
        self.check_keys(graph)
        graph.name = self.read_name(graph)
        graph.period = self.read_time(graph, "period")
        graph.offset = self.read_time(graph, "offset", 0)
        graph.deadline = self.read_time(graph, "deadline", max(0, (graph.period.value or 0) - (graph.offset.value or 0)))
        for number, task in self.read_tables(graph, "task", 1, TASK_LIMIT):
            graph.tasks.append(self.read_task(graph, number, task))
        return graph

    def read_task(self, graph, index, table):
        label = f"{graph.label}, {self.label('task', index, table)}"
        self.labels[id(table)] = label
        task = Task("task", label, f"{graph.part} task {index}", table)
        self.check_keys(task)
        task.name = self.read_name(task)
        task.wcet = self.read_time(task, "wcet")
        task.after = self.read_after(task)
        return task

    def read_sporadic(self, index, table):
        label = self.label("sporadic task", index, table)
        task = Sporadic("sporadic task", label, f"sporadic {index}", table)
        self.check_keys(task)
        task.name = self.read_name(task)
        task.wcet = self.read_time(task, "wcet")
        task.separation = self.read_time(task, "separation")
        task.plan = self.read_plan(task)
        task.deadline = self.read_time(task, "deadline", task.separation.value or 0)
        task.waits = self.read_arrives(task)
        return task

    def read_time(self, part, key, default=None):
        """A time in nanoseconds; where it is absent its default, if that is known."""
        if key not in part.table.entries and default is not None:
            return Number(default)
        entry = self.text_at(part, key, RULE)
        time = time_of(entry.value.data) if entry else None
        if entry and time is None:
            message = f"{key} is {shown(entry.value.data)}, which is no time: {RULE}"
            self.tell("bad time", part, entry.value, message, f"bad time {part.part} {key}")
        return Number(time, part.table.entries.get(key))

    def read_plan(self, task):
        """The separation that is planned for."""
        longest = task.separation.value or 0
        plan = self.read_time(task, "plan", longest)
        if plan.is_known and task.separation.is_known and plan.value > longest:
            message = f"plan = {time_text(plan.value)} is longer than the separation, {time_text(longest)}: plan for no more"
            self.tell("too long", task, plan.entry.value, message, f"too long {task.part} plan")
        return plan

    def read_arrives(self, task):
        """Whether alarms wait for a boundary."""
        if "arrives" not in task.table.entries:
            return True
        entry = self.text_at(task, "arrives", 'it is "anywhere" or "boundaries"')
        if entry and entry.value.data not in ARRIVES:
            message = f'arrives is {shown(entry.value.data)}: it is "anywhere" or "boundaries"'
            self.tell("bad word", task, entry.value, message, f"bad word {task.part} arrives")
        return not entry or entry.value.data != "boundaries"

    def text_at(self, part, key, rule):
        """The entry of a key whose value is a text, or none, of which the cause is told."""
        entry = part.table.entries.get(key)
        if entry is None or entry.value.kind in ("string", "unreadable", "table"):
            return self.entry(part, key, "string")
        message = f"{key} = {self.written(entry.value)} is no text in quotes: {rule}"
        self.tell("wrong kind", part, entry.value, message, f"wrong kind {part.part} {key}")
        return None

    def why_missing(self, part, key):
        if key in ("slot", "period", "wcet", "separation"):
            return f'no {key}: add {key} = "..", a time'
        return super().why_missing(part, key)

    # Slots

    def has_worth(self):
        """Whether something of a slot is left to its job."""
        slot, overhead = self.slot.value, self.overhead.value
        if overhead < slot:
            return True
        owner = self.overhead.entry or self.slot.entry
        message = f"nothing of a slot of {time_text(slot)} is left to its job, as {time_text(overhead)} are overhead"
        self.tell("overhead", self.top, owner.value, message, "overhead not below slot")
        return False

    def to_slots(self):
        """The numbers in slots, where they are in their ranges."""
        slot, overhead = self.slot.value, self.overhead.value
        for graph in self.set.graphs:
            self.graph_to_slots(graph, slot, slot - overhead)
        for task in self.set.sporadics:
            self.sporadic_to_slots(task, slot, slot - overhead)

    def graph_to_slots(self, graph, slot, worth):
        period, offset, deadline = graph.period, graph.offset, graph.deadline
        if period.value % slot:
            below = period.value // slot * slot
            near = f"{time_text(below)} and {time_text(below + slot)}" if below else time_text(slot)
            message = f"period = {time_text(period.value)} is no whole number of slots of {time_text(slot)}, as {near}"
            self.tell("not whole", graph, period.entry.value, message, f"not whole {graph.part} period")
        begin = up(slot, offset.value)
        due = max(0, (offset.value + deadline.value) // slot - begin)
        graph.period = self.in_slots(graph, "period", period, period.value // slot, 1, SLOT_LIMIT)
        most = graph.period.value or SLOT_LIMIT
        graph.offset = self.in_slots(graph, "offset", offset, begin, 0, most - 1, period)
        graph.deadline = self.in_slots(graph, "deadline", deadline, due, 1, max(1, most - begin), period)
        for task in graph.tasks:
            task.wcet = self.in_slots(task, "wcet", task.wcet, up(worth, task.wcet.value), 1, SLOT_LIMIT)

    def sporadic_to_slots(self, task, slot, worth):
        task.wcet = self.in_slots(task, "wcet", task.wcet, up(worth, task.wcet.value), 1, SLOT_LIMIT)
        planned = min(task.separation.value, task.plan.value)
        number = Number(planned, task.plan.entry or task.separation.entry)
        apart = planned // slot
        due = min(apart, max(0, task.deadline.value - (slot if task.waits else 0)) // slot)
        separation = task.separation
        task.separation = self.in_slots(task, "separation", number, apart, 1, SLOT_LIMIT)
        task.deadline = self.in_slots(task, "deadline", task.deadline, due, 1, max(1, apart), separation)

    def in_slots(self, part, key, number, slots, least, most, other=None):
        """So many slots, where they are between these. What stands for an absent key is told at another."""
        entry = number.entry or (other and other.entry)
        if least <= slots <= most:
            return Number(slots, entry)
        message = f"{key} = {time_text(number.value)} comes to {slots} slots of {time_text(self.slot.value)}, and {least} to {most} are its range"
        self.tell("out of range", part, entry.value if entry else part.table, message, f"out of range {part.part} {key} {slots}")
        return Number(None, entry)
