"""The rules of rounding of docs/MODELLING.md: a file of units, and the set in slots that stands for it."""

import math
import re
import tomllib
from fractions import Fraction

PLACES = {"ns": 0, "us": 3, "ms": 6, "s": 9}
SLOT_LIMIT = 8192


class Fault(Exception):
    """Why there is no set in slots."""


def time_of(text):
    """The nanoseconds of a text."""
    whole, fraction, unit = re.fullmatch(r"([0-9]{1,10})(?:\.([0-9]+))?(ns|us|ms|s)", text).groups()
    fraction = fraction or ""
    return int(whole) * 10 ** PLACES[unit] + int(fraction or 0) * 10 ** (PLACES[unit] - len(fraction))


def time_text(time):
    """The text of so many nanoseconds, in the greatest unit that is no longer."""
    unit = max((unit for unit in PLACES if 10 ** PLACES[unit] <= max(time, 1)), key=PLACES.get)
    whole, rest = divmod(time, 10 ** PLACES[unit])
    fraction = f"{rest:0{PLACES[unit]}d}".rstrip("0") if rest else ""
    return f"{whole}{'.' if fraction else ''}{fraction}{unit}"


def down(size, time):
    return time // size


def up(size, time):
    return -(-time // size)


def in_range(place, low, high, slots):
    if not low <= slots <= high:
        raise Fault(f"out of range {place} {slots}")
    return slots


class Rounding:
    """The rules. What a check turns round it overrides."""

    wcet = staticmethod(up)
    offset = staticmethod(up)
    deadline = staticmethod(down)
    separation = staticmethod(down)

    @staticmethod
    def worth(slot, overhead):
        return slot - overhead

    @staticmethod
    def wait(slot, at_boundaries):
        return 0 if at_boundaries else slot


class System:
    """A set in times as its file says."""

    def __init__(self, text):
        told = tomllib.loads(text)
        self.slot, self.overhead = time_of(told["slot"]), time_of(told.get("overhead", "0ns"))
        self.soft = told.get("soft", 64)
        self.graphs, self.sporadics = told["graph"], told.get("sporadic", [])
        for graph in self.graphs:
            period, offset = time_of(graph["period"]), time_of(graph.get("offset", "0ns"))
            deadline = time_of(graph["deadline"]) if "deadline" in graph else max(0, period - offset)
            graph.update(period=period, offset=offset, deadline=deadline)
            for task in graph["task"]:
                task["wcet"] = time_of(task["wcet"])
        for task in self.sporadics:
            separation = time_of(task["separation"])
            planned = time_of(task["plan"]) if "plan" in task else separation
            deadline = time_of(task["deadline"]) if "deadline" in task else separation
            at_boundaries = task.get("arrives") == "boundaries"
            task.update(wcet=time_of(task["wcet"]), separation=separation, planned=planned, deadline=deadline)
            task.update(at_boundaries=at_boundaries)

    def in_slots(self, slot, rules=Rounding):
        """The task file in slots of this length, with all its keys, or its first fault."""
        if self.overhead >= slot:
            raise Fault("overhead not below slot")
        worth = rules.worth(slot, self.overhead)
        told = {"soft": in_range("top soft", 1, 1024, self.soft), "graph": []}
        for g, graph in enumerate(self.graphs):
            told["graph"].append(self.graph_in_slots(f"graph {g}", graph, slot, worth, rules))
        for s, task in enumerate(self.sporadics):
            told.setdefault("sporadic", []).append(self.sporadic_in_slots(f"sporadic {s}", task, slot, worth, rules))
        return told

    def graph_in_slots(self, place, graph, slot, worth, rules):
        if graph["period"] % slot:
            raise Fault(f"not whole {place} period")
        period = in_range(f"{place} period", 1, SLOT_LIMIT, graph["period"] // slot)
        offset = in_range(f"{place} offset", 0, period - 1, rules.offset(slot, graph["offset"]))
        due = max(0, rules.deadline(slot, graph["offset"] + graph["deadline"]) - offset)
        deadline = in_range(f"{place} deadline", 1, period - offset, due)
        tasks = []
        for t, task in enumerate(graph["task"]):
            wcet = in_range(f"{place} task {t} wcet", 1, SLOT_LIMIT, rules.wcet(worth, task["wcet"]))
            after = {"after": task["after"]} if task.get("after") else {}
            tasks.append({"name": task["name"], "wcet": wcet, **after})
        return {"name": graph["name"], "period": period, "offset": offset, "deadline": deadline, "task": tasks}

    def sporadic_in_slots(self, place, task, slot, worth, rules):
        wcet = in_range(f"{place} wcet", 1, SLOT_LIMIT, rules.wcet(worth, task["wcet"]))
        apart = rules.separation(slot, min(task["separation"], task["planned"]))
        separation = in_range(f"{place} separation", 1, SLOT_LIMIT, apart)
        due = min(apart, rules.deadline(slot, max(0, task["deadline"] - rules.wait(slot, task["at_boundaries"]))))
        deadline = in_range(f"{place} deadline", 1, separation, due)
        return {"name": task["name"], "wcet": wcet, "separation": separation, "deadline": deadline}


def toml_of(tasks):
    """A task file in slots as a text."""
    lines = [f"soft = {tasks['soft']}"]
    for graph in tasks["graph"]:
        lines += ["[[graph]]", *(f"{key} = {shown(graph[key])}" for key in ("name", "period", "offset", "deadline"))]
        for task in graph["task"]:
            lines += ["[[graph.task]]", *(f"{key} = {shown(value)}" for key, value in task.items())]
    for task in tasks.get("sporadic", []):
        lines += ["[[sporadic]]", *(f"{key} = {shown(value)}" for key, value in task.items())]
    return "\n".join(lines) + "\n"


def shown(value):
    if isinstance(value, list):
        return f"[{', '.join(map(shown, value))}]"
    return f'"{value}"' if isinstance(value, str) else str(value)


def lengths(system, low, high):
    """The lengths of a slot in this range that divide all periods, of which the first has at most 8192."""
    period = system.graphs[0]["period"]
    for parts in range(1, SLOT_LIMIT + 1):
        slot, rest = divmod(period, parts)
        if not rest and slot and low <= slot <= high and all(graph["period"] % slot == 0 for graph in system.graphs):
            yield slot


def cycle_of(tasks):
    return math.lcm(*(g["period"] for g in tasks["graph"]), *(s["separation"] for s in tasks.get("sporadic", [])))


def needed(tasks, cycle):
    """The slots of a cycle that are needed, alarms as often as they may come."""
    planned = sum(cycle // g["period"] * sum(t["wcet"] for t in g["task"]) for g in tasks["graph"])
    due = ((s, (cycle - s["deadline"]) // s["separation"] + 1) for s in tasks.get("sporadic", []) if s["deadline"] <= cycle)
    return planned + sum(s["wcet"] * count for s, count in due)


def work_in(system, time):
    """The time that jobs and alarms take at most within a time, as the file says it."""
    planned = sum(up(g["period"], time) * sum(t["wcet"] for t in g["task"]) for g in system.graphs)
    return planned + sum(up(s["separation"], time) * s["wcet"] for s in system.sporadics)


def millionths(whole, part):
    return part * 1_000_000 // whole


def shorter_plan(tasks, slot):
    """The first separation that makes the cycle too long, as the greatest one that divides the cycle of those before."""
    cycle = math.lcm(*(graph["period"] for graph in tasks["graph"]))
    if cycle > SLOT_LIMIT:
        return ""
    for number, task in enumerate(tasks.get("sporadic", [])):
        apart = task["separation"]
        if math.lcm(cycle, apart) > SLOT_LIMIT:
            part = max(it for it in range(1, apart + 1) if cycle % it == 0)
            return f" plan sporadic {number} {time_text(part * slot)}"
        cycle = math.lcm(cycle, apart)
    return ""


def line_of_length(system, slot, judged, margin):
    """The share of the cycle that a length of a slot needs, more than all where its set does not fit, and its line."""
    front = f"slot {time_text(slot)}"
    try:
        tasks = system.in_slots(slot)
    except Fault as fault:
        return Fraction(2), f"{front} units {fault}"
    told = judged(toml_of(tasks))
    if told.startswith("tasks "):
        return Fraction(2), f"{front} {told}{shorter_plan(tasks, slot) if told.startswith('tasks cycle') else ''}"
    cycle = cycle_of(tasks)
    need = needed(tasks, cycle)
    load = f"load {millionths(cycle * slot, work_in(system, cycle * slot))} {millionths(cycle, need)}"
    if told:
        return Fraction(2), f"{front} cycle {cycle} {load} {told}"
    return Fraction(need, cycle), f"{front} cycle {cycle} {load} fits {need} margin {margin(tasks)}"
