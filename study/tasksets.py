"""Task sets as in a task file of slotshift: graphs of tasks with periods, offsets, deadlines and
precedence, and sporadic tasks. A `Plan` has their jobs with derived windows, and their demand.
"""

import bisect
import collections
import functools
import itertools
import math
import tomllib

Task = collections.namedtuple("Task", "name wcet after")
Graph = collections.namedtuple("Graph", "name period offset deadline tasks")
Sporadic = collections.namedtuple("Sporadic", "name wcet separation deadline")
TaskSet = collections.namedtuple("TaskSet", "graphs sporadics")

# A job of the first cycle. It runs in the window [start, due); `key` is (graph, task, instance).
Window = collections.namedtuple("Window", "start due wcet key")


def read(path):
    """The task set of a task file without faults."""
    with open(path, "rb") as file:
        found = tomllib.load(file)
    graphs = []
    for graph in found["graph"]:
        offset = graph.get("offset", 0)
        deadline = graph.get("deadline", graph["period"] - offset)
        tasks = tuple(Task(t["name"], t["wcet"], tuple(t.get("after", ()))) for t in graph["task"])
        graphs.append(Graph(graph["name"], graph["period"], offset, deadline, tasks))
    sporadics = tuple(
        Sporadic(s["name"], s["wcet"], s["separation"], s.get("deadline", s["separation"]))
        for s in found.get("sporadic", ())
    )
    return TaskSet(tuple(graphs), sporadics)


def text(tasks, soft=1024):
    """The task file of a set."""
    lines = [f"soft = {soft}"]
    for graph in tasks.graphs:
        lines += ["", "[[graph]]", f'name = "{graph.name}"', f"period = {graph.period}"]
        lines += [f"offset = {graph.offset}", f"deadline = {graph.deadline}"]
        for task in graph.tasks:
            after = ", ".join(f'"{name}"' for name in task.after)
            lines += ["[[graph.task]]", f'name = "{task.name}"', f"wcet = {task.wcet}"]
            lines += [f"after = [{after}]"]
    for sporadic in tasks.sporadics:
        lines += ["", "[[sporadic]]", f'name = "{sporadic.name}"', f"wcet = {sporadic.wcet}"]
        lines += [f"separation = {sporadic.separation}", f"deadline = {sporadic.deadline}"]
    return "\n".join(lines) + "\n"


def chains(graph):
    """For each task, by name, the slots of the longest chain before it, and of that after it."""
    before, after = {}, {}

    def longest(name, links, known):
        if name not in known:
            ends = (longest(other, links, known) + wcets[other] for other in links[name])
            known[name] = max(ends, default=0)
        return known[name]

    wcets = {task.name: task.wcet for task in graph.tasks}
    comes_after = {task.name: task.after for task in graph.tasks}
    comes_before = {name: [t.name for t in graph.tasks if name in t.after] for name in wcets}
    for name in wcets:
        longest(name, comes_after, before)
        longest(name, comes_before, after)
    return before, after


def windows(tasks, cycle):
    """The jobs of the first cycle with derived windows (Chetto, Silly and Bouchentouf 1990): a job
    starts after its longest chain of predecessors, and is due before that of its successors."""
    found = []
    for g, graph in enumerate(tasks.graphs):
        before, after = chains(graph)
        for instance in range(cycle // graph.period):
            release = instance * graph.period + graph.offset
            for t, task in enumerate(graph.tasks):
                start = release + before[task.name]
                due = release + graph.deadline - after[task.name]
                found.append(Window(start, due, task.wcet, (g, t, instance)))
    return sorted(found)


class Plan:
    """The jobs of a set, cycle after cycle, and its sporadic tasks."""

    def __init__(self, tasks):
        self.tasks = tasks
        self.sporadics = tasks.sporadics
        periods = [graph.period for graph in tasks.graphs]
        self.cycle = math.lcm(*periods, *(s.separation for s in tasks.sporadics))
        self.windows = windows(tasks, self.cycle)
        self.instances = [self.cycle // period for period in periods]
        by_due = collections.Counter()
        for window in self.windows:
            by_due[window.due] += window.wcet
        self._dues = sorted(by_due)
        self._slots = [by_due[due] for due in self._dues]
        self._sums = [0, *itertools.accumulate(self._slots)]
        self.work = self._sums[-1]

    @property
    def load(self):
        """The load of the plan: of its jobs, and of sporadic tasks that arrive at their densest."""
        return self.work / self.cycle + sum(s.wcet / s.separation for s in self.sporadics)

    def due_by(self, time):
        """The slots of all jobs of the plan due by this time."""
        cycles, rest = divmod(time, self.cycle)
        return cycles * self.work + self._sums[bisect.bisect_right(self._dues, rest)]

    def due_at(self, after, by):
        """The slots due at each deadline of the plan, later than `after` and up to `by`."""
        found = {}
        for base in range(after // self.cycle * self.cycle, by, self.cycle):
            first = bisect.bisect_right(self._dues, after - base)
            last = bisect.bisect_right(self._dues, by - base)
            dues = (base + due for due in self._dues[first:last])
            found.update(zip(dues, self._slots[first:last]))
        return found

    def next_due(self, time):
        """The first deadline of the plan after this time."""
        base = time // self.cycle * self.cycle
        place = bisect.bisect_right(self._dues, time - base)
        return base + (self._dues[place] if place < len(self._dues) else self.cycle + self._dues[0])

    @functools.cached_property
    def borrowed(self):
        """`borrowed[t]`: how many slots before the time t of a cycle are needed by jobs due later,
        since the slots from t on are too few for them. At the end of a cycle it is 0, since each
        window lies in its cycle."""
        due = dict(zip(self._dues, self._slots))
        found = [0] * (self.cycle + 1)
        for time in range(self.cycle - 1, -1, -1):
            found[time] = max(0, found[time + 1] + due.get(time + 1, 0) - 1)
        return found

    @functools.cached_property
    def demand(self):
        """`demand[n]`: the most slots that any window of n slots needs, for jobs that start and are
        due in it, and for the densest sporadic arrivals (Baruah, Rosier and Howell 1990). Lengths
        go up to two cycles: from one cycle on, a cycle more always adds the same."""
        most = [0] * (2 * self.cycle + 1)
        jobs = sorted(
            (base + window.due, base + window.start, window.wcet)
            for base in range(0, 3 * self.cycle, self.cycle)
            for window in self.windows
        )
        for first in {window.start for window in self.windows}:
            need = 0
            for due, start, wcet in jobs[bisect.bisect(jobs, (first,)) :]:
                if start >= first:
                    need += wcet
                    if due - first > 2 * self.cycle:
                        break
                    most[due - first] = max(most[due - first], need)
        most = list(itertools.accumulate(most, max))
        return [need + self.sporadic_demand(length) for length, need in enumerate(most)]

    def sporadic_demand(self, length):
        """The most slots that sporadic tasks need in a window of this length."""
        return sum(
            s.wcet * ((length - s.deadline) // s.separation + 1)
            for s in self.sporadics
            if length >= s.deadline
        )

    @functools.cached_property
    def steps(self):
        """The lengths at which the demand grows."""
        pairs = zip(self.demand, self.demand[1:])
        return [length for length, (here, there) in enumerate(pairs, 1) if there > here]

    @property
    def is_feasible(self):
        """Whether no window needs more slots than it has."""
        return all(self.demand[length] <= length for length in self.steps)
