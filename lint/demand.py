"""The slots that a set needs: its cycle, its jobs with their windows, and the window that fails.

The words are those of docs/MODEL.md. The window of a job starts at its release plus the longest
chain of tasks before it, and ends at its deadline less the longest chain after it. A set is
feasible where no window that starts in the first cycle and ends in the first two needs more slots
than it has.
"""

import math
import operator
from collections import namedtuple
from itertools import accumulate, groupby

Job = namedtuple("Job", "start due task")
Window = namedtuple("Window", "start end need")
# How many jobs of a task a window holds, and what they take.
Share = namedtuple("Share", "graph task count slots")

by_start = operator.attrgetter("start")


def cycle_of(tasks):
    """The least common multiple of all periods and separations."""
    periods = [graph.period.value for graph in tasks.graphs]
    return math.lcm(*periods, *(task.separation.value for task in tasks.sporadics))


def chain_lengths(graph):
    """For each task the slots of the longest chain before it, and of the longest after it."""
    names = [task.name.data for task in graph.tasks]
    before = [[names.index(it.data) for it in task.after] for task in graph.tasks]
    after = [[t for t, found in enumerate(before) if task in found] for task in range(len(names))]
    return longest_sums(graph, before), longest_sums(graph, after)


def longest_sums(graph, neighbours):
    """For each task the most slots along its neighbours, theirs, and so on."""
    sums = {}

    def sum_of(task):
        if task not in sums:
            reached = (graph.tasks[it].wcet.value + sum_of(it) for it in neighbours[task])
            sums[task] = max(reached, default=0)
        return sums[task]

    return [sum_of(task) for task in range(len(graph.tasks))]


def longest_chain(graph):
    """The tasks of the longest chain, and its slots."""
    before, after = chain_lengths(graph)
    lengths = [task.wcet.value + before[t] + after[t] for t, task in enumerate(graph.tasks)]
    most = max(lengths)
    return sorted((t for t, length in enumerate(lengths) if length == most), key=before.__getitem__), most


def jobs_of(tasks, cycle):
    """The jobs of the first cycle."""
    jobs = []
    for graph in tasks.graphs:
        before, after = chain_lengths(graph)
        for release in range(graph.offset.value, cycle, graph.period.value):
            for t, task in enumerate(graph.tasks):
                due = max(0, release + graph.deadline.value - after[t])
                jobs.append(Job(release + before[t], due, task))
    return jobs


def need_of_cycle(tasks, cycle):
    """The slots that all jobs and alarms of a cycle need."""
    need = sum(
        cycle // graph.period.value * task.wcet.value
        for graph in tasks.graphs
        for task in graph.tasks
    )
    return need + sum(cycle // task.separation.value * task.wcet.value for task in tasks.sporadics)


def alarms_in(task, length):
    """How often an alarm comes, as often as it may, and is due in a window of this length."""
    left = length - task.deadline.value
    return left // task.separation.value + 1 if left >= 0 else 0


def alarm_slots(tasks, length):
    return sum(alarms_in(task, length) * task.wcet.value for task in tasks.sporadics)


def failing_window(tasks):
    """The whole cycle where it needs more slots than it has; else the first window that does, by
    its start and then its end; else none."""
    cycle = cycle_of(tasks)
    need = need_of_cycle(tasks, cycle)
    if need > cycle:
        return Window(0, cycle, need)
    jobs = jobs_of(tasks, cycle)
    # (a window that ends in the first cycle holds no job of the second)
    later = [Job(job.start + cycle, max(job.due + cycle, cycle + 1), job.task) for job in jobs]
    return first_failing(tasks, cycle, jobs + later)


def longest_in_doubt(tasks, cycle, jobs):
    """The greatest length of a window that may fail. A longer one does not: each task has at most
    one job in it beside its share of the cycle, and what the cycle leaves is more than these need."""
    free = cycle - need_of_cycle(tasks, cycle)
    if free == 0 or any(job.due < job.start for job in jobs):
        return 2 * cycle
    once = sum(task.wcet.value for graph in tasks.graphs for task in graph.tasks)
    once += sum(task.wcet.value for task in tasks.sporadics)
    return min(2 * cycle, once * cycle // free)


def first_failing(tasks, cycle, jobs):
    """The first failing window of a set whose whole cycle fits, with the jobs of two cycles."""
    longest = longest_in_doubt(tasks, cycle, jobs)
    room = [length - alarm_slots(tasks, length) for length in range(longest + 1)]
    # the least room of each length and of all greater ones
    least_room = list(accumulate(reversed(room), min))[::-1]
    # what is due at each time, of the jobs that start at a time or later
    due = [0] * (2 * cycle + 1)
    for job in jobs:
        due[job.due] += job.task.wcet.value
    begin = 0
    for start, starting in groupby(sorted(jobs, key=by_start), by_start):
        # Windows that begin after the start before this one hold the jobs of those that begin
        # here, and are longer: where none of any length may fail they need no closer look.
        if any(map(operator.gt, needs_from(due, start, longest), least_room)):
            for at in range(begin, min(start + 1, cycle)):
                window = failing_from(due, at, room)
                if window:
                    return window
        begin = start + 1
        if begin >= cycle:
            return None
        for job in starting:
            due[job.due] -= job.task.wcet.value
    return None


def needs_from(due, start, longest):
    """For each length from 0 to the longest, the slots that are due in the window from `start` on.
    What is due before it counts at once: it belongs to chains that are longer than their deadlines."""
    return accumulate(due[start + 1 : start + 1 + longest], initial=sum(due[: start + 1]))


def failing_from(due, start, room):
    """The shortest failing window from `start` on, or none."""
    for length, need in enumerate(needs_from(due, start, len(room) - 1)):
        if length > 0 and need > room[length]:
            return Window(start, start + length, need + length - room[length])
    return None


def shares_of(tasks, window):
    """What each task needs in a window, the most first."""
    cycle = cycle_of(tasks)
    is_cycle = window.start == 0 and window.end == cycle and window.need == need_of_cycle(tasks, cycle)
    shares = []
    for graph in tasks.graphs:
        for t, task in enumerate(graph.tasks):
            count = cycle // graph.period.value if is_cycle else jobs_in(graph, t, window, cycle)
            shares.append(Share(graph, task, count, count * task.wcet.value))
    for task in tasks.sporadics:
        count = alarms_in(task, window.end - window.start)
        shares.append(Share(None, task, count, count * task.wcet.value))
    return sorted((it for it in shares if it.count), key=lambda it: -it.slots)


def jobs_in(graph, t, window, cycle):
    """How many jobs of a task a window holds."""
    before, after = chain_lengths(graph)
    count = 0
    for release in range(graph.offset.value, 2 * cycle, graph.period.value):
        due = max(0, release % cycle + graph.deadline.value - after[t])
        if release >= cycle:
            due = max(due + cycle, cycle + 1)
        count += release + before[t] >= window.start and due <= window.end
    return count
