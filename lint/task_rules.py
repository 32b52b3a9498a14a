"""What a set of readable parts may have wrong: names, order, loops, the cycle, and the demand.

Each rule is a function of the file that tells what it finds. RULES has them in the order in which
the program checks.
"""

import math

from .demand import failing_window, longest_chain, shares_of
from .limits import SLOT_LIMIT
from .places import counted, did_you_mean, listed, shown


def doubled_names(file):
    """Graphs, the tasks of a graph, and sporadic tasks have names of their own."""
    first = {}
    for graph in file.set.graphs:
        check_name(file, first, graph, "two graphs")
        inner = {}
        for task in graph.tasks:
            check_name(file, inner, task, f"two tasks of {graph.label}")
    first = {}
    for task in file.set.sporadics:
        check_name(file, first, task, "two sporadic tasks")


def check_name(file, first, owner, what):
    """Tells where the name of a graph or task is that of an earlier one."""
    if owner.name is None:
        return
    name = owner.name.data
    if name not in first:
        first[name] = owner
        return
    line = file.text.line(first[name].name.start)
    message = f"{what} have the name {shown(name)}, here and on line {line}: give one of them another"
    file.tell("doubled name", owner, owner.name, message, f"doubled {owner.part} name")


def after_entries(file):
    """Each entry of `after` names a task of the same graph, and none twice."""
    for graph in file.set.graphs:
        for task in graph.tasks:
            known = {it.name.data for it in graph.tasks if it.name}
            seen = set()
            for entry in task.after:
                check_entry(file, graph, task, entry, known, seen)
                seen.add(entry.data)


def check_entry(file, graph, task, entry, known, seen):
    place = f"{task.part} after"
    if entry.data not in known:
        # (a task whose name could not be read may be the one that is meant)
        if may_tell_unknown(file, graph):
            message = f"after names {shown(entry.data)}, and {graph.label} has no such task"
            message += meant(file, graph, entry.data, known)
            file.tell("no such task", task, entry, message, f"no such task {place}")
    elif entry.data in seen:
        message = f"after names {shown(entry.data)} twice: take one of them out"
        file.tell("doubled entry", task, entry, message, f"doubled {place}")


def may_tell_unknown(file, graph):
    """Whether all tasks of the graph could be read with their names."""
    may_miss = file.may_miss_tables(graph) or not graph.table.is_whole
    return not may_miss and all(task.name for task in graph.tasks)


def meant(file, graph, name, known):
    """What an entry of `after` that names no task of its graph may mean."""
    last = name.rpartition(".")[2]
    if "." in name and last in known:
        return f"; after names tasks of its own graph, without the name of the graph: write {shown(last)}"
    for other in file.set.graphs:
        if other is not graph and any(task.name and task.name.data == last for task in other.tasks):
            return (
                f": that is a task of {other.label}, and after stays within a graph; between graphs "
                "an offset keeps the order"
            )
    return did_you_mean(name, known) or f"; it has {listed(map(shown, sorted(known)))}"


def loops(file):
    """No task comes after itself, directly or along others."""
    for graph in file.set.graphs:
        before = before_of(graph)
        told = set()
        for index, task in enumerate(graph.tasks):
            loop = loop_through(before, index)
            if loop and not told.intersection(loop):
                told.update(loop)
                tell_loop(file, graph, task, [graph.tasks[it] for it in loop])


def before_of(graph):
    """For each task the numbers of the tasks that it comes after, as far as they are known."""
    names = [task.name.data if task.name else None for task in graph.tasks]
    return [[names.index(it.data) for it in task.after if it.data in names] for task in graph.tasks]


def loop_through(before, index):
    """The shortest way from a task along the tasks before it back to itself, or none."""
    ways = [[it] for it in before[index]]
    seen = set(before[index])
    for way in ways:
        if way[-1] == index:
            return way
        fresh = [it for it in before[way[-1]] if it not in seen]
        seen.update(fresh)
        ways += [[*way, it] for it in fresh]
    return None


def tell_loop(file, graph, task, way):
    """Tells a loop, at the first task of the graph that is on it."""
    number = graph.tasks.index(task)
    names = [shown(it.name.data) for it in way]
    if len(way) == 1:
        message = f"after names the task itself, {names[0]}: take it out"
    else:
        steps = [f"{shown(task.name.data)} comes after {names[0]}"]
        steps += [f"{one} after {other}" for one, other in zip(names, names[1:])]
        message = f"a loop, in which no task can be the first: {listed(steps)}; take one entry of after out"
    entry = next(it for it in task.after if it.data == way[0].name.data)
    file.tell("loop", task, entry, message, f"loop {graph.part} task {number}")


def cycle_length(file):
    """The least common multiple of all periods and separations has a limit."""
    numbers = [(graph, "period", graph.period) for graph in file.set.graphs]
    numbers += [(task, "separation", task.separation) for task in file.set.sporadics]
    cycle = 1
    for owner, key, number in numbers:
        if not number.is_known:
            continue
        longer = math.lcm(cycle, number.value)
        if longer <= SLOT_LIMIT:
            cycle = longer
            continue
        message = (
            f"{key} = {number.value} makes the cycle {longer} slots, and {SLOT_LIMIT} is the most: it is "
            f"the least common multiple of all periods and separations, {cycle} before this one; "
            f"{that_fit(cycle, number.value)}"
        )
        file.tell("cycle too long", owner, number.entry.value, message, f"cycle too long {longer}")


def that_fit(cycle, number):
    """The numbers near to this one that divide the cycle or are a multiple of it."""
    fits = [it for it in range(1, SLOT_LIMIT + 1) if cycle % it == 0 or it % cycle == 0]
    below = [it for it in fits if number <= 2 * it and it < number][-1:]
    above = [it for it in fits if number < it <= 2 * number][:1]
    near = f", as {listed(map(str, below + above), 'or')}" if below + above else ""
    return f"choose one that divides {cycle} or is a multiple of it{near}"


def demand(file):
    """No window needs more slots than it has. Where something else is wrong the windows are not
    known, and what can never end in time is a note."""
    is_sound = not file.findings
    causes = [*long_chains(file), *long_alarms(file)]
    fault = ""
    if is_sound:
        window = failing_window(file.set)
        if window is None:
            return
        fault = f"infeasible {window.start} {window.end} {window.need}"
        causes = causes or [window_told(file, window)]
    for owner, node, message in causes:
        file.tell_line("no room", owner, node, message, fault)


def long_chains(file):
    """The tasks, and else the chains, that take longer than the deadline of their graph."""
    for graph in file.set.graphs:
        if not graph.deadline.is_known:
            continue
        deadline = graph.deadline.value
        too_long = [it for it in graph.tasks if it.wcet.is_known and it.wcet.value > deadline]
        for task in too_long:
            more = f"is more than {deadline_told(file, graph)}"
            message = f"wcet = {task.wcet.value} {more}, so it can never end in time"
            yield task, task.wcet.entry.value, message
        if too_long or not has_chains(graph):
            continue
        chain, length = longest_chain(graph)
        if length > deadline:
            names = listed(shown(graph.tasks[it].name.data) for it in chain)
            entry = graph.deadline.entry or graph.period.entry
            more = f"{length} slots, more than {deadline_told(file, graph)}"
            message = f"its tasks {names} run one after the other and take {more}"
            yield graph, entry.value, message


def has_chains(graph):
    """Whether the chains of a graph are known, and end."""
    names = [task.name.data for task in graph.tasks if task.name]
    if len(names) < max(len(graph.tasks), 1) or not all(task.wcet.is_known for task in graph.tasks):
        return False
    before = before_of(graph)
    are_known = all(it.data in names for task in graph.tasks for it in task.after)
    return are_known and not any(loop_through(before, it) for it in range(len(names)))


def long_alarms(file):
    """The sporadic tasks that take longer than their deadline."""
    for task in file.set.sporadics:
        if task.wcet.is_known and task.deadline.is_known and task.wcet.value > task.deadline.value:
            line = file.text.line((task.deadline.entry or task.separation.entry).key.start)
            deadline = f"the deadline of {counted(task.deadline.value, 'slot')} (line {line})"
            message = f"wcet = {task.wcet.value} is more than {deadline}, so it can never end in time"
            yield task, task.wcet.entry.value, message


def deadline_told(file, graph):
    """The deadline of a graph, with what it follows from."""
    entry = graph.deadline.entry or graph.period.entry
    line = file.text.line(entry.key.start)
    deadline = f"the deadline of {counted(graph.deadline.value, 'slot')}"
    if graph.deadline.entry:
        return f"{deadline} (line {line})"
    if graph.offset.entry is None:
        return f"{deadline}, which is the period (line {line})"
    offset_line = file.text.line(graph.offset.entry.key.start)
    return f"{deadline}, which is the period (line {line}) less the offset (line {offset_line})"


def window_told(file, window):
    """The window that has too few slots, at the task that takes most of it."""
    shares = shares_of(file.set, window)
    parts = [share_told(share) for share in shares[:4]]
    if len(shares) > 4:
        rest = shares[4:]
        parts.append(f"{counted(len(rest), 'other task')} {sum(share.slots for share in rest)}")
    length = window.end - window.start
    most = shares[0].task
    message = (
        f"no schedule fits: from slot {window.start} up to slot {window.end} there are "
        f"{counted(length, 'slot')}, and {window.need} are needed, by {listed(parts)}; shorten them, "
        "give them more time, or run them less often"
    )
    return most, most.wcet.entry.value, message


def share_told(share):
    name = share.task.name.data
    whose = f"{share.graph.name.data}.{name}" if share.graph else name
    jobs = f" ({share.count} of {share.task.wcet.value})" if share.count > 1 else ""
    return f"{whose} {share.slots}{jobs}"


RULES = [doubled_names, after_entries, loops, cycle_length, demand]
