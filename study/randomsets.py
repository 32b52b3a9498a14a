"""Random task sets by UUniFast-discard, with precedence and offsets.

UUniFast: E. Bini and G. Buttazzo, Measuring the performance of schedulability tests, Real-Time
Systems 30, 2005. Discard: R. Davis and A. Burns, Priority assignment for global fixed priority
pre-emptive scheduling in multiprocessor real-time systems, RTSS 2009. What does not fit is
discarded, and drawn anew.
"""

import random

from tasksets import Graph, Plan, Sporadic, Task, TaskSet

# Their least common multiple is 1200. In slots of 250 us, they are periods of control units: from
# 5 to 150 ms.
PERIODS = [20, 30, 40, 60, 80, 100, 120, 200, 240, 300, 400, 600]
GRAPHS = 7


def uunifast(rng, count, load):
    """This number of loads that add up to `load`, uniformly drawn."""
    found = []
    for left in range(count - 1, 0, -1):
        rest = load * rng.random() ** (1 / left)
        found.append(load - rest)
        load = rest
    return [*found, load]


def below(rng, count):
    """A whole number from 0 to count - 1, uniformly drawn."""
    return int(rng.random() * count)


def graph_of(rng, name, load, is_plain):
    """A graph of this load, or None where it does not fit into its period. A plain one is one task
    that is due at the end of its period. Any other has 1 to 4 tasks, and each may have up to two
    earlier ones as predecessors. Its deadline is at least 0.6 periods, its offset in the rest."""
    period = PERIODS[below(rng, len(PERIODS))]
    count = 1 if is_plain else 1 + below(rng, 4)
    slots = max(count, round(load * period))
    tasks = []
    for place, share in enumerate(uunifast(rng, count, slots - count)):
        before = sorted({below(rng, place) for _ in range(below(rng, 3))}) if place else []
        tasks.append(Task(f"t{place}", 1 + int(share), tuple(f"t{n}" for n in before)))
    deadline = period if is_plain else round(period * (0.6 + 0.4 * rng.random()))
    offset = 0 if is_plain else below(rng, period - deadline + 1)
    if sum(task.wcet for task in tasks) > deadline:
        return None
    return Graph(name, period, offset, deadline, tuple(tasks))


def sporadic_of(rng, name, load):
    """A sporadic task of at most this load, due within a third of its separation or more. The
    separation is at least 100 slots, so that one slot is a small load."""
    separations = [period for period in PERIODS if period >= 100]
    separation = separations[below(rng, len(separations))]
    deadline = round(separation * (1 + 2 * rng.random()) / 3)
    return Sporadic(name, max(1, int(load * separation)), separation, deadline)


def plan_of(rng, load, sporadics=0, sporadic_load=0.0, is_plain=False):
    """A feasible plan of this load, to 0.01: of graphs, and of this number of sporadic tasks, which
    have together at most `sporadic_load` of it."""
    while True:
        shares = uunifast(rng, sporadics, sporadic_load) if sporadics else []
        alarms = tuple(sporadic_of(rng, f"s{n}", share) for n, share in enumerate(shares))
        rest = load - sum(alarm.wcet / alarm.separation for alarm in alarms)
        loads = uunifast(rng, GRAPHS, rest)
        graphs = [graph_of(rng, f"g{n}", share, is_plain) for n, share in enumerate(loads)]
        if None in graphs:
            continue
        plan = Plan(TaskSet(tuple(graphs), alarms))
        if abs(plan.load - load) <= 0.01 and plan.is_feasible:
            return plan


def plans(label, count, *words):
    """This number of plans, always the same ones for the same words."""
    rng = random.Random(f"plans {label}")
    return [plan_of(rng, *words) for _ in range(count)]
