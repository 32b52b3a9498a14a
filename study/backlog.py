"""What soft work costs firm requests, and what a planned sporadic task gives back.

Requests of one class arrive, each for 12 slots due within 40. From one to the next there are 150
slots, and a pause of 75 in the mean. Soft work arrives too. There are three ways:

- `offered`: slotshift, with the class as firm requests;
- `planned`: slotshift, where the plan has a sporadic task for the class (docs/MODELLING.md advises
  it for work that must be done each time);
- `soft_last`: the class as firm requests with the same test, but soft work has idle slots only.
  This is not slotshift: the sum of capacities is exact here, without sporadic tasks.
"""

import functools
import random
import statistics

import arrivals
import randomsets
import tasksets
from arrivals import SIZES, Arrival
from baselines.capacity_sum import CapacitySum
from means import interval
from product import Product
from runs import run

COLUMNS = ["soft_load", "way", "accepted", "half", "requests", "response", "response_half"]
LOADS = [0.0, 0.25, 0.5, 0.75, 1.0, 1.25, 1.5]

LOAD = 0.7
SETS = 20
SLOTS = 12000
CLASS = tasksets.Sporadic("class", 12, 150, 40)
PAUSE = 0.5  # separations


class SoftLast(CapacitySum):
    """Soft work has idle slots only."""

    def choice(self):
        return self.ready or self.soft or None


WAYS = {"offered": Product, "planned": Product, "soft_last": SoftLast}


@functools.cache
def pairs():
    """Feasible plans without the class, each with the same plan and the class, feasible too."""
    rng = random.Random("plans backlog")
    found = []
    while len(found) < SETS:
        plan = randomsets.plan_of(rng, LOAD)
        planned = tasksets.Plan(plan.tasks._replace(sporadics=(CLASS,)))
        if planned.is_feasible:
            found.append((plan, planned))
    return found


def soft_work(label, load):
    """Soft work whose load is `load` times what the plan and the class leave."""
    if load == 0:
        return []
    rng = random.Random(f"soft {label}")
    left = 1 - LOAD - CLASS.wcet / (CLASS.separation * (1 + PAUSE))
    rate = load * left / arrivals.mean(SIZES)
    return [
        Arrival(slot, "soft", number, arrivals.draw(rng, SIZES))
        for number, slot in enumerate(arrivals.poisson(rng, rate, SLOTS))
    ]


def rows(load, way):
    """One row: the share of the class that is accepted, and the mean response time of soft work
    that has ended. At loads from 1 on the backlog grows without end, and there is no mean."""
    shares, means, count = [], [], 0
    for number, (plan, planned) in enumerate(pairs()):
        jobs = arrivals.sporadics(f"backlog {number}", planned, SLOTS, PAUSE)
        offers = [
            Arrival(job.slot, "firm", f"class {place}", CLASS.wcet, CLASS.deadline)
            for place, job in enumerate(jobs)
        ]
        of_class = jobs if way == "planned" else offers
        policy = WAYS[way](planned if way == "planned" else plan)
        outcome = run(policy, arrivals.in_order(of_class, soft_work(number, load)), SLOTS)
        rejected = [name for name in outcome.rejected if isinstance(name, str)]
        shares.append(1 - len(rejected) / len(jobs))
        count += len(jobs)
        if 0 < load < 1:
            ended = [slots for name, slots in outcome.responses.items() if isinstance(name, int)]
            means.append(statistics.fmean(ended))
    return [(*interval(shares), count, *(interval(means) if means else ("", "")))]
