"""Random arrivals from a seed: firm requests and soft work by Poisson, and sporadic tasks.

An arrival is (slot, kind, number, work, within). `number` is that of the request, or the index of
the sporadic task.
"""

import collections
import itertools
import random

Arrival = collections.namedtuple("Arrival", "slot kind number work within", defaults=(0, 0))
Sizes = collections.namedtuple("Sizes", "least most")

# The slots of a request are uniform from 4 to 20. A firm request is due within a multiple of its
# slots that is uniform in one of these ranges, but at most a cycle after its arrival: slotshift
# looks no further ahead.
SIZES = Sizes(4, 20)
TIGHTNESSES = {"tight": (1.5, 3), "medium": (3, 6), "loose": (6, 12), "any": (1.5, 12)}


def mean(sizes):
    """The mean of a size."""
    return (sizes.least + sizes.most) / 2


def draw(rng, sizes):
    """A size, uniformly drawn."""
    return sizes.least + int(rng.random() * (sizes.most - sizes.least + 1))


def poisson(rng, rate, slots):
    """The slots of Poisson arrivals with this mean number in a slot, up to the end."""
    at = rng.expovariate(rate)
    while at < slots:
        yield int(at)
        at += rng.expovariate(rate)


def requests(label, plan, offered, slots, tightness=None, sizes=SIZES):
    """Requests whose load is `offered` times what the plan leaves: firm ones of a tightness, or
    soft work where there is none."""
    rng = random.Random(f"requests {label}")
    rate = offered * (1 - plan.load) / mean(sizes)
    found = []
    for number, slot in enumerate(poisson(rng, rate, slots)):
        work = draw(rng, sizes)
        if tightness is None:
            found.append(Arrival(slot, "soft", number, work))
        else:
            least, most = TIGHTNESSES[tightness]
            within = round(work * (least + (most - least) * rng.random()))
            found.append(Arrival(slot, "firm", number, work, min(within, plan.cycle)))
    return found


def sporadics(label, plan, slots, pause=1.0):
    """Arrivals of each sporadic task of a plan. From one to the next there are a separation and a
    pause, which is exponential with a mean of `pause` separations. A pause precedes the first."""
    found = []
    for index, task in enumerate(plan.sporadics):
        rng = random.Random(f"sporadics {label} {index}")
        slot = int(rng.expovariate(1) * pause * task.separation)
        while slot < slots:
            found.append(Arrival(slot, "sporadic", index))
            slot += task.separation + int(rng.expovariate(1) * pause * task.separation)
    return found


def in_order(*lists):
    """All these arrivals by their slots. In one slot they keep the order that is given."""
    return sorted(itertools.chain(*lists), key=lambda arrival: arrival.slot)
