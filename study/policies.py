"""All policies by their names, and the sizes of the servers."""

import functools
import statistics

import arrivals
from baselines.background import Background
from baselines.capacity_sum import CapacitySum
from baselines.deferrable import Deferrable
from baselines.polling import Polling
from baselines.shortened_bandwidth import ShortenedBandwidth
from baselines.total_bandwidth import TotalBandwidth
from product import Product
from runs import run

TRIAL_SLOTS = 2000
TRIAL_OFFERED = 0.8


def plain(kind, *words):
    """A policy that depends on the plan alone."""
    return lambda plan, tightness, sizes, real=None: kind(plan, real, *words)


def sized(kind):
    """A server whose size depends on the requests too."""
    return lambda plan, tightness, sizes, real=None: kind(
        plan, size_of(kind, plan, tightness, sizes), real
    )


# How each policy is made, for a plan and for requests of a tightness (None: soft work) and sizes.
POLICIES = {
    "slotshift": plain(Product),
    "capacity_sum": plain(CapacitySum),
    "tb_star": plain(ShortenedBandwidth),
    "tb_1": plain(ShortenedBandwidth, 1),
    "tbs": plain(TotalBandwidth),
    "deferrable": sized(Deferrable),
    "polling": sized(Polling),
    "background": plain(Background),
}


@functools.cache
def size_of(kind, plan, tightness, sizes):
    """The budget and the period of a server: of the sizes that fit, the one that does best in a
    trial run with other requests of the same kind. So each server is tuned to its requests."""
    trial = arrivals.in_order(
        arrivals.sporadics("trial", plan, TRIAL_SLOTS),
        arrivals.requests("trial", plan, TRIAL_OFFERED, TRIAL_SLOTS, tightness, sizes),
    )

    def worth(size):
        outcome = run(kind(plan, size), trial, TRIAL_SLOTS, until_done=tightness is None)
        if tightness is None:
            return -statistics.fmean(outcome.responses.values())
        return len(outcome.accepted)

    # (of equal ones the greatest bandwidth, which is the last)
    return max(reversed(kind.sizes(plan)), key=worth)
