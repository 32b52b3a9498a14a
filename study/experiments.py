#!/usr/bin/env python3
"""Runs the experiments of the study, and writes a table of results for each. All seeds are fixed,
so each run gives the same numbers.
usage: experiments.py [--jobs N] [--to FOLDER] [NAME ..]
"""

import argparse
import csv
import functools
import itertools
import math
import multiprocessing
import os
import random
import statistics
import time

import arrivals
import backlog
import randomsets
import refusals
import tasksets
from arrivals import SIZES, Sizes
from means import interval
from policies import POLICIES
from runs import run

HERE = os.path.dirname(os.path.realpath(__file__))

SETS = 20
SLOTS = 6000
LOADS = [0.5, 0.7, 0.9]
OFFERED = [0.3, 0.5, 0.8, 1.0, 1.3]
TIGHTNESSES = ["tight", "medium", "loose"]

# The plans. Each process draws a family of them once.


@functools.cache
def plans(load, sporadics=0, sporadic_load=0.0, is_plain=False, count=SETS):
    """Random plans of this load."""
    words = (load, sporadics, sporadic_load, is_plain)
    return randomsets.plans(" ".join(map(str, words)), count, *words)


@functools.cache
def example(name):
    """The plan of an example of the repository."""
    return tasksets.Plan(tasksets.read(f"{HERE}/../examples/{name}.toml"))


# One cell of a table: for each policy the mean over some plans.


def accepted(label, some, offered, tightness, sizes=SIZES, slots=SLOTS, real=None):
    """A row for each policy: the share of firm requests that it accepts, and by how much it is less
    than that of slotshift. The difference is taken plan by plan, since the same requests arrive.
    `real` gives, for the number of a plan, the slots that its jobs really take."""
    shares = {name: [] for name in POLICIES}
    count = 0
    for number, plan in enumerate(some):
        here = f"{label} {number}"
        both = arrivals.in_order(
            arrivals.sporadics(here, plan, slots),
            arrivals.requests(here, plan, offered, slots, tightness, sizes),
        )
        for name, make in POLICIES.items():
            policy = make(plan, tightness, sizes, real and real(number))
            outcome = run(policy, both, slots)
            requests = len(outcome.accepted) + len(outcome.rejected)
            shares[name].append(len(outcome.accepted) / requests)
        count += requests
    less = {
        name: [exact - share for exact, share in zip(shares["slotshift"], found)]
        for name, found in shares.items()
    }
    return [(name, *interval(shares[name]), *interval(less[name]), count) for name in POLICIES]


def responses(label, some, offered, slots=2 * SLOTS):
    """A row for each policy: the mean response time of soft work, in slots."""
    means = {name: [] for name in POLICIES}
    count = 0
    for number, plan in enumerate(some):
        soft = arrivals.requests(f"{label} {number}", plan, offered, slots)
        for name, make in POLICIES.items():
            outcome = run(make(plan, None, SIZES), soft, slots, until_done=True)
            means[name].append(statistics.fmean(outcome.responses.values()))
        count += len(soft)
    return [(name, *interval(found), count) for name, found in means.items()]


# The experiments.


def acceptance(load, tightness, offered):
    return accepted(f"acceptance {load}", plans(load), offered, tightness)


def plain(load, offered):
    return accepted(f"plain {load}", plans(load, is_plain=True), offered, "medium")


def sporadic(count, offered):
    some = plans(0.7, count, 0.1 if count else 0.0)
    return accepted(f"sporadic {count}", some, offered, "medium")


# For each example the sizes of requests, and a number of slots in which some tens of them arrive.
EXAMPLES = {
    "engine": (Sizes(10, 50), 24000),
    "flight": (Sizes(2, 8), SLOTS),
    "assist": (Sizes(2, 8), SLOTS),
}


def examples(name, offered):
    sizes, slots = EXAMPLES[name]
    return accepted(f"examples {name}", [example(name)] * SETS, offered, "any", sizes, slots)


def soft(load, offered):
    return responses(f"soft {load}", plans(load), offered)


def early_ends(least, number):
    """What jobs of the plan with this number really take: a share of their worst case, uniform from
    `least` to 1."""

    def real(key, wcet):
        share = least + (1 - least) * random.Random(f"early {number} {key}").random()
        return max(1, math.ceil(share * wcet))

    return real


def early(least, offered):
    real = functools.partial(early_ends, least)
    return accepted("early", plans(0.9), offered, "medium", real=real)


def small(kind):
    """A small part of the others, for `checks/study`."""
    some = plans(0.7, 2, 0.1, count=3) if kind == "sporadic" else plans(0.7, count=3)
    if kind == "soft":
        found = responses("small soft", some, 0.7, slots=2000)
    else:
        found = accepted(f"small {kind}", some, 0.8, "medium", slots=2000)
    return [(name, mean, half, count) for name, mean, half, *_, count in found]


ACCEPTED = ["policy", "accepted", "half", "less", "less_half", "requests"]
RESPONSE = ["policy", "response", "half", "requests"]


def grid(*lists):
    """All cells of a table."""
    return list(itertools.product(*lists))


# Of each experiment the columns of its table, its cells, and what gives the rows of a cell.
EXPERIMENTS = {
    "acceptance": (
        ["plan_load", "tightness", "offered", *ACCEPTED],
        grid(LOADS, TIGHTNESSES, OFFERED),
        acceptance,
    ),
    "plain": (["plan_load", "offered", *ACCEPTED], grid(LOADS, OFFERED), plain),
    "sporadic": (["sporadics", "offered", *ACCEPTED], grid([0, 2, 8], OFFERED), sporadic),
    "examples": (["example", "offered", *ACCEPTED], grid(EXAMPLES, OFFERED), examples),
    "soft": (["plan_load", "offered", *RESPONSE], grid(LOADS, [0.2, 0.4, 0.6, 0.8, 0.9]), soft),
    "early": (
        ["least_share", "offered", *ACCEPTED],
        grid([1.0, 0.75, 0.5, 0.25], [1.0, 2.0]),
        early,
    ),
    "backlog": (backlog.COLUMNS, grid(backlog.LOADS, backlog.WAYS), backlog.rows),
    "refusals": (refusals.COLUMNS, grid([0, 2, 8], TIGHTNESSES), refusals.rows),
    "small": (
        ["kind", "policy", "mean", "half", "requests"],
        grid(["firm", "sporadic", "soft"]),
        small,
    ),
}

# The experiments that have a figure.
FIGURES = [name for name in EXPERIMENTS if name not in ("refusals", "small")]


def rows(name, cell):
    """The rows of a cell, each with the values of the cell first."""
    return [(*cell, *row) for row in EXPERIMENTS[name][2](*cell)]


def write(name, found, folder):
    """Writes the table of an experiment."""
    with open(f"{folder}/{name}.csv", "w", newline="") as file:
        writer = csv.writer(file, lineterminator="\n")
        writer.writerow(EXPERIMENTS[name][0])
        writer.writerows(row for each in found for row in each)


def main():
    parser = argparse.ArgumentParser(description="runs the experiments of the study")
    parser.add_argument("--jobs", type=int, default=os.cpu_count())
    parser.add_argument("--to", default=f"{HERE}/results")
    parser.add_argument("names", nargs="*", metavar="NAME")
    words = parser.parse_args()
    os.makedirs(words.to, exist_ok=True)
    with multiprocessing.Pool(words.jobs) as pool:
        for name in words.names or EXPERIMENTS:
            start = time.monotonic()
            cells = [(name, cell) for cell in EXPERIMENTS[name][1]]
            write(name, pool.starmap(rows, cells, chunksize=1), words.to)
            print(f"{name}: {len(cells)} cells in {time.monotonic() - start:.0f} s", flush=True)


if __name__ == "__main__":
    main()
