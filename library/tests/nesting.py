#!/usr/bin/env python3
"""Runs random sets on the bench of unit.c: no job goes on under another of its stack that has not ended.
Each record is the trace that the program prints for its arrivals, and is verified; and RAM, which ram.c
is, finds no set that takes more memory than the formula of arena.h.
usage: nesting.py UNIT RAM PROGRAM FOLDER RUNS
"""

import os
import random
import subprocess
import sys

TOP = os.path.dirname(os.path.dirname(os.path.dirname(os.path.realpath(__file__))))
sys.path.insert(0, os.path.join(TOP, "checks"))

from changed_sets import random_set, spelled

SLOTS = 4000


def run(*words):
    return subprocess.run(words, stdout=subprocess.PIPE, stderr=subprocess.PIPE)


def main():
    unit, ram, program, folder, runs = sys.argv[1:]
    tasks, table, arrivals, trace = (f"{folder}/nesting.{end}" for end in ("toml", "bin", "csv", "trace"))
    sums, done, seed = {}, 0, 0
    while done < int(runs):
        seed += 1
        rng = random.Random(seed)
        with open(tasks, "w", encoding="ascii") as file:
            file.write(spelled(rng, random_set(rng)))
        made = run(program, "table", tasks)
        if made.returncode != 0:
            continue
        with open(table, "wb") as file:
            file.write(made.stdout)
        used = run(ram, table)
        assert used.returncode == 0, (seed, used.stdout)
        ran = run(unit, table, str(SLOTS), str(seed % 100), "3")
        assert ran.returncode == 0, (seed, ran.stderr)
        with open(trace, "wb") as file:
            file.write(ran.stdout)
        with open(arrivals, "wb") as file:
            file.write(run("awk", "-f", f"{TOP}/library/unit/arrivals.awk", trace).stdout)
        assert run(program, "replay-table", table, arrivals, str(SLOTS)).stdout == ran.stdout, seed
        judged = run(program, "verify", tasks, arrivals, trace, str(SLOTS))
        assert judged.returncode == 0, (seed, judged.stderr)
        words = ran.stderr.decode().split()
        for name, number in zip(words[::2], words[1::2]):
            sums[name] = sums.get(name, 0) + int(number)
        done += 1
    assert sums["nest"] == 0 < sums["single"], sums
    print(
        f"{runs} random sets with {sums['jobs']} jobs: all nest on two stacks"
        f" (on one {sums['single']} would not), {sums['more']} overruns went on, {sums['stopped']} were stopped"
    )


main()
