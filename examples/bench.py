#!/usr/bin/env python3
"""A closed loop over slotlive: an engine runs for a second, and at random it knocks. A knock asks for a diagnosis
of 4 to 12 slots within 12; a job that is measured to end early gives back what is left. Tells what became of them.
usage: examples/bench.py [PROGRAM]
"""

import collections
import os
import random
import subprocess
import sys

TOP = os.path.dirname(os.path.dirname(os.path.realpath(__file__)))
WORDS = [sys.argv[1] if len(sys.argv) > 1 else f"{TOP}/slotlive", f"{TOP}/examples/engine.toml"]
SLOTS = 4000


def told(live):
    """The words of the next line, without its spans."""
    return live.stdout.readline().split(" | ")[0].split()


def ask(live, command):
    live.stdin.write(f"{command}\n")
    return told(live)


random.seed(1)
counts = collections.Counter()
with subprocess.Popen(WORDS, stdin=subprocess.PIPE, stdout=subprocess.PIPE, text=True, bufsize=1) as live:
    told(live)
    for _ in range(SLOTS):
        if random.random() < 1 / 20:
            counts[ask(live, f"firm {4 + int(9 * random.random())} 12")[5]] += 1
        _, _, *key = ask(live, "slot")
        if key and random.random() < 1 / 10:
            *_, what, freed = ask(live, f"done {key[0]}")
            counts["freed"] += int(freed) if what == "freed" else 0
    ask(live, "end")
print(f"knocks diagnosed {counts['accepted']} refused {counts['noroom']} slots freed {counts['freed']}")
