#!/usr/bin/env python3
"""Runs the arrivals of a recorded trace through slotexec.py, and compares each answer and each slot.
usage: recorded.py LIBRARY TABLE TRACE   (TRACE without spans, or with them)
"""

import os
import sys

sys.path.insert(0, os.path.dirname(os.path.dirname(os.path.realpath(__file__))))

from slotexec import Done, Executive, Firm, Gone, Key, Kind, Soft, Sporadic


class Twin:
    """An executive that writes the lines of its arrivals and slots."""

    def __init__(self, executive):
        self.executive = executive
        self.keys = {}

    def key_of(self, text):
        """The key of a job that has run, as early ends name no other."""
        return self.keys[text]

    def soft(self, row, words):
        told = self.executive.soft(row, int(words[0]))
        return words[0] + (" taken" if told.answer == Soft.TAKEN else f" full {told.first}")

    def firm(self, row, words):
        told = self.executive.firm(row, int(words[0]), int(words[1]))
        answer = told.answer.name.lower().replace("_", "")
        numbers = f" {told.first} {told.second} {told.third}" if told.answer == Firm.NO_ROOM else ""
        return f"{words[0]} {words[1]} {answer}{numbers}"

    def sporadic(self, row, words):
        told = self.executive.sporadic(row, self.executive.sporadic_index(words[0]))
        return f"{words[0]} {'taken' if told.answer == Sporadic.TAKEN else 'soon'} {told.first}"

    def done(self, row, words):
        told = self.executive.done(row, self.key_of(words[0]))
        return words[0] + (f" freed {told.first}" if told.answer == Done.FREED else " notrunning")

    def withdraw(self, row, words):
        told = self.executive.withdraw(row, int(words[0].split(":")[1]))
        return words[0] + (f" freed {told.first}" if told.answer == Gone.FREED else " nojob")

    def slot(self):
        key = self.executive.slot()
        if key.kind == Kind.NONE:
            return "idle"
        text = self.executive.key_text(Key(*key))
        self.keys[text] = key
        return "run " + text

    def line(self, words):
        """The line of this executive for the arrival or slot of a line."""
        kind = words[1]
        if kind in ("run", "idle"):
            return self.slot()
        return f"{kind} {words[2]} " + getattr(self, kind)(int(words[2]), words[3:])


def main():
    library, table, trace = sys.argv[1:]
    lines = open(trace, encoding="ascii").read().splitlines()
    slots = arrivals = 0
    with Executive.of_file(table, library) as executive:
        twin = Twin(executive)
        for line in lines[1:-1]:
            bare = line.split(" |")[0]
            told = f"{executive.now()} {twin.line(bare.split())}"
            assert told == bare, (told, bare)
            is_slot = bare.split()[1] in ("run", "idle")
            slots, arrivals = slots + is_slot, arrivals + (not is_slot)
        assert lines[0].split(" |")[0] == "0 start" and lines[-1] == f"{executive.now()} end"
    print(f"slotexec.py: {slots} slots with {arrivals} arrivals as recorded")


main()
