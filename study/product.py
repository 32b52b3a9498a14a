"""slotshift as a policy: the executive of its library, over the table that its program writes of a
task file. Its guarantees are checked as those of the baselines are."""

import functools
import os
import subprocess
import sys
import tempfile

import tasksets
from edf import Missed

TOP = os.path.dirname(os.path.dirname(os.path.realpath(__file__)))
sys.path.insert(0, f"{TOP}/library")

import slotexec  # noqa: E402  (it is in the folder library/)

PROGRAM = os.environ.get("SLOTSHIFT", f"{TOP}/dist/x86_64-linux/slotshift")
LIBRARY = os.environ.get("LIBSLOTEXEC", f"{TOP}/study/out/libslotexec.so")


def output_of(*words):
    """The output of the program for these words, as bytes."""
    return subprocess.run([PROGRAM, *words], stdout=subprocess.PIPE, check=True).stdout


@functools.cache
def table_of(plan):
    """The binary table of a plan."""
    with tempfile.NamedTemporaryFile("w", suffix=".toml") as file:
        file.write(tasksets.text(plan.tasks))
        file.flush()
        return output_of("table", file.name)


class Product:
    """The executive of slotshift."""

    def __init__(self, plan, real=None):
        self.plan = plan
        self.real = real
        self.executive = slotexec.Executive(table_of(plan), LIBRARY)
        self.now = 0
        self.ends = {}
        self.row = 0
        self.names = {}  # the name of each request, by its row
        self.deadlines = {}  # of each job that has begun or was accepted and has not ended, by key
        self.left = {}  # the slots that each of them still takes
        self.planned_ends = 0  # the number of the plan's jobs that have ended

    def begin(self):
        """Nothing is to be done before the arrivals of a slot."""

    def next_row(self):
        self.row += 1
        return self.row

    def expect(self, key, work, deadline):
        """A job has been accepted."""
        self.left[key] = work
        self.deadlines[key] = deadline

    def offer(self, request):
        row = self.next_row()
        if request.is_soft:
            is_taken = self.executive.soft(row, request.work).answer == slotexec.Soft.TAKEN
            key = slotexec.Key(slotexec.Kind.SOFT, 0, 0, row)
        else:
            answer = self.executive.firm(row, request.work, request.deadline - self.now).answer
            is_taken = answer == slotexec.Firm.ACCEPTED
            key = slotexec.Key(slotexec.Kind.FIRM, 0, 0, row)
        if is_taken:
            self.names[row] = request.name
            self.expect(key, request.work, request.deadline)
        return is_taken

    def sporadic(self, name, index):
        row = self.next_row()
        answer = self.executive.sporadic(row, index)
        assert answer.answer == slotexec.Sporadic.TAKEN
        key = slotexec.Key(slotexec.Kind.SPORADIC, index, 0, row)
        self.expect(key, self.plan.sporadics[index].wcet, answer.first)

    def slot(self):
        key = self.executive.slot()
        self.now += 1
        if key.kind == slotexec.Kind.NONE:
            return
        if key not in self.left:
            self.expect(key, *self.planned(key))
        self.left[key] -= 1
        if self.left[key] == 0:
            self.ended(key)

    def planned(self, key):
        """The slots that a job of the plan really takes, and its deadline."""
        window = self.windows[key.group, key.task, key.number % self.plan.instances[key.group]]
        base = key.number // self.plan.instances[key.group] * self.plan.cycle
        name = (key.group, key.task, key.number)
        return self.real(name, window.wcet) if self.real else window.wcet, base + window.due

    @functools.cached_property
    def windows(self):
        return {window.key: window for window in self.plan.windows}

    def ended(self, key):
        if self.now > self.deadlines.pop(key):
            raise Missed(f"{key} ended at {self.now}")
        del self.left[key]
        if key.kind in (slotexec.Kind.FIRM, slotexec.Kind.SOFT):
            self.ends[self.names[key.number]] = self.now
        elif key.kind == slotexec.Kind.OFFLINE:
            self.planned_ends += 1
            if self.real:  # (where all of its worst case has run, this frees nothing)
                self.executive.done(self.next_row(), key)

    def finish(self):
        """The run is over: no job that has not ended may be due by now."""
        self.executive.close()
        late = [key for key, deadline in self.deadlines.items() if deadline <= self.now]
        if late:
            raise Missed(f"{late} not ended at {self.now}")
        due = (self.now - window.due for window in self.plan.windows if window.due <= self.now)
        if sum(since // self.plan.cycle + 1 for since in due) > self.planned_ends:
            raise Missed(f"jobs of the plan have not ended at {self.now}")
