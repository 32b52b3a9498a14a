"""Slot shifting with the published acceptance test: the sum of spare capacities.

Rule. The deadlines ahead, of the plan and of accepted requests, are the ends of intervals. The
spare capacity of an interval is its length, less the slots of the jobs due at its end, less what
the next interval borrows where the capacity of that one is below 0. Jobs and accepted requests run
by EDF. Soft work, in the order of arrival, has a slot where the capacity of the current interval is
above 0, and a slot that would be idle.

Test of a firm request. It is accepted where its slots are at most the sum of three parts: the
capacity of the current interval; the capacities above 0 of the later intervals that end before its
deadline; and of the interval in which its deadline lies, the capacity up to that deadline.

Sporadic tasks. The worst case is assumed at once: each task may arrive now, and again after each
separation. The slots of an arrival are taken off the capacity of the interval in which it arrives,
whenever it is due.

Source. G. Fohler, Joint scheduling of distributed complex periodic and hard aperiodic tasks in
statically scheduled systems, RTSS 1995; D. Isovic and G. Fohler, Efficient scheduling of sporadic,
aperiodic, and periodic tasks with complex constraints, RTSS 2000.

Not in the sources. The deadline of the request splits its interval before the sum is taken, so the
third part is the capacity of a whole interval. Capacities are lowered for arrivals after that
deadline too: these jobs are due before other work. An interval starts where the one before it ends,
though its jobs may start later; the sums are the same. Capacities are computed when they are asked
for, where the sources keep them from slot to slot.
"""

import bisect
import collections
import heapq

from edf import REQUESTED, Edf, Job


class CapacitySum(Edf):
    """Slot shifting by the sum of spare capacities."""

    def __init__(self, plan, real=None):
        super().__init__(plan, real)
        self.soft = []

    def offer(self, request):
        job = Job(request.name, request.deadline, request.deadline, request.work)
        if request.is_soft:
            heapq.heappush(self.soft, (job.due, self.next_number(), job))
            return True
        if request.work > self.room(request.deadline):
            return False
        self.add(job, REQUESTED)
        return True

    def room(self, deadline):
        """The sum of the capacities up to a deadline."""
        (_, room), *later = self.intervals(self.now, deadline)
        return room + sum(max(0, capacity) for end, capacity in later if end <= deadline)

    def intervals(self, first, deadline=None):
        """The intervals from now on as (end, capacity); a deadline given is the end of one.
        Sporadic jobs may arrive from the slot `first` on."""
        last, borrowed = self.horizon(deadline or self.now)
        due = collections.Counter({last: 0, deadline or last: 0})
        due.update(self.plan.due_at(self.now, last))
        for time, wcet in self.released:
            if time > self.now:
                due[time] -= wcet
        for time, *_, job in self.ready:
            due[time] += job.left
        self.count_arrivals(due, first)
        ends, found = sorted(due), []
        for start, end in reversed([*zip([self.now, *ends], ends)]):
            capacity = end - start - due[end] - borrowed
            borrowed = max(0, -capacity)
            found.append((end, capacity))
        return found[::-1]

    def horizon(self, deadline):
        """How far the intervals reach, and what is borrowed there. After the last deadline that is
        known the plan is alone, and what it borrows is known. With sporadic tasks the intervals
        reach to the end of the second cycle from here, as in slotshift."""
        if self.plan.sporadics:
            return (self.now // self.plan.cycle + 3) * self.plan.cycle, 0
        known = [due for due, *_ in self.ready + self.released]
        last = max(deadline, self.plan.next_due(self.now), *known, 0)
        return last, self.plan.borrowed[last % self.plan.cycle]

    def count_arrivals(self, due, first):
        """Adds the densest arrivals to what is due, each at the end of the interval in which it
        arrives."""
        ends = sorted(due)
        for slot, task in self.arrivals(first, ends[-1]):
            due[ends[bisect.bisect_right(ends, slot)]] += task.wcet

    def choice(self):
        if self.soft and self.intervals(self.now + 1)[0][1] > 0:
            return self.soft
        return self.ready or self.soft or None

    def waiting(self):
        return self.ready + self.soft
