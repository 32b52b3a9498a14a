"""EDF with a total bandwidth server whose deadlines are shortened: TB(N), and TB* with no limit N.

Rule. A request first gets the deadline d of the total bandwidth server. By EDF with d it ends at a
time f at the latest, so f is a deadline too that can be met, and an earlier one. Each of up to N
steps replaces d by f. f is the sum of the time now, the slots of the request, and the slots of all
jobs with deadlines before d: what ready ones still need, and all of those that start later.
Deadlines of later requests are computed from the first d, not from the shortened one.

Test of a firm request. It is accepted where the last d is not later than its own deadline.

Source. G. Buttazzo and F. Sensini, Optimal deadline assignment for scheduling soft aperiodic tasks
in hard real-time environments, IEEE Transactions on Computers 48(10), 1999. They serve soft work.

Not in the source. The test, which is that of the total bandwidth server. Jobs that start later
include the densest sporadic arrivals. A request is shortened when it arrives. The source does so
when it is the first in the queue, which is the same where each job takes its worst case.
"""

from baselines.total_bandwidth import TotalBandwidth


class ShortenedBandwidth(TotalBandwidth):
    """Requests run by deadlines that are shortened in up to `steps` steps."""

    def __init__(self, plan, real=None, steps=None):
        super().__init__(plan, real)
        self.steps = steps

    def due(self, request, last):
        due, step = super().due(request, last), 0
        while self.free and step != self.steps:
            end = self.end(request.work, due)
            if end >= due:
                break
            due, step = end, step + 1
        return due

    def end(self, work, due):
        """The latest end of a request that arrives now and runs by this deadline."""
        before = due - 1
        ready = self.ready_by(before)
        later = self.coming_by(before) + self.arriving_by(before)
        return self.now + work + ready + later
