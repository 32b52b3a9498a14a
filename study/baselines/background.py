"""Background service.

Rule. Jobs of the plan and sporadic jobs run by EDF. A request runs only where none of them is
ready. Firm requests are served by their deadlines, soft work in the order of arrival.

Test of a firm request. The jobs of the plan start at known times, so the idle slots ahead are
known. A request is accepted where, by its deadline and by that of each accepted request, the idle
slots in the worst case are enough for all requests due by then.

Source. J. Lehoczky, L. Sha and J. Strosnider, Enhanced aperiodic responsiveness in hard real-time
environments, RTSS 1987; with EDF: M. Spuri and G. Buttazzo, Scheduling aperiodic tasks in dynamic
priority systems, Real-Time Systems 10(2), 1996. Both compare servers for soft work with it.

Not in the sources. The test of firm requests: it is exact for this rule.
"""

import heapq

from edf import Edf, Job


class Background(Edf):
    """Requests run in idle slots only."""

    def __init__(self, plan, real=None):
        super().__init__(plan, real)
        self.requests = []

    def offer(self, request):
        if not request.is_soft and not self.fits(request):
            return False
        job = Job(request.name, request.deadline, request.deadline, request.work)
        heapq.heappush(self.requests, (job.due, self.next_number(), job))
        return True

    def fits(self, request):
        """Whether idle slots are enough for this and all accepted requests, by each deadline."""
        needs = [(due, job.left) for due, _, job in self.requests]
        needs = sorted([*needs, (request.deadline, request.work)])
        need = 0
        for (_, work), idle in zip(needs, self.idle_slots([due for due, _ in needs])):
            need += work
            if need > idle:
                return False
        return True

    def idle_slots(self, times):
        """The number of idle slots from now to each of these times in the worst case: sporadic jobs
        arrive at their densest, and each job takes its worst case."""
        starting = sorted(self.starts(max(times)))
        backlog = sum(job.left for *_, job in self.ready)
        idle, at, place, found = 0, self.now, 0, []
        for time in times:
            while place < len(starting) and starting[place][0] < time:
                start, wcet = starting[place]
                idle += max(0, start - at - backlog)
                backlog = max(0, backlog - (start - at)) + wcet
                at = start
                place += 1
            found.append(idle + max(0, time - at - backlog))
        return found

    def starts(self, last):
        """The jobs that start from now on and before `last`, as (slot, wcet)."""
        for start, _, wcet in self.coming(last):
            yield start, wcet
        for slot, task in self.arrivals(self.now, last):
            yield slot, task.wcet

    def choice(self):
        return self.ready or self.requests or None

    def waiting(self):
        return self.ready + self.requests
