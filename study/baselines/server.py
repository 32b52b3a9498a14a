"""What the polling and the deferrable server share: a budget in each period, the order of its
requests among the jobs of a plan, and the test of firm requests.

The server is a periodic task of EDF that is due at the end of its period. At equal deadlines it
goes first. In a slot that would be idle it serves without its budget. No rule says so, and it only
helps.

Test of a firm request. The server surely serves a part of its budget in this period (`promised`),
and its budget in each later one. A request is accepted where, by its deadline and by that of each
accepted request, this is enough for all requests due by then.

Not in the sources. The test, which is the usual one of firm work in a periodic server. The greatest
budget comes from the demand of windows (`fits`): it is exact, and the bounds of the sources, which
are linear in the length of a window, would give less.
"""

import heapq

from edf import Edf, Job


def divisors(number):
    """All divisors of a number, in ascending order."""
    return [n for n in range(1, number + 1) if number % n == 0]


class Server(Edf):
    """A server with a budget of slots in each period; `size` is (budget, period)."""

    def __init__(self, plan, size, real=None):
        super().__init__(plan, real)
        self.size, self.period = size
        self.requests = []
        self.end = self.period  # of the period that runs
        self.budget = self.size

    @classmethod
    def fits(cls, plan, budget, period):
        """Whether each window has enough slots for the plan and the server. Between these lengths
        the need does not grow faster than the length, so no others have to be tried."""
        lengths = {*plan.steps, *range(period, 2 * plan.cycle + 1, period)}
        return all(plan.demand[n] + cls.need(n, budget, period) <= n for n in lengths)

    @classmethod
    def sizes(cls, plan):
        """The sizes (budget, period) worth a trial: the greatest budget for each period that
        divides the cycle, where it gives more bandwidth than all shorter periods. There is at least
        one, of no budget where none fits."""
        found, best = [], 0.0
        for period in divisors(plan.cycle)[1:]:
            fits, fails = 0, period + 1
            while fails - fits > 1:
                middle = (fits + fails) // 2
                if cls.fits(plan, middle, period):
                    fits = middle
                else:
                    fails = middle
            if fits / period > best:
                found.append((fits, period))
                best = fits / period
        return found or [(0, plan.cycle)]

    def begin(self):
        super().begin()
        if self.now == self.end:
            self.end += self.period
            self.budget = self.size

    def offer(self, request):
        if not request.is_soft and not self.is_served(request):
            return False
        job = Job(request.name, request.deadline, request.deadline, request.work)
        heapq.heappush(self.requests, (job.due, self.next_number(), job))
        return True

    def is_served(self, request):
        """Whether this and all accepted requests are surely served by their deadlines."""
        needs = [(due, job.left) for due, _, job in self.requests]
        need = 0
        for due, work in sorted([*needs, (request.deadline, request.work)]):
            need += work
            if need > self.supply(due):
                return False
        return True

    def supply(self, time):
        """The slots that are surely served from now to this time, while requests wait."""
        if time < self.end:
            return 0
        return self.promised() + self.size * ((time - self.end) // self.period)

    def has_turn(self):
        """Whether the server has budget, and by EDF it is its turn."""
        return self.budget > 0 and not (self.ready and self.ready[0][0] < self.end)

    def choice(self):
        if self.requests and self.has_turn():
            self.budget -= 1
            return self.requests
        return self.ready or self.requests or None

    def waiting(self):
        return self.ready + self.requests
