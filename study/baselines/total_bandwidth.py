"""EDF with a total bandwidth server (TBS).

Rule. The k-th request, for C slots at time r, gets the deadline d_k = max(r, d_{k-1}) + C / U, and
runs by EDF with it. U is the bandwidth of the server: what the plan leaves.

Test of a firm request. It is accepted where d_k is not later than its own deadline. A rejected one
leaves d_{k-1} as it was.

Source. M. Spuri and G. Buttazzo, Efficient aperiodic service under earliest deadline scheduling,
RTSS 1994; the same, Scheduling aperiodic tasks in dynamic priority systems, Real-Time Systems
10(2), 1996. The test: M. Spuri, G. Buttazzo and F. Sensini, Robust aperiodic scheduling under
dynamic priority systems, RTSS 1995.

Not in the sources. Their periodic tasks are due at the end of their periods, so U is 1 less the
load. Here windows may be shorter, and U is the least share of free slots in any window: the server
then needs at most U times the length of any window. d_k is a fraction. It is rounded down where it
is compared, since slots are whole, and not where d_{k+1} is computed. At equal deadlines the
request goes first.
"""

from edf import NEVER, SERVED, Edf, Job


def bandwidth(plan):
    """The least share of free slots in a window, as (free slots, length)."""
    whole = plan.cycle
    sporadic = sum(task.wcet * whole // task.separation for task in plan.sporadics)
    share = (whole - plan.work - sporadic, whole)
    for length in plan.steps:
        free = length - plan.demand[length]
        if free * share[1] < share[0] * length:
            share = (free, length)
    return share


class TotalBandwidth(Edf):
    """Requests run by the deadlines that the bandwidth gives them."""

    def __init__(self, plan, real=None):
        super().__init__(plan, real)
        self.free, self.length = bandwidth(plan)
        self.last = 0  # d_{k-1}, times `free`, which makes it a whole number

    def offer(self, request):
        last = max(self.now * self.free, self.last) + request.work * self.length
        due = self.due(request, last)
        if due > request.deadline:
            return False
        self.last = last
        self.add(Job(request.name, due, request.deadline, request.work), SERVED)
        return True

    def due(self, request, last):
        """The deadline by which a request runs; `last` is d_k, times `free`."""
        return last // self.free if self.free else NEVER
