"""Deferrable server with EDF.

Rule. The server has a budget of slots in each period, and serves by EDF with the period's end as
its deadline. At the start of a period it has its whole budget. It keeps the budget until the end of
the period, whether requests wait or not. Firm requests are served by their deadlines, soft work in
the order of arrival.

The budget may be spent at the end of one period, and again at the start of the next. So a window
may need more of this server than of a periodic task: its budget in each whole period, and up to its
budget in the rest.

Test of a firm request. That of server.py; in this period the server serves the rest of its budget,
but not more than the slots up to the period's end.

Source. T. Ghazalie and T. Baker, Aperiodic servers in a deadline scheduling environment, Real-Time
Systems 9(1), 1995: the deadline deferrable server.
"""

from baselines.server import Server


class Deferrable(Server):
    """A server that keeps its budget until the end of its period."""

    @staticmethod
    def need(length, budget, period):
        """The most slots that the server needs in a window."""
        return budget * (length // period) + min(budget, length % period)

    def promised(self):
        """What it surely serves in this period."""
        return min(self.budget, self.end - self.now)
