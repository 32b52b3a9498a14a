"""Polling server with EDF.

Rule. The server is a periodic task with a budget of slots in each period, due at the period's end.
At the start of a period it has its whole budget. When it is its turn by EDF, it serves requests.
Where none waits then, or none any more, the rest of the budget is lost until the next period. Firm
requests are served by their deadlines, soft work in the order of arrival.

Test of a firm request. That of server.py; in this period the server serves the rest of its budget.

Source. J. Lehoczky, L. Sha and J. Strosnider, Enhanced aperiodic responsiveness in hard real-time
environments, RTSS 1987 (the rule, with fixed priorities); T. Ghazalie and T. Baker, Aperiodic
servers in a deadline scheduling environment, Real-Time Systems 9(1), 1995 (with EDF).
"""

from baselines.server import Server


class Polling(Server):
    """A server that loses its budget where no request waits."""

    @staticmethod
    def need(length, budget, period):
        """The most slots that the server needs in a window: its budget in each whole period."""
        return budget * (length // period)

    def promised(self):
        """What it surely serves in this period: its job of this period has started."""
        return self.budget

    def slot(self):
        had_turn = self.has_turn()
        job = super().slot()
        if had_turn and not self.requests:
            self.budget = 0
        return job
