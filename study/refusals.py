"""How often a test rejects a request though a schedule exists.

slotshift and the sum of capacities are kept in the same state: both are asked about each request,
and the answer of slotshift is carried out in both. A request that slotshift accepts has a schedule,
since it is served in time. For each request that slotshift rejects, `slotshift explain` lists jobs
and arrivals that need, together with the request, more slots than there are: it had to be rejected.

A third test is the sum of capacities in which a sporadic job that may arrive is counted when it is
due, and not when it arrives.
"""

import random
import tempfile

import arrivals
import product
import randomsets
import tasksets
from baselines.capacity_sum import CapacitySum
from edf import REQUESTED, Job
from means import interval
from runs import request_of

# The published sum is `sum`; the one that counts sporadic jobs when they are due is `due_sum`.
# `wrong` counts rejections of a request that slotshift accepts, `alone` the opposite.
COLUMNS = [
    "sporadics",
    "tightness",
    "requests",
    "accepted",
    "sum_wrong",
    "sum_wrong_share",
    "half",
    "sum_alone",
    "due_sum_wrong",
    "due_sum_alone",
    "rejected",
    "explained",
]

LOAD = 0.7
SPORADIC_LOAD = 0.1
OFFERED = 1.0
SETS = 20
SLOTS = 6000


class Sum(CapacitySum):
    """The sum of capacities, in which the answers of another test are carried out."""

    def accepts(self, request):
        """The answer of the sum to a request."""
        return request.work <= self.room(request.deadline)

    def carry_out(self, request, is_accepted):
        """The answer of the other test."""
        if is_accepted:
            job = Job(request.name, request.deadline, request.deadline, request.work)
            self.add(job, REQUESTED)


class DueSum(Sum):
    """The same, where sporadic jobs that may arrive are counted when they are due."""

    def count_arrivals(self, due, first):
        for slot, task in self.arrivals(first, max(due)):
            due[slot + task.deadline] += task.wcet


def side_by_side(plan, both, slots):
    """The answers to each firm request: of slotshift, of the sum, and of the sum by deadlines."""
    exact, *sums = policies = product.Product(plan), Sum(plan), DueSum(plan)
    answers, place = [], 0
    for slot in range(slots):
        for policy in policies:
            policy.begin()
        while place < len(both) and both[place].slot == slot:
            arrival = both[place]
            place += 1
            if arrival.kind == "sporadic":
                for policy in policies:
                    policy.sporadic((arrival.number, slot), arrival.number)
                continue
            request = request_of(arrival)
            by_sums = [each.accepts(request) for each in sums]
            is_accepted = exact.offer(request)
            for each in sums:
                each.carry_out(request, is_accepted)
            answers.append((is_accepted, *by_sums))
        for policy in policies:
            policy.slot()
    for policy in policies:
        policy.finish()
    return answers


def csv_of(plan, both):
    """The text of an arrivals file."""
    lines = []
    for arrival in both:
        if arrival.kind == "sporadic":
            lines.append(f"{arrival.slot},sporadic,{plan.sporadics[arrival.number].name}\n")
        else:
            lines.append(f"{arrival.slot},firm,{arrival.work},{arrival.within}\n")
    return "".join(lines)


def is_explained(plan, lines):
    """Whether the output of `explain` shows that nothing could serve a request. The slots of the
    jobs, of the arrivals and of the request add up to the need. The need is more than there are
    slots from now to a time, by which all of them are due."""
    entry, *listed = [line.split() for line in lines]
    now, until, need, room = int(entry[0]), *map(int, entry[6:9])
    tasks = {task.name: task for task in plan.sporadics}
    slots, dues = 0, [until]
    for kind, *words in listed:
        if kind == "arrival":
            slots += tasks[words[0]].wcet
            dues.append(int(words[1]) + tasks[words[0]].deadline)
        else:
            slots += int(words[-2])
            dues.append(int(words[-1]))
    return slots == need and need > room == until - now and max(dues) == until


def explained(plan, both, answers, slots):
    """The number of requests that slotshift rejected, and of those that `explain` explains."""
    with tempfile.TemporaryDirectory() as folder:
        tasks, rows = f"{folder}/tasks.toml", f"{folder}/arrivals.csv"
        for path, data in ((tasks, tasksets.text(plan.tasks)), (rows, csv_of(plan, both))):
            with open(path, "w", encoding="ascii") as file:
                file.write(data)
        requests = [row for row, arrival in enumerate(both, 1) if arrival.kind == "firm"]
        rejected = [row for row, (exact, *_) in zip(requests, answers) if not exact]
        texts = [product.output_of("explain", tasks, rows, str(slots), str(r)) for r in rejected]
    return len(rejected), sum(is_explained(plan, text.decode().splitlines()) for text in texts)


def rows(sporadics, tightness):
    """One row for a number of sporadic tasks and a tightness."""
    rng = random.Random(f"plans refusals {sporadics}")
    answers, shares, rejected, shown = [], [], 0, 0
    for number in range(SETS):
        plan = randomsets.plan_of(rng, LOAD, sporadics, SPORADIC_LOAD if sporadics else 0.0)
        both = arrivals.in_order(
            arrivals.sporadics(f"refusals {number}", plan, SLOTS),
            arrivals.requests(f"refusals {number}", plan, OFFERED, SLOTS, tightness),
        )
        here = side_by_side(plan, both, SLOTS)
        shares.append(sum(exact and not by_sum for exact, by_sum, _ in here) / len(here))
        more = explained(plan, both, here, SLOTS)
        rejected, shown = rejected + more[0], shown + more[1]
        answers += here
    return [
        (
            len(answers),
            sum(exact for exact, *_ in answers),
            sum(exact and not by_sum for exact, by_sum, _ in answers),
            *interval(shares),
            sum(by_sum and not exact for exact, by_sum, _ in answers),
            sum(exact and not by_due for exact, _, by_due in answers),
            sum(by_due and not exact for exact, _, by_due in answers),
            rejected,
            shown,
        )
    ]
