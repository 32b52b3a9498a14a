"""Cases of each baseline that were computed by hand from its rule.

A plan is its cycle and the windows of its jobs, START-DUE:SLOTS, which are a, b, .. in this order.
Sporadic tasks are SLOTS/SEPARATION/DEADLINE, and are s, t, .. in this order. An event is `TIME
firm SLOTS WITHIN yes` (or `no`), `TIME soft SLOTS` or `TIME sporadic INDEX`. What runs in each slot
is one character: the letter of a job, the number of a request, from 1, or `.` where it is idle.
"""

import collections

import tasksets
from arrivals import Arrival
from baselines.background import Background
from baselines.total_bandwidth import TotalBandwidth, bandwidth
from baselines.capacity_sum import CapacitySum
from baselines.deferrable import Deferrable
from baselines.polling import Polling
from baselines.shortened_bandwidth import ShortenedBandwidth
from runs import request_of

Case = collections.namedtuple("Case", "why plan events runs make")


def plan(cycle, *words):
    """The plan of these words."""
    graphs, sporadics = [], []
    for word in words:
        if "/" in word:
            wcet, separation, deadline = map(int, word.split("/"))
            sporadics.append(tasksets.Sporadic("stu"[len(sporadics)], wcet, separation, deadline))
            continue
        window, wcet = word.split(":")
        start, due = map(int, window.split("-"))
        task = tasksets.Task("t", int(wcet), ())
        name = "abcd"[len(graphs)]
        graphs.append(tasksets.Graph(name, cycle, start, due - start, (task,)))
    return tasksets.Plan(tasksets.TaskSet(tuple(graphs), tuple(sporadics)))


# a is due at 4, and 4 of the 10 slots are left. Windows of 4, 10 and 14 slots need 1, 6 and 7.
COMMON = plan(10, "0-4:1", "0-10:5")
# b needs two slots before 4.
BORROWING = plan(10, "0-4:1", "0-10:8")
# An alarm that is due 2 slots after it came.
ALARM = plan(10, "0-10:2", "1/10/2")
# One that comes every 5 slots.
OFTEN = plan(10, "0-10:2", "1/5/5")


def wrong_in(case):
    """What a baseline does wrong in a case, or None."""
    policy = case.make(case.plan)
    events = [event.split() for event in case.events.split(", ")] if case.events else []
    names, runs, count = {}, "", 0
    for slot in range(len(case.runs)):
        policy.begin()
        while events and int(events[0][0]) == slot:
            _, kind, *words = events.pop(0)
            if kind == "sporadic":
                policy.sporadic(("sporadic", int(words[0])), int(words[0]))
                continue
            count += 1
            within = int(words[1]) if kind == "firm" else 0
            request = request_of(Arrival(slot, kind, count, int(words[0]), within))
            answer = "yes" if policy.offer(request) else "no"
            if kind == "firm" and answer != words[2]:
                return f"request {count} at {slot} is answered {answer}"
        runs += letter(case.plan, policy.slot())
    policy.finish()
    return None if runs == case.runs else f"runs {runs}"


def letter(plan, job):
    """The letter of a job."""
    if job is None:
        return "."
    if not isinstance(job.name, tuple):
        return str(job.name)
    return "stu"[job.name[1]] if job.name[0] == "sporadic" else "abcd"[job.name[0]]


def cases(make, *rows):
    """Cases of one baseline, from rows of (why, plan, events, runs)."""
    return [Case(*row, make) for row in rows]


BACKGROUND = cases(
    Background,
    ("4 slots are idle up to 10", COMMON, "0 firm 4 10 yes", "abbbbb1111"),
    ("and not 5", COMMON, "0 firm 5 10 no", "abbbbb...."),
    ("none is idle up to 6", COMMON, "0 firm 1 6 no", "abbbbb...."),
    ("one is idle up to 7", COMMON, "0 firm 1 7 yes", "abbbbb1..."),
    (
        "2 is due before 1: 1 of 1 slots up to 7, 4 of 4 up to 10",
        COMMON,
        "0 firm 3 10 yes, 0 firm 1 7 yes",
        "abbbbb2111",
    ),
    (
        "2 would fit alone, but 5 of 4 slots are asked for up to 10",
        COMMON,
        "0 firm 4 10 yes, 0 firm 1 7 no",
        "abbbbb1111",
    ),
    (
        "3 of 3 slots up to 9, so one more fits only up to 10",
        COMMON,
        "0 firm 3 9 yes, 0 firm 1 9 no, 0 firm 1 10 yes",
        "abbbbb1113",
    ),
    (
        "from 8 up to 18 the slots 8, 9, 16 and 17 are idle",
        COMMON,
        "8 firm 4 10 yes",
        "abbbbb..11abbbbb11..",
    ),
    ("soft work waits for idle slots", COMMON, "0 soft 5", "abbbbb1111abbbbb1..."),
    ("the alarm may take 2 of the 8 slots that a leaves", OFTEN, "0 firm 7 10 no", "aa........"),
    (
        "6 are left, and the alarm comes as often as it may",
        OFTEN,
        "0 firm 6 10 yes, 0 sporadic 0, 5 sporadic 0",
        "saa11s1111",
    ),
)

# The least share of free slots in a window of COMMON is 4 of 10: C / U is 2.5 slots for each slot.
BANDWIDTH = cases(
    TotalBandwidth,
    ("d = 0 + 2 * 2.5 = 5, after a and before b", COMMON, "0 firm 2 5 yes", "a11bbbbb.."),
    ("5 is later than 4", COMMON, "0 firm 2 4 no", "abbbbb...."),
    ("d = 2.5, and what ends by then ends by 2", COMMON, "0 firm 1 2 yes", "1abbbbb..."),
    ("2 is later than 1", COMMON, "0 firm 1 1 no", "abbbbb...."),
    (
        "d = 2.5, 5 and 7.5",
        COMMON,
        "0 firm 1 2 yes, 0 firm 1 5 yes, 0 firm 1 7 yes",
        "1a23bbbbb.",
    ),
    (
        "d = 2.5 and 5: the first is not rounded for the second",
        COMMON,
        "0 firm 1 2 yes, 0 firm 1 4 no",
        "1abbbbb...",
    ),
    (
        "d = 10 is later than 9; a rejected one takes no bandwidth: d = 2.5",
        COMMON,
        "0 firm 4 9 no, 0 firm 1 2 yes",
        "2abbbbb...",
    ),
    (
        "d = 2.5, then from 6 on 6 + 2.5 = 8.5",
        COMMON,
        "0 firm 1 2 yes, 6 firm 1 1 no, 6 firm 1 2 yes",
        "1abbbb3b..",
    ),
    ("d = 7.5", COMMON, "0 soft 3", "a111bbbbb."),
    ("d = 10, and of level deadlines the request goes first", COMMON, "0 soft 4", "a1111bbbbb"),
    (
        "a window of 2 slots needs 2: no bandwidth is left, and soft work runs in idle slots",
        plan(4, "0-2:2", "2-4:1"),
        "0 firm 1 4 no, 0 soft 1",
        "aab2",
    ),
    (
        "the alarm takes 1 of 2 slots, so d = 0 + 2 * 2 = 4",
        ALARM,
        "0 firm 2 3 no, 0 firm 2 4 yes",
        "22aa......",
    ),
)

# Deadlines are first those of the total bandwidth server, 2.5 slots for each slot of work.
SHORTENED = cases(
    ShortenedBandwidth,
    (
        "d = 5; before 5 a is due, so it ends by 3; before 3 nothing is due, so by 2",
        COMMON,
        "0 firm 2 2 yes",
        "11abbbbb..",
    ),
    (
        "d = 10; before 10 a is due, so it ends by 5; before 5 too",
        COMMON,
        "0 firm 4 5 yes",
        "a1111bbbbb",
    ),
    ("5 is later than 4", COMMON, "0 firm 4 4 no", "abbbbb...."),
    ("d = 7, then 4, then 3", COMMON, "0 firm 3 3 yes", "111abbbbb."),
    (
        "d = 3 and first 7.5; the second has first 7.5 + 2.5 = 10, then 1 + 1 + 3 = 5",
        COMMON,
        "0 firm 3 3 yes, 0 firm 1 5 yes",
        "111a2bbbbb",
    ),
    ("5 is later than 4", COMMON, "0 firm 3 3 yes, 0 firm 1 4 no", "111abbbbb."),
    (
        "from 6 on d = 21, then 6 + 6 + 6 = 18, 6 + 6 + 1 = 13, and 12",
        COMMON,
        "6 firm 6 6 yes",
        "abbbbb111111abbbbb..",
    ),
    (
        "from 6 on d = 26, 6 + 8 + 7 = 21, 6 + 8 + 6 = 20, 6 + 8 + 1 = 15: a of 10 is due before",
        COMMON,
        "6 firm 8 8 no, 6 firm 8 9 yes",
        "abbbbb2222a2222bbbbb",
    ),
    ("soft work is shortened too", COMMON, "0 soft 2", "11abbbbb.."),
    (
        "d = 4; the alarm may come at 0, due 2, so it ends by 3; before 3 too",
        ALARM,
        "0 firm 2 2 no, 0 firm 2 3 yes, 0 sporadic 0",
        "s22aa.....",
    ),
    (
        "the alarm has come, and may not before 10: d = 5, then 3",
        ALARM,
        "0 sporadic 0, 1 firm 2 2 yes",
        "s11aa.....",
    ),
)
ONE_STEP = cases(
    lambda plan: ShortenedBandwidth(plan, steps=1),
    ("in one step d = 7, then 4: later than 3", COMMON, "0 firm 3 3 no", "abbbbb...."),
    ("4 is not later than 4", COMMON, "0 firm 3 4 yes", "111abbbbb."),
)

# The server has 2 slots in each 5: a window of 10 slots needs 6 + 4. It serves 2 by 5, 4 by 10.
POLLING = cases(
    lambda plan: Polling(plan, (2, 5)),
    ("2 slots up to 5, after a, which is due at 4", COMMON, "0 firm 2 5 yes", "a11bbbbb.."),
    ("nothing is sure before the end of the period", COMMON, "0 firm 2 4 no", "abbbbb...."),
    ("2 slots up to 9", COMMON, "0 firm 3 9 no", "abbbbb...."),
    (
        "4 slots up to 10; in the second period the server goes before b, which is due then too",
        COMMON,
        "0 firm 3 10 yes",
        "a11bb1bbb.",
    ),
    ("a runs at 0, so the server has its turn at 1", COMMON, "1 firm 1 4 yes", "a1bbbbb..."),
    ("nothing waited at 1: the budget is lost until 5", COMMON, "2 firm 1 3 no", "abbbbb...."),
    ("and is there anew at 5", COMMON, "2 firm 2 8 yes", "abbbb11b.."),
    (
        "while 1 waits the budget is there for 2 as well",
        COMMON,
        "0 firm 1 5 yes, 1 firm 1 4 yes",
        "a12bbbbb..",
    ),
    (
        "1 has ended at 2, and what was left is lost",
        COMMON,
        "0 firm 1 5 yes, 2 firm 1 3 no",
        "a1bbbbb...",
    ),
    (
        "the earlier deadline is served first: 2 of 2 slots up to 5, 4 of 4 up to 10",
        COMMON,
        "0 firm 2 10 yes, 0 firm 2 5 yes",
        "a22bb11bbb",
    ),
    ("soft work, 2 slots in each period", COMMON, "0 soft 6", "a11bb11bbba11bbbbb.."),
    ("nothing waited at 5, and a slot that would be idle serves", COMMON, "6 soft 3", "abbbbb111."),
)

DEFERRABLE = cases(
    lambda plan: Deferrable(plan, (2, 5)),
    ("2 slots up to 5, after a, which is due at 4", COMMON, "0 firm 2 5 yes", "a11bbbbb.."),
    ("the budget is kept", COMMON, "1 firm 2 4 yes", "a11bbbbb.."),
    ("one slot is left up to 5", COMMON, "4 firm 2 1 no", "abbbbb...."),
    ("1 up to 5, and 2 more up to 10", COMMON, "4 firm 3 6 yes", "abbb111bb."),
    ("and not 4", COMMON, "4 firm 4 6 no", "abbbbb...."),
    ("nothing is sure before the end of the period", COMMON, "0 firm 1 4 no", "abbbbb...."),
    (
        "at 2 one slot of the budget is left, which 1 needs",
        COMMON,
        "0 firm 2 5 yes, 2 firm 1 3 no",
        "a11bbbbb..",
    ),
    (
        "the earlier deadline is served first: 2 of 2 slots up to 5, 4 of 4 up to 10",
        COMMON,
        "0 firm 2 10 yes, 0 firm 2 5 yes",
        "a22bb11bbb",
    ),
    ("soft work, 2 slots in each period", COMMON, "0 soft 6", "a11bb11bbba11bbbbb.."),
    ("soft work in the middle of a period", COMMON, "3 soft 1", "abb1bbb..."),
    ("what was not used is not added up", COMMON, "5 firm 3 5 no, 5 firm 2 5 yes", "abbbb22b.."),
)

# The capacities of COMMON at 0 are 3 up to 4 and 1 up to 10.
CAPACITIES = cases(
    CapacitySum,
    ("3", COMMON, "0 firm 3 4 yes", "a111bbbbb."),
    ("and not 4", COMMON, "0 firm 4 4 no", "abbbbb...."),
    ("3 + 1", COMMON, "0 firm 4 10 yes", "abbbbb1111"),
    ("and not 5", COMMON, "0 firm 5 10 no", "abbbbb...."),
    (
        "from 7 to 10 is 3 - 5 = -2, from 4 to 7 is 3 - 2 = 1: 3 + 1",
        COMMON,
        "0 firm 5 7 no, 0 firm 4 7 yes",
        "a2222bbbbb",
    ),
    (
        "from 4 to 10 is 6 - 8 = -2, up to 4 is 3 - 2 = 1",
        BORROWING,
        "0 firm 1 4 yes, 0 firm 1 4 no",
        "a1bbbbbbbb",
    ),
    ("by 10 the sum is 1 too, without -2", BORROWING, "0 firm 1 10 yes", "abbbbbbbb1"),
    (
        "after 1 the capacities are 0 and 1, after 2 none",
        COMMON,
        "0 firm 3 4 yes, 0 firm 1 10 yes, 0 firm 1 10 no",
        "a111bbbbb2",
    ),
    ("at 6 b has ended: 4 up to 10", COMMON, "6 firm 4 4 yes", "abbbbb1111"),
    ("soft work has 3 slots up to 4, and 1 from there on", COMMON, "0 soft 4", "111a1bbbbb"),
    (
        "the alarm may come at 0: 4 - 1 = 3, though it is due at 5 and 4 would fit",
        OFTEN,
        "0 firm 4 4 no, 0 firm 3 4 yes",
        "222aa.....",
    ),
    (
        "the alarm has come, and may not before 5: 4 up to 5",
        OFTEN,
        "0 sporadic 0, 1 firm 4 4 yes",
        "s1111aa...",
    ),
    (
        "1 would fit up to 2 (2 - 1), but then 10 - 8 - 3 = -1: a and the alarm need all 12 slots",
        plan(12, "0-12:8", "1/3/3"),
        "0 firm 1 2 no",
        "aaaaaaaa....",
    ),
)

CASES = {
    "background": BACKGROUND,
    "total_bandwidth": BANDWIDTH,
    "shortened_bandwidth": SHORTENED + ONE_STEP,
    "polling": POLLING,
    "deferrable": DEFERRABLE,
    "capacity_sum": CAPACITIES,
}

# What else was computed by hand, as (what, found, expected).
SHORT = plan(10, "0-2:1", "0-10:2")
FACTS = [
    ("the bandwidth that COMMON leaves", bandwidth(COMMON), (4, 10)),
    ("the bandwidth with the alarm", bandwidth(ALARM), (1, 2)),
    ("polling: 2 in 5 fits: 6 + 4 of 10 slots", Polling.fits(COMMON, 2, 5), True),
    ("polling: 3 in 5 does not: 6 + 6 of 10 slots", Polling.fits(COMMON, 3, 5), False),
    ("deferrable: 2 in 5 fits: 7 + 4 + 2 of 14 slots", Deferrable.fits(COMMON, 2, 5), True),
    ("polling: 2 in 5 with a window of 2 slots", Polling.fits(SHORT, 2, 5), True),
    ("deferrable: its budget may be needed in that window", Deferrable.fits(SHORT, 2, 5), False),
    ("demand of windows of 4, 10 and 14 slots", [COMMON.demand[n] for n in (4, 10, 14)], [1, 6, 7]),
]
