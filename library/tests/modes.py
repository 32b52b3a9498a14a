"""Runs modes.c over random events, and compares each line with a model of its own: jobs by earliest
deadline first, offers and soft work by the demand of each time, and a change of plan by the demand
of all that is carried over together.
usage: modes.py MODES SEED TOML TABLE TOML TABLE TOML TABLE
"""

import collections
import math
import random
import subprocess
import sys
import tempfile
import tomllib

OFFLINE, SPORADIC, FIRM, SOFT = range(4)  # the kinds of keys, in the order in which level ones run
DROP, STARTED, GRAPHS = range(3)
KEEP = (DROP, GRAPHS, STARTED)  # as in modes.c
SLOTS = 400


class Set:
    """A task set: its graphs with derived windows, and its sporadic tasks."""

    def __init__(self, path):
        with open(path, "rb") as file:
            read = tomllib.load(file)
        self.sporadics = read.get("sporadic", [])
        self.limit = read.get("soft", 64)  # of soft jobs that wait
        self.graphs = [self.graph(graph) for graph in read["graph"]]
        lengths = [graph["period"] for graph in self.graphs]
        self.cycle = math.lcm(*lengths, *(task["separation"] for task in self.sporadics))

    @staticmethod
    def graph(read):
        names = [task["name"] for task in read["task"]]
        before = [[names.index(name) for name in task.get("after", [])] for task in read["task"]]
        after = [[u for u, ps in enumerate(before) if t in ps] for t in range(len(names))]
        wcet = [task["wcet"] for task in read["task"]]
        return {
            "name": read["name"],
            "names": names,
            "period": read["period"],
            "offset": read.get("offset", 0),
            "deadline": read.get("deadline", read["period"] - read.get("offset", 0)),
            "wcet": wcet,
            "head": [chain(wcet, before, task) for task in range(len(names))],
            "tail": [chain(wcet, after, task) for task in range(len(names))],
        }

    def release(self, job):
        """When the instance of an offline job was released."""
        graph = self.graphs[job["key"][1]]
        return job["key"][3] * graph["period"] + graph["offset"]

    def jobs(self, n):
        """The offline jobs of cycle n."""
        made = []
        for g, graph in enumerate(self.graphs):
            each = self.cycle // graph["period"]
            for instance in range(n * each, (n + 1) * each):
                start = instance * graph["period"] + graph["offset"]
                for task, slots in enumerate(graph["wcet"]):
                    made.append(
                        {
                            "key": (OFFLINE, g, task, instance),
                            "est": start + graph["head"][task],
                            "dl": start + graph["deadline"] - graph["tail"][task],
                            "left": slots,
                            "declared": slots,
                        }
                    )
        return made

    def text(self, key):
        if key[0] == OFFLINE:
            graph = self.graphs[key[1]]
            return f"{graph['name']}.{graph['names'][key[2]]}#{key[3]}"
        if key[0] == SPORADIC:
            return f"{self.sporadics[key[1]]['name']}@{key[2]}"
        return f"{'soft' if key[0] == SOFT else 'firm'}:{key[1]}"


def chain(wcet, beside, task):
    """The slots of the longest chain that leads to the task, without its own."""
    return max((chain(wcet, beside, other) + wcet[other] for other in beside[task]), default=0)


class Unit:
    """An executive of a set, from its first slot on."""

    def __init__(self, tasks):
        self.set = tasks
        self.now = 0
        self.row = 0
        self.nexts = [0] * len(tasks.sporadics)
        self.jobs_left = [job for n in range(3) for job in tasks.jobs(n)]
        self.waiting = []  # soft jobs: the row, and the slots left

    def shortage(self, more, soon=0):
        """The least time by which these jobs and what remains need more slots than there are, with
        the need and the room; None where all fit. Sporadic jobs come so many slots from now on."""
        end = (self.now // self.set.cycle + 3) * self.set.cycle
        due = collections.Counter()
        for job in self.jobs_left + more:
            due[job["dl"]] += job["left"]
        for task, first in zip(self.set.sporadics, self.nexts):
            soonest = max(first, self.now + soon) + task["deadline"]
            for x in range(soonest, end + 1, task["separation"]):
                due[x] += task["wcet"]
        need = 0
        for x in sorted(due):
            need += due[x]
            if x <= end and need > x - self.now:
                return x, need, x - self.now
        return None

    def soft(self, row, work):
        self.row = row
        if len(self.waiting) == self.set.limit:
            return 1, self.set.limit, 0, 0
        self.waiting.append((row, work))
        return 0, 0, 0, 0

    def firm(self, row, work, within):
        self.row = row
        if within == 0:
            return 1, 0, 0, 0
        if within > self.set.cycle:
            return 2, 0, 0, 0
        job = firm_job(row, self.now, work, within)
        short = self.shortage([job])
        if short:
            return (3, *short)
        self.jobs_left.append(job)
        return 0, 0, 0, 0

    def sporadic(self, row, index):
        self.row = row
        task = self.set.sporadics[index]
        if self.now < self.nexts[index]:
            return 1, self.nexts[index], 0, 0
        self.nexts[index] = self.now + task["separation"]
        job = firm_job(row, self.now, task["wcet"], task["deadline"])
        self.jobs_left.append(job | {"key": (SPORADIC, index, row)})
        return 0, job["dl"], 0, 0

    def slot(self):
        """A slot passes: the key of what runs in it, or None. Soft work runs where all else still
        fits with one slot more."""
        if self.waiting and not self.shortage([firm_job(0, self.now, 1, 1)], soon=1):
            (row, left), *later = self.waiting
            self.waiting = ([(row, left - 1)] if left > 1 else []) + later
            self.end_slot()
            return SOFT, row
        ready = [job for job in self.jobs_left if job["est"] <= self.now]
        ran = min(ready, key=lambda job: (job["dl"], job["key"]), default=None)
        if ran:
            ran["left"] -= 1
        self.end_slot()
        return ran["key"] if ran else None

    def end_slot(self):
        self.now += 1
        for job in self.jobs_left:
            assert job["left"] == 0 or job["dl"] > self.now, "a job is late"
        self.jobs_left = [job for job in self.jobs_left if job["left"]]
        if self.now % self.set.cycle == 0:
            self.jobs_left += self.set.jobs(self.now // self.set.cycle + 2)

    def goes_on(self, keep, job):
        if job["key"][0] != OFFLINE or keep == DROP:
            return job["key"][0] != OFFLINE
        if keep == STARTED:
            return job["left"] < job["declared"]
        return self.set.release(job) < self.now

    def begin(self, offers, waiting):
        """These offers and soft jobs, as many as may wait, have come; how many are left behind."""
        self.jobs_left += offers
        self.waiting = waiting[: self.set.limit]
        return len(waiting) - len(self.waiting)

    def offers(self, keep, cycle, first):
        """What goes on, as firm jobs of the second unit at its time 0; how many deadlines are cut."""
        going = [job for job in self.jobs_left if self.goes_on(keep, job)]
        hard = sorted((job["key"][-1], job) for job in going if job["key"][0] != OFFLINE)
        rest = sorted((job["dl"], job["key"], job) for job in going if job["key"][0] == OFFLINE)
        rows = hard + [(first + place, job) for place, (_, _, job) in enumerate(rest)]
        cut = sum(job["dl"] - self.now > cycle for job in going)
        made = [firm_job(row, 0, job["left"], min(job["dl"] - self.now, cycle)) for row, job in rows]
        return made, cut


def firm_job(row, now, work, within):
    return {"key": (FIRM, row), "est": now, "dl": now + within, "left": work, "declared": work}


def expected(sets, events, slots):
    """The lines of modes.c, by the model."""
    units = [Unit(tasks) for tasks in sets]
    mode = wanted = row = 0
    lines = []
    for slot in range(slots):
        for _, what, first, second in (event for event in events if event[0] == slot):
            if what == "fault":
                wanted = (mode + 1) % len(units)
                continue
            row += 1
            if what == "firm":
                told = units[mode].firm(row, first, second)
            elif what == "soft":
                told = units[mode].soft(row, first)
            elif first < len(sets[mode].sporadics):
                told = units[mode].sporadic(row, first)
            else:
                continue
            lines.append(f"{slot} {what} {row} answer {' '.join(map(str, told))}")
        if wanted != mode:
            offers, cut = units[mode].offers(KEEP[wanted], sets[wanted].cycle, row + 1)
            second = Unit(sets[wanted])
            if second.shortage(offers):
                count = next(n for n in range(1, len(offers) + 1) if second.shortage(offers[:n]))
                short = second.shortage(offers[:count])
                lines.append(f"{slot} refused {offers[count - 1]['key'][1]} {' '.join(map(str, short))}")
            else:
                behind = second.begin(offers, units[mode].waiting)
                goes = len(second.waiting)
                lines.append(f"{slot} mode {wanted} carried {len(offers)} cut {cut} soft {goes} behind {behind}")
                row = max([row] + [offer["key"][1] for offer in offers])
                units[mode], units[wanted], mode = Unit(sets[mode]), second, wanted
        ran = units[mode].slot()
        lines.append(f"{slot} run {units[mode].set.text(ran)}" if ran else f"{slot} idle")
    return lines


def random_events(seed, slots):
    draw = random.Random(seed)
    made = []
    for slot in range(slots):
        if draw.random() < 0.25:
            made.append((slot, "firm", draw.randint(1, 6), draw.randint(0, 45)))
        if draw.random() < 0.15:
            made.append((slot, "sporadic", 0, 0))
        if draw.random() < 0.1:
            made.append((slot, "soft", draw.randint(1, 4), 0))
        if draw.random() < 0.08:
            made.append((slot, "fault", 0, 0))
    return made


def main():
    program, seed, *files = sys.argv[1:]
    sets = [Set(path) for path in files[::2]]
    counts = {"mode": 0, "refused": 0}
    for run in range(20):
        events = random_events(int(seed) + run, SLOTS)
        with tempfile.NamedTemporaryFile("w", suffix=".events") as file:
            file.writelines(" ".join(map(str, event)) + "\n" for event in events)
            file.flush()
            words = [program, *files[1::2], file.name, str(SLOTS)]
            told = subprocess.run(words, capture_output=True, text=True, check=True).stdout
        lines = expected(sets, events, SLOTS)
        if told.splitlines() != lines:
            pair = next(pair for pair in zip(told.splitlines() + ["-"], lines + ["-"]) if pair[0] != pair[1])
            sys.exit(f"seed {int(seed) + run}: modes.c has {pair[0]!r}, the model {pair[1]!r}")
        for word in counts:
            counts[word] += sum(f" {word} " in line for line in lines)
    assert all(counts.values()), counts
    print(f"modes.c: {counts['mode']} changes of mode and {counts['refused']} refused, as the model")


if __name__ == "__main__":
    main()
