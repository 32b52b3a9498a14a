"""Earliest deadline first (EDF) over the jobs of a plan, slot by slot: what all baselines share.

The order within a slot: `begin` makes the jobs ready whose windows start now. `offer` answers
requests, and `sporadic` takes sporadic jobs. `slot` gives the slot to one job. A baseline defines
which requests it accepts (`offer`), and may define what else than the plan may run (`choice`).

EDF over derived windows keeps the order of precedence: a predecessor starts and is due earlier.
"""

import heapq

NEVER = 1 << 60

# The order among jobs of equal deadlines: requests of a total bandwidth server, then jobs of the
# plan by their keys, sporadic jobs, and other requests. slotshift has the same order.
SERVED, PLANNED, SPORADIC, REQUESTED = range(4)


class Missed(Exception):
    """A guaranteed job has not ended by its deadline: the baseline is not safe."""


class Job:
    """A job that is ready. EDF orders it by `due`, and it has to end by `deadline`. In the worst
    case it takes `left` more slots, and really `real` more."""

    __slots__ = ("name", "due", "deadline", "left", "real")

    def __init__(self, name, due, deadline, left, real=None):
        self.name, self.due, self.deadline = name, due, deadline
        self.left = left
        self.real = left if real is None else real


class Request:
    """A request for `work` slots. A firm one has a deadline, soft work has none."""

    __slots__ = ("name", "work", "deadline")

    def __init__(self, name, work, deadline=NEVER):
        self.name, self.work, self.deadline = name, work, deadline

    @property
    def is_soft(self):
        return self.deadline == NEVER


class Edf:
    """EDF over a plan. `real(key, wcet)` is the number of slots that a job of the plan really
    takes. `ends` has the end of each request that has ended, by its name."""

    def __init__(self, plan, real=None):
        self.plan = plan
        self.real = real
        self.now = 0
        self.ready = []  # a heap of (due, rank, order, job)
        self.released = []  # (due, wcet) of the plan's jobs that have started and are due later
        self.next_arrival = [0] * len(plan.sporadics)  # the first legal one of each sporadic task
        self.ends = {}
        self._count = 0
        self._cycles = 0
        self._place = 0
        self._next_start = plan.windows[0].start

    # The run.

    def begin(self):
        """The jobs of the plan whose windows start now become ready."""
        while self._next_start == self.now:
            self._release(self.plan.windows[self._place], self._cycles * self.plan.cycle)
            self._place += 1
            if self._place == len(self.plan.windows):
                self._place = 0
                self._cycles += 1
            start = self.plan.windows[self._place].start
            self._next_start = self._cycles * self.plan.cycle + start

    def _release(self, window, base):
        due = base + window.due
        graph, task, instance = window.key
        key = (graph, task, instance + self._cycles * self.plan.instances[graph])
        real = self.real(key, window.wcet) if self.real else window.wcet
        self.add(Job(key, due, due, window.wcet, real), PLANNED, key)
        self.released = [(d, wcet) for d, wcet in self.released if d > self.now]
        self.released.append((due, window.wcet))

    def sporadic(self, name, index):
        """A job of a sporadic task arrives, and is taken. It keeps its separation."""
        task = self.plan.sporadics[index]
        assert self.now >= self.next_arrival[index]
        self.next_arrival[index] = self.now + task.separation
        due = self.now + task.deadline
        self.add(Job(name, due, due, task.wcet), SPORADIC)

    def add(self, job, rank, order=None):
        """A job becomes ready. Jobs of one deadline run by rank, and jobs of one rank by order,
        which is that of arrival where none is given."""
        heapq.heappush(self.ready, (job.due, rank, order or self.next_number(), job))

    def next_number(self):
        self._count += 1
        return self._count

    def offer(self, request):
        """Whether a request is accepted."""
        raise NotImplementedError

    def choice(self):
        """The queue whose first job runs in this slot, or None."""
        return self.ready or None

    def slot(self):
        """One slot passes: the job that had it, or None."""
        queue = self.choice()
        self.now += 1
        if not queue:
            return None
        job = queue[0][-1]
        job.left -= 1
        job.real -= 1
        if job.real == 0:
            heapq.heappop(queue)
            self.ended(job)
        return job

    def ended(self, job):
        if self.now > job.deadline:
            raise Missed(f"{job.name} ended at {self.now}, due {job.deadline}")
        if not isinstance(job.name, tuple):  # (jobs of the plan and sporadic jobs have tuples)
            self.ends[job.name] = self.now

    def finish(self):
        """The run is over: no job that has not ended may be due by now."""
        for *_, job in self.waiting():
            if job.deadline <= self.now:
                raise Missed(f"{job.name} not ended at {self.now}, due {job.deadline}")

    def waiting(self):
        """All jobs that have become ready and have not ended."""
        return self.ready

    # What lies ahead, in the worst case.

    def ready_by(self, time):
        """The slots that ready jobs with a `due` up to this time still need."""
        return sum(job.left for due, *_, job in self.ready if due <= time)

    def coming(self, before):
        """The plan's jobs that start later than now and before this time, as (start, due, wcet)."""
        base, place = self._cycles * self.plan.cycle, self._place
        windows = self.plan.windows
        while base + windows[place].start < before:
            start, due, wcet, _ = windows[place]
            yield base + start, base + due, wcet
            place += 1
            if place == len(windows):
                base, place = base + self.plan.cycle, 0

    def coming_by(self, time):
        """The slots of the plan's jobs that start later than now and are due by this time."""
        if time <= self.now:
            return 0
        begun = sum(wcet for due, wcet in self.released if self.now < due <= time)
        return self.plan.due_by(time) - self.plan.due_by(self.now) - begun

    def arrivals(self, first, last):
        """The densest legal sporadic arrivals from the slot `first` on and before the slot `last`,
        as (slot, task)."""
        for index, task in enumerate(self.plan.sporadics):
            for slot in range(max(first, self.next_arrival[index]), last, task.separation):
                yield slot, task

    def arriving_by(self, time):
        """The slots of the densest legal sporadic arrivals from now on, due by this time."""
        return sum(
            task.wcet
            for slot, task in self.arrivals(self.now, time)
            if slot + task.deadline <= time
        )
