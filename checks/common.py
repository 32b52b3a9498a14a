"""What the checks have in common: the program's commands, its fault lines, and its runs."""

import argparse
import collections
import os
import re
import shutil
import signal
import subprocess
import sys
import tempfile

TOP = os.path.dirname(os.path.dirname(os.path.realpath(__file__)))

Ran = collections.namedtuple("Ran", "status out err")

# The task file, the arrivals file and the slots of each example.
EXAMPLES = [
    ("borrowing", "none", 20),
    ("flight", "flight", 80),
    ("engine", "engine", 400),
    ("overload", "none", 20),
]

NUMBER = r"(?:0|[1-9][0-9]*)"
SIGNED = f"-?{NUMBER}"
PART = f"(?:top|graph {NUMBER}(?: task {NUMBER})?|sporadic {NUMBER})"
FIELD = "(?:soft|graph|sporadic|name|period|offset|deadline|task|wcet|after|separation)"
PLACE = f"{PART} {FIELD}"
WINDOW = f"infeasible {NUMBER} {NUMBER} {NUMBER}"
TASK_FAULT = (
    f"(?:not toml|unknown key in {PART}|(?:missing|wrong kind|bad name|doubled) {PLACE}"
    f"|no such task {PLACE}|out of range {PLACE} {SIGNED}|loop graph {NUMBER} task {NUMBER}"
    f"|too many {PLACE} {NUMBER}|cycle too long {NUMBER})"
)
ARRIVAL_FAULT = (
    f"(?:(?:bad row|unknown kind|unknown sporadic|bad key) {NUMBER}|bad number {NUMBER} [1-4]"
    f"|out of order {NUMBER} {NUMBER} {NUMBER}|past end {NUMBER} {NUMBER}|too many)"
)
TABLE_FAULT = (
    f"(?:short {NUMBER}|bad magic|bad version {NUMBER}|source {TASK_FAULT}|{WINDOW}"
    f"|wrong (?:job|span) count {NUMBER} {NUMBER}|wrong job {NUMBER}(?: {NUMBER}){{12}}"
    f"|wrong span {NUMBER}(?: {SIGNED}){{8}}|trailing {NUMBER})"
)

# The one line of standard error of each status.
LINES = {
    1: "usage: slotshift check T, table T, show B, replay T A N, replay-table B A N, gantt T A N, "
    "selfrun N, migrate B, verify T A X N, explain T A N R, switch T U A N C, margin T",
    2: "cannot read .*",
    3: f"too large .* {NUMBER}",
    4: f"tasks {TASK_FAULT}",
    5: WINDOW,
    6: f"arrivals {ARRIVAL_FAULT}",
    7: "cannot write",
    8: "out of memory",
    9: f"table {TABLE_FAULT}",
    10: f"trace (?:(?:short|no run|differs|trailing) {NUMBER}|(?:not ready|late) {NUMBER} \\S+)",
    11: f"no row {NUMBER}",
    12: f"switch (?:not at cycle end {NUMBER}|noroom {NUMBER} {NUMBER} {NUMBER})",
}
LINES = {status: re.compile((line + "\n").encode()) for status, line in LINES.items()}

CANNOT_WRITE = Ran(7, None, b"cannot write\n")
OUT_OF_MEMORY = Ran(8, b"", b"out of memory\n")


def at_hand(name):
    """The path of the program of this name that was built here, or else that of dist/."""
    found = subprocess.run([f"{TOP}/start/at-hand", name], stdout=subprocess.PIPE, text=True)
    if found.returncode:
        sys.exit(2)
    return found.stdout.rstrip("\n")


def example(name):
    return f"{TOP}/examples/{name}"


def wrong_in(ran, statuses):
    """What is wrong in a run that may end with these statuses and write all it has, or None."""
    if ran.status not in statuses:
        return f"status {ran.status}"
    if ran.status == 0:
        return f"standard error on status 0: {ran.err!r}" if ran.err or not ran.out else None
    # (where there is no room for a change the trace before it has been written)
    if ran.out and ran.status != 12:
        return f"{len(ran.out)} bytes of output on status {ran.status}"
    return None if LINES[ran.status].fullmatch(ran.err) else f"line {ran.err!r}"


def shim(folder):
    """The library that refuses allocations and tells of them, compiled."""
    made = f"{folder}/refuse.so"
    compiler = os.environ.get("CC") or shutil.which("cc")
    if not compiler:
        print("there is no C compiler cc")
        sys.exit(2)
    source = f"{TOP}/checks/refuse.c"
    subprocess.run([compiler, "-O2", "-shared", "-fPIC", "-o", made, source], check=True)
    return made


class Runner:
    """Starts the program with its output and its standard error in files of a folder. A run has so
    many seconds of a processor, and ten times as many of the clock, as others may use it too."""

    def __init__(self, program, folder, seconds=2.0):
        self.program = program
        self.seconds = seconds
        self.folder = tempfile.mkdtemp(dir=folder)
        self.streams = [self.open_stream("out"), self.open_stream("err")]

    def open_stream(self, name):
        return os.open(f"{self.folder}/{name}", os.O_RDWR | os.O_CREAT | os.O_APPEND)

    def write(self, data, name="file"):
        """Writes a file, and tells its path."""
        path = f"{self.folder}/{name}"
        with open(path, "wb") as file:
            file.write(data)
        return path

    def run(self, *words, env=None, before=(), given="/dev/null"):
        """One run with this environment and this file as its input. `before` are words before the
        program's path."""
        words = [*before, self.program, *words]
        pid = os.posix_spawn(
            words[0],
            words,
            env or {},
            file_actions=[
                (os.POSIX_SPAWN_OPEN, 0, given, os.O_RDONLY, 0),
                (os.POSIX_SPAWN_DUP2, self.streams[0], 1),
                (os.POSIX_SPAWN_DUP2, self.streams[1], 2),
            ],
            setsigdef=[signal.SIGPIPE, signal.SIGXFSZ],
        )
        signal.signal(signal.SIGALRM, lambda *_: os.kill(pid, signal.SIGKILL))
        signal.setitimer(signal.ITIMER_REAL, 10 * self.seconds)
        _, status, used = os.wait4(pid, 0)
        signal.setitimer(signal.ITIMER_REAL, 0)
        in_time = used.ru_utime + used.ru_stime <= self.seconds
        status = os.waitstatus_to_exitcode(status) if in_time else "out of time"
        return Ran(status, *map(taken, self.streams))


def taken(stream):
    """The bytes of a stream's file, which is empty then."""
    length = os.fstat(stream).st_size
    data = os.pread(stream, length, 0)
    if length:
        os.ftruncate(stream, 0)
    return data


def commands(runner):
    """The words of each command on each example, whose tables are made, and of a small load."""
    found = []
    for tasks, arrivals, slots in EXAMPLES:
        tasks, arrivals = example(f"{tasks}.toml"), example(f"{arrivals}.csv")
        chart = str(min(slots, 200))
        found += [("check", tasks), ("table", tasks), ("margin", tasks)]
        found += [("replay", tasks, arrivals, str(slots))]
        replayed = runner.run("replay", tasks, arrivals, str(slots))
        if replayed.status == 0:
            trace = runner.write(replayed.out, f"{os.path.basename(tasks)}.trace")
            found += [("verify", tasks, arrivals, trace, str(slots))]
        found += [("gantt", tasks, arrivals, chart), ("gantt", tasks, example("none.csv"), chart)]
        made = runner.run("table", tasks)
        if made.status == 0:
            table = runner.write(made.out, f"{os.path.basename(tasks)}.bin")
            found += [("show", table), ("migrate", table), ("replay-table", table, arrivals, str(slots))]
    flight, borrowing, none = map(example, ("flight.toml", "borrowing.toml", "none.csv"))
    found += [("explain", flight, example("flight.csv"), "80", "1")]
    found += [("explain", example("engine.toml"), example("engine.csv"), "400", "8")]
    found += [("switch", borrowing, flight, none, "30", "10")]
    found += [("switch", flight, borrowing, example("flight.csv"), "120", "80")]
    return [*dict.fromkeys(found), ("selfrun", "1")]


def front(words, whole):
    """What a command writes before it takes the memory for the rest, or None where it takes all first."""
    lines = whole.out.splitlines(keepends=True)
    if words[0] == "explain":
        return lines[0] if lines else b""
    if words[0] == "switch":
        granted = [n for n, line in enumerate(lines) if line.endswith(b" switch granted\n")]
        return b"".join(lines[: granted[0]] if granted else lines)
    return None


def told(words):
    """The words of a command for a reader."""
    return " ".join(os.path.basename(word) for word in words)


# Of each version, the bytes of a length or time, and of a capacity.
WIDTHS = {1: (2, 4), 2: (4, 8)}


class Fields:
    """The fields of a table from its front, and the same fields in version 1."""

    def __init__(self, table):
        self.table = table
        self.at = 6
        self.first = bytearray(b"SLOT\1\0")
        self.widths = WIDTHS[int.from_bytes(table[4:6], "little")]

    def take(self, count, kept):
        """The next bytes, of which the first ones stand in version 1."""
        self.at += count
        found = self.table[self.at - count : self.at]
        self.first += found[:kept]
        return found

    def number(self, count=2, kept=None):
        return int.from_bytes(self.take(count, kept or count), "little")

    def length(self):
        return self.number(self.widths[0], WIDTHS[1][0])

    def lengths(self, count):
        return [self.length() for _ in range(count)]

    def spare(self):
        return self.number(self.widths[1], WIDTHS[1][1])

    def name(self):
        count = self.number(1)
        return self.take(count, count).decode()

    def each(self, read, count=2):
        return [read() for _ in range(self.number(count))]

    def task(self):
        return self.name(), self.length(), self.each(self.number)

    def graph(self):
        return self.name(), self.lengths(3), self.each(self.task)

    def sporadic(self):
        return self.name(), self.lengths(3)

    def source(self):
        return self.length(), self.each(self.graph), self.each(self.sporadic)

    def job(self):
        return self.number(), self.number(), self.lengths(4)

    def span(self):
        return self.lengths(3), self.spare()


def first_version(table):
    """A table in version 1."""
    fields = Fields(table)
    fields.source()
    fields.each(fields.job, 4)
    fields.each(fields.span, 4)
    return bytes(fields.first)


class Check:
    """The words of the command line, a scratch folder, and what passed and failed."""

    def __init__(self, about, *options, programs=("slotshift",)):
        parser = argparse.ArgumentParser(description=about)
        for name in programs:
            parser.add_argument(name, nargs="?")
        for name, how in options:
            parser.add_argument(name, **how)
        self.words = parser.parse_args()
        self.name = os.path.basename(sys.argv[0])
        self.programs = [self.found(name) for name in programs]
        self.program = self.programs[0]
        memory = "/dev/shm" if os.access("/dev/shm", os.W_OK) else None
        self.folder = tempfile.mkdtemp(prefix=f"{self.name}.", dir=memory)
        self.passed = 0
        self.failed = 0

    def found(self, name):
        """The path of this program, if it is there."""
        path = os.path.abspath(vars(self.words)[name] or at_hand(name))
        if not os.access(path, os.X_OK):
            print(f"{self.name}: there is no program {path}: ./build {name} builds it")
            sys.exit(2)
        return path

    def holds(self, name, wrong):
        """Counts one case, of which something is wrong or not."""
        if not wrong:
            self.passed += 1
            return
        self.failed += 1
        print(f"failed: {name}\n  {wrong}", flush=True)

    def end(self, what):
        """The last line, and the end."""
        shutil.rmtree(self.folder)
        print(f"{self.passed} passed, {self.failed} failed: {what}")
        sys.exit(1 if self.failed else 0)
