"""The executive of slotshift from Python, over the shared library that `make shared` builds.

    with Executive.of_file("flight.bin") as executive:
        executive.firm(1, work=9, within=20)    # Told(answer=Firm.ACCEPTED, ..)
        executive.slot()                        # Key(kind=Kind.OFFLINE, group=0, task=0, number=0)

All times are in slots. A row names an arrival. It rises from one to the next; an early end and a
withdrawal may have the row of the last arrival too. An executive takes one call at a time, from any
thread. slotexec.h has the ranges and what each call costs.
"""

import collections
import ctypes
import enum
import os

__version__ = "1.0.0"  # of this file, and of the library that it loads

KEY_TEXT = 70  # bytes of the text of a key, at most
VERSION_TEXT = 64  # bytes that hold any version
HERE = os.path.dirname(os.path.realpath(__file__))


class Status(enum.IntEnum):
    """How a call ended."""

    OK = 0
    MEMORY = 1
    BAD_TABLE = 2
    BAD_ROW = 3
    BAD_NUMBER = 4
    AT_END = 5
    CLOSED = 6
    STILL_OPEN = 7
    REFUSED = 8
    NOT_FRESH = 9


class Kind(enum.IntEnum):
    """The kind of a key."""

    NONE = 0
    OFFLINE = 1
    SPORADIC = 2
    FIRM = 3
    SOFT = 4


class Soft(enum.IntEnum):
    """The answer to soft work."""

    TAKEN = 0
    FULL = 1


class Firm(enum.IntEnum):
    """The answer to a firm task."""

    ACCEPTED = 0
    LATE = 1
    FAR = 2
    NO_ROOM = 3


class Sporadic(enum.IntEnum):
    """The answer to a sporadic arrival."""

    TAKEN = 0
    SOON = 1


class Done(enum.IntEnum):
    """The answer to an early end."""

    FREED = 0
    NOT_RUNNING = 1


class Gone(enum.IntEnum):
    """The answer to a withdrawal."""

    FREED = 0
    NO_JOB = 1


class Keep(enum.IntEnum):
    """Which offline jobs go on at a change of plan: none, those that have run a slot, or all that
    remains of the instances of graphs that were released before this slot."""

    DROP = 0
    STARTED = 1
    GRAPHS = 2


Told = collections.namedtuple("Told", "answer first second third")
Key = collections.namedtuple("Key", "kind group task number", defaults=(0, 0, 0))
Span = collections.namedtuple("Span", "start end work spare")
Job = collections.namedtuple("Job", "key left deadline start")
Carried = collections.namedtuple("Carried", "jobs cut")
CarriedWithSoft = collections.namedtuple("CarriedWithSoft", "jobs cut soft behind")
Refusal = collections.namedtuple("Refusal", "row until need room")


class SlotError(Exception):
    """A call that did not do what it says. Nothing has changed.

    `status` tells why; of a table that is none, `fault` the fault's number and three of its numbers,
    as slotexec.h lists them; of a change of plan that is refused, a `Refusal`.
    """

    def __init__(self, status, fault=None):
        self.status = Status(status)
        self.fault = fault
        super().__init__(self.status.name if fault is None else f"{self.status.name} {fault}")


class _Slots(ctypes.Structure):
    _fields_ = [("open", ctypes.c_bool), ("at", ctypes.c_void_p)]


class _Told(ctypes.Structure):
    _fields_ = [("answer", ctypes.c_uint32)] + [
        (name, ctypes.c_uint64) for name in ("first", "second", "third")
    ]


class _Key(ctypes.Structure):
    _fields_ = [(name, ctypes.c_uint32) for name in ("kind", "group", "task")] + [
        ("number", ctypes.c_uint64)
    ]


class _Span(ctypes.Structure):
    _fields_ = [(name, ctypes.c_uint64) for name in ("start", "end", "work")] + [
        ("spare", ctypes.c_int64)
    ]


class _Job(ctypes.Structure):
    _fields_ = [("key", _Key), ("left", ctypes.c_uint32)] + [
        (name, ctypes.c_uint64) for name in ("deadline", "start")
    ]


def _number(value):
    """A number of 32 bits, as rows, indexes and lengths are."""
    if not 0 <= value < 2**32:
        raise SlotError(Status.BAD_NUMBER)
    return ctypes.c_uint32(value)


def _key(key):
    """A key, whose kind, group and task have 32 bits, and its number 64."""
    kind, group, task, number = key
    if not 0 <= number < 2**64:
        raise SlotError(Status.BAD_NUMBER)
    return _Key(*(_number(part).value for part in (kind, group, task)), number)


def _loaded(library):
    """The shared library in this file, else the one that `make shared` builds."""
    return ctypes.CDLL(library or os.path.join(HERE, "out", "libslotexec.so"))


def _version_of(loaded):
    """The version of a library that is loaded, None where it tells none."""
    call = getattr(loaded, "ss_version", None)
    if call is None:
        return None
    text, length = ctypes.create_string_buffer(VERSION_TEXT), ctypes.c_size_t()
    status = call(text, ctypes.c_size_t(VERSION_TEXT), ctypes.byref(length))
    return text.raw[: length.value].decode() if status == Status.OK else None


def version(library=None):
    """The version of the library, None where it tells none."""
    return _version_of(_loaded(library))


def _of_this_version(loaded):
    """The library, which is refused where it is of another version: its numbers and structs may be
    others, and no call would notice."""
    found = _version_of(loaded)
    if found != __version__:
        told = f"version {found or 'unknown'}, but slotexec.py has {__version__}"
        raise OSError(f"{loaded._name}: {told}")
    return loaded


def _numbers(told):
    return (told.answer, told.first, told.second, told.third)


def _carried(status, told, with_soft=False):
    """What a change of plan has carried over; an error where it is not made."""
    if status == Status.OK and with_soft:
        return CarriedWithSoft(told.first, told.second, told.answer, told.third)
    if status == Status.OK:
        return Carried(told.first, told.second)
    if status == Status.REFUSED:
        raise SlotError(status, Refusal(*_numbers(told)))
    raise SlotError(status, _numbers(told) if status == Status.BAD_TABLE else None)


class Executive:
    """An open executive. It is closed by `close`, or at the end of a `with`."""

    def __init__(self, table, library=None):
        """Opens the plan of a binary table, given as bytes. OSError where the library cannot be
        loaded, or is of another version."""
        self._library = _of_this_version(_loaded(library))
        self._slots = _Slots()
        fault = _Told()
        size = ctypes.c_size_t(len(table))
        status = self._library.ss_open(self._handle(), table, size, ctypes.byref(fault))
        if status != Status.OK:
            raise SlotError(status, _numbers(fault) if status == Status.BAD_TABLE else None)

    @classmethod
    def of_file(cls, path, library=None):
        """Opens the plan of the table in a file."""
        with open(path, "rb") as file:
            return cls(file.read(), library)

    def __enter__(self):
        return self

    def __exit__(self, *_):
        self.close()

    def _handle(self):
        return ctypes.byref(self._slots)

    def _call(self, name, *words):
        status = getattr(self._library, name)(self._handle(), *words)
        if status != Status.OK:
            raise SlotError(status)

    def _asked(self, name, kind):
        number = kind()
        self._call(name, ctypes.byref(number))
        return number.value

    def _told(self, name, answers, *words):
        told = _Told()
        self._call(name, *words, ctypes.byref(told))
        return Told(answers(told.answer), told.first, told.second, told.third)

    def close(self):
        """Gives all memory back. A closed one stays closed."""
        if self._slots.open:
            self._call("ss_close")

    def now(self):
        """How many slots have passed."""
        return self._asked("ss_now", ctypes.c_uint64)

    def last_row(self):
        """The row of the last arrival, 0 before the first."""
        return self._asked("ss_last_row", ctypes.c_uint32)

    def soft(self, row, work):
        """Soft work of 1 to 65,535 slots: TAKEN, or FULL with the limit."""
        return self._told("ss_soft", Soft, _number(row), _number(work))

    def firm(self, row, work, within):
        """A firm task of so many slots, due within so many: ACCEPTED, LATE, FAR, or NO_ROOM with
        the time, the need and the room."""
        words = (_number(row), _number(work), _number(within))
        return self._told("ss_firm", Firm, *words)

    def sporadic(self, row, index):
        """A job of a sporadic task: TAKEN with its deadline, or SOON with the first slot at which
        it may come."""
        return self._told("ss_sporadic", Sporadic, _number(row), _number(index))

    def done(self, row, key):
        """The job of this key has ended early: FREED with its slots, or NOT_RUNNING."""
        return self._told("ss_done", Done, _number(row), ctypes.byref(_key(key)))

    def withdraw(self, row, firm):
        """The firm task of row `firm` is taken back: FREED with its slots, or NO_JOB."""
        return self._told("ss_withdraw", Gone, _number(row), _number(firm))

    def slot(self):
        """One slot passes: the key of the job that has it, of the kind NONE where it is idle."""
        ran = _Key()
        self._call("ss_slot", ctypes.byref(ran))
        return Key(Kind(ran.kind), ran.group, ran.task, ran.number)

    def ahead(self, most):
        """What the next slot runs, and for how many slots, 1 to `most`, that stays so where nothing
        arrives."""
        ran, count = _Key(), ctypes.c_uint32()
        self._call("ss_ahead", _number(most), ctypes.byref(ran), ctypes.byref(count))
        return Key(Kind(ran.kind), ran.group, ran.task, ran.number), count.value

    def pass_slots(self, most):
        """Slots pass, at most `most`, while what is to run stays the same: how many have passed."""
        passed = ctypes.c_uint32()
        self._call("ss_pass", _number(most), ctypes.byref(passed))
        return passed.value

    def spans(self):
        """The spans up to the end of the third cycle from now."""
        return [self._span(place) for place in range(self._asked("ss_span_count", ctypes.c_uint32))]

    def _span(self, place):
        span = _Span()
        self._call("ss_get_span", _number(place), ctypes.byref(span))
        return Span(span.start, span.end, span.work, span.spare)

    def jobs(self):
        """The guaranteed jobs that remain, in no order."""
        return [self._job(place) for place in range(self._asked("ss_job_count", ctypes.c_uint32))]

    def _job(self, place):
        job = _Job()
        self._call("ss_get_job", _number(place), ctypes.byref(job))
        key = Key(Kind(job.key.kind), job.key.group, job.key.task, job.key.number)
        return Job(key, job.left, job.deadline, job.start)

    def carry(self, into, first, keep):
        """What this one has left goes on in another one, before its first slot, as slotexec.h says:
        `Carried`. This one stays as it was. A SlotError of the status REFUSED has a `Refusal` as
        its fault, and the other one is to be opened anew."""
        told = _Told()
        words = (_number(first), _number(keep), ctypes.byref(told))
        status = self._library.ss_carry(self._handle(), into._handle(), *words)
        return _carried(status, told)

    def change(self, table, first, keep):
        """Goes on with the plan of a binary table, given as bytes: `Carried`. A SlotError leaves
        this one as it was."""
        told = _Told()
        words = (ctypes.c_size_t(len(table)), _number(first), _number(keep), ctypes.byref(told))
        status = self._library.ss_change(self._handle(), table, *words)
        return _carried(status, told)

    def carry_with_soft(self, into, first, keep):
        """`carry`, where soft work goes over too: `CarriedWithSoft` tells as well how many soft
        jobs go over, and how many are left behind since no more may wait there."""
        told = _Told()
        words = (_number(first), _number(keep), ctypes.byref(told))
        status = self._library.ss_carry_with_soft(self._handle(), into._handle(), *words)
        return _carried(status, told, with_soft=True)

    def change_with_soft(self, table, first, keep):
        """`change`, where soft work goes over too, as with `carry_with_soft`."""
        told = _Told()
        words = (ctypes.c_size_t(len(table)), _number(first), _number(keep), ctypes.byref(told))
        status = self._library.ss_change_with_soft(self._handle(), table, *words)
        return _carried(status, told, with_soft=True)

    def key_text(self, key):
        """The text of a key, as traces have it."""
        text, length = ctypes.create_string_buffer(KEY_TEXT), ctypes.c_size_t()
        room = ctypes.c_size_t(KEY_TEXT)
        self._call("ss_key_text", ctypes.byref(_key(key)), text, room, ctypes.byref(length))
        return text.raw[: length.value].decode()

    def sporadic_index(self, name):
        """The index of the sporadic task of this name."""
        index, bytes_of_name = ctypes.c_uint32(), name.encode()
        size = ctypes.c_size_t(len(bytes_of_name))
        self._call("ss_sporadic_index", bytes_of_name, size, ctypes.byref(index))
        return index.value
