"""Tries slotexec.py over a table with a sporadic task: it drives the same trace as the program, has
the numbers of slotexec.h, and refuses a library of another version.
usage: binding.py LIBRARY TABLE TRACE LATER OLD NEXT   (TRACE: what `slotshift replay-table` prints
without arrivals; LATER: a library of version 9.10.11; OLD: one that tells no version; NEXT: a table
to change to)
"""

import os
import random
import re
import sys

HERE = os.path.dirname(os.path.dirname(os.path.realpath(__file__)))
sys.path.insert(0, HERE)

import slotexec
from slotexec import Done, Executive, Firm, Gone, Job, Keep, Key, Kind, SlotError, Soft, Sporadic
from slotexec import Status


def spans_text(executive):
    spans = executive.spans()
    shown = "".join(f" {s.start}-{s.end}:{s.spare}" for s in spans[:8])
    return f" |{shown}" + (f" +{len(spans) - 8}" if len(spans) > 8 else "")


def slot_line(executive):
    now, ran = executive.now(), executive.slot()
    what = "idle" if ran.kind == Kind.NONE else f"run {executive.key_text(ran)}"
    return f"{now} {what}{spans_text(executive)}"


def status_of(call, *words):
    """The status with which the call is refused."""
    try:
        call(*words)
    except SlotError as error:
        return error.status
    return Status.OK


def header_numbers():
    """The enumerators of slotexec.h, each with its number."""
    text = open(os.path.join(HERE, "slotexec.h"), encoding="ascii").read()
    return {name: int(number) for name, number in re.findall(r"\bSS_(\w+) = (\d+)", text)}


def python_numbers():
    """Those of slotexec.py."""
    enums = (Status, Kind, Soft, Firm, Sporadic, Done, Gone, Keep)
    members = {member.name: int(member) for names in enums for member in names}
    return members | {"KEY_TEXT": slotexec.KEY_TEXT}


def try_versions(library, table, later, old):
    """A library of another version is refused with a line."""
    assert slotexec.version(library) == slotexec.__version__
    for file, found in ((later, "9.10.11"), (old, None)):
        assert slotexec.version(file) == found
        try:
            Executive.of_file(table, file)
        except OSError as error:
            told = f"{file}: version {found or 'unknown'}, but slotexec.py has "
            assert str(error) == told + slotexec.__version__, error
        else:
            raise AssertionError(file)


def arrive(executive, chance, row):
    """Soft work, an offer or a sporadic arrival."""
    call = chance.randrange(3)
    if call == 0:
        executive.soft(row, chance.randint(1, 9))
    elif call == 1:
        executive.firm(row, chance.randint(1, 6), chance.randint(0, 60))
    else:
        executive.sporadic(row, 0)


def try_ahead(library, table):
    """What is told ahead is what the slots run one by one, and where soft work runs or none waits,
    no more slots run it. `pass_slots` passes as many slots as have one key in a row."""
    chance, row, looks = random.Random(1), 0, 0
    with Executive.of_file(table, library) as asked, Executive.of_file(table, library) as passing:
        cycle = asked.spans()[-1].end // 3
        while asked.now() < 5000:
            while chance.randrange(4) == 0:
                row += 1
                for executive in (asked, passing):
                    arrive(executive, random.Random(row), row)
            most = chance.randint(1, 2 * cycle)
            key, count = asked.ahead(most)
            passed = passing.pass_slots(most)
            assert 1 <= count <= passed <= most, (count, passed, most)
            if key.kind in (Kind.NONE, Kind.SOFT):
                assert count in (passed, cycle), (key, count, passed)
            assert all(asked.slot() == key for _ in range(passed))
            assert passed == most or asked.ahead(1)[0] != key
            assert asked.now() == passing.now() and asked.spans() == passing.spans()
            looks += 1
    return looks


def try_changes(library, table, after):
    """A firm job goes on in another plan, by either call; a refusal leaves the first executive."""
    with Executive.of_file(table, library) as first, Executive.of_file(after, library) as second:
        assert first.firm(7, 9, 20).answer == Firm.ACCEPTED
        own = Job(Key(Kind.FIRM, number=7), 9, 20, 0)
        assert own in first.jobs() and all(job.left > 0 for job in first.jobs())
        assert status_of(first.carry, second, 7, Keep.STARTED) == Status.BAD_ROW
        assert status_of(first.carry, second, 8, 3) == Status.BAD_NUMBER
        assert first.carry(second, 0, Keep.DROP) == (1, 0)
        assert own in second.jobs() and second.last_row() == 7
        assert status_of(first.carry, second, 8, Keep.DROP) == Status.NOT_FRESH
        for _ in range(18):
            first.slot()
        released = [job for job in first.jobs() if job.key.kind == Kind.OFFLINE and job.start < 18]
        with open(after, "rb") as file:
            carried = first.change(file.read(), 8, Keep.GRAPHS)
        assert carried.jobs > len(released) and first.now() == 0 and first.last_row() >= 7
    with Executive.of_file(table, library) as first:
        for row in range(1, 41):
            first.firm(row, 41 - row, 40)
        jobs = sorted(first.jobs())
        try:
            with open(after, "rb") as file:
                first.change(file.read(), 41, Keep.DROP)
        except SlotError as error:
            assert error.status == Status.REFUSED and error.fault.room < error.fault.need
            assert 1 <= error.fault.row <= 40 and error.fault.until == error.fault.room
        else:
            raise AssertionError("a change without room")
        assert sorted(first.jobs()) == jobs and first.last_row() == 40


def try_soft_changes(library, table, after):
    """Soft work goes over too, by either call, and runs there in its order."""
    with Executive.of_file(table, library) as first, Executive.of_file(after, library) as second:
        for row, work in ((2, 3), (5, 1)):
            assert first.soft(row, work).answer == Soft.TAKEN
        assert first.firm(7, 9, 20).answer == Firm.ACCEPTED
        assert first.carry_with_soft(second, 0, Keep.DROP) == (1, 0, 2, 0)
        assert second.last_row() == 7
        with open(after, "rb") as file:
            assert first.change_with_soft(file.read(), 8, Keep.DROP) == (1, 0, 2, 0)
        for executive in (first, second):
            ran = [executive.slot() for _ in range(1000)]
            rows = [key.number for key in ran if key.kind == Kind.SOFT]
            assert rows == [2, 2, 2, 5], rows


def main():
    library, table, trace, later, old, after = sys.argv[1:]
    assert header_numbers() == python_numbers() | {"OFFER_LIMIT": 65535}
    try_versions(library, table, later, old)
    try_changes(library, table, after)
    try_soft_changes(library, table, after)
    lines = open(trace, encoding="ascii").read().splitlines()
    with Executive.of_file(table, library) as executive:
        told = [f"0 start{spans_text(executive)}"]
        told += [slot_line(executive) for _ in lines[1:-1]]
        told.append(f"{executive.now()} end")
    assert told == lines, next(pair for pair in zip(told, lines) if pair[0] != pair[1])
    assert status_of(executive.now) == Status.CLOSED
    with Executive.of_file(table, library) as executive:
        assert executive.soft(1, 2).answer == Soft.TAKEN
        assert executive.firm(2, 1, 0).answer == Firm.LATE
        assert executive.firm(3, 1, 20).answer == Firm.ACCEPTED
        assert executive.withdraw(4, 3) == (Gone.FREED, 1, 0, 0)
        assert executive.withdraw(5, 3).answer == Gone.NO_JOB
        assert executive.sporadic(6, 0).answer == Sporadic.TAKEN
        assert executive.sporadic(7, 0).answer == Sporadic.SOON
        assert executive.done(8, Key(Kind.SOFT, number=1)).answer == Done.NOT_RUNNING
        assert executive.withdraw(8, 3).answer == Gone.NO_JOB
        assert status_of(executive.withdraw, 7, 3) == Status.BAD_ROW
        assert executive.last_row() == 8
        assert status_of(executive.soft, 8, 1) == Status.BAD_ROW
        assert status_of(executive.soft, 9, -1) == Status.BAD_NUMBER
        assert status_of(executive.soft, 9, 2**32 + 1) == Status.BAD_NUMBER
        assert status_of(executive.done, 9, Key(2**32 + 4, number=1)) == Status.BAD_NUMBER
        assert status_of(executive.key_text, Key(Kind.SOFT, number=2**64)) == Status.BAD_NUMBER
        assert status_of(executive.sporadic_index, "no-such-name") == Status.BAD_NUMBER
        assert executive.sporadic_index(executive.key_text(Key(Kind.SPORADIC, 0, 0, 6)).split("@")[0]) == 0
    try:
        Executive(b"SLOT", library)
    except SlotError as error:
        assert (error.status, error.fault) == (Status.BAD_TABLE, (2, 4, 0, 0)), error
    else:
        raise AssertionError("a table of four bytes")
    looks = try_ahead(library, table)
    print(f"slotexec.py: {len(lines)} lines as the program prints them, {looks} looks ahead")


main()
