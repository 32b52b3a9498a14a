"""The command line of slotlint."""

import errno
import json
import os
import sys

from .judge import judge_arrivals, judge_tasks, judge_timed, judge_units
from .limits import ARRIVALS_FILE_LIMIT, REPLAY_LIMIT, TASK_FILE_LIMIT, VERSION
from .places import did_you_mean, shown
from .reading import CannotRead, bytes_of
from .words import Words, is_program, why_no_count

USAGE = "usage: slotlint [--json] [--all] FILE .. | --tasks T [--slots N] FILE .. | COMMAND"
HELP = f"""{USAGE}

Tells all that is wrong in task files and arrivals files of slotshift, a line each:
  FILE:LINE:COLUMN: graph "speed", task "pi": unknown key "perid"; did you mean "period"?
A line with "note:" behind the place marks what is valid but probably unintended.

  FILE ..        task files, files of units (NAME.units.toml), or behind --tasks arrivals files
  --tasks T      the task file of the arrivals, which is judged first
  --slots N      the slots of the replay, below which the arrivals have to be
  COMMAND        a command that failed, as ./slotshift replay T A N: its words and files
  --json         a JSON list in place of the lines, for editors
  --all          each line, also where many are alike
  --help, --version

The status is 0 where there is no fault, 1 where there is one, and 2 where a file cannot be read, or
the words are none of these."""

OPTIONS = ["--json", "--all", "--tasks", "--slots", "--help", "--version"]
MOST_ALIKE = 5


class WrongWords(Exception):
    """Words that are none of the usage line, with the reason."""


class Options:
    """The words of the command line."""

    def __init__(self, words):
        self.as_json = False
        self.all = False
        self.tasks = None
        self.slots = None
        self.files = []
        rest = list(words)
        # (the words behind a program are its own)
        while rest and not (self.files and is_program(self.files[0])):
            self.take(rest.pop(0), rest)
        self.files += rest
        if not self.files:
            raise WrongWords("name a file")
        if self.slots is not None and self.tasks is None:
            raise WrongWords("--slots belongs to --tasks")

    def take(self, word, rest):
        """Takes a word, and what belongs to it from the rest."""
        if word == "--json":
            self.as_json = True
        elif word == "--all":
            self.all = True
        elif word == "--":
            self.files += rest
            rest.clear()
        elif word in ("--tasks", "--slots"):
            if not rest:
                raise WrongWords(f"behind {word} stands {'a task file' if word == '--tasks' else 'a number'}")
            self.set_value(word, rest.pop(0))
        elif word.startswith("-") and word != "-" and not os.path.exists(word):
            raise WrongWords(f"no option {shown(word)}{did_you_mean(word, OPTIONS)}")
        else:
            self.files.append(word)

    def set_value(self, option, word):
        if option == "--tasks":
            self.tasks = word
            return
        why = why_no_count("--slots", word, REPLAY_LIMIT)
        if why:
            raise WrongWords(why)
        self.slots = int(word)


class Run:
    """What is judged: for each file what was found in it, and what could not be read."""

    def __init__(self, options):
        self.judged = []
        self.unread = []
        self.words = Words(options.files) if is_program(options.files[0]) else None
        if self.words:
            # (where words stand in the wrong order, files may be taken for one another)
            if not self.words.faults or self.words.tasks or self.words.units:
                self.judge(self.words.tasks, self.words.arrivals, self.words.slots)
                self.judge_units(self.words.units, self.words.timed)
        elif options.tasks is None:
            self.judge(options.files, [], None)
        else:
            self.judge([options.tasks], options.files, options.slots)

    def judge(self, task_files, arrivals_files, slots):
        """Judges task files, and arrivals files beside the first of them."""
        for name in task_files:
            data = self.read(name, TASK_FILE_LIMIT)
            if data is not None:
                self.judged.append(judge_tasks(name, data))
        # (where the first one cannot be read, the rows are not judged beside a later one)
        tasks = next((it for it in self.judged if [it.name] == task_files[:1]), None)
        for name in arrivals_files:
            data = self.read(name, ARRIVALS_FILE_LIMIT)
            if data is not None:
                self.judged.append(judge_arrivals(name, data, tasks, slots))

    def judge_units(self, names, timed):
        """Judges files of units, and files of arrivals with times."""
        for name in names:
            data = self.read(name, TASK_FILE_LIMIT)
            if data is not None:
                self.judged.append(judge_units(name, data))
        for name in timed:
            data = self.read(name, ARRIVALS_FILE_LIMIT)
            if data is not None:
                self.judged.append(judge_timed(name, data))

    def read(self, name, most):
        """The bytes of a file, or none, of which the reason is kept."""
        try:
            return bytes_of(name, most)
        except CannotRead as error:
            self.unread.append(str(error))
            return None

    @property
    def status(self):
        if self.unread:
            return 2
        has_faults = any(it.faults for it in self.judged) or (self.words and self.words.faults)
        return 1 if has_faults else 0


# What is printed

def lines_of(judged, shows_all):
    """The lines on a file by their places, at most so many of one rule."""
    lines = []
    alike = {}
    for found in judged.in_order:
        alike.setdefault(found.rule, []).append(found)
        if shows_all or len(alike[found.rule]) <= MOST_ALIKE:
            lines.append(line_of(judged, found))
    for rule, same in alike.items():
        more = len(same) - MOST_ALIKE
        if more > 0 and not shows_all:
            line = judged.text.line(same[MOST_ALIKE].start)
            place = f"{judged.name}:{line}"
            lines.append(f"{place}: from here on {more} more of this kind ({rule}): --all tells each")
    return lines if judged.faults else [*lines, f"{judged.name}: no fault"]


def line_of(judged, found):
    place = f"{judged.name}:{judged.text.line(found.start)}:{judged.text.column(found.start)}"
    return f"{place}: {'' if found.fault else 'note: '}{found.words}"


def word_lines(words):
    """The lines on the words of a command."""
    for number, message in words.faults:
        yield f"{words.program}: {f'word {number}: ' if number else ''}{message}"


def objects_of(run):
    """What was found, as objects for editors."""
    objects = []
    for number, message in run.words.faults if run.words else []:
        made = {"file": run.words.program, "word": number}
        objects.append(made | {"kind": "fault", "rule": "words", "message": message})
    for judged in run.judged:
        first = judged.first_fault
        objects += [object_of(judged, found, found is first) for found in judged.in_order]
    return objects


def object_of(judged, found, is_first):
    """What was found, as an object for editors."""
    text = judged.text
    made = {
        "file": judged.name,
        "line": text.line(found.start),
        "column": text.column(found.start),
        "end_line": text.line(found.end),
        "end_column": text.column(found.end),
        "kind": "fault" if found.fault else "note",
        "rule": found.rule,
        "owner": found.owner,
        "message": found.message,
    }
    if found.fault:
        made["program"] = found.fault
        made["is_first"] = is_first
    return made


def print_run(run, options):
    """Prints what was found, and on standard error what could not be read."""
    for line in run.unread:
        print(f"slotlint: {line}", file=sys.stderr)
    if options.as_json:
        print(json.dumps(objects_of(run), indent=1))
        return
    for line in word_lines(run.words) if run.words else []:
        print(line)
    for judged in run.judged:
        # (of a task file that was given for its arrivals it is not said that it is right)
        if judged.name != options.tasks or judged.findings:
            print("\n".join(lines_of(judged, options.all)))


def answer(words):
    """Carries the words out, and tells the status."""
    if words in (["--help"], ["-h"]):
        print(HELP)
        return 0
    if words == ["--version"]:
        print(f"slotlint {VERSION}")
        return 0
    try:
        options = Options(words)
    except WrongWords as error:
        print(f"slotlint: {error}{'' if str(error).endswith('?') else ';'} {USAGE}", file=sys.stderr)
        return 2
    run = Run(options)
    print_run(run, options)
    return run.status


def main(words):
    """Runs slotlint with these words, and tells its status."""
    try:
        if sys.stdout is None:
            raise OSError(errno.EBADF, "closed")
        for stream in (sys.stdout, sys.stderr or sys.stdout):
            stream.reconfigure(encoding="utf-8", errors="surrogateescape")
        status = answer(words)
        sys.stdout.flush()
        return status
    except OSError as error:
        # (what is left to write would fail once more at the end)
        os.dup2(os.open(os.devnull, os.O_WRONLY), 1)
        if not isinstance(error, BrokenPipeError):
            print(f"slotlint: cannot write: {os.strerror(error.errno).lower()}", file=sys.stderr)
        return 2
