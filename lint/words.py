"""The words of a command: what is wrong where a program answers with its usage line."""

import os
import re

from .limits import ARRIVAL_LIMIT, CHART_LIMIT, LOAD_LIMIT, NUMBER_LIMIT, OFFER_LIMIT, REPLAY_LIMIT
from .places import did_you_mean, listed, shown
from .timed_rows import why_no_time
from .unit_file import time_of

# What the letters of a usage line are.
LETTERS = {
    "T": "a task file",
    "U": "a second task file",
    "A": "an arrivals file",
    "B": "a table",
    "X": "a recorded trace",
    "N": "a number of slots",
    "R": "the number of a row",
    "C": "the slot of the change",
    "D": "the slots of a deadline",
}

# Of each program, the forms of its words.
FORMS = {
    "slotshift": [
        "check T", "table T", "show B", "replay T A N", "replay-table B A N", "gantt T A N",
        "selfrun N", "migrate B", "verify T A X N", "explain T A N R", "switch T U A N C", "margin T",
    ],
    "slotlive": ["T", "T --record FILE", "--table B", "--table B --record FILE"],
    "slotplan": ["load T", "who T", "header T", "supply T", "supply T D"],
    "slotunits": ["tasks U", "check U", "check U FROM TO", "arrivals U A", "trace U"],
    "slotview": [
        "picture [T | --table B] [FROM UNTIL]", "jobs T", "jobs --table B", "events [FROM UNTIL]",
        "spans [FROM UNTIL]", "waves [FROM UNTIL]", "stairs",
    ],
}

# The greatest number that a command takes, where it is another one than that of a replay.
MOST = {
    ("gantt", "N"): CHART_LIMIT,
    ("selfrun", "N"): LOAD_LIMIT,
    ("explain", "R"): ARRIVAL_LIMIT,
    ("supply", "D"): OFFER_LIMIT,
}


def is_program(word):
    return os.path.basename(word) in FORMS


class Words:
    """The words of a command with what is wrong in them: `faults` has a pair of the word's number,
    0 for all of them, and a message. `tasks`, `arrivals`, `units` and `timed`, arrivals with times, are the
    files to judge, and `slots` those of the replay, if it is known."""

    def __init__(self, words):
        self.program = os.path.basename(words[0])
        self.words = words[1:]
        self.faults = []
        self.tasks = []
        self.arrivals = []
        self.units = []
        self.timed = []
        self.slots = None
        if not self.words:
            self.tell(0, f"words are missing behind it: {self.forms()}")
        elif self.program == "slotlive":
            self.check_live()
        elif self.program == "slotview":
            self.check_view()
        elif self.program == "slotunits":
            self.check_units()
        else:
            self.check_command()

    def tell(self, number, message):
        self.faults.append((number, message))

    def forms(self):
        return listed(FORMS[self.program], "or")

    def tell_command(self):
        """Tells that the first word is no command."""
        known = list(dict.fromkeys(form.split()[0] for form in FORMS[self.program]))
        hint = did_you_mean(self.words[0], known) or f": write {self.forms()}"
        self.tell(1, f"{shown(self.words[0])} is no command{hint}")

    # slotshift and slotplan

    def check_command(self):
        """Checks the words by the form of the first one."""
        forms = self.forms_of_command()
        form = next((it for it in forms if len(it) == len(self.words)), None)
        if not forms:
            self.tell_command()
        elif form is None:
            self.tell(0, self.why_count(forms[-1]) if len(forms) == 1 else self.why_none(forms))
        else:
            numbers = {}
            for at, (letter, word) in enumerate(zip(form[1:], self.words[1:]), 2):
                self.check_word(form, letter, at, word, numbers)
            self.slots = numbers.get("C", numbers.get("N"))
            if numbers.get("C", 0) >= numbers.get("N", REPLAY_LIMIT + 1):
                end = f"N = {numbers['N']}, the end"
                self.tell(6, f"C = {numbers['C']}, the slot of the change, is not below {end}")

    def forms_of_command(self):
        """The forms that begin with the first word."""
        forms = [form.split() for form in FORMS[self.program]]
        return [form for form in forms if form[0] == self.words[0]]

    def why_none(self, forms):
        """What is wrong with words whose number is that of none of these forms."""
        return f"the words are none of its forms: {listed(map(' '.join, forms), 'or')}"

    def why_count(self, form):
        """What is wrong with how many words there are."""
        takes = listed(f"{letter} ({meaning(form[0], letter)})" for letter in form[1:])
        count = len(self.words) - 1
        here = "is 1 word" if count == 1 else f"are {count or 'no'} words"
        message = f"{form[0]} takes {takes}, and here {here} behind it"
        if count > len(form) - 1 and all(os.path.exists(it) for it in self.words[1:]):
            return f"{message}: give the files one at a time"
        if count == len(form) - 2 and "A" in form and not any(it.endswith(".csv") for it in self.words):
            return f"{message}: A is missing, which is /dev/null where nothing arrives"
        return message

    def check_word(self, form, letter, at, word, numbers):
        """Checks one word, and keeps what it says."""
        should_be = f"it should be {meaning(form[0], letter)}, as in {' '.join(form)}"
        if letter in ("N", "R", "C", "D"):
            most = MOST.get((form[0], letter), REPLAY_LIMIT)
            why = why_no_count(letter, word, most)
            if why and (os.path.exists(word) or re.search(r"\.(?:toml|csv|bin)$", word)):
                why = f"{letter} is {shown(word)}, a file: {should_be}"
            if why:
                self.tell(at, why)
            else:
                numbers[letter] = int(word)
        elif not os.path.exists(word) and re.match(r"-|[0-9.]+$", word):
            what = "a number" if word[0] != "-" else "no file, as there are no options"
            self.tell(at, f"{letter} is {shown(word)}, {what}: {should_be}")
        elif letter in ("T", "U"):
            self.tasks.append(word)
        elif letter == "A":
            self.arrivals = [word]

    # The other programs

    def check_live(self):
        words = list(self.words)
        record = None
        if len(words) > 2 and words[-2] == "--record":
            record = words[-1]
            words = words[:-2]
        if len(words) == 1 and not words[0].startswith("-"):
            self.tasks = words
        elif len(words) != 2 or words[0] != "--table":
            self.tell(0, f"the words are none of its forms: {self.forms()}")
        if record in words:
            why = "is the file of the plan, and the record would replace it: name another"
            self.tell(len(self.words), f"{shown(record)} {why}")

    def check_units(self):
        forms = self.forms_of_command()
        form = next((it for it in forms if len(it) == len(self.words)), None)
        if not forms:
            self.tell_command()
        elif form is None:
            self.tell(0, self.why_none(forms))
        else:
            self.units = [self.words[1]]
            self.timed = self.words[2:] if "A" in form else []
            for at in [at for at, letter in enumerate(form) if letter in ("FROM", "TO")]:
                if time_of(self.words[at]) is None:
                    self.tell(at + 1, f"{form[at]} {why_no_time(self.words[at])}")

    def check_view(self):
        view, words = self.words[0], self.words[1:]
        forms = self.forms_of_command()
        if not forms:
            self.tell_command()
        elif view == "stairs" and words:
            self.tell(2, "stairs takes no word: the supply comes on standard input")
        elif view == "picture" and words and (len(words) != 2 or not words[0][:1].isdigit()):
            self.check_picture(words)
        elif view != "jobs" and len(words) == 2:
            self.check_part(2, *words)
        elif view != "jobs" and words:
            takes = "takes no word, or FROM and UNTIL, two slots"
            self.tell(2 if len(words) == 1 else 0, f"{view} {takes}: the trace comes on standard input")
        elif view == "jobs" and len(words) == 1 and not words[0].startswith("-"):
            self.tasks = words
        elif view == "jobs" and (len(words) != 2 or words[0] != "--table"):
            self.tell(0, "jobs takes the task file of the trace, or --table and the table")

    def check_picture(self, words):
        """Checks what stands behind picture where that is not FROM and UNTIL alone."""
        taken = 2 if words[0] == "--table" else 1
        if len(words) not in (taken, taken + 2):
            self.tell(0, "picture takes the task file of the trace, or --table and the table, and then FROM and UNTIL")
            return
        if taken == 1:
            self.tasks = words[:1]
        if words[taken:]:
            self.check_part(2 + taken, *words[taken:])

    def check_part(self, first, begin, end):
        """Checks the slots from which and before which a trace is shown: the words of this number and of the next."""
        for at, name, word in ((first, "FROM", begin), (first + 1, "UNTIL", end)):
            why = why_no_count(name, word, NUMBER_LIMIT, 0)
            if why:
                self.tell(at, why)
        if not self.faults and int(begin) >= int(end):
            self.tell(first, f"FROM = {begin} is not below UNTIL = {end}, before which the part ends")


def meaning(command, letter):
    """What a letter of a command is."""
    return "the number of a load" if command == "selfrun" else LETTERS[letter]


def why_no_count(name, word, most, least=1):
    """Why a word is no number from the least to the most, or none."""
    rule = f"write a whole number, {least} to {most}, in plain digits"
    if re.fullmatch(r"0|[1-9][0-9]*", word):
        is_in_range = len(word) <= 10 and least <= int(word) <= most
        return None if is_in_range else f"{name} = {word} is out of range, {least} to {most}"
    if re.fullmatch(r"0[0-9]+", word):
        return f"{name} is {shown(word)} and has a leading zero: {rule}"
    unit = re.fullmatch(r"[0-9.]+([A-Za-z\u00b5\u03bc]+)", word)
    if unit:
        return f'{name} is {shown(word)} and has a unit, "{unit[1]}": it counts slots, without one; {rule}'
    return f"{name} is {shown(word)}: {rule}"
