"""The words of a TOML document that stand without quotes: numbers, booleans and dates.

They are read as TOML 1.1 has them, with whole numbers of 64 bits, since so does the program.
"""

import math
import re

from .places import bare, shown_character

DIGITS = r"[0-9](?:_?[0-9])*"
WHOLE = r"(?:0|[1-9](?:_?[0-9])*)"
WHOLE_NUMBER = re.compile(rf"[+-]?{WHOLE}")
HEXADECIMAL = re.compile(r"0x([0-9A-Fa-f](?:_?[0-9A-Fa-f])*)")
OCTAL = re.compile(r"0o([0-7](?:_?[0-7])*)")
BINARY = re.compile(r"0b([01](?:_?[01])*)")
FLOAT = re.compile(rf"[+-]?{WHOLE}(?:\.{DIGITS})?(?:[eE][+-]?{DIGITS})?")
NO_NUMBER = re.compile(r"[+-]?(?:inf|nan)")

TIME = r"([0-9]{2}):([0-9]{2})(?::([0-9]{2})(?:\.[0-9]+)?)?"
DATE = r"([0-9]{4})-([0-9]{2})-([0-9]{2})"
TIME_ALONE = re.compile(TIME)
DATE_AND_TIME = re.compile(rf"{DATE}(?:[Tt ]{TIME}(?:[Zz]|[+-]([0-9]{{2}}):([0-9]{{2}}))?)?")

LEAST, GREATEST = -(2**63), 2**63 - 1


def value_of(word):
    """The kind and the value of a word, or none where it is no value of TOML."""
    if word in ("true", "false"):
        return "boolean", word == "true"
    if is_date(word):
        return "date", word
    number = whole_number(word)
    if number is not None:
        return ("integer", number) if LEAST <= number <= GREATEST else None
    if NO_NUMBER.fullmatch(word):
        return "float", word
    if FLOAT.fullmatch(word) and math.isfinite(float(word.replace("_", ""))):
        return "float", word
    return None


def whole_number(word):
    """The whole number that the word writes, of any size, or none."""
    for form, base in ((HEXADECIMAL, 16), (OCTAL, 8), (BINARY, 2)):
        found = form.fullmatch(word)
        if found:
            return int(found[1].replace("_", ""), base)
    if not WHOLE_NUMBER.fullmatch(word):
        return None
    digits = word.replace("_", "")
    # (a number of more digits than these is too large in any case)
    return int(digits) if len(digits) < 1000 else GREATEST + 1


def is_date(word):
    """Whether the word is a date, a time, or both."""
    time = TIME_ALONE.fullmatch(word)
    if time:
        return is_time(*time.groups())
    both = DATE_AND_TIME.fullmatch(word)
    if not both:
        return False
    year, month, day, hour, minute, second, off_hour, off_minute = both.groups()
    if not is_day(int(year), int(month), int(day)):
        return False
    return is_time(hour or "0", minute or "0", second) and is_time(off_hour or "0", off_minute or "0", None)


def is_day(year, month, day):
    leap = year % 4 == 0 and (year % 100 != 0 or year % 400 == 0)
    lengths = [31, 29 if leap else 28, 31, 30, 31, 30, 31, 31, 30, 31, 30, 31]
    return 1 <= month <= 12 and 1 <= day <= lengths[month - 1]


def is_time(hour, minute, second):
    return int(hour) < 24 and int(minute) < 60 and int(second or 0) <= 60


def why_no_value(word):
    """What is wrong with a word that is no value, and what to write instead."""
    if whole_number(word) is not None:
        return f"{bare(word)} is too large a number: lengths here are at most 8192 slots"
    if not word[0].isprintable():
        return f"the character {shown_character(word[0])} stands here, which is not seen: take it out"
    if len(word) > 1 and word.endswith(";"):
        return f"{bare(word)} ends with a semicolon, and a line of TOML ends without one"
    if re.fullmatch(r"[+-]?0[0-9_]+", word):
        sign = word[0] if word[0] in "+-" else ""
        plain = word.lstrip("+-0_") or "0"
        return f"{word} has a leading zero, which TOML does not take: write {sign}{plain}"
    unit = re.fullmatch(r"[+-]?[0-9][0-9_]*(?:\.[0-9]+)?([A-Za-z%\u00b5\u03bc]+)", word)
    if unit:
        return (
            f'{bare(word)} has a unit, "{unit[1]}": write a whole number of slots without one, as 10;'
            " how many slots a time has is for you to choose (docs/MODELLING.md)"
        )
    if re.fullmatch(r"[+-]?(?:[0-9_]+\.|\.[0-9_]+)", word):
        return f"{bare(word)} is no number: write a whole number of slots, as 10"
    if re.match(r"[A-Za-z_]", word):
        return f'{bare(word)} stands without quotes: a text is written as "{bare(word)}"'
    if word[0] in "\u201c\u201d\u201e\u2018\u2019\u00ab\u00bb":
        return f'{bare(word)} has curly quotes: a text stands in straight ones, as "read"'
    return f'{bare(word)} is no value: write a number, a text in quotes as "read", or a list in [ ]'

