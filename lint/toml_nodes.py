"""What a TOML document holds, with the places of its keys and values."""

from dataclasses import dataclass, field

from .places import bare


class Fault(Exception):
    """No TOML: what is wrong from `start` to `end`, where reading `stopped`, if not at `start`. It
    has no message where it follows from one that was told."""

    def __init__(self, start, end, message, stopped=None):
        super().__init__(message)
        self.start = start
        self.end = end
        self.message = message
        self.stopped = start if stopped is None else stopped


@dataclass
class Part:
    """A part of a key, as `task` in `graph.task`."""

    text: str
    start: int
    end: int


@dataclass
class Scalar:
    """A "string", "integer", "float", "boolean" or "date", or what could not be read:
    "unreadable"."""

    kind: str
    data: object
    start: int
    end: int


@dataclass
class Array:
    """A list: one in brackets, or the one that headers `[[..]]` make, which is open to more."""

    items: list
    start: int
    end: int
    is_open: bool = False
    kind = "array"


@dataclass
class Table:
    """A table with what made it: "top", "header", "dotted" (a key with a dot), "implicit" (a header
    that passed through it), "inline" (braces), or "lost" (a header that could not be read). It
    `is_whole` where each of its lines could be read."""

    start: int
    end: int
    made_by: str
    entries: dict = field(default_factory=dict)
    is_whole: bool = True
    kind = "table"


@dataclass
class Entry:
    """A key of a table with its value."""

    key: Part
    value: object


def unreadable(fault):
    """What stands for a value that could not be read."""
    return Scalar("unreadable", None, fault.start, fault.end)


def written(parts):
    """A key as it is written."""
    return ".".join(bare(part.text) for part in parts)
