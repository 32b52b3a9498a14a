"""The rules by which keys and headers define the tables of a TOML document."""

from .places import shown
from .toml_nodes import Array, Entry, Fault, Scalar, Table, written


class Tables:
    """The top table of a document, in which headers and keys define others."""

    def __init__(self, lines):
        self.lines = lines
        self.top = Table(0, 0, "top")

    # Headers

    def headed(self, parts, is_list, begin, end):
        """The table of a header, which it makes, adds to a list, or finds."""
        table = self.top
        for part in parts[:-1]:
            table = self.passed(table, part)
        last = parts[-1]
        known = table.entries.get(last.text)
        new = Table(begin, end, "header")
        if known is None:
            value = Array([new], begin, end, is_open=True) if is_list else new
            table.entries[last.text] = Entry(last, value)
            return new
        if is_list and is_open_list(known.value):
            known.value.items.append(new)
            return new
        if not is_list and is_made_by(known.value, "implicit"):
            known.value.made_by, known.value.start, known.value.end = "header", begin, end
            return known.value
        message = self.why_not_headed(written(parts), is_list, known)
        if isinstance(known.value, Table):
            # (nothing more is told of a table of which a header is faulty)
            known.value = Scalar("unreadable", None, known.value.start, known.value.end)
        raise Fault(begin, end, message)

    def passed(self, table, part):
        """The table of this name in another, through which a header passes."""
        known = table.entries.get(part.text)
        if known is None:
            known = Entry(part, Table(part.start, part.end, "implicit"))
            table.entries[part.text] = known
        value = known.value
        if is_open_list(value):
            return value.items[-1]
        if isinstance(value, Table) and value.made_by != "inline":
            return value
        message = f"{self.has_value(known)}, so no header can add to it"
        raise Fault(part.start, part.end, "" if value.kind == "unreadable" else message)

    def why_not_headed(self, name, is_list, known):
        """Why a header cannot name what is there under its last part."""
        line = self.lines.line(known.key.start)
        one, each = f"[{name}]", f"[[{name}]]"
        if is_list and is_made_by(known.value, "implicit"):
            return (
                f"{each} stands below a header that belongs into it, on line {line}: "
                f"put {each} first, and then its [[{name}.task]]"
            )
        if is_list and is_made_by(known.value, "header"):
            return f"{each} has two brackets, and {one} on line {line} has one: write {each} for each"
        if not is_list and is_made_by(known.value, "header"):
            return f"{one} stands twice, on line {line} and here: write {each}, with two brackets, for each"
        if not is_list and is_open_list(known.value):
            return f"{one} has one bracket, and {each} on line {line} has two: write {each} for each"
        return f"{self.has_value(known)}, so no header can make it"

    # Keys

    def define(self, table, parts, value):
        """Gives a key its value, in a table or below it where the key has dots."""
        for part in parts[:-1]:
            table = self.dotted(table, part)
        last = parts[-1]
        known = table.entries.get(last.text)
        if known is not None:
            line = self.lines.line(known.key.start)
            message = f"the key {shown(last.text)} stands twice in one table, on line {line} and here"
            raise Fault(last.start, last.end, message)
        table.entries[last.text] = Entry(last, value)

    def dotted(self, table, part):
        """The table of this name in another, through which a key with a dot passes."""
        known = table.entries.get(part.text)
        if known is None:
            known = Entry(part, Table(part.start, part.end, "dotted"))
            table.entries[part.text] = known
        if not is_made_by(known.value, "implicit", "dotted"):
            message = f"{self.has_value(known)}, so no key with a dot can add to it"
            raise Fault(part.start, part.end, message)
        known.value.made_by = "dotted"
        return known.value

    def has_value(self, known):
        return f"{shown(known.key.text)} has its value on line {self.lines.line(known.key.start)} already"


def is_open_list(value):
    return isinstance(value, Array) and value.is_open


def is_made_by(value, *makers):
    return isinstance(value, Table) and value.made_by in makers
