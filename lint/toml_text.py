"""A reader of TOML that keeps the place of each header, key and value, and goes on after a fault.

It takes the documents that the program takes, TOML 1.1: an inline table may have line ends and a
comma at its end, `\\e` and `\\xHH` are escapes, and a time may leave out its seconds. Keys have at
most 80 parts, and arrays and inline tables stand at most 80 deep in one another.
"""

import re

from . import toml_faults as faults
from .toml_nodes import Array, Entry, Fault, Part, Scalar, Table, unreadable
from .toml_tables import Tables
from .toml_words import value_of

DEEPEST = 80
MOST_FAULTS = 100

# Of a line and of a text on it, the characters that it may not have.
CONTROLS = r"\x00-\x08\x0a-\x1f\x7f"
SPACES = re.compile(r"[ \t]*")
BLANK = re.compile(rf"(?:[ \t\n]+|\r\n|#[^{CONTROLS}]*(?=\r?\n|\Z))*")
COMMENT = re.compile(rf"#[^{CONTROLS}]*")
LINE_END = re.compile(r"\r?\n|")
BARE_KEY = re.compile(r"[A-Za-z0-9_-]+")
# A space before a digit joins a date and a time.
WORD = re.compile(r"[A-Za-z0-9_+.:-]+(?: (?=[0-9])[A-Za-z0-9_+.:-]+)?")
NO_PART_OF_IT = re.compile(r"[^ \t\r\n,\]}#]*")
PLAIN = {
    '"': re.compile(rf'[^"\\{CONTROLS}]*'),
    "'": re.compile(rf"[^'{CONTROLS}]*"),
    '"""': re.compile(r'(?:[^"\\\x00-\x08\x0b-\x1f\x7f]+|\r\n)*'),
    "'''": re.compile(r"(?:[^'\x00-\x08\x0b-\x1f\x7f]+|\r\n)*"),
}
QUOTES = {'"': re.compile('"*'), "'": re.compile("'*")}
ESCAPES = dict(zip('bfnrt"\\e', '\b\f\n\r\t"\\\x1b'))
HEX_LENGTHS = {"x": 2, "u": 4, "U": 8}
FOLDED = re.compile(r"[ \t]*\r?\n(?:[ \t\n]|\r\n)*")
# How a line begins that is a statement of its own: with a header, or with a key and its sign.
STATEMENT = re.compile(r"^[ \t]*(?:\[\[?[ \t]*[A-Za-z_\"']|[A-Za-z0-9_\"'-][^\n=]*=)", re.M)


class Document:
    """The top table of a text, the faults of its syntax, each with the table in which it stands,
    and whether a header could not be read, so that a table may be missing."""

    def __init__(self, text):
        reader = Reader(text)
        reader.read_document()
        self.top = reader.tables.top
        self.faults = reader.faults
        self.has_lost_tables = reader.has_lost_tables


class Reader:
    """Reads a text from `at` on. `section` is the table of the last header."""

    def __init__(self, text):
        self.text = text.characters
        self.at = 0
        self.tables = Tables(text)
        self.section = self.tables.top
        self.faults = []
        self.told = set()
        self.has_lost_tables = False

    # Statements

    def read_document(self):
        """Reads each statement. After a faulty one it goes on with the next line that looks like
        the beginning of another."""
        while True:
            self.skip(BLANK)
            begin = self.at
            if begin == len(self.text):
                return
            if len(self.faults) == MOST_FAULTS:
                self.tables.top.is_whole = self.section.is_whole = False
                self.has_lost_tables = True
                return
            try:
                self.read_statement()
            except Fault as fault:
                if fault.message and fault.start not in self.told:
                    self.faults.append((fault, self.section))
                self.told.add(fault.start)
                self.at = self.next_statement(begin, fault.stopped)

    def next_statement(self, begin, stopped):
        """Where a line begins like a statement, from the one on in which reading stopped, but
        after the line of `begin`. What is passed over may have had keys of the section."""
        line_end = self.text.find("\n", begin)
        if line_end < 0:
            return len(self.text)
        begin = max(line_end, self.text.rfind("\n", 0, stopped)) + 1
        found = STATEMENT.search(self.text, begin)
        end = found.start() if found else len(self.text)
        if self.text[begin:end].strip():
            self.section.is_whole = False
        return end

    def read_statement(self):
        if self.next_is("["):
            self.read_header()
        else:
            self.read_pair()

    def read_header(self):
        """Reads a header. What stands below one that is faulty belongs to no table."""
        begin = self.at
        brackets = 2 if self.next_is("[[") else 1
        try:
            self.at += brackets
            self.skip(SPACES)
            parts = self.read_key()
            if not self.next_is("]" * brackets):
                raise faults.no_closing(self.text, begin, brackets)
            self.at += brackets
            end = self.at
            self.end_line(begin)
            self.section = self.tables.headed(parts, brackets == 2, begin, end)
        except Fault:
            self.section = Table(begin, self.at, "lost")
            self.has_lost_tables = True
            raise

    def read_pair(self):
        """Reads a key with its value. Where the value is faulty the key is there all the same."""
        try:
            parts = self.read_key()
        except Fault:
            self.section.is_whole = False
            raise
        try:
            value = self.read_value_of(parts, 0)
            self.end_line(value.start)
        except Fault as fault:
            self.section.entries.setdefault(parts[0].text, Entry(parts[0], unreadable(fault)))
            raise
        self.tables.define(self.section, parts, value)

    def end_line(self, begin):
        """After the statement that begins here its line ends, or goes on with a comment."""
        self.skip(SPACES)
        if self.at < len(self.text) and self.text[self.at] not in "#\r\n":
            raise faults.too_much(self.text, begin, self.at)

    # Keys

    def read_key(self):
        """The parts of a key, with the spaces after it."""
        parts = [self.read_part()]
        while self.next_is("."):
            self.at += 1
            self.skip(SPACES)
            if len(parts) == DEEPEST:
                raise Fault(parts[0].start, self.at, f"this key has more than {DEEPEST} parts")
            parts.append(self.read_part())
        return parts

    def read_part(self):
        begin = self.at
        if self.next_is('"') or self.next_is("'"):
            text = self.read_text(self.text[begin])
        else:
            found = BARE_KEY.match(self.text, begin)
            if not found:
                comment = COMMENT.match(self.text, begin)
                raise faults.no_key(self.text, begin, comment.end() if comment else begin)
            text = found[0]
            self.at = found.end()
        part = Part(text, begin, self.at)
        self.skip(SPACES)
        return part

    # Values

    def read_value_of(self, parts, depth):
        """The value behind a key and its sign, so deep in arrays and inline tables."""
        if not self.next_is("="):
            raise faults.no_sign(self.text, self.at, parts)
        self.at += 1
        self.skip(SPACES)
        if self.at == len(self.text) or self.text[self.at] in "\r\n#":
            raise faults.nothing_behind_sign(self.at, parts)
        return self.read_value(depth)

    def read_value(self, depth):
        if depth < DEEPEST and self.next_is("["):
            return self.read_array(depth)
        if depth < DEEPEST and self.next_is("{"):
            return self.read_inline_table(depth)
        begin = self.at
        if self.next_is('"') or self.next_is("'"):
            quote = self.text[begin]
            text = self.read_text(3 * quote if self.next_is(3 * quote) else quote)
            return Scalar("string", text, begin, self.at)
        return self.read_word()

    def read_word(self):
        """Reads a number, a boolean or a date."""
        begin = self.at
        word = WORD.match(self.text, begin)
        end = word.end() if word else begin
        # (what follows directly is no part of a value, but belongs to it for a reader)
        whole = NO_PART_OF_IT.match(self.text, end).end()
        value = value_of(word[0]) if word and whole == end else None
        if value is None:
            raise faults.no_value(self.text, begin, whole, DEEPEST)
        self.at = end
        return Scalar(*value, begin, end)

    def read_array(self, depth):
        begin = self.at
        items = []
        self.read_items("]", lambda: items.append(self.read_value(depth + 1)))
        return Array(items, begin, self.at)

    def read_inline_table(self, depth):
        begin = self.at
        table = Table(begin, begin, "inline")
        self.read_items("}", lambda: self.read_member(table, depth + 1))
        table.end = self.at
        return table

    def read_member(self, table, depth):
        parts = self.read_key()
        value = self.read_value_of(parts, depth)
        self.tables.define(table, parts, value)

    def read_items(self, closing, read_item):
        """Reads the items of an array or an inline table, from its opening to its closing."""
        begin = self.at
        self.at += 1
        while True:
            self.skip(BLANK)
            if self.next_is(closing):
                self.at += 1
                return
            try:
                read_item()
                self.read_comma(closing)
            except Fault as fault:
                if fault.stopped == len(self.text) or self.begins_statement(begin):
                    raise faults.not_closed(begin, self.at, closing) from None
                raise

    def read_comma(self, closing):
        """After an item comes a comma, or what closes the array or table, which stays."""
        self.skip(BLANK)
        if self.next_is(","):
            self.at += 1
        elif not self.next_is(closing):
            raise faults.no_comma(self.text, self.at, closing)

    def begins_statement(self, begin):
        """Whether reading has stopped in a line that looks like a statement of its own, after the
        one in which an array or a table begins."""
        line_begin = self.text.rfind("\n", 0, self.at) + 1
        if line_begin <= begin or not STATEMENT.match(self.text, line_begin):
            return False
        # (a member of a table that has lines looks like a key of its own)
        return self.text[begin] == "[" or self.text[line_begin:].lstrip(" \t").startswith("[")

    # Texts

    def read_text(self, quotes):
        """What stands between quotes, one or three on each side."""
        begin = self.at
        self.at += len(quotes)
        if len(quotes) == 3:
            self.skip(LINE_END)
        pieces = []
        while True:
            plain = PLAIN[quotes].match(self.text, self.at)
            pieces.append(plain[0])
            self.at = plain.end()
            if self.next_is(quotes[0]):
                piece = self.read_quotes(quotes)
                if piece is None:
                    return "".join(pieces)
                pieces.append(piece)
            elif quotes[0] == '"' and self.next_is("\\"):
                pieces.append(self.read_escape(len(quotes) == 3))
            else:
                raise faults.no_text(self.text, begin, self.at, quotes)

    def read_quotes(self, quotes):
        """The quotes of a text that stand for themselves, or none where they close it. In a long
        text one or two do, also before the three that close it."""
        count = QUOTES[quotes[0]].match(self.text, self.at).end() - self.at
        if len(quotes) == 1 or count == 3:
            self.at += len(quotes)
            return None
        if count > 5:
            raise Fault(self.at, self.at + count, "more than five quotes stand in a row here")
        own = count if count < 3 else count - 3
        self.at += own
        return quotes[0] * own

    def read_escape(self, is_long):
        """What a backslash and the characters after it stand for. In a long text one at the end of
        a line takes the line end and the spaces around it away."""
        begin = self.at
        self.at += 1
        folded = FOLDED.match(self.text, self.at) if is_long else None
        if folded:
            self.at = folded.end()
            return ""
        letter = self.text[self.at : self.at + 1]
        if letter in ESCAPES:
            self.at += 1
            return ESCAPES[letter]
        length = HEX_LENGTHS.get(letter, 0)
        digits = self.text[self.at + 1 : self.at + 1 + length]
        if length and re.fullmatch(f"[0-9A-Fa-f]{{{length}}}", digits):
            number = int(digits, 16)
            if number < 0xD800 or 0xE000 <= number <= 0x10FFFF:
                self.at += 1 + length
                return chr(number)
        raise faults.no_escape(self.text, begin, self.at)

    # Characters

    def next_is(self, text):
        return self.text.startswith(text, self.at)

    def skip(self, form):
        self.at = form.match(self.text, self.at).end()
