"""Files and their bytes: what cannot be read, what is no text, and what is a file of another kind."""

import os
import re

from .places import nearest

MARK = b"\xef\xbb\xbf"
OTHER_MARKS = {
    b"\xff\xfe\0\0": "UTF-32",
    b"\0\0\xfe\xff": "UTF-32",
    b"\xff\xfe": "UTF-16",
    b"\xfe\xff": "UTF-16",
}
KINDS = r"soft|firm|sporadic|done|withdraw"
TOML = 'a task file is TOML, in which a graph begins with [[graph]] and name = ".." below it'


class CannotRead(Exception):
    """A file that cannot be read, or has too many bytes, with the reason."""


def bytes_of(name, most):
    """The bytes of a file, at most so many."""
    try:
        with open(name, "rb") as file:
            data = file.read(most + 1)
    except OSError as error:
        raise CannotRead(f"cannot read {name}: {reason(error)}{near_file(name)}") from None
    except ValueError:
        raise CannotRead(f"cannot read {name!r}: the name of a file has no byte 0") from None
    if len(data) > most:
        raise CannotRead(f"cannot read {name}: it has more than {most} bytes, which are the most")
    return data


def reason(error):
    if isinstance(error, IsADirectoryError):
        return "it is a folder: name a file in it"
    if isinstance(error, FileNotFoundError):
        return "there is no such file"
    if isinstance(error, PermissionError):
        return "you may not read it"
    return os.strerror(error.errno).lower()


def near_file(name):
    """The file of the same folder whose name is most like this one."""
    folder, base = os.path.split(name)
    try:
        found = nearest(base, os.listdir(folder or ".")) if base else None
    except FileNotFoundError:
        return f"; there is no folder {folder} either"
    except OSError:
        return ""
    return f"; did you mean {os.path.join(folder, found)}?" if found and found != base else ""


def encoding_of(data):
    """The encoding that the bytes have where it is not UTF-8, as their mark or their zeros say."""
    for mark, name in OTHER_MARKS.items():
        if data.startswith(mark):
            return name
    # (in UTF-16 most of the zeros are every second byte)
    front = data[:200]
    less, more = sorted((front[::2].count(0), front[1::2].count(0)))
    is_wide = len(front) >= 4 and 3 * more >= len(front) and 4 * less <= more and front[:4] != b"SLOT"
    return "UTF-16" if is_wide else None


def characters_of(data):
    """The characters of UTF-8 bytes without their mark. A byte that is no UTF-8 is kept as the
    half of a pair of surrogates, as Python does for names of files."""
    data = data[len(MARK) :] if data.startswith(MARK) else data
    return data.decode("utf-8", "surrogateescape")


def strange_bytes(characters):
    """Where bytes stand that are no UTF-8: the first one of each line."""
    return [it.start(1) for it in re.finditer(r"([\udc80-\udcff])[^\n]*", characters)]


def byte_told(character):
    """A byte that is no UTF-8, with what it is in the older encoding of Western Europe."""
    number = ord(character) - 0xDC00
    latin = bytes([number]).decode("cp1252", "replace")
    as_latin = f" (in Latin-1 it is {latin})" if latin.isprintable() and number >= 0xA0 else ""
    return f"the byte {number:02X}{as_latin} is no UTF-8: save the file as UTF-8"


def look_of(characters):
    """What a text looks like that is no TOML from its first line on, or none."""
    lines = [it for it in characters.split("\n") if it.strip() and not it.lstrip().startswith("#")]
    first = lines[0].strip() if lines else ""
    if re.match(r"SLOT[\0-\x08\x0e-\x1f]", characters):
        return "a binary table, which slotshift table wrote: name the task file from which it was made"
    if re.match(rf'"?[0-9]+"?\s*[,;\t]\s*"?(?:{KINDS})', first) or re.match(r"[0-9]+\s*,", first):
        return "an arrivals file, and a task file is due here (slotlint takes arrivals behind --tasks T)"
    if re.match(r"[0-9]+ (?:start|run|idle)\b", first):
        return "a trace: name the task file from which it was made"
    if first.startswith("{"):
        return f"JSON: {TOML}"
    if re.match(r"<[A-Za-z!?]", first):
        return f"XML: {TOML}"
    # (a colon in the first line alone may be meant as the sign of a key)
    with_colon = [it for it in lines if re.match(r"\s*(?:- )?\s*[A-Za-z_]+:(?:\s|$)", it)]
    has_colons = re.match(r"[A-Za-z_]+:(?:\s|$)", first) and 2 * len(with_colon) > len(lines)
    if first == "---" or re.match(r"- +[^\s=.]", first) or has_colons:
        return f"YAML: {TOML}"
    return None


def is_task_file(characters):
    """Whether a text looks like a task file."""
    return bool(re.search(r"(?m)^[ \t]*\[\[?[ \t]*(?:graph|sporadic)\b", characters))
