"""What is said of the keys and values of a task file that are wrong, and what to write instead."""

import re

from .limits import NAME_LIMIT, SLOT_LIMIT
from .places import did_you_mean, listed, nearest, shown

# The keys of each kind of table, in the order in which they are checked.
KEYS = {
    "file": ["soft", "graph", "sporadic"],
    "graph": ["name", "period", "offset", "deadline", "task"],
    "task": ["name", "wcet", "after"],
    "sporadic task": ["name", "wcet", "separation", "deadline"],
}

# How each kind of table begins in the file, and each list of tables.
HEADERS = {"graph": "[[graph]]", "task": "[[graph.task]]", "sporadic task": "[[sporadic]]"}
LISTS = {"graph": "[[graph]]", "task": "[[graph.task]]", "sporadic": "[[sporadic]]"}

# The lists that stand below no other table.
HEADER_KEYS = ["graph", "sporadic"]

# What a number says.
MEANINGS = {
    "period": "the slots from one release to the next",
    "wcet": "the most slots that one job of it takes",
    "separation": "the least slots from one arrival to the next",
    "offset": "the slot of the first release",
    "deadline": "the slots from a release to its deadline",
    "after": "the names of the tasks before it",
}

# Words of other tools and papers for a key, by the kind of table.
OTHER_WORDS = {
    "file": {"alarm": "sporadic", "alarms": "sporadic", "event": "sporadic"},
    "graph": {
        "phase": "offset", "start": "offset", "release": "offset", "due": "deadline",
        "cycle": "period", "interval": "period", "rate": "period",
    },
    "task": {
        "c": "wcet", "cost": "wcet", "time": "wcet", "slots": "wcet", "length": "wcet",
        "execution": "wcet", "budget": "wcet", "duration": "wcet", "runtime": "wcet",
        "depends": "after", "dependencies": "after", "predecessors": "after", "needs": "after",
    },
    "sporadic task": {
        "period": "separation", "interval": "separation", "interarrival": "separation", "sep": "separation",
        "mit": "separation", "distance": "separation", "due": "deadline",
        "c": "wcet", "cost": "wcet", "time": "wcet", "slots": "wcet", "budget": "wcet",
    },
}

NAME = re.compile(r"[A-Za-z][A-Za-z0-9_-]*")
KIND_WORDS = {
    "string": "a text",
    "integer": "a whole number",
    "float": "a number with a point",
    "boolean": "true or false",
    "date": "a date or a time",
    "array": "a list",
    "table": "a table",
}

TOO_MANY = {
    "graph": ("graphs", "join graphs of one period, or tasks that always run one after the other"),
    "task": ("tasks in a graph", "join tasks that always run one after the other"),
    "sporadic": ("sporadic tasks", "let a task of a short period look for the others"),
    "after": ("names in after", "a task that comes after another comes after all before that one"),
}


def kind_told(kind):
    return "the top of a file" if kind == "file" else f"a {kind}"


def unknown_key(part, key, line, text, known=None):
    """What to do with a key that a table does not have. It stands in this line of the text."""
    known = known or KEYS
    lower = key.lower()
    if part.kind == "file" and lower in ("task", "tasks"):
        return ": a task belongs to a graph, so write [[graph.task]] below its [[graph]]"
    if lower in OTHER_WORDS[part.kind]:
        word = OTHER_WORDS[part.kind][lower]
        meaning = f", {MEANINGS[word]}" if word in MEANINGS else ""
        return f": {kind_told(part.kind)} has {LISTS.get(word, word)} for it{meaning}"
    if key in HEADER_KEYS and line.startswith("["):
        return f": it belongs to no {part.kind}, so write {LISTS[key]}"
    if key in known["file"]:
        return (
            ": it belongs at the top of the file, before the first [[graph]]; here it is a key of "
            f"{HEADERS[part.kind]} in line {text.line(part.table.start)}"
        )
    kinds = [kind for kind, keys in known.items() if key in keys]
    if kinds:
        places = listed((f"{kind_told(kind)}, below {HEADERS[kind]}" for kind in kinds), "or")
        return f": it is a key of {places}"
    word = nearest(key, known[part.kind])
    if word and line.startswith("["):
        return f"; did you mean {line.replace(key, word, 1)}?"
    if word:
        return did_you_mean(key, known[part.kind])
    return f": {kind_told(part.kind)} has only {listed(known[part.kind])}; a remark stands behind #"


def meant_keys(part, known=None):
    """The keys of a table that its unknown ones may be meant to be."""
    known = known or KEYS
    found = [key for key in part.table.entries if key not in known[part.kind]]
    return [nearest(key, known[part.kind]) for key in found] + [
        OTHER_WORDS[part.kind].get(key.lower()) for key in found
    ]


def missing_key(kind, key, has_alarms):
    """How to write a key that has to be there."""
    if key == "graph":
        alone = "; a system of alarms alone has one of a single slot and a long period" if has_alarms else ""
        return f"no graph: begin one with [[graph]], and give it a name, a period and tasks{alone}"
    if key == "task":
        return "no task: add [[graph.task]] below it, with a name and a wcet"
    if key == "name":
        return f'no name: add name = ".." below {HEADERS[kind]}'
    return f"no {key}: add {key} = .., {MEANINGS[key]}, 1 to {SLOT_LIMIT}"


def wrong_kind(key, value, written, kind):
    """What is wrong with a value of another kind, and what to write."""
    if value.kind == "table" and key in LISTS:
        if value.made_by == "implicit":
            return f"no {LISTS[key]} stands before what belongs into it: begin with a line {LISTS[key]}"
        return f"{key} is one table here: write {LISTS[key]}, with two brackets, for each {key}"
    if key == "after":
        example = written if value.kind == "string" else '"read"'
        return f"after is {written}: it is a list of names, as after = [{example}]"
    if kind == "array":
        return f"{key} is {written}: it is a list of tables, so write {LISTS[key]} for each"
    # (what makes a table may be a header, or a key with a point)
    if value.kind == "table":
        example = '"read"' if kind == "string" else "10"
        return f"{key} is a table here: write one value, as {key} = {example}"
    if kind == "string":
        return f'{key} = {written} is {KIND_WORDS[value.kind]}: write a text in quotes, as {key} = "read"'
    if value.kind == "float" and "." not in written:
        return f"{key} = {written} is no whole number: write its digits alone, as {key} = 10"
    return f"{key} = {written} is {KIND_WORDS[value.kind]}: {whole_number_for(value, written)}"


def whole_number_for(value, written):
    """What to write for a value that should be a whole number."""
    whole = re.fullmatch(r"([+-]?[0-9]+)\.0+", written)
    if value.kind == "float" and whole:
        return f"write {whole[1]}, without a point"
    if value.kind == "float":
        return "write whole slots, a worst case and an offset rounded up, other lengths down"
    if value.kind == "string" and re.fullmatch(r"[0-9]+", value.data):
        return f"write {value.data}, without quotes"
    if value.kind == "string":
        return "write a whole number of slots without quotes and without a unit, as 10"
    return "write a whole number of slots, as 10"


def why_no_name(text):
    """Why a text is no name, and what one is, or none where it is one."""
    if len(text) <= NAME_LIMIT and NAME.fullmatch(text):
        return None
    rule = f"a name has 1 to {NAME_LIMIT} characters, a letter first and then letters, digits, _ and -"
    strange = re.search(r"[^A-Za-z0-9_-]", text)
    if not text:
        return f"the name is empty: {rule}"
    if NAME.fullmatch(text):
        return f"the name {shown(text)} has {len(text)} characters: {rule}"
    if strange:
        why = "has a space in it" if strange[0] == " " else f"has {shown(strange[0])} in it"
    else:
        why = f"begins with {shown(text[0])}"
    plain = re.sub(r"[^A-Za-z0-9_-]+", "_", text)[:NAME_LIMIT].rstrip("_-")
    return f"the name {shown(text)} {why}: {rule}{', as ' + shown(plain) if NAME.fullmatch(plain) else ''}"


def too_many(key, count, most):
    what, cure = TOO_MANY[key]
    return f"{count} {what}, and {most} is the most: {cure}"
