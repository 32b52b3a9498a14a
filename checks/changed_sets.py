"""Task files near their limits, and one or more changes of each: for checks/lint.

A set is made with numbers that often just fit, or just do not. A file may spell it in any order of
its keys, with defaults left out or written. Then a part of it is changed so that a rule is broken,
or bytes of it are.
"""

CYCLES = [1, 2, 4, 6, 8, 10, 12, 16, 20, 24, 30, 36, 40, 48, 60, 64, 96, 128, 240]
NAMES = ["", "9a", "a.b", "a b", "x" * 24, "x" * 25, "Z_-9", "g0", "t0", "s0"]
NUMBERS = [-1, 0, 1, 2, 3, 5, 7, 11, 8191, 8192, 8193, 2**31, 2**63 - 1, 2**63, -(2**63), -(2**63) - 1]
NUMBERS += ["1.0", '"1"', "0x10", "0o17", "0o18", "0b11", "0b12", "010", "1_0", "1__0", "1e3", "-0", "[]", "{}"]
LINES = [
    *("soft = 1", "soft = 1025", "graph = []", "graph = 1", "[[graph]]", "[graph]", "[[graph.task]]"),
    *("[graph.task]", "[[sporadic]]", "[sporadic]", "sporadic = []", "after = []", 'after = ["t0"]'),
    *('after = ["t0", "t0"]', 'after = "t0"', "after = [1]", "offset = 0", "offset = -1", "deadline = 0"),
    *("deadline = 1", "wcet = 1", "wcet = 0", "period = 9", "period = 10ms", "perid = 8", "colour = 1"),
    *('name = "w"', "name = w", 'name = "w', "task.name = 1", "x.y = 1", "# a remark", "// a remark"),
    *("}", "]", "= 1", "a b", '"""', "[[", "wcet = 1 wcet = 2", "\t", "\r", "\x7f"),
]


def divisors(number):
    return [it for it in range(1, number + 1) if number % it == 0]


def random_set(rng):
    """A set as plain dictionaries, in the words of the file."""
    cycle = rng.choice(CYCLES)
    periods = [it for it in divisors(cycle) if it * 8 >= cycle]
    graphs = [random_graph(rng, index, rng.choice(periods)) for index in range(rng.choice([1, 1, 2, 3]))]
    alarms = [random_alarm(rng, index, rng.choice(periods)) for index in range(rng.choice([0, 0, 1, 2]))]
    made = {"graph": graphs, "sporadic": alarms}
    return made | ({"soft": rng.choice([1, 64, 1024])} if rng.random() < 0.3 else {})


def random_graph(rng, index, period):
    offset = 0 if rng.random() < 0.6 else rng.randrange(period)
    deadline = rng.choice([period - offset, rng.randint(1, period - offset)])
    count = rng.randint(1, 4)
    share = max(1, deadline // rng.choice([count, count, 2 * count]))
    tasks = [random_task(rng, number, count, share) for number in range(count)]
    graph = {"name": f"g{index}", "period": period, "task": tasks}
    if offset or rng.random() < 0.2:
        graph["offset"] = offset
    if deadline != period - offset or rng.random() < 0.2:
        graph["deadline"] = deadline
    return graph


def random_task(rng, number, count, share):
    task = {"name": f"t{number}", "wcet": rng.randint(1, share)}
    before = [f"t{it}" for it in range(count) if it < number and rng.random() < 0.5]
    return task | ({"after": before} if before or rng.random() < 0.1 else {})


def random_alarm(rng, index, separation):
    deadline = rng.randint(1, separation)
    wcet = rng.choice([1, 1, rng.randint(1, deadline)])
    return {"name": f"s{index}", "wcet": wcet, "separation": separation, "deadline": deadline}


def edge_set(rng):
    """A set with little room at the end of a cycle and at its beginning, and alarms that are due
    soon, so that a window that fails may reach from one cycle into the next."""
    period = rng.choice([6, 8, 10, 12])
    last, first = rng.randint(1, 3), rng.randint(1, 2)
    graphs = [
        {"name": "last", "period": period, "offset": period - last, "deadline": last},
        {"name": "first", "period": period, "deadline": first},
    ]
    for graph, room in zip(graphs, (last, first)):
        graph["task"] = [{"name": "t0", "wcet": max(1, room - rng.randrange(2))}]
    alarms = [random_alarm(rng, index, period * rng.choice([1, 2])) for index in range(rng.randint(1, 2))]
    for alarm in alarms:
        alarm["deadline"] = rng.randint(1, min(period, last + first + 2))
        alarm["wcet"] = 1
    return {"graph": graphs, "sporadic": alarms}


def broken(rng, tasks):
    """A change of one part of the set: a number, a name, an entry of after, or how many there are."""
    inner = [task for graph in tasks["graph"] for task in graph.get("task", [])]
    part = rng.choice([*tasks["graph"], *inner, *tasks["sporadic"]])
    kind = rng.randrange(6)
    numbers = [key for key, value in part.items() if isinstance(value, int)]
    if kind == 0:
        part["name"] = rng.choice(NAMES)
    elif kind in (1, 2) and numbers:
        key = rng.choice(numbers)
        part[key] = rng.choice([*NUMBERS, part[key] + 1, 2 * part[key]])
    elif kind == 3:
        part["after"] = rng.choice([["t1"], ["t0", "t1"], ["t0", "t0"], ["none"], ["t3", "t2"]])
    elif kind == 4 and part:
        del part[rng.choice(list(part))]
    else:
        many(rng, tasks)
    return tasks


def many(rng, tasks):
    """Gives a list as many items as it may have, or one more."""
    key, most = rng.choice([("graph", 32), ("sporadic", 8), ("task", 32)])
    items = tasks["graph"][0].get("task", []) if key == "task" else tasks[key]
    if not items:
        return
    first = dict(items[0])
    count = most + rng.randrange(2)
    items[:] = [first | {"name": f"m{it}"} for it in range(count)]


def spelled(rng, tasks):
    """A file that writes the set."""
    lines = pairs(rng, {key: value for key, value in tasks.items() if key == "soft"})
    for graph in tasks.get("graph", []):
        lines += ["[[graph]]", *pairs(rng, {key: value for key, value in graph.items() if key != "task"})]
        for task in graph.get("task", []):
            lines += ["[[graph.task]]", *pairs(rng, task)]
    for alarm in tasks.get("sporadic", []):
        lines += ["[[sporadic]]", *pairs(rng, alarm)]
    return "".join(f"{line}\n" for line in lines)


def pairs(rng, table):
    """The keys of a table, each on its line."""
    items = list(table.items())
    if rng.random() < 0.3:
        rng.shuffle(items)
    return [f"{key} = {written(key, value)}" for key, value in items]


def written(key, value):
    if key == "name":
        return f'"{value}"'
    return "[" + ", ".join(f'"{it}"' for it in value) + "]" if isinstance(value, list) else value


def changed_lines(rng, text):
    """The file with lines put in, left out, doubled or exchanged."""
    lines = text.splitlines(keepends=True)
    for _ in range(rng.choice([1, 1, 2, 3])):
        at = rng.randrange(len(lines) + 1)
        kind = rng.randrange(4)
        if kind < 2 or not lines:
            lines.insert(at, rng.choice(LINES) + "\n")
        elif kind == 2:
            del lines[at % len(lines)]
        else:
            lines.insert(at, lines[rng.randrange(len(lines))])
    return "".join(lines)


def random_file(rng):
    """The bytes of a task file: right, broken, or with changed lines."""
    if rng.random() < 0.1:
        return spelled(rng, edge_set(rng)).encode()
    tasks = random_set(rng)
    for _ in range(rng.choice([0, 1, 1, 2])):
        tasks = broken(rng, tasks)
    text = spelled(rng, tasks)
    if rng.random() < 0.4:
        text = changed_lines(rng, text)
    return text.encode()
