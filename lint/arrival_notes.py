"""Notes on an arrivals file: rows that the program takes, and answers otherwise than was meant.

They look at rows without faults, beside a task file without faults.
"""

from .arrivals import number_of
from .demand import cycle_of
from .places import counted, shown


def firm_requests(file):
    """A request that no plan can grant, by its numbers alone."""
    cycle = cycle_of(file.tasks)
    for row in file.rows:
        if row.fields[1].text != "firm":
            continue
        slots, within = int(row.fields[2].text), int(row.fields[3].text)
        if within == 0:
            message = "WITHIN is 0, so it is answered late: WITHIN counts the slots from SLOT to the deadline"
        elif slots > within:
            asked = f"{counted(slots, 'slot')} within {within}"
            message = f"{asked} can never be granted; are SLOTS and WITHIN swapped?"
        elif within > cycle:
            message = (
                f"WITHIN is {within}, more than a cycle of {cycle} slots, so it is answered far: a request "
                "reaches a cycle ahead, and a graph with a longer period makes the cycle longer"
            )
        else:
            continue
        file.note("request", row, row.fields[3], message)


def absolute_deadlines(file):
    """Requests whose WITHIN grows with their slots, as times of deadlines do."""
    firm = [row for row in file.rows if row.fields[1].text == "firm"]
    slots = [int(row.fields[0].text) for row in firm]
    withins = [int(row.fields[3].text) for row in firm]
    grows = all(one < other for numbers in (slots, withins) for one, other in zip(numbers, numbers[1:]))
    if len(firm) >= 3 and grows and all(slot < within for slot, within in zip(slots, withins)):
        message = (
            "WITHIN grows from request to request, and is above SLOT in each: it counts from SLOT on, "
            "and is not the time of the deadline"
        )
        file.note("absolute deadline", firm[0], firm[0].fields[3], message)


def early_alarms(file):
    """An alarm that comes before its separation is over."""
    separations = {task.name.data: task.separation.value for task in file.tasks.sporadics}
    taken = {}
    for row in file.rows:
        if row.fields[1].text != "sporadic":
            continue
        name, slot = row.fields[2].text, int(row.fields[0].text)
        last, line = taken.get(name, (None, None))
        if last is None or slot >= last + separations[name]:
            taken[name] = slot, file.text.line(row.start)
            continue
        again = last + separations[name]
        message = (
            f"{shown(name)} came in slot {last} (line {line}) and may come again from slot {again} on: "
            "this one is answered soon, and is lost"
        )
        file.note("early alarm", row, row.fields[0], message)


def other_rows(file):
    """A row that names another row, which is no earlier one of its kind."""
    kinds = {row.number: row.fields[1].text for row in file.rows}
    for row in file.rows:
        kind, text = row.fields[1].text, row.fields[2].text
        if kind == "withdraw":
            wanted, number, answer = "firm", text, "nojob"
        elif kind == "done" and "#" not in text:
            word, _, number = text.replace("@", ":").partition(":")
            wanted = word if word in ("firm", "soft") and "@" not in text else "sporadic"
            answer = "notrunning"
        else:
            continue
        number = number_of(number)
        if number >= row.number:
            why = f"row {number} is no earlier row"
        elif kinds.get(number, wanted) != wanted:
            why = f"row {number} is {kinds[number]} and not {wanted}"
        else:
            continue
        message = f"{why}, so it is answered {answer}: rows count from 1, without empty lines"
        file.note("other row", row, row.fields[2], message)


def early_ends(file):
    """An early end of a job that cannot have begun, or that must have ended."""
    graphs = {graph.name.data: graph for graph in file.tasks.graphs}
    for row in file.rows:
        text = row.fields[2].text
        if row.fields[1].text != "done" or "#" not in text:
            continue
        names, _, instance = text.partition("#")
        graph = graphs[names.partition(".")[0]]
        release = int(instance) * graph.period.value + graph.offset.value
        due = release + graph.deadline.value
        slot = int(row.fields[0].text)
        if release < slot <= due:
            continue
        when = f"is released in slot {release}" if slot <= release else f"has ended by slot {due}"
        message = (
            f"{shown(text)} {when}: in slot {slot} its end is answered notrunning; instance k is "
            f"released in slot k * {graph.period.value} + {graph.offset.value}"
        )
        file.note("early end", row, row.fields[2], message)


NOTES = [firm_requests, absolute_deadlines, early_alarms, other_rows, early_ends]
