"""Notes on a task file: what the program takes, and what is likely not meant."""

import math

from .limits import SLOT_LIMIT


def long_separations(file):
    """A separation that makes the cycle more than twice as long as the rest of the set does."""
    if file.faults:
        return
    numbers = [graph.period for graph in file.set.graphs]
    separations = [task.separation for task in file.set.sporadics]
    for task in file.set.sporadics:
        others = [it for it in separations if it is not task.separation]
        without = math.lcm(*(it.value for it in numbers + others))
        cycle = math.lcm(without, task.separation.value)
        if 2 * without < cycle <= SLOT_LIMIT:
            shorter = max(it for it in range(1, task.separation.value) if without % it == 0)
            message = (
                f"separation = {task.separation.value} makes the cycle {cycle} slots long, and {without} "
                f"without it: a shorter one that keeps it at {without} is safe, as {shorter}"
            )
            file.tell_line("long separation", task, task.separation.entry.value, message)


NOTES = [long_separations]
