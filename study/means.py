"""Means with their 95 % intervals."""

import math
import statistics

# The half width of a 95 % interval in standard errors, by the number of values (Student's t).
STUDENT = {3: 4.303, 5: 2.776, 20: 2.093}


def interval(values):
    """The mean of these values and the half width of its 95 % interval, as text."""
    error = statistics.stdev(values) / math.sqrt(len(values))
    return f"{statistics.fmean(values):.4f}", f"{STUDENT[len(values)] * error:.4f}"
