"""The limits of task files, arrivals files and commands, as docs/FORMATS.md lists them.

`checks/lint` holds each of these numbers, and the version, against those of the programs.
"""

VERSION = "1.0.0"

NAME_LIMIT = 24
GRAPH_LIMIT = 32
TASK_LIMIT = 32
AFTER_LIMIT = 31
SPORADIC_LIMIT = 8

# Longest period, separation, worst case and cycle, in slots.
SLOT_LIMIT = 8192

# Most soft jobs that wait at one time, and that limit where the task file tells none.
SOFT_LIMIT = 1024
SOFT_DEFAULT = 64

# Most rows, most slots of a soft or firm arrival, and the greatest number of an arrivals file.
ARRIVAL_LIMIT = 65_535
OFFER_LIMIT = 65_535
NUMBER_LIMIT = 4_294_967_295

# Most slots of a replay and of a chart, and the greatest number of a generated load.
REPLAY_LIMIT = 100_000
CHART_LIMIT = 200
LOAD_LIMIT = 32

# Most bytes of a task file and of an arrivals file.
TASK_FILE_LIMIT = 1_048_576
ARRIVALS_FILE_LIMIT = 4_194_304
