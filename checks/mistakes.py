"""Mistakes that people make in task files, in arrivals files and in the words of a command.

Of each: its name, what is changed, the line on which it stands, and words that a reader needs who
has nothing but the message: what is wrong there, and what to write or on what it depends. They are
written from the mistake, not from the message. Line 0 says that there is no fault.
"""

TASKS = """soft = 16

[[graph]]
name = "loop"
period = 10

[[graph.task]]
name = "read"
wcet = 1

[[graph.task]]
name = "control"
wcet = 2
after = ["read"]

[[sporadic]]
name = "alarm"
wcet = 1
separation = 20
deadline = 5
"""

GRAPH = '[[graph]]\nname = "loop"\nperiod = 10\n'
READ = '[[graph.task]]\nname = "read"\nwcet = 1\n'
CONTROL = '[[graph.task]]\nname = "control"\nwcet = 2\nafter = ["read"]\n'
ALARM = '[[sporadic]]\nname = "alarm"\nwcet = 1\nseparation = 20\ndeadline = 5\n'
SLOW = '\n[[graph]]\nname = "slow"\nperiod = 997\n\n[[graph.task]]\nname = "log"\nwcet = 1\n'


def alarms(count):
    return "".join(f'[[sporadic]]\nname = "a{n}"\nwcet = 1\nseparation = 20\n' for n in range(count))


def graphs(count):
    task = '[[graph.task]]\nname = "t"\nwcet = 1\n'
    return "".join(f'[[graph]]\nname = "g{n}"\nperiod = 100\n{task}' for n in range(count))


# Of each: name, a text of TASKS, what stands instead of it, line, words.
TASK_MISTAKES = [
    ("a letter left out of a key", "period = 10", "perid = 10", 5, ["perid", "period"]),
    ("a key with a capital", 'name = "loop"', 'Name = "loop"', 4, ["Name", '"name"']),
    ("a key in capitals", "wcet = 2", "WCET = 2", 13, ["WCET", "wcet"]),
    ("graphs for graph", "[[graph]]", "[[graphs]]", 3, ["graphs", "[[graph]]"]),
    ("tasks for task", READ, READ.replace("graph.task", "graph.tasks"), 7, ["tasks", "[[graph.task]]"]),
    ("single brackets", "[[graph]]", "[graph]", 3, ["[[graph]]"]),
    ("task without graph", READ, READ.replace("graph.task", "task"), 7, ["task", "[[graph.task]]"]),
    ("graphs.task", READ, READ.replace("graph.task", "graphs.task"), 7, ["graphs", "[[graph"]),
    ("a float that is whole", "period = 10", "period = 10.0", 5, ["10.0", "write 10"]),
    ("a float", "wcet = 2", "wcet = 2.5", 13, ["2.5", "whole slots", "rounded up"]),
    ("a unit in quotes", "period = 10", 'period = "10ms"', 5, ["10ms", "slots", "unit"]),
    ("a unit", "period = 10", "period = 10ms", 5, ["10ms", "slots", "unit"]),
    ("a number in quotes", "period = 10", 'period = "10"', 5, ["write 10", "quotes"]),
    ("a hexadecimal number", "period = 10", "period = 0x0A", 0, []),
    ("an underscore in a number", "period = 10", "period = 1_0", 0, []),
    ("a plus", "period = 10", "period = +10", 0, []),
    ("a leading zero", "period = 10", "period = 010", 5, ["zero", "write 10"]),
    ("a negative worst case", "wcet = 2", "wcet = -2", 13, ["-2", "1 to 8192"]),
    ("a worst case of 0", "wcet = 2", "wcet = 0", 13, ["0", "1 to 8192"]),
    ("a worst case above the period", "wcet = 2", "wcet = 12", 13, ["12", "deadline of 10", "line 5"]),
    ("a deadline above the period", "period = 10", "period = 10\ndeadline = 12", 6,
     ["12", "1 to 10", "period", "line 5"]),
    ("a deadline of 0", "period = 10", "period = 10\ndeadline = 0", 6, ["0", "1 to 10"]),
    ("an offset of a period", "period = 10", "period = 10\noffset = 10", 6, ["10", "0 to 9", "period"]),
    ("offset and deadline above the period", "period = 10", "period = 10\noffset = 4\ndeadline = 8", 7,
     ["8", "1 to 6", "offset", "4 (line 6)", "10 (line 5)"]),
    ("period for separation", "separation = 20", "period = 20", 19, ["period", "separation"]),
    ("an alarm's deadline above its separation", "deadline = 5", "deadline = 25", 20,
     ["25", "1 to 20", "separation", "line 19"]),
    ("no separation", "separation = 20\n", "", 16, ["separation", "1 to 8192"]),
    ("no name", 'name = "loop"\n', "", 3, ["name = "]),
    ("no period", "period = 10\n", "", 3, ["period", "1 to 8192"]),
    ("no worst case", "wcet = 2\n", "", 11, ["wcet", "1 to 8192"]),
    ("no tasks", READ + "\n" + CONTROL, "", 3, ["[[graph.task]]"]),
    ("alarms alone", GRAPH + "\n" + READ + "\n" + CONTROL, "", 1, ["[[graph]]", "single slot"]),
    ("a task before its graph", GRAPH, READ.replace("read", "first") + "\n" + GRAPH, 7,
     ["[[graph]]", "[[graph.task]]", "line 3"]),
    ("soft at the end", "deadline = 5\n", "deadline = 5\nsoft = 16\n", 21,
     ["soft", "top of the file", "[[sporadic]]"]),
    ("two tasks of one name", 'name = "control"', 'name = "read"', 12, ["read", "line 8"]),
    ("two graphs of one name", ALARM, GRAPH + READ, 17, ["loop", "line 4"]),
    ("a key twice", "period = 10", "period = 10\nperiod = 20", 6, ["period", "twice", "line 5"]),
    ("a name with a space", 'name = "control"', 'name = "con trol"', 12, ["con trol", "space", "con_trol"]),
    ("a name with a dot", 'name = "control"', 'name = "loop.control"', 12, ["loop.control", '"."', "letters"]),
    ("a name that begins with a digit", 'name = "control"', 'name = "1control"', 12, ["1control", "a letter"]),
    ("a name with an umlaut", 'name = "control"', 'name = "steuergröße"', 12, ["ö", "letters"]),
    ("a name of 25 characters", 'name = "control"', f'name = "{"c" * 25}"', 12, ["25", "24"]),
    ("an empty name", 'name = "control"', 'name = ""', 12, ["empty", "letter"]),
    ("a name without quotes", 'name = "control"', "name = control", 12, ["quotes", '"control"']),
    ("single quotes", 'name = "control"', "name = 'control'", 0, []),
    ("after with a text", 'after = ["read"]', 'after = "read"', 14, ["list", '["read"]']),
    ("after with an unknown name", 'after = ["read"]', 'after = ["raed"]', 14, ["raed", "read", "loop"]),
    ("after with its own name", 'after = ["read"]', 'after = ["control"]', 14, ["control", "itself"]),
    ("after with graph and task", 'after = ["read"]', 'after = ["loop.read"]', 14, ["loop.read", 'write "read"']),
    ("after with a name twice", 'after = ["read"]', 'after = ["read", "read"]', 14, ["read", "twice"]),
    ("a loop", "wcet = 1\n\n[[graph.task]]", 'wcet = 1\nafter = ["control"]\n\n[[graph.task]]', 10,
     ["read", "control", "loop"]),
    ("a comma at the end of a list", 'after = ["read"]', 'after = ["read",]', 0, []),
    ("tabs", 'after = ["read"]', '\tafter\t=\t["read"]', 0, []),
    ("CR and LF", "\n", "\r\n", 0, []),
    ("a byte order mark", "soft = 16", "\ufeffsoft = 16", 0, []),
    ("UTF-16", None, lambda text: text.encode("utf-16"), 1, ["UTF-16", "UTF-8"]),
    ("a comment in Latin-1", None, lambda text: text.replace("10", "10 # für alle").encode("latin-1"), 5,
     ["FC", "ü", "UTF-8"]),
    ("a comment with slashes", "period = 10", "period = 10 // every 10", 5, ["//", "#"]),
    ("a comment with a semicolon", "period = 10", "; every 10\nperiod = 10", 5, [";", "#"]),
    ("a semicolon at the end", "period = 10", "period = 10;", 5, ["semicolon"]),
    ("a space that does not break", "period = 10", "period =\u00a010", 5, ["00A0", "not seen", "take it out"]),
    ("a power of ten", "period = 10", "period = 1e1", 5, ["1e1", "no whole number", "period = 10"]),
    ("a key with a point", "wcet = 2", "wcet.most = 2", 13, ["wcet is a table", "wcet = 10"]),
    ("a key with a dash in front", "soft = 16", "-soft = 16", 1, ["-soft", '"soft"']),
    ("an alarm of a graph", "[[sporadic]]", "[[graph.sporadic]]", 16, ["[[sporadic]]", "no graph"]),
    ("an empty list of graphs", None, lambda text: b"graph = []\n", 1, ["[[graph]]", "take graph = [] out"]),
    ("a merge that is open", "soft = 16", "<<<<<<< HEAD", 1, ["<<<<<<< HEAD", "no line of TOML"]),
    ("no equals sign", "period = 10", "period 10", 5, ["period", "="]),
    ("a colon", "period = 10", "period: 10", 5, ["=", "colon"]),
    ("an open text", 'name = "control"', 'name = "control', 12, ["not closed", '"']),
    ("a bracket that is missing", "[[graph]]", "[[graph]", 3, ["[[graph]]"]),
    ("an empty file", None, lambda text: b"", 1, ["[[graph]]"]),
    ("a comment alone", None, lambda text: b"# to do\n", 1, ["[[graph]]"]),
    ("a cycle that is too long", ALARM, ALARM + SLOW, 24,
     ["997", "8192", "least common multiple", "10 before", "1000"]),
    ("a period that is too long", "period = 10", "period = 100000", 5, ["100000", "8192"]),
    ("a number of 20 digits", "period = 10", "period = 99999999999999999999", 5, ["too large", "8192"]),
    ("no soft job", "soft = 16", "soft = 0", 1, ["1 to 1024"]),
    ("9 sporadic tasks", ALARM, alarms(9), 48, ["9", "8"]),
    ("33 graphs", TASKS, graphs(33), 193, ["33", "32"]),
    ("too much work", "wcet = 2", "wcet = 9", 13, ["20 slots", "21 are needed", "loop.control 18", "alarm 1"]),
    ("an alarm above its deadline", "wcet = 1\nseparation", "wcet = 15\nseparation", 18, ["15", "deadline of 5"]),
    ("a chain above its deadline", "period = 10", "period = 10\ndeadline = 2", 6,
     ["read", "control", "3 slots", "deadline of 2"]),
    ("priority", "wcet = 2", "wcet = 2\npriority = 1", 14, ["priority", "wcet"]),
    ("description", "period = 10", 'period = 10\ndescription = "fast"', 6, ["description", "#"]),
    ("after in a graph", "period = 10", 'period = 10\nafter = ["read"]', 6, ["after", "task"]),
    ("JSON", None, lambda text: b'{"graph": [{"name": "loop"}]}\n', 1, ["JSON", "TOML", "[[graph]]"]),
    ("YAML", None, lambda text: b"graph:\n  - name: loop\n    period: 10\n", 1, ["YAML", "TOML", "[[graph]]"]),
    ("an arrivals file", None, lambda text: b"0,soft,2\n3,soft,1\n", 1, ["arrivals file", "--tasks"]),
]

# Of each: name, the rows, line, words.
ARRIVAL_MISTAKES = [
    ("a header", "slot,kind,slots\n0,soft,2\n", 1, ["header", "take the line out"]),
    ("semicolons", "0;soft;2\n", 1, ["semicolons", "commas"]),
    ("tabs", "0\tsoft\t2\n", 1, ["tabs", "commas"]),
    ("a space after the comma", "0, soft, 2\n", 1, ["space", "0,soft"]),
    ("a space before the comma", "0 ,soft,2\n", 1, ["space", "write 0"]),
    ("a comma at the end", "0,soft,2,\n", 1, ["4 fields", "SLOT,soft,SLOTS", "comma"]),
    ("a line of comment", "# log\n0,soft,2\n", 1, ["no comments"]),
    ("a comment behind a row", "0,soft,2 # log\n", 1, ["no comments"]),
    ("a slot with a point", "0.5,soft,2\n", 1, ["0.5", "whole"]),
    ("a unit", "5ms,soft,2\n", 1, ["5ms", "unit", "slots"]),
    ("a negative slot", "-1,soft,2\n", 1, ["-1", "below 0"]),
    ("a plus", "+1,soft,2\n", 1, ["+1", "write 1"]),
    ("a leading zero", "01,soft,2\n", 1, ["01", "zero", "write 1"]),
    ("a number in quotes", '0,soft,"2"\n', 0, []),
    ("a number in quotes with a space", '0,soft," 2"\n', 1, ["space", "write 2"]),
    ("a kind in capitals", "0,SOFT,2\n", 1, ["SOFT", '"soft"']),
    ("a letter wrong in a kind", "0,sfot,2\n", 1, ["sfot", '"soft"']),
    ("a kind that is none", "0,periodic,2\n", 1, ["periodic", "graph"]),
    ("no WITHIN", "0,firm,3\n", 1, ["WITHIN", "SLOT,firm,SLOTS,WITHIN"]),
    ("SLOTS and WITHIN swapped", "0,firm,9,3\n", -1, ["9 slots within 3", "swapped"]),
    ("no slot asked for", "0,firm,0,9\n", 1, ["SLOTS", "1 to 65535"]),
    ("a deadline now", "0,firm,1,0\n", -1, ["WITHIN is 0", "late"]),
    ("a deadline beyond a cycle", "0,firm,1,30\n", -1, ["30", "cycle of 20", "far"]),
    ("times of deadlines", "5,firm,1,12\n15,firm,1,20\n25,firm,1,34\n", -1, ["WITHIN", "counts from SLOT"]),
    ("soft work with a deadline", "0,soft,2,9\n", 1, ["4 fields", "SLOT,soft,SLOTS"]),
    ("soft work without slots", "0,soft\n", 1, ["SLOTS", "missing"]),
    ("one field", "0\n", 1, ["SLOT,KIND"]),
    ("an alarm with slots", "0,sporadic,alarm,2\n", 1, ["SLOT,sporadic,NAME", "2"]),
    ("an alarm of another name", "0,sporadic,alram\n", 1, ["alram", '"alarm"']),
    ("the name of a graph", "0,sporadic,loop\n", 1, ["loop", "graph"]),
    ("an alarm too soon", "0,sporadic,alarm\n5,sporadic,alarm\n", -2, ["slot 20", "soon"]),
    ("an end without instance", "3,done,loop.read\n", 1, ["loop.read#0"]),
    ("an end of an unknown task", "3,done,loop.raed#0\n", 1, ["raed", '"read"']),
    ("an end of a job that cannot run", "0,done,loop.read#7\n", -1, ["slot 70", "notrunning"]),
    ("a key to withdraw", "0,firm,1,9\n1,withdraw,firm:1\n", 2, ["firm:1", "write 1"]),
    ("another row to withdraw", "0,firm,1,9\n1,withdraw,2\n", -2, ["row 2", "nojob"]),
    ("row 0 to withdraw", "0,firm,1,9\n1,withdraw,0\n", 2, ["ROW", "1 to 65535"]),
    ("rows out of order", "5,soft,1\n3,soft,1\n", 2, ["slot 3", "slot 5", "sort"]),
    ("a slot at the end", "40,soft,1\n", 1, ["40", "0 to 39"]),
    ("CR and LF", "0,soft,2\r\n3,soft,1\r\n", 0, []),
    ("CR alone", "0,soft,2\r3,soft,1\r", 0, []),
    ("a byte order mark", "\ufeff0,soft,2\n", 0, []),
    ("UTF-16", "0,soft,2\n".encode("utf-16"), 1, ["UTF-16", "UTF-8"]),
    ("an empty file", "", 0, []),
    ("empty lines", "0,soft,2\n\n\n3,soft,1\n", 0, []),
    ("a line with a space", "0,soft,2\n\n\n \n3,soft,1\n", 4, ["spaces"]),
    ("an open quote", '0,"soft,2\n3,soft,1\n', 1, ["quote", "not closed"]),
    ("the kind first", "soft,0,2\n", 1, ["slot comes first", "0,soft"]),
    ("a number of 20 digits", "99999999999999999999,soft,1\n", 1, ["out of range", "0 to 39"]),
    ("no line end", "0,soft,2", 0, []),
    ("a byte 0", "0,soft,2\0\n", 1, ["byte 0"]),
    ("too many slots", "0,soft,70000\n", 1, ["70000", "1 to 65535"]),
    ("a task file", TASKS, 1, ["task file", "swapped"]),
]

# A graph of TASKS, alone.
BLOCK = GRAPH + "\n" + READ + "\n" + CONTROL + "\n"

# The files beside which the words stand.
WORD_FILES = {
    "base.toml": TASKS,
    "bad.toml": TASKS.replace("period", "perid"),
    "full.toml": TASKS.replace("wcet = 2", "wcet = 9").replace("wcet = 1\nsep", "wcet = 4\nsep"),
    "ok.csv": "0,soft,2\n3,soft,1\n",
    "late.csv": "0,soft,2\n50,soft,1\n",
    "loop.toml": TASKS.replace("wcet = 1", 'wcet = 1\nafter = ["control"]', 1),
    "base.units.toml": 'slot = "1ms"\n' + (GRAPH + READ).replace("= 10", '= "10ms"').replace("= 1\n", '= "1ms"\n'),
    "times.csv": "0ms,soft,2ms\n1,soft,1ms\n2ms,soft,1.0000us\n2ms,Soft,1ms\n3ms,firm,1ms\n",
}

# Of each: the words, a file where there is a dot in one that begins with no digit; and what a line on them has.
WORD_MISTAKES = [
    ("slotshift --help", ["--help", "no command", "check T", "replay T A N"]),
    ("slotshift -h", ["-h", "no command", "check T", "replay T A N"]),
    ("slotshift help", ["help", "no command", "check T", "replay T A N"]),
    ("slotshift --version", ["--version", "no command", "check T"]),
    ("slotshift", ["missing", "check T", "replay T A N"]),
    ("slotshift chek base.toml", ["word 1", "chek", '"check"']),
    ("slotshift Check base.toml", ["word 1", "Check", '"check"']),
    ("slotshift replay base.toml ok.csv 0", ["word 4", "N = 0", "1 to 100000"]),
    ("slotshift replay base.toml ok.csv -5", ["word 4", "N", "-5", "1 to 100000"]),
    ("slotshift replay base.toml ok.csv 100001", ["word 4", "N = 100001", "1 to 100000"]),
    ("slotshift replay base.toml ok.csv 1e3", ["word 4", "1e3", "plain digits"]),
    ("slotshift replay base.toml ok.csv 40ms", ["word 4", "40ms", "unit", "slots"]),
    ("slotshift replay base.toml ok.csv 040", ["word 4", "040", "leading zero"]),
    ("slotshift replay base.toml ok.csv 40.0", ["word 4", "40.0", "whole number"]),
    ("slotshift replay base.toml ok.csv ", ["word 4", "N", "whole number"]),
    ("slotshift gantt base.toml ok.csv 201", ["word 4", "N = 201", "1 to 200"]),
    ("slotshift gantt base.toml ok.csv", ["gantt takes", "N (a number of slots)", "are 2 words"]),
    ("slotshift replay base.toml 40", ["replay takes", "A (an arrivals file)", "A is missing", "/dev/null"]),
    ("slotshift replay 40 base.toml ok.csv", ["word 2", "40", "a number", "replay T A N"]),
    ("slotshift replay base.toml ok.csv 40 60", ["replay takes", "T (a task file)", "are 4 words"]),
    ("slotshift check base.toml bad.toml", ["check takes T", "are 2", "one at a time"]),
    ("slotshift check", ["check takes T", "a task file", "no words"]),
    ("slotshift switch base.toml base.toml ok.csv 20 40", ["word 6", "C = 40", "N = 20", "below"]),
    ("slotshift switch base.toml base.toml ok.csv 40 40", ["word 6", "C = 40", "N = 40", "below"]),
    ("slotshift switch base.toml base.toml ok.csv 40", ["switch takes", "C (the slot of the change)", "are 4"]),
    ("slotshift switch base.toml bad.toml ok.csv 40 20", ["bad.toml:5", "perid", "period"]),
    ("slotshift switch base.toml base.toml late.csv 60 20", ["late.csv:2", "slot 50", "0 to 19"]),
    ("slotshift explain base.toml ok.csv 40", ["explain takes", "R (the number of a row)", "are 3"]),
    ("slotshift explain base.toml ok.csv 40 0", ["word 5", "R = 0", "1 to 65535"]),
    ("slotshift explain base.toml ok.csv 40 70000", ["word 5", "R = 70000", "1 to 65535"]),
    ("slotshift selfrun 33", ["word 2", "N = 33", "1 to 32"]),
    ("slotshift selfrun 0", ["word 2", "N = 0", "1 to 32"]),
    ("slotshift selfrun", ["selfrun takes N", "the number of a load"]),
    ("slotshift verify base.toml ok.csv 40", ["verify takes", "X (a recorded trace)", "are 3"]),
    ("slotshift margin base.toml 5", ["margin takes T", "are 2"]),
    ("slotshift show", ["show takes B", "a table"]),
    ("slotshift table base.toml out.bin", ["table takes T", "are 2"]),
    ("slotshift replay-table ok.csv 40", ["replay-table takes", "B (a table)", "are 2"]),
    ("slotshift check --help", ["word 2", "--help", "no options", "a task file"]),
    ("slotshift replay ok.csv base.toml 40", ["base.toml:1", "task file", "swapped"]),
    ("slotshift replay base.toml base.toml 40", ["base.toml:1", "task file", "an arrivals file has rows"]),
    ("slotshift replay base.toml late.csv 40", ["late.csv:2", "slot 50", "0 to 39"]),
    ("slotshift check ./", ["cannot read", "folder"]),
    ("slotshift check bsae.toml", ["cannot read", "no such file", "base.toml"]),
    ("slotshift check folder/base.toml", ["cannot read", "no folder"]),
    ("slotshift check full.toml", ["full.toml:13", "20 slots", "24 are needed", "loop.control 18", "alarm 4"]),
    ("slotshift margin full.toml", ["full.toml:13", "20 slots", "24 are needed", "loop.control 18"]),
    ("slotlive", ["T --record FILE"]),
    ("slotlive base.toml extra", ["none of its forms", "T --record FILE"]),
    ("slotlive base.toml --record base.toml", ["word 3", "replace"]),
    ("slotview jobs", ["jobs", "the task file of the trace"]),
    ("slotview table", ["word 1", "table", "jobs T"]),
    ("slotview picture base.toml 5", ["task file", "FROM and UNTIL"]),
    ("slotview picture base.toml 20 10", ["word 3", "FROM = 20", "UNTIL = 10", "below"]),
    ("slotview waves base.toml", ["word 2", "standard input"]),
    ("slotview", ["missing", "picture", "jobs T"]),
    ("slotview picture 20 10", ["word 2", "FROM = 20", "UNTIL = 10", "below"]),
    ("slotview waves 010 20", ["word 2", "FROM", "010", "leading zero"]),
    ("slotview spans 0 4294967296", ["word 3", "UNTIL = 4294967296", "0 to 4294967295"]),
    ("slotview events 5", ["word 2", "FROM and UNTIL", "standard input"]),
    ("slotview events 1 2 3", ["FROM and UNTIL", "standard input"]),
    ("slotview stairs 5", ["word 2", "no word", "supply"]),
    ("slotview stiars", ["word 1", "stiars", '"stairs"']),
    ("slotplan", ["missing", "load T", "supply T D"]),
    ("slotplan laod base.toml", ["word 1", "laod", '"load"']),
    ("slotplan load loop.toml", ["loop.toml", "a loop", '"control"']),
    ("slotplan who bad.toml", ["bad.toml:5", "perid", "period"]),
    ("slotplan header", ["header takes T", "a task file", "no words"]),
    ("slotplan load base.toml 5", ["load takes T", "are 2"]),
    ("slotplan supply", ["none of its forms", "supply T or supply T D"]),
    ("slotplan supply base.toml 0", ["word 3", "D = 0", "1 to 65535"]),
    ("slotplan supply base.toml 65536", ["word 3", "D = 65536", "1 to 65535"]),
    ("slotplan supply 5 base.toml", ["word 2", "a number", "supply T D"]),
    ("slotplan supply base.toml 5", ["base.toml", "no fault"]),
    ("slotunits", ["missing", "arrivals U A"]),
    ("slotunits arrivals base.units.toml", ["none of its forms", "arrivals U A"]),
    ("slotunits check base.units.toml 1ms", ["none of its forms", "check U FROM TO"]),
    ("slotunits check base.units.toml 1.0000us 2us", ["word 3", "FROM", "1.0000us", "3 digits"]),
    ("slotunits check base.units.toml 1us 1.0ns", ["word 4", "TO", "1.0ns", "no point"]),
    ("slotunits check base.units.toml 1us 2", ["word 4", "TO", "no unit"]),
    ("slotunits check base.units.toml 1us 12345678901ns", ["word 4", "10 digits"]),
    ("slotunits arrivals base.units.toml times.csv", ["times.csv:2:1", "no unit"]),
    ("slotunits arrivals base.units.toml times.csv", ["times.csv:3:10", "1.0000us", "3 digits"]),
    ("slotunits arrivals base.units.toml times.csv", ["times.csv:4:5", "Soft", '"soft"']),
    ("slotunits arrivals base.units.toml times.csv", ["times.csv:5:1", "TIME is missing"]),
    ("slotunits arrivals base.units.toml base.units.toml", ["base.units.toml:1", "task file", "swapped"]),
    ("slotunits trace base.units.toml", ["base.units.toml", "no fault"]),
]

# Words of the other programs, which say whether they are a form: of each front what may stand behind it.
PARTS = [
    "", " 10 20", " 20 10", " 10 10", " 010 20", " 0 4294967295", " 0 4294967296", " 0 99999999999", " +1 2", " 1",
    " 1 2 3", " x 2", " 1 x",
]
TIMES = [
    "", " 1us", " 1us 1ms", " 1ms 1us", " 0ns 9999999999s", " 1 2", " 1us 2", " 1.0000us 2us", " 1.us 2us",
    " 1.0ns 2ns", " 12345678901ns 1s", " 0.000000001s 1s",
    " 0.0000000001s 1s", " 1.000000ms 1s", " 1.0000000ms 1s", " 01us 2us",
    " 1us 2us 3us", " 1us 1s\n", " 1US 2us",
]
PLAN_WORDS = ["", " base.toml", " base.toml base.toml", " base.toml 5"]
NUMBERS = [" 0", " 1", " 65535", " 65536", " 01", " -1", " x", " 1000000", " 1 1"]
UNIT_WORDS = ["", " base.units.toml", " base.units.toml ok.csv", " base.units.toml 1us", " base.units.toml 1us ok.csv"]
PROGRAM_WORDS = [
    ("slotview", ["", " table", " jobs"]),
    *((f"slotview {view}", PARTS) for view in ("picture", "events", "spans", "waves", "stairs")),
    ("slotplan", ["", " table base.toml", " Load base.toml"]),
    *((f"slotplan {question}", PLAN_WORDS) for question in ("load", "who", "header", "supply")),
    ("slotplan supply base.toml", NUMBERS),
    ("slotunits", ["", " table base.units.toml", " Tasks base.units.toml"]),
    *((f"slotunits {question}", UNIT_WORDS) for question in ("tasks", "check", "arrivals", "trace")),
    ("slotunits check base.units.toml", TIMES),
]
