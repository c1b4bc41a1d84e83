"""Every line of refusal of the program: its short name, what the rule asks, and what usually mends it. docs/LANGUAGE.md and
docs/FORMATS.md have the lines; a test goes over all of them."""
import re
from collections import namedtuple

# `where` says how the line gives a place: `offset` a byte of the input, `line` a line of the input, `inputs` and `schedule`
# a line of that section, `step` a step of the schedule, `none` no place.
Kind = namedtuple("Kind", "family pattern title asks mends where")

MANY = {
    "priorities": ("A program declares at most 16 priorities.", "Join some that never compete."),
    "pairs": ("A program declares at most 256 order pairs.", "Leave out pairs that follow from others: `a < b` and `b < c` give `a < c`."),
    "procedures": ("A program has at most 256 procedures.", "Join procedures that differ in a priority or a number into one with a variable or a parameter."),
    "priority variables": ("A procedure has at most 8 priority variables.", "Use one variable for those that are always equal."),
    "constraints": ("A procedure has at most 16 constraints.", "Leave out those that follow from others."),
    "parameters": ("A procedure has at most 8 parameters.", "Hand over some of them as a pair `(a, b)`."),
    "variables": ("At most 32 variables are in scope at one place, hidden ones too.", "Move a part of the block into a procedure or into `do { .. }`, whose variables are gone behind it."),
    "type nodes": ("A written type has at most 16 parts.", "Keep the parts in separate parameters or variables."),
}

KINDS = [
    Kind("source", r"bad byte at (?P<at>\d+)", "bad byte",
         "Outside comments a program has only letters, digits, `_`, blanks and the signs of the language.",
         "Delete what stands here or put it behind a `#`; often it is a quotation mark, a letter with an accent, or `=` for `==` or `<-`.", "offset"),
    Kind("source", r"bad number at (?P<at>\d+)", "bad number",
         "A number is at most 9223372036854775807.",
         "Write a smaller one; no operation gives a larger one either, since values have 64 bits.", "offset"),
    Kind("source", r"unexpected at (?P<at>\d+)", "unexpected",
         "What stands before this place begins a program, and together with this word, or with the end of the text, it does not.",
         "Look just before it: usually a `;`, a bracket, the final `ret`, or the brackets that each operation needs, as in `(a + b)`, are missing, or a reserved word is used as a name.", "offset"),
    Kind("source", r"too deep at (?P<at>\d+)", "too deep",
         "At most 64 brackets are open at once.",
         "Bind an inner part to a name with `x <- ret ..;`, or move it into a procedure.", "offset"),
    Kind("source", r"unknown name at (?P<at>\d+)", "unknown name",
         "A priority or a procedure is declared somewhere in the text, and a variable earlier in this block or around it.",
         "Check the spelling or declare it; what is bound inside the block of a `do`, an `if` or a `case` is gone behind it.", "offset"),
    Kind("source", r"twice named at (?P<at>\d+)", "twice named",
         "Two priorities, two procedures, and two parameters or priority variables of one procedure have different names.",
         "Rename the second one.", "offset"),
    Kind("source", r"too many (?P<what>%s) at (?P<at>\d+)" % "|".join(MANY), "too many {what}", "", "", "offset"),

    Kind("type", r"cycle at (?P<at>\d+)", "cycle",
         "The order of priorities has no circle: no pair puts a priority below one that is at most it already.",
         "Delete this pair, or turn one of the pairs before it around.", "offset"),
    Kind("type", r"arity at (?P<at>\d+)", "arity",
         "A call gives as many priorities in `[ ]` and as many arguments in `( )` as the procedure declares.",
         "Compare it with the line that begins the procedure.", "offset"),
    Kind("type", r"mismatch at (?P<at>\d+)", "mismatch",
         "Each expression has the type that its place needs, and at `proc` or `main` the body has the declared one.",
         "Compare the two types: an `input` is `(unit + int)` and is opened by `case`, both branches give one type, and only numbers are compared.", "offset"),
    Kind("type", r"not a thread at (?P<at>\d+)", "not a thread",
         "`sync` waits for a variable that a `spawn` has bound, or that has a type `thread[p](T)`.",
         "Use the variable as it is, for it has its value already, or name the thread.", "offset"),
    Kind("type", r"wrong priority at (?P<at>\d+)", "wrong priority",
         "A procedure runs at the priority of the block that calls it.",
         "Declare it for every priority, as `proc f[p](..) at p`, or spawn a thread of its priority and call it there.", "offset"),
    Kind("type", r"constraint at (?P<at>\d+)", "constraint",
         "With the priorities that a call gives, each constraint `p <= q` of the procedure follows from the declared order and the constraints around the call.",
         "Give other priorities, declare the `order` that is missing, or add the constraint to the procedure around the call.", "offset"),
    Kind("type", r"inversion at (?P<at>\d+)", "inversion",
         "A thread waits only for a thread whose priority is known to be at least its own.",
         "Spawn the awaited thread at this priority or a higher one, or move the `sync` into a thread of a lower one; in a procedure the constraint `p <= q` makes it known.", "offset"),
    Kind("type", r"wide at (?P<at>\d+)", "wide",
         "A type has at most 16 parts, that of a pair or a spawned thread too.",
         "Keep the parts in separate variables, or let the thread give back less.", "offset"),

    Kind("section", r"unknown at line (?P<line>\d+)", "unknown section",
         "A line that begins with `===` begins a section, and there are two of them: `===inputs` and `===schedule`.",
         "Correct the name, or put a `#` before a line that is only a comment.", "line"),
    Kind("section", r"twice at line (?P<line>\d+)", "section twice",
         "Each section stands at most once in a file.",
         "Join this one with the first.", "line"),

    Kind("inputs", r"bad line (?P<line>\d+)", "bad inputs line",
         "A line of inputs is a thread's path, a colon at once behind it and numbers, as `0.1: 5 -6`; or it is blank, or begins with `#`.",
         "Take away blanks before the path or the colon and commas between numbers, begin the path with `0`, and keep each number within 64 bits.", "inputs"),
    Kind("inputs", r"path twice at line (?P<line>\d+)", "path twice",
         "All numbers of one thread stand on one line.",
         "Append these to the thread's first line.", "inputs"),

    Kind("schedule", r"bad text at line (?P<line>\d+)", "bad schedule text",
         "A line of a schedule is one step: vertices as `0.1:3` with blanks between, and nothing else.",
         "Take away comments and commas; a path begins with `0`, and its numbers have no leading zeros.", "schedule"),
    Kind("schedule", r"unknown vertex at line (?P<line>\d+)", "unknown vertex",
         "Each vertex is one of the run: a thread's path and a number smaller than the thread's number of steps.",
         "`./priml graph` tells the threads and their steps; other inputs make other runs.", "schedule"),

    Kind("flaw", r"step (?P<step>\d+) empty", "step {step} is empty",
         "Each step of a schedule runs at least one vertex.",
         "Delete the blank line.", "step"),
    Kind("flaw", r"step (?P<step>\d+) wide", "step {step} is too wide",
         "A step has at most as many vertices as there are cores.",
         "Move the least urgent ones into later steps, or judge with more cores.", "step"),
    Kind("flaw", r"step (?P<step>\d+) twice (?P<v>[\d.:]+)", "step {step} has {v} twice",
         "Each vertex stands once in a schedule, and {v} stands here for the second time.",
         "Delete one of the two.", "step"),
    Kind("flaw", r"step (?P<step>\d+) not ready (?P<v>[\d.:]+)", "step {step}: {v} is not ready",
         "A vertex runs in a later step than all its parents: the one before it in its thread, the spawn of its thread, and the end of the thread that it joins.",
         "Move {v} behind the last of them.", "step"),
    Kind("flaw", r"step (?P<step>\d+) idle (?P<u>[\d.:]+)", "step {step} leaves a core idle",
         "No core is idle while a vertex is ready, and {u} is ready here.",
         "Add {u} to this step.", "step"),
    Kind("flaw", r"step (?P<step>\d+) inverted (?P<v>[\d.:]+) (?P<u>[\d.:]+)", "step {step} is inverted",
         "No vertex runs while a ready one of a strictly higher priority is left out: {v} runs here and {u} waits.",
         "Put {u} into this step in place of {v}.", "step"),
    Kind("flaw", r"step (?P<step>\d+) unfinished (?P<u>[\d.:]+)", "unfinished",
         "A schedule runs every vertex, and {u} is in no step.",
         "Add a step with it; `./priml plan` prints a schedule to begin with.", "step"),

    Kind("limit", r"input", "limit: input",
         "An input has at most 4,194,304 bytes.",
         "Shorten it; comments count too.", "none"),
    Kind("limit", r"steps", "limit: steps",
         "All threads together make at most as many steps as `-l` allows, 100,000 at most.",
         "Allow more steps, or look for a call that calls itself without end.", "none"),
    Kind("limit", r"report", "limit: report",
         "A report is made where threads times steps are at most 134,217,728.",
         "Spawn fewer threads, or give smaller inputs.", "none"),

    Kind("words", r"no command", "no command", "The first word is a command.", "`./priml --help` names them.", "none"),
    Kind("words", r"unknown command", "unknown command", "The first word is a command.", "`./priml --help` names them.", "none"),
    Kind("words", r"wrong count", "wrong count", "Each command has its own numbers behind it.", "The page docs/FORMATS.md lists them.", "none"),
    Kind("words", r"bad number at number (?P<k>\d+)", "bad number of cores, workers or steps",
         "Cores, workers and steps are decimal digits alone.", "Correct `-p`, `--workers`, `-q` or `-l`.", "none"),
    Kind("words", r"out of range at number (?P<k>\d+)", "number of cores, workers or steps out of range",
         "Cores are 1 to 1,024, workers 1 to 16, the steps of a turn 1 to 1,000, and all steps 1 to 100,000.",
         "Correct `-p`, `--workers`, `-q` or `-l`.", "none"),
    Kind("read", r"read fault", "read fault", "The program reads its input to the end.", "Try again; the fault is of the machine.", "none"),
    Kind("memory", r"out of memory", "out of memory", "The program needs memory for its answer.", "Give it more, or allow fewer steps.", "none"),
]


def kind_of(line):
    """The kind of a line of refusal and what it names, or None."""
    line = line.rstrip("\n")
    for kind in KINDS:
        front = "" if kind.family in ("read", "memory") else kind.family + ": "
        found = re.fullmatch(re.escape(front) + kind.pattern, line)
        if found:
            return kind, found.groupdict()
    return None
