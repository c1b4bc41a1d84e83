"""What docs/STEPS.md says, in Python: the steps of threads and the serial meaning, and the run text of docs/FORMATS.md.
The headings below are theirs. It works on the tree that tests/model.py reads, of a typable program."""
from collections import namedtuple

LONGEST_PATH, MOST_CHILDREN = 32, 2 ** 32 - 1

# An event is a tuple that begins with its name; a Join has the path of the joined thread, a Wrote its number. A value is
# a number, True, False, or a tuple: ("()",), (",", V, V), ("inl", V), ("inr", V), ("thread", path). A path is a tuple of
# numbers, so Python's order of tuples is the order of paths. An outcome is ("value", V) or ("fault", name).
Record = namedtuple("Record", "path priority events outcome")


class Fault(Exception):
    """An expression faults, or a thread may spawn no more."""


class PastLimit(Exception):
    """The run has more steps than the limit."""


# ---------------------------------------------------------------- Threads and states
class Frame:
    """What is left to run in a block, the values in scope by their names, and the priorities by those of variables. The
    block's value is bound to `name` in the frame below."""

    def __init__(self, block, scope, priorities, name=None):
        self.go_on(block)
        self.scope, self.priorities, self.name = dict(scope), priorities, name

    def go_on(self, block):
        binds, self.ending = block
        self.left = binds[::-1]                     # the next one last

    def declared(self, priority):
        kind, name = priority
        return self.priorities[name] if kind == "variable" else name


class Thread:
    def __init__(self, path, priority, frame, inputs):
        self.path, self.priority, self.start = path, priority, frame
        self.inputs, self.children = inputs[::-1], 0         # the inputs that are left, the next one last
        self.frames, self.failing, self.events = [], None, []


# ---------------------------------------------------------------- The steps
EVENTS = {"spawn": "Spawn", "input": "Read"}


def step(job, thread):
    """Makes the next step. Gives its event, the outcome where it is the last, and the thread that it spawns."""
    try:
        if thread.failing:
            raise Fault(thread.failing)
        if not thread.frames:
            thread.frames = [thread.start]
            return ("Start",), None, None
        if thread.frames[-1].left:
            return act(job, thread, thread.frames[-1], *thread.frames[-1].left.pop())
        return end_block(thread.frames) + (None,)
    except Fault as fault:
        return ("End",), ("fault", fault.args[0]), None


def act(job, thread, frame, name, action):
    kind, _, *parts = action
    event, spawned, value = (EVENTS.get(kind, "Plain"),), None, None
    if kind == "spawn":
        spawned = spawn(job, thread, frame, *parts)
        value = ("thread", spawned.path)
    elif kind == "sync":
        joined = frame.scope[parts[0]][1]
        event, (ended, value) = ("Join", joined), job.records[joined].outcome
        if ended == "fault":
            thread.failing = value
    elif kind == "call":
        thread.frames.append(called(job, frame, name, *parts))
    elif kind == "do":
        thread.frames.append(Frame(parts[0], frame.scope, frame.priorities, name))
    elif kind == "input":
        value = ("inr", thread.inputs.pop()) if thread.inputs else ("inl", ("()",))
    elif kind == "output":
        event, value = ("Wrote", evaluate(frame.scope, parts[0])), ("()",)
    else:
        value = evaluate(frame.scope, parts[0])
    if kind not in ("call", "do"):
        frame.scope[name] = value
    return event, None, spawned


def spawn(job, thread, frame, priority, block):
    """The next child, which enters the block with the present scope and priorities."""
    if len(thread.path) == LONGEST_PATH or thread.children == MOST_CHILDREN:
        raise Fault("depth")
    path = thread.path + (thread.children,)
    thread.children += 1
    return Thread(path, frame.declared(priority), Frame(block, frame.scope, frame.priorities), job.inputs.get(path, []))


def called(job, frame, name, callee, priorities, arguments):
    """The frame of a call: the parameters with their values are its whole scope."""
    callee = job.procedures[callee]
    values = [evaluate(frame.scope, argument) for argument in arguments]
    scope = {parameter: value for (parameter, _), value in zip(callee.parameters, values)}
    return Frame(callee.body, scope, dict(zip(callee.variables, map(frame.declared, priorities))), name)


def end_block(frames):
    """The step of the ending of the innermost block: its event, and the outcome where it is the last."""
    top = frames[-1]
    kind, _, tested, *branches = top.ending
    value = evaluate(top.scope, tested)
    if kind == "if":
        top.go_on(branches[0] if value else branches[1])
    elif kind == "case":
        name, block = branches[0][0 if value[0] == "inl" else 1]
        top.go_on(block)
        top.scope[name] = value[1]
    elif len(frames) == 1:
        return ("End",), ("value", value)
    else:
        frames.pop()
        frames[-1].scope[top.name] = value
    return ("Plain",), None


# ---------------------------------------------------------------- The serial meaning
class Job:
    """A typable program with the inputs of its threads, a list of numbers for each path, and the records so far."""

    def __init__(self, procedures, main, inputs):
        self.procedures, self.main, self.inputs, self.records = procedures, main, inputs, {}

    def records_within(self, limit):
        """The records, in the order of paths."""
        self.left = limit
        self.whole(Thread((0,), self.main.own[1], Frame(self.main.body, {}, {}), self.inputs.get((0,), [])))
        return [self.records[path] for path in sorted(self.records)]

    def whole(self, thread):
        """Evaluates a thread, and each thread that it spawns whole before it goes on."""
        outcome = None
        while outcome is None:
            if self.left == 0:
                raise PastLimit
            self.left -= 1
            event, outcome, spawned = step(self, thread)
            thread.events.append(event)
            if spawned:
                self.whole(spawned)
        self.records[thread.path] = Record(thread.path, thread.priority, thread.events, outcome)


# ---------------------------------------------------------------- Expressions
def in_range(n):
    if not -2 ** 63 <= n < 2 ** 63:
        raise Fault("overflow")
    return n


def divided(a, b):
    """Quotient and remainder, the quotient truncated toward zero."""
    if b == 0:
        raise Fault("zero")
    quotient = abs(a) // abs(b) * (1 if (a < 0) == (b < 0) else -1)
    in_range(quotient)                              # the least number divided by -1, and its remainder too
    return quotient, a - quotient * b


OPERATORS = {"+": lambda a, b: in_range(a + b), "-": lambda a, b: in_range(a - b), "*": lambda a, b: in_range(a * b),
             "/": lambda a, b: divided(a, b)[0], "%": lambda a, b: divided(a, b)[1],
             "<": lambda a, b: a < b, "<=": lambda a, b: a <= b, "==": lambda a, b: a == b,
             "and": lambda a, b: a and b, "or": lambda a, b: a or b, ",": lambda a, b: (",", a, b)}


def evaluate(scope, expression):
    kind, _ = expression[:2]
    if kind == "name":
        return scope[expression[2]]
    if kind == "number":
        return int(expression[2])
    if kind in ("true", "false"):
        return kind == "true"
    if kind == "()":
        return ("()",)
    first = evaluate(scope, expression[2])
    if kind in ("fst", "snd"):
        return first[1 if kind == "fst" else 2]
    if kind == "not":
        return not first
    if kind in ("inl", "inr"):
        return (kind, first)
    return OPERATORS[kind](first, evaluate(scope, expression[3]))


# ---------------------------------------------------------------- Run text
def path_text(path):
    return ".".join(map(str, path))


def value_text(value):
    if isinstance(value, bool):
        return "true" if value else "false"
    if isinstance(value, int):
        return str(value)
    if value[0] == "thread":
        return "thread(%s)" % path_text(value[1])
    if value[0] == ",":
        return "(%s, %s)" % (value_text(value[1]), value_text(value[2]))
    return "()" if value[0] == "()" else "%s(%s)" % (value[0], value_text(value[1]))


def run_text(records):
    lines = []
    for path, priority, events, (kind, what) in records:
        outcome = "%s %s" % (kind, value_text(what) if kind == "value" else what)
        lines.append("thread %s %s %d %s" % (path_text(path), priority, len(events), outcome))
        numbers = [event[1] for event in events if event[0] == "Wrote"]
        if numbers:
            lines.append(" ".join(["out"] + [str(n) for n in numbers]))
    return lines + ["work %d" % sum(len(record.events) for record in records)]
