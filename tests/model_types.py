"""What docs/LANGUAGE.md says of priorities, types and type faults, in Python. The headings below are those of that page. It works
on the tree that model_text.py reads."""
from model_text import Reader, need, nodes, right_tokens


# ---------------------------------------------------------------- Priorities
def is_at_most(edges, low, high):
    """A list of edges, perhaps empty, leads from `low` to `high`. With declared pairs and constraints as edges this is
    entailment."""
    reached, found = {low}, [low]
    for one in found:                               # `found` grows meanwhile
        for a, b in edges:
            if a == one and b not in reached:
                reached.add(b)
                found.append(b)
    return high in reached


class Order:
    """The declared priorities, numbered in the order of their declaration, and which is strictly below which."""

    def __init__(self, names, pairs):
        self.names, edges = names, [(low, high) for _, (_, low), (_, high) in pairs]
        self.number = {name: i for i, name in enumerate(names)}
        self.strict = {(self.number[a], self.number[b]) for a in names for b in names if a != b and is_at_most(edges, a, b)}

    def below(self, p, q):
        return (p, q) in self.strict


# ---------------------------------------------------------------- Types, Type faults
TYPE_FAULTS = ["cycle", "arity", "mismatch", "not a thread", "wrong priority", "constraint", "inversion", "wide"]
INT, BOOL, UNIT = ("int",), ("bool",), ("unit",)


def typed(right, kind, place):
    need(right, 4, "type: %s at %d" % (kind, place))


def under(t, priorities):
    """A type or a priority, with priorities in place of priority variables."""
    if t[0] == "variable":
        return priorities[t]
    if t[0] == "priority":
        return t
    return (t[0],) + tuple(under(part, priorities) for part in t[1:])


def typed_program(text):
    """The order of priorities, the procedures and `main` of a text that stands for a typable program."""
    reader = Reader(right_tokens(text))
    pairs, procedures, main = reader.program()
    type_program(pairs, procedures, main)
    return Order(reader.priorities, pairs), procedures, main


def type_program(pairs, procedures, main):
    edges = []
    for place, low, high in pairs:
        typed(not is_at_most(edges, high, low), "cycle", place)
        edges.append((low, high))
    for one in list(procedures.values()) + [main]:
        found = Typing(procedures, edges + one.given).block(one.parameters, one.own, one.body)
        typed(found == one.result, "mismatch", one.place)


class Typing:
    """Types of parts of one procedure. `edges` are what it may use in entailment; a scope is a list of (name, type), the
    latest last; `r` is the priority at which a block runs."""

    def __init__(self, procedures, edges):
        self.procedures, self.edges = procedures, edges

    def block(self, scope, r, block):
        binds, ending = block
        for name, action in binds:
            scope = scope + [(name, self.action(scope, r, action))]
        return self.ending(scope, r, *ending)

    def action(self, scope, r, action):
        kind, place = action[:2]
        if kind == "ret":
            return self.expression(scope, *action[2])
        if kind == "output":
            typed(self.expression(scope, *action[2]) == INT, "mismatch", place)
            return UNIT
        if kind == "input":
            return ("+", UNIT, INT)
        if kind == "do":
            return self.block(scope, r, action[2])
        if kind == "spawn":
            found = ("thread", action[2], self.block(scope, action[2], action[3]))
            typed(nodes(found) <= 16, "wide", place)
            return found
        if kind == "sync":
            thread = dict(scope)[action[2]]
            typed(thread[0] == "thread", "not a thread", place)
            typed(is_at_most(self.edges, r, thread[1]), "inversion", place)
            return thread[2]
        return self.call(scope, r, *action[1:])

    def call(self, scope, r, place, name, priorities, arguments):
        callee = self.procedures[name]
        types = [self.expression(scope, *argument) for argument in arguments]
        typed(len(priorities) == len(callee.variables) and len(types) == len(callee.parameters), "arity", place)
        given = {("variable", v): p for v, p in zip(callee.variables, priorities)}
        typed(types == [under(t, given) for _, t in callee.parameters], "mismatch", place)
        typed(under(callee.own, given) == r, "wrong priority", place)
        for low, high in callee.given:
            typed(is_at_most(self.edges, under(low, given), under(high, given)), "constraint", place)
        return under(callee.result, given)

    def ending(self, scope, r, kind, place, tested, *blocks):
        found = self.expression(scope, *tested)
        if kind == "ret":
            return found
        if kind == "if":
            left, right = [self.block(scope, r, block) for block in blocks]
            typed(found == BOOL and left == right, "mismatch", place)
        else:
            typed(found[0] == "+", "mismatch", place)
            left, right = [self.block(scope + [(name, part)], r, block)
                           for (name, block), part in zip(blocks[0], found[1:])]
            typed(left == right, "mismatch", place)
        return left

    def expression(self, scope, kind, place, first=None, second=None):
        if kind == "name":
            return dict(scope)[first]
        if kind in ("number", "true", "false", "()"):
            return {"number": INT, "()": UNIT}.get(kind, BOOL)
        a = self.expression(scope, *first)
        if kind in ("fst", "snd"):
            typed(a[0] == "*", "mismatch", place)
            return a[1] if kind == "fst" else a[2]
        if kind == "not":
            typed(a == BOOL, "mismatch", place)
            return BOOL
        if kind in ("inl", "inr"):
            typed(second[0] == "+" and a == second[1 if kind == "inl" else 2], "mismatch", place)
            return second
        b = self.expression(scope, *second)
        if kind == ",":
            typed(nodes(("*", a, b)) <= 16, "wide", place)
            return ("*", a, b)
        typed(a == b == (BOOL if kind in ("and", "or") else INT), "mismatch", place)
        return INT if kind in ("+", "-", "*", "/", "%") else BOOL
