"""What docs/LANGUAGE.md says of texts, in Python: tokens, the grammar, names, limits and the faults of a text. The headings
below are those of that page. Where the program has a parser, this has the grammar of the docs and the set of all
derivations that are still possible; where the program stops at a fault, this mostly gathers all faults and takes the least.
"""
import functools
import re
from collections import namedtuple


class Refused(Exception):
    """The run ends with a status and a line."""


def need(right, status, line):
    if not right:
        raise Refused(status, line)


def value(digits):
    """The value of decimal digits; of more than 30 that count, just a large one."""
    digits = digits.lstrip(b"0")
    return int(digits or b"0") if len(digits) <= 30 else 10 ** 30


# ---------------------------------------------------------------- Tokens
# A token has a kind, which is `name`, `number`, or the word or sign itself; a text; and a place.
Token = namedtuple("Token", "kind text place")
RESERVED = """priority order proc main at ret spawn sync call do input output if else case inl inr fst snd not and or true
false unit bool int thread""".split()
SIGNS = "<- <= == < + - * / % ( ) { } [ ] , ; :".split()
FORMS = re.compile(rb"(?P<blank>[ \t\r\n]+|#[^\n]*)|(?P<word>[A-Za-z_][A-Za-z0-9_]*)|(?P<number>[0-9]+)|(?P<sign>"
                   + "|".join(map(re.escape, SIGNS)).encode() + rb")|(?P<bad>.)")


def tokens_of(text):
    """The tokens up to the first byte that begins none, and the place of that byte or None."""
    tokens = []
    for found in FORMS.finditer(text):
        form, spelling = found.lastgroup, found.group().decode("latin-1")
        if form == "bad":
            return tokens, found.start()
        if form == "number":
            tokens.append(Token("number", spelling, found.start()))
        elif form != "blank":
            kind = "name" if form == "word" and spelling not in RESERVED else spelling
            tokens.append(Token(kind, spelling, found.start()))
    return tokens, None


# ---------------------------------------------------------------- Grammar
GRAMMAR = """
program = { decl } main .
decl    = "priority" name ";" | "order" name "<" name ";" | proc .
proc    = "proc" name [ "[" [ name { "," name } ] [ ";" given { "," given } ] "]" ]
          "(" [ param { "," param } ] ")" "at" name ":" type block .
given   = name "<=" name .
param   = name ":" type .
main    = "main" "at" name ":" type block .
type    = "unit" | "bool" | "int" | "thread" "[" name "]" "(" type ")"
        | "(" type "*" type ")" | "(" type "+" type ")" .
block   = "{" { name "<-" action ";" } tail "}" .
action  = "ret" expr | "spawn" "[" name "]" block | "sync" name
        | "call" name [ "[" [ name { "," name } ] "]" ] "(" [ expr { "," expr } ] ")"
        | "do" block | "input" | "output" expr .
tail    = "ret" expr | "if" expr block "else" block
        | "case" expr "inl" name block "inr" name block .
expr    = name | number | "true" | "false" | "(" ")" | "(" expr ")"
        | "(" expr "," expr ")" | "(" expr op expr ")"
        | "fst" "(" expr ")" | "snd" "(" expr ")" | "not" "(" expr ")"
        | "inl" "[" type "]" "(" expr ")" | "inr" "[" type "]" "(" expr ")" .
op      = "+" | "-" | "*" | "/" | "%" | "<" | "<=" | "==" | "and" | "or" .
"""


def read_grammar(text):
    """The alternatives of each rule. A rule has its name in `<` and `>`; the other symbols are kinds of tokens. `{ x }` is
    a rule of its own: nothing, or `x` and the rule again; `[ x ]` is one too: nothing, or `x`."""
    symbols, rules = re.findall(r'"[^"]*"|\w+|\S', text)[::-1], {}

    def alternatives(end):
        found, sequence = set(), ()
        while True:
            symbol = symbols.pop()
            if symbol in ("{", "["):
                rule = "<part %d>" % len(rules)
                rules[rule] = frozenset()
                inner = alternatives("}" if symbol == "{" else "]")
                rules[rule] = frozenset([()] + [one + (rule,) if symbol == "{" else one for one in inner])
                sequence += (rule,)
            elif symbol in ("|", end):
                found.add(sequence)
                sequence = ()
                if symbol == end:
                    return frozenset(found)
            elif symbol in ("name", "number") or symbol[0] == '"':
                sequence += (symbol.strip('"'),)
            else:
                sequence += ("<%s>" % symbol,)

    while symbols:
        name, _ = symbols.pop(), symbols.pop()
        rules["<%s>" % name] = alternatives(".")
    return rules


RULES = read_grammar(GRAMMAR)

# What may follow the tokens so far is a set of stacks. A stack is a pair (state, stack below), or None, which is the end.
# A state is what one rule still needs: a set of sequences of symbols, any one of them. Each rule derives some tokens, so
# tokens begin a program exactly where their set of stacks is not empty.
DONE = frozenset([()])
START = {(frozenset([("<program>",)]), None)}


@functools.lru_cache(None)
def may_be_empty(symbol):
    return symbol in RULES and may_end(RULES[symbol])


@functools.lru_cache(None)
def may_end(state):
    return any(all(may_be_empty(symbol) for symbol in sequence) for sequence in state)


@functools.lru_cache(None)
def ways(state, kind):
    """The ways in which a token of this kind is the first of what the state derives. Each is the states that are left,
    the innermost first. (No rule begins with itself, so this ends.)"""
    after = {}
    for sequence in state:
        for i, symbol in enumerate(sequence):
            after.setdefault(symbol, set()).add(sequence[i + 1:])
            if not may_be_empty(symbol):
                break
    found = []
    for symbol, left in after.items():
        if symbol == kind:
            found.append((frozenset(left),))
        elif symbol in RULES:
            found += [way + (frozenset(left),) for way in ways(RULES[symbol], kind)]
    return found


def opened(stacks):
    """The stacks, and those that are left where states that may end do so."""
    for stack in stacks:
        yield stack
        while stack is not None and may_end(stack[0]):
            stack = stack[1]
            yield stack


def stacks_after(stacks, kind):
    found = set()
    for stack in opened(stacks):
        for way in ways(stack[0], kind) if stack else ():
            grown = stack[1]
            for state in reversed(way):
                grown = grown if state == DONE else (state, grown)
            found.add(grown)
    return found


# ---------------------------------------------------------------- Faults of a text
TOKEN_FAULTS = ["bad byte", "bad number", "unexpected", "too deep"]
MANY = {"priorities": 16, "pairs": 256, "procedures": 256, "priority variables": 8, "constraints": 16, "parameters": 8,
        "variables": 32, "type nodes": 16}
NAME_FAULTS = ["unknown name", "twice named"] + ["too many " + what for what in MANY]


def refuse_first(faults, table):
    """Of faults as (place, kind) the earliest place, and of several at one place the one that stands first in the table."""
    for place, kind in sorted(faults, key=lambda fault: (fault[0], table.index(fault[1]))):
        raise Refused(3, "source: %s at %d" % (kind, place))


def right_tokens(text):
    """The tokens of a text without a fault of the tokens."""
    tokens, bad_byte = tokens_of(text)
    faults = [] if bad_byte is None else [(bad_byte, "bad byte")]
    faults += [(t.place, "bad number") for t in tokens if t.kind == "number" and value(t.text.encode()) >= 2 ** 63][:1]
    depth = 0
    for t in tokens:
        depth += (t.kind in ("(", "[", "{")) - (t.kind in (")", "]", "}"))
        if depth > 64:
            faults.append((t.place, "too deep"))
            break
    last = min(faults)[0] if faults else len(text)
    stacks = START
    for t in tokens:
        if t.place > last:                          # what is found from here on cannot be the first
            break
        stacks = stacks_after(stacks, t.kind)
        if not stacks:
            faults.append((t.place, "unexpected"))
            break
    else:
        if bad_byte is None and None not in opened(stacks):
            faults.append((len(text), "unexpected"))
    refuse_first(faults, TOKEN_FAULTS)
    return tokens


# ---------------------------------------------------------------- Names and scopes, Limits
# The tree. A priority is ("priority", name) or ("variable", name); a type is ("int",), ("bool",), ("unit",), ("*", T, T),
# ("+", T, T) or ("thread", priority, T); actions, endings and expressions are tuples that begin with kind and place. A
# block is its binds, as (name, action), and its ending. `main` is a procedure without name and parameters.
Procedure = namedtuple("Procedure", "place variables given parameters own result body")


class Reader:
    """Reads the tokens of a text without a fault of the tokens, and gathers its faults of names and limits."""

    def __init__(self, tokens):
        self.tokens, self.i, self.faults = tokens, 0, []
        self.variables = []                         # the priority variables of the present procedure

    def peek(self):
        return self.tokens[self.i].kind

    def next(self):
        self.i += 1
        return self.tokens[self.i - 1]

    def skip(self, kinds):
        for kind in kinds.split():
            assert self.next().kind == kind

    def has(self, kind):
        """Steps over a token of this kind, if it comes next."""
        if self.peek() == kind:
            self.i += 1
            return True
        return False

    def listed(self, read, *ends):
        """None or more, with commas between, up to one of these signs."""
        found = []
        while self.peek() not in ends:
            found.append(read())
            self.has(",")
        return found

    def fault(self, token, kind):
        self.faults.append((token.place, kind))

    def count(self, token, what, number):
        """`token` is the place of the one with this number, counted from 1."""
        if number > MANY[what]:
            self.fault(token, "too many " + what)

    def declare(self, names, token, what):
        if token.text in names:
            self.fault(token, "twice named")
        names.append(token.text)
        self.count(token, what, len(names))

    def program(self):
        # Priorities and procedures are known in the whole text; their words stand nowhere but in declarations.
        self.priorities, self.procedures, pairs, procedures = [], [], [], {}
        for word, name in zip(self.tokens, self.tokens[1:]):
            if word.kind == "priority":
                self.declare(self.priorities, name, "priorities")
            elif word.kind == "proc":
                self.declare(self.procedures, name, "procedures")
        while True:
            word = self.next()
            if word.kind == "priority":
                self.skip("name ;")
            elif word.kind == "order":
                self.count(word, "pairs", len(pairs) + 1)
                low = self.priority()
                self.skip("<")
                pairs.append((word.place, low, self.priority()))
                self.skip(";")
            elif word.kind == "proc":
                name = self.next().text
                procedures[name] = self.procedure(word)
            else:
                main = self.body(word, [], [], [])
                break
        refuse_first(self.faults, NAME_FAULTS)
        return pairs, procedures, main

    def priority(self):
        token = self.next()
        if token.text in self.variables:
            return ("variable", token.text)
        if token.text not in self.priorities:
            self.fault(token, "unknown name")
        return ("priority", token.text)

    def procedure(self, word):
        self.variables, given, names = [], [], []
        if self.has("["):
            self.listed(lambda: self.declare(self.variables, self.next(), "priority variables"), ";", "]")
            if self.has(";"):
                self.listed(lambda: self.constraint(given), "]")
            self.skip("]")
        self.skip("(")
        types = self.listed(lambda: self.parameter(names), ")")
        self.skip(")")
        read = self.body(word, given, names, types)
        self.variables = []
        return read

    def constraint(self, given):
        self.count(self.tokens[self.i], "constraints", len(given) + 1)
        low = self.priority()
        self.skip("<=")
        given.append((low, self.priority()))

    def parameter(self, names):
        self.declare(names, self.next(), "parameters")
        self.skip(":")
        return self.type()

    def body(self, word, given, names, types):
        """From `at` on."""
        self.skip("at")
        own = self.priority()
        self.skip(":")
        result = self.type()
        return Procedure(word.place, self.variables, given, list(zip(names, types)), own, result, self.block(names))

    def type(self):
        first = self.tokens[self.i]
        read = self.part_of_type()
        self.count(first, "type nodes", nodes(read))
        return read

    def part_of_type(self):
        kind = self.next().kind
        if kind == "thread":
            self.skip("[")
            priority = self.priority()
            self.skip("] (")
            read = ("thread", priority, self.part_of_type())
            self.skip(")")
        elif kind == "(":
            left = self.part_of_type()
            read = (self.next().kind, left, self.part_of_type())
            self.skip(")")
        else:
            read = (kind,)
        return read

    def bind(self, scope):
        """The scope (a list of names, the latest last) with one name more."""
        token = self.next()
        self.count(token, "variables", len(scope) + 1)
        return scope + [token.text]

    def variable(self, scope):
        token = self.next()
        if token.text not in scope:
            self.fault(token, "unknown name")
        return token.text

    def block(self, scope):
        binds = []
        self.skip("{")
        while self.peek() == "name":
            inner = self.bind(scope)
            self.skip("<-")
            binds.append((inner[-1], self.action(scope)))
            self.skip(";")
            scope = inner
        ending = self.ending(scope)
        self.skip("}")
        return binds, ending

    def action(self, scope):
        kind, _, place = self.next()
        if kind in ("ret", "output"):
            return (kind, place, self.expression(scope))
        if kind == "spawn":
            self.skip("[")
            priority = self.priority()
            self.skip("]")
            return (kind, place, priority, self.block(scope))
        if kind == "sync":
            return (kind, place, self.variable(scope))
        if kind == "do":
            return (kind, place, self.block(scope))
        if kind == "input":
            return (kind, place)
        name = self.next()
        if name.text not in self.procedures:
            self.fault(name, "unknown name")
        priorities = []
        if self.has("["):
            priorities = self.listed(self.priority, "]")
            self.skip("]")
        self.skip("(")
        arguments = self.listed(lambda: self.expression(scope), ")")
        self.skip(")")
        return (kind, place, name.text, priorities, arguments)

    def ending(self, scope):
        kind, _, place = self.next()
        tested = self.expression(scope)
        if kind == "ret":
            return (kind, place, tested)
        if kind == "if":
            left = self.block(scope)
            self.skip("else")
            return (kind, place, tested, left, self.block(scope))
        branches = []
        for word in ("inl", "inr"):
            self.skip(word)
            inner = self.bind(scope)
            branches.append((inner[-1], self.block(inner)))
        return (kind, place, tested, branches)

    def expression(self, scope):
        if self.peek() == "name":
            place = self.tokens[self.i].place
            return ("name", place, self.variable(scope))
        kind, text, place = self.next()
        if kind in ("number", "true", "false"):
            return (kind, place, text)
        sum_type = None
        if kind in ("inl", "inr"):
            self.skip("[")
            sum_type = self.type()
            self.skip("]")
        if kind != "(":
            self.skip("(")
            read = (kind, place, self.expression(scope), sum_type)
        elif self.has(")"):
            return ("()", place)
        else:
            read = self.expression(scope)           # in brackets it makes no node
            if self.peek() != ")":
                read = (self.next().kind, place, read, self.expression(scope))
        self.skip(")")
        return read


def nodes(t):
    return 1 + sum(nodes(part) for part in t[1:] if t[0] != "thread" or part is t[2])
