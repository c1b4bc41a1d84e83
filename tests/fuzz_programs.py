"""Random texts of programs, for tests/fuzz.py: typed ones and ones with slips, calls and syncs, limits at their edges, walks
through the grammar."""
import re

import model_text
from model_text import stacks_after
from model_types import BOOL, INT, UNIT, is_at_most, under

KINDS = model_text.RESERVED + model_text.SIGNS + ["name", "number"]
LARGE = "9223372036854775807"


# ---------------------------------------------------------------- texts of tokens
# Generators make texts with a blank between any two tokens; `spaced` draws other blanks.
def spaced(r, tokens):
    blanks = r.choice([[" "], ["", " "], ["", " ", "\n", "\t", "\r\n", " # c\n", "#\n", " #===x\xff(\n", "\r"]])
    text, before = "", ""
    for token in tokens:
        apart = re.match(r"\w\w|<[-=]", before[-1:] + token[:1]) or before + token == "=="
        text += (r.choice([b for b in blanks if b] or [" "]) if apart else r.choice(blanks)) + token
        before = token
    return (text + r.choice(["", "", "\n", "#", "# x", "\r\n"])).encode("latin-1")


def spelled(r, kind):
    numbers = ["0", "1", "5", "007", LARGE, "0" + LARGE, LARGE[:-1] + "8", "9" * 20]
    return r.choice("abcpqxyfg") if kind == "name" else r.choice(numbers) if kind == "number" else kind


def any_token(r):
    return spelled(r, r.choice([r.choice(KINDS), r.choice(KINDS), r.choice(") ] } , ;".split()), r.choice(["@", "=", "number"])]))


def tokens_of(data):
    return [token.text for token in model_text.tokens_of(data)[0]]


def listed(items):
    return " , ".join(items)


def above(r, edges, p):
    """A priority to which up to three edges lead from p."""
    for _ in range(r.randrange(4)):
        p = r.choice([high for low, high in edges if low == p] or [p])
    return p


def shown(t):
    if t[0] == "thread":
        return "thread [ %s ] ( %s )" % (t[1][1], shown(t[2]))
    return "( %s %s %s )" % (shown(t[1]), t[0], shown(t[2])) if len(t) == 3 else t[0]


# ---------------------------------------------------------------- programs, typed but for slips
class Typed:
    """A program made along the typing rules. Where `slips` says so a choice is made without regard to them, `lost` is how
    often a name is another one, and with `edges` many counts are about their limits. Priorities are as in the model; that
    a variable may hide one is left to chance. With `ends` each procedure first takes a number, goes on only where it is
    above 0, and hands on less, so that runs mostly end."""

    def __init__(self, r, wrong=0.0, lost=0.0, edges=False, ends=False):
        self.r, self.wrong, self.lost, self.edges = r, wrong, lost, edges
        self.fuel = [("k", INT)] if ends else []
        self.fresh = 0

    def slips(self):
        return self.r.random() < self.wrong

    def name(self, x):
        return self.r.choice("abcpqxyfgz") if self.r.random() < self.lost else x

    def count(self, limit, most):
        if self.edges and self.r.random() < 0.15:
            return limit + self.r.choice([-1, 0, 0, 1, 2])
        return self.r.randrange(most + 1)

    def names(self, few, n):
        found = self.r.sample(few, n) if n <= len(few) else ["%s%d" % (few[0], i) for i in range(n)]
        if n > 1 and self.r.random() < 4 * self.lost:
            found[self.r.randrange(n)] = self.r.choice(found)
        return [self.name(x) for x in found]

    def type(self, n=0):
        r = self.r
        n = n or (r.randrange(14, 19) if self.edges and r.random() < 0.05 else r.choice([1, 1, 1, 2, 2, 3, 3, 5]))
        if n == 1:
            return r.choice([INT, INT, BOOL, UNIT])
        if n == 2 or r.random() < 0.3:
            return ("thread", r.choice(self.all), self.type(n - 1))
        k = r.randrange(1, n - 1)
        return (r.choice("*+"), self.type(k), self.type(n - 1 - k))

    def maybe(self, t):
        return self.type() if self.slips() else t

    def program(self):
        r = self.r
        names = self.names("abcpq", 1 + self.count(15, 3))
        declared = self.all = [("priority", x) for x in names]
        texts, self.pairs = ["priority %s ;" % x for x in names], []
        for _ in range(r.randrange(len(names) + 2)):
            i, j = r.randrange(len(names)), r.randrange(len(names))
            if i < j or self.slips():
                self.pairs.append((declared[i], declared[j]))
                texts.append("order %s < %s ;" % (self.name(names[i]), self.name(names[j])))
        self.procedures = {}
        for f in self.names("fgh", r.randrange(4)):
            own_names = self.names("pquv", self.count(8, 3))
            variables = [("variable", x) for x in own_names]
            self.all = variables * 2 + [p for p in declared if p[1] not in own_names]
            if self.all:
                given = [(r.choice(self.all), r.choice(self.all)) for _ in range(self.count(16, 3))]
                types = [t for _, t in self.fuel] + [self.type() for _ in range(self.count(8, 3))]
                self.procedures[f] = (variables, given, types, r.choice(self.all), self.type(), self.all)
        for f, (variables, given, types, own, result, self.all) in self.procedures.items():
            self.known = self.pairs + given
            text = "proc %s [ %s ; %s ] " % (f, listed(x for _, x in variables), listed("%s <= %s" % (a[1], b[1]) for a, b in given))
            names = [x for x, _ in self.fuel] + self.names("xyzw", len(types) - len(self.fuel))
            text += "( %s ) " % listed("%s : %s" % (x, shown(t)) for x, t in zip(names, types))
            text += self.body(own, self.maybe(result), result, list(zip(names, types)))
            texts.append(text.replace(" ;  ]", " ]").replace(" [  ]", ""))
        if r.random() < 0.4:
            r.shuffle(texts)
        self.all, self.known = declared, self.pairs
        own, result = r.choice(declared), self.type(r.choice([1, 1, 2, 3]))
        return " ".join(texts) + " main " + self.body(own, self.maybe(result), result, [])

    def body(self, own, told, result, scope):
        block = self.block(result, scope, own, self.r.randrange(4))
        if scope[:1] == self.fuel != []:
            block = "{ if ( k < 1 ) %s else %s }" % (self.block(result, scope, own, 0), block)
        return "at %s : %s %s" % (self.name(own[1]), shown(told), block)

    def block(self, want, scope, own, depth):
        r, scope, binds = self.r, list(scope), []
        for _ in range(r.choice([0, 0, 1, 1, 2, 3]) if depth > 0 else 0):
            self.bind(scope, binds, own, depth)
        if self.edges and r.random() < 0.05:
            for _ in range(r.randrange(31, 35) - len(scope)):
                self.bound("ret 1", INT, scope, binds)
        kind, x, y = r.random() if depth > 0 else 1, r.choice("xyzw"), r.choice("xyzw")
        if kind > 0.35:
            result = self.make(want, scope, binds, depth)
            return " ".join(["{"] + binds + ["ret", result, "}"])
        t = r.choice([t for t in dict(scope).values() if t[0] == "+"] or [("+", self.type(1), self.type(1))])
        tested = self.make(self.maybe(BOOL if kind < 0.15 else t), scope, binds, depth)
        word, first, left, second, right = ("if", "", [], "else", []) if kind < 0.15 else (
            "case", "inl " + x, [(x, t[1])], "inr " + y, [(y, t[2])])
        left = self.block(self.maybe(want), scope + left, own, depth - 1)
        right = self.block(want, scope + right, own, depth - 1)
        return " ".join(["{"] + binds + [word, tested, first, left, second, right, "}"])

    def bound(self, action, t, scope, binds, name=None):
        """Binds a new name, or this one, and gives it."""
        self.fresh += 1
        name = name or "n%d" % self.fresh
        binds.append("%s <- %s ;" % (name, action))
        scope.append((name, t))
        return name

    def spawned(self, t, scope, depth):
        return "spawn [ %s ] %s" % (self.name(t[1][1]), self.block(self.maybe(t[2]), scope, t[1], depth - 1))

    def bind(self, scope, binds, own, depth):
        r = self.r
        kind = r.choice("ret spawn sync sync sync call call call call do input output".split())
        t = self.type()
        if kind == "ret":
            action = "ret " + self.make(t, scope, binds, depth)
        elif kind == "spawn":
            t = ("thread", r.choice(self.all), t)
            action = self.spawned(t, scope, depth)
        elif kind == "sync":
            free = self.slips()
            t = ("thread", r.choice(self.all) if free else above(r, self.known, own), t)
            have = [(x, s) for x, s in dict(scope).items() if free or s[0] == "thread" and is_at_most(self.known, own, s[1])]
            if not have or r.random() < 0.5:
                have = [(self.bound(self.spawned(t, scope, 0), t, scope, binds), t)]
            x, t = r.choice(have)
            action, t = "sync " + self.name(x), t[2] if t[0] == "thread" else INT
        elif kind == "call" and self.procedures:
            action, t = self.call(scope, binds, own)
        elif kind == "do":
            action = "do " + self.block(t, scope, own, depth - 1)
        elif kind == "output":
            action, t = "output " + self.make(INT, scope, binds, depth), UNIT
        else:
            action, t = "input", ("+", UNIT, INT)
        self.bound(action, t, scope, binds, r.choice(list("xyzw") + [x for x, _ in scope]))

    def call(self, scope, binds, own):
        r = self.r
        free = self.slips()
        for _ in range(20):
            f, (variables, given, types, f_own, result, _) = r.choice(list(self.procedures.items()))
            chosen = [own if v == f_own and r.random() < 0.9 else r.choice(self.all) for v in variables]
            to = dict(zip(variables, chosen))
            fits = under(f_own, to) == own
            entailed = [is_at_most(self.known, under(a, to), under(b, to)) for a, b in given]
            if fits and all(entailed) or free and (fits or r.random() < 0.2):
                break
        else:
            return "ret 1", INT
        arguments = [self.make(self.maybe(under(t, to)), scope, binds, 0) for t in types[len(self.fuel):]]
        if self.fuel:
            arguments.insert(0, "( k - 1 )" if dict(scope).get("k") == INT else str(r.randrange(5)))
        chosen = [self.name(p[1]) for p in chosen]
        if self.slips():
            r.choice([chosen, arguments])[:1] = r.choice([[], ["a", "a"]])
        return "call %s [ %s ] ( %s )" % (self.name(f), listed(chosen), listed(arguments)), under(result, to)

    def make(self, t, scope, binds, depth):
        """An expression of type t; threads that it needs are bound before."""
        r, t = self.r, self.maybe(t)
        have = [self.name(x) for x, s in dict(scope).items() if s == t]
        have += ["%s ( %s )" % (part, x) for x, s in dict(scope).items() if s[0] == "*"
                 for part, one in zip(("fst", "snd"), s[1:]) if one == t]
        if have and r.random() < 0.7:
            return r.choice(have)
        if r.random() < 0.05:
            return "( %s )" % self.make(t, scope, binds, depth)
        if t[0] == "thread":
            return self.bound(self.spawned(t, scope, depth), t, scope, binds)
        if t[0] == "+":
            side = r.choice([1, 2])
            return "%s [ %s ] ( %s )" % (["inl", "inr"][side - 1], shown(t), self.make(t[side], scope, binds, depth))
        if t == BOOL and r.random() < 0.1:
            return "not ( %s )" % self.make(BOOL, scope, binds, depth)
        if t == UNIT or t[0] != "*" and r.random() < 0.6:
            return r.choice({"int": ["0", "1", "42", "007", LARGE], "bool": ["true", "false"], "unit": ["( )"]}[t[0]])
        parts = {"int": ["+ - * / %", INT, INT], "bool": r.choice([["< <= ==", INT, INT], ["and or", BOOL, BOOL]]),
                 "*": [","] + list(t[1:])}[t[0]]
        left, right = [self.make(part, scope, binds, depth) for part in parts[1:]]
        return "( %s %s %s )" % (left, r.choice(parts[0].split()), right)


def programs(wrong=(0,), lost=(0,), edges=False):
    return lambda r: ([b"check"], spaced(r, Typed(r, r.choice(wrong), r.choice(lost), edges).program().split()))


typed = programs()
wrong_choice = programs(wrong=(0.01, 0.03, 0.1))
wrong_name = programs(wrong=(0, 0.02), lost=(0.01, 0.03))
about_limits = programs(lost=(0, 0, 0.01), edges=True)


# ---------------------------------------------------------------- calls and syncs at few priorities
def calls(r):
    """Arbitrary calls and syncs at few priorities, so that variables hide declared ones; threads mostly as needed."""
    declared, heads = list("abcd")[:r.randrange(2, 5)], {}
    order = r.sample(declared, len(declared))
    pairs = [tuple(order[i] for i in sorted(r.sample(range(len(order)), 2))) for _ in range(r.randrange(4))]
    text = "".join("priority %s ; " % x for x in declared) + "".join("order %s < %s ; " % pair for pair in pairs)
    for f in "fgh"[:r.randrange(1, 4)]:
        variables = r.sample(declared + ["p", "q"], r.randrange(4))
        names = variables * 2 + declared
        given = [(r.choice(names), r.choice(names)) for _ in range(r.randrange(4))]
        heads[f] = variables, given, [r.choice(names) for _ in range(r.randrange(3))], r.choice(names), names

    def block(own, names, edges, count):
        binds = []

        def bind(action):
            binds.append("x%d <- %s ; " % (count + len(binds), action))
            return "x%d" % (count + len(binds) - 1)
        for _ in range(r.randrange(1, 5)):
            kind = r.random()
            if kind < 0.15:
                bind("spawn [ %s ] { ret 1 }" % r.choice(names))
            elif kind < 0.4:
                bind("sync " + bind("spawn [ %s ] { ret 1 }" % above(r, edges, own)))
            elif kind < 0.55:
                bind("sync x%d" % r.randrange(count + len(binds)) if count + len(binds) else "input")
            else:
                f, (variables, _, threads, f_own, _) = r.choice(list(heads.items()))
                chosen = [own if v == f_own and r.random() < 0.8 else r.choice(names) for v in variables]
                to = dict(zip(variables, chosen)) if r.random() < 0.9 else {}
                arguments = [bind("spawn [ %s ] { ret 1 }" % to.get(p, p)) for p in threads]
                if r.random() < 0.05:
                    r.choice([chosen, arguments]).append(r.choice(names))
                bind("call %s [ %s ] ( %s )" % (f, listed(chosen), listed(arguments)))
        return "{ %s ret 1 } " % "".join(binds)

    for f, (variables, given, threads, own, names) in heads.items():
        text += "proc %s [ %s %s %s ] ( %s ) at %s : int %s" % (
            f, listed(variables), ";" if given else "", listed("%s <= %s" % pair for pair in given),
            listed("x%d : thread [ %s ] ( int )" % pair for pair in enumerate(threads)), own,
            block(own, names, pairs + given, len(threads)))
    own = r.choice(declared)
    return [b"check"], spaced(r, (text + "main at %s : int %s" % (own, block(own, declared, pairs, 0))).split())


# ---------------------------------------------------------------- limits at their edges
def edge(r):
    """One limit: one below it, at it, or one or two above."""
    what = r.choice(sorted(model_text.MANY) + ["wide", "wide", "brackets"])
    n = model_text.MANY.get(what, 64 if what == "brackets" else 16) + r.choice([-1, 0, 1, 1, 2])
    some, own, main = n + r.choice([0, 0, 1, -1]), r.randrange(9), " main at a : int { ret 1 }"
    maker = Typed(r)
    maker.all = [("priority", "a")]
    t, k = shown(maker.type(n)), r.randrange(1, min(n, 16))
    inner = r.choice(["{ ret x }", "{ y <- ret x ; ret y }", "{ y <- ret x ; z <- ret y ; ret z }"])

    def each(form, count=n):
        return listed(form.replace("#", str(i)) for i in range(count))
    text = "priority a ; " + {
        "priorities": each("priority a# ;", n - 1).replace(",", "") + main,
        "pairs": "priority b ; " + "order a < b ; " * n + r.choice(["", "order b < a ; "]) + main,
        "procedures": each("proc f# ( ) at a : int { x <- call f255 ( ) ; ret x }").replace(",", "") + main,
        "priority variables": "proc f [ %s ] ( ) at a : int { x <- call f [ %s ] ( ) ; ret x } " % (each("v#"), each("a", some)) + main,
        "constraints": "proc f [ v ; %s ] ( ) at v : int { ret 1 } " % each(r.choice(["v <= a", "a <= v"])) + main,
        "parameters": "proc f ( %s ) at a : int { y <- call f ( %s ) ; ret x7 } " % (each("x# : int"), each("1", some)) + main,
        "variables": "proc f ( %s ) at a : int { s <- input ; %s %s } " % (
            each("x# : int", own), "x <- ret 1 ; " * (n - own - 1),
            r.choice(["ret x", "if true # else #", "case s inl u # inr w #"]).replace("#", inner)) + main,
        "type nodes": r.choice(["proc f ( x : # ) at a : # { ret x } " + main, main.replace("int", "#"),
                                main.replace("{", "{ x <- ret inl [ # ] ( 1 ) ;")]).replace("#", t),
        "wide": "proc f ( x : %s , y : %s , z : %s ) at a : int { v <- ret %s ; w <- spawn [ a ] { ret %s } ; ret 1 } " % (
            shown(maker.type(k)), shown(maker.type(max(1, n - 1 - k))), shown(maker.type(min(n - 1, 16))),
            r.choice(["( x , y )", "( x , ( y , x ) )", "fst ( ( x , y ) )", "x"]), r.choice("vyzz")) + main,
        "brackets": main.replace("ret 1", "x <- do { " * k + "ret " + "( " * (n - k - 1) + "1 " + ") " * (n - k - 1) + "} ; ret x " * k),
    }[what]
    return [b"check"], spaced(r, text.split())


# ---------------------------------------------------------------- walks through the grammar
OPENING = ["(", "[", "{"]
CLOSING = ") ] } ; ret number int ( name at main : , < <= <- { else [ inl inr * priority".split()


def walk(r):
    """Tokens that may follow each other, in half of the cases mostly brackets that open, about 64 of them; then some that
    perhaps may not, or an end that may, or none."""
    stacks, found, depth, deep = model_text.START, [], 0, r.choice([0, r.randrange(61, 66)])

    def take(kind, text):
        nonlocal stacks, depth
        stacks = stacks_after(stacks, kind)
        found.append(text)
        depth += (kind in OPENING) - (kind in CLOSING[:3])

    for token in "priority a ; main at a : int {".split() if deep or r.random() < 0.5 else []:
        take(token if token in KINDS else "name", token)
    length = r.randrange(1, 60)
    while stacks and (depth < deep if deep else len(found) < length):
        may = [kind for kind in KINDS if stacks_after(stacks, kind)] or ["main"]
        opening = [kind for kind in may if kind in OPENING]
        kind = r.choice(opening if deep and opening and r.random() < 0.9 else may)
        take(kind, spelled(r, kind))
    if r.random() < 0.6:
        for _ in range(r.choice([1, 1, 2])):
            found.insert(len(found) - r.choice([0, 0, 0, 1, 2]), any_token(r))
    elif r.random() < 0.8:
        while stacks and None not in model_text.opened(stacks):
            kind = next(kind for kind in CLOSING if stacks_after(stacks, kind))
            take(kind, {"name": "a", "number": "1"}.get(kind, kind))
        found += [any_token(r)] * (r.random() < 0.2)
    return [b"check"], spaced(r, found)
