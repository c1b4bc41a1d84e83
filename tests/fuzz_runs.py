"""Random words and inputs for the commands that run a program, for tests/fuzz.py: programs that mostly end, with inputs; limits
at the work; inputs that are wrong; for `judge` schedules that are prompt, that have a flaw, that are changed, or no text
of one; and samples. A case is a list of words and an input, both bytes."""
import collections

import model
import model_schedules as schedules
import model_steps as steps
from fuzz_programs import LARGE, Typed, above, calls, edge, spaced, walk
from fuzz_programs import about_limits, typed, wrong_choice, wrong_name
from model_text import Refused
from model_types import is_at_most, typed_program


# ---------------------------------------------------------------- words
FEW = {"P": [1, 1, 1, 2, 2, 2, 3, 3, 4, 5, 8, 16, 1023, 1024], "W": [1, 2, 2, 3, 4, 4, 5, 8, 15, 16],
       "Q": [1, 1, 1, 2, 2, 3, 4, 5, 7, 16, 64, 64, 999, 1000]}


def words(r, command, limits, sample=1):
    few = {**FEW, "L": [max(1, min(100000, r.choice(limits)))], "N": [sample]}
    return [command] + [b"%d" % r.choice(few[letter]) for letter in model.COMMANDS[command]]


def any_command(r, commands):
    return r.choice(sorted(commands))


# ---------------------------------------------------------------- runs
class Run:
    """What a model knows of a typable program with right inputs, whose run has at most 2,000 steps."""

    def __init__(self, data):
        sections = model.sections_of(data)
        self.order, procedures, main = typed_program(sections[b"program"])
        job = steps.Job(procedures, main, model.read_inputs(model.lines_of(sections[b"inputs"])))
        self.records = job.records_within(2000)
        self.work = sum(len(record.events) for record in self.records)
        self.graph = schedules.Graph(self.records, self.order)


def run_of(data):
    try:
        return Run(data)
    except (Refused, steps.PastLimit):
        return None


# ---------------------------------------------------------------- programs
def tree(r):
    """A tree of threads at a few priorities, with joins of those that may be waited for: much that is ready at once."""
    names = list("abcd")[:r.randrange(1, 5)]
    pairs = [tuple(sorted(r.sample(names, 2))) for _ in range(r.choice([0, 1, 2, 3, 6]))] if len(names) > 1 else []
    r.shuffle(names)
    left = r.choice([5, 10, 20, 30])

    def block(own, scope, depth):
        nonlocal left
        binds, scope = "", list(scope)
        for _ in range(r.choice([4, 8, 18]) if depth == 4 else r.randrange(1, 6)):
            kind, name = r.random(), "n%d" % len(scope)
            threads = [(x, p) for x, p in scope if p and is_at_most(pairs, own, p)]
            if kind < 0.45 and depth > 0 and left > 0 and len(scope) < 20:
                left -= 1
                p = above(r, pairs, own) if r.random() < 0.5 else r.choice(names)
                binds += "%s <- spawn [ %s ] %s ; " % (name, p, block(p, scope, depth - 1))
                scope.append((name, p))
            elif kind < 0.7 and threads:
                binds += "%s <- sync %s ; " % (name, r.choice(threads)[0])
                scope.append((name, None))
            else:
                binds += "%s <- %s ; " % (name, r.choice(["ret 1", "ret ( 7 / 2 )", "ret ( 1 % 0 )"] if kind > 0.97 else ["ret 1"]))
                scope.append((name, None))
        return "{ %s ret 1 }" % binds
    own = r.choice(names)
    text = "".join("priority %s ; " % x for x in names) + "".join("order %s < %s ; " % pair for pair in pairs)
    return (text + "main at %s : int %s" % (own, block(own, [], 4))).split()


def deep(r):
    """Paths of about 32 parts, by recursion; what is joined may be a fault."""
    base = r.choice(["ret k", "ret ( 1 / k )", "x <- output k ; ret ( %s + 1 )" % LARGE])
    after = r.choice(["x <- sync h ; ret x", "x <- sync h ; o <- output x ; ret ( x + 1 )", "ret k", "if ( k < 20 ) { x <- sync h ; ret x } else { ret 0 }"])
    return ("priority p ; proc f ( k : int ) at p : int { if ( k < 1 ) { %s } else { h <- spawn [ p ] { x <- call f ( ( k - 1 ) ) ; ret x } ; %s } } "
            "main at p : int { %s x <- call f ( %d ) ; ret x }" % (base, after, r.choice(["", "o <- output 1 ;", "h <- spawn [ p ] { x <- call f ( 31 ) ; ret x } ;"]),
                                                              r.randrange(29, 35))).split()


def arithmetic(r):
    """Expressions of numbers at the ends of their range, written and given back."""
    few = r.choice([["7", "2", "( 0 - 7 )", "( 0 - 2 )", "( 0 - 1 )"], ["1", "( 0 - 1 )", "( ( 0 - %s ) - 1 )" % LARGE, LARGE], None, None])

    def number(depth):
        if depth == 0 or r.random() < 0.2:
            return r.choice(few or ["0", "1", "2", "7", "007", LARGE, "( 0 - %s )" % LARGE, "( ( 0 - %s ) - 1 )" % LARGE, "( 0 - 1 )", "( 0 - 7 )", "4611686018427387904", "3037000500"])
        return "( %s %s %s )" % (number(depth - 1), r.choice("+-*/%"), number(depth - 1))

    def test(depth):
        if depth == 0 or r.random() < 0.3:
            return r.choice(["true", "false", "( ( 1 / 0 ) == 1 )", "( %s %s %s )" % (number(1), r.choice(["<", "<=", "=="]), number(1))])
        return r.choice(["not ( %s )", "( false and %s )", "( true or %s )", "( %%s %s %%s )" % r.choice(["and", "or"])]).replace("%s", test(depth - 1))
    if r.random() < 0.6:
        kind, one = r.choice([("int", number(3)), ("int", number(4)), ("bool", test(2)), ("bool", test(3))])
        return ("priority p ; main at p : %s { ret %s }" % (kind, one)).split()
    return ("priority p ; proc f ( a : int , b : bool ) at p : int { o <- output a ; if b { ret a } else { ret 0 } } "
            "main at p : ( int * bool ) { h <- spawn [ p ] { x <- call f ( %s , %s ) ; ret x } ; o <- output %s ; x <- sync h ; ret ( x , %s ) }"
            % (number(2), test(1), number(2), test(2))).split()


def reader(r):
    """Threads, calls and blocks that read inputs, write them, and give back what they did not write."""
    read = "a <- input ; o <- case_of ; b <- input ; ret ( a , b )"
    shape = "( ( unit + int ) * ( unit + int ) )"
    actions = ["call f ( )", "do { %s }" % read, "call f ( )"]
    binds = ["x%d <- %s ;" % (i, r.choice(actions + ["input"])) for i in range(r.randrange(3))]
    binds.insert(r.randrange(len(binds) + 1), "h <- spawn [ p ] { u <- input ; %s } ;" % read)
    text = "priority p ; proc show ( s : ( unit + int ) ) at p : unit { case s inl u { ret u } inr n { o <- output n ; ret o } } "
    text += "proc f ( ) at p : %s { %s } main at p : %s { %s y <- sync h ; ret y }" % (shape, read, shape, " ".join(binds))
    return text.replace("case_of", r.choice(["call show ( a )", "call show ( a )", "output 3"])).split()


def running(r):
    makers = [lambda r: Typed(r, ends=True).program().split(), tree, deep, arithmetic, reader]
    return spaced(r, r.choices(makers, [27, 32, 8, 20, 13])[0](r))


# ---------------------------------------------------------------- inputs
PATHS = ["0", "0", "0", "0.0", "0.0", "0.1", "0.2", "0.0.0", "0.1.0", "0.10", "0.4294967295", "0" + ".0" * 31]
NUMBERS = ["0", "-0", "5", "-6", "007", "-007", LARGE, "-9223372036854775808", "1", "2", "3", "-1"]
BLANKS = [" ", " ", "  ", "\t", " \t", "\r"]
BAD_INPUTS = ["1: 5", "0: 5x", " 0: 5", "0 : 5", "00: 5", "0.: 1", ".0: 1", "0..0: 1", "0: +5", "0: --5", "0: 5-6", "0: -", "0:5,6", "0", "0;5", ":5", "-0: 1",
              "0: 9223372036854775808", "0: -9223372036854775809", "0: " + "9" * 40, "0.4294967296: 1", "0.42949672960: 1", "0" + ".0" * 32 + ": 1", "0: 5 # x",
              " # x", "\x0b", "0:\x0c5", "\xef\xbb\xbf0: 1", "0:5\x00", "0: 5.0", "0.01: 5", "0: 0x5", "\t0: 5", "0:: 5", "= 0: 5", "0:5\xa0", "==="[:2]]


def blanks(r, least):
    return "".join(r.choice(BLANKS) for _ in range(max(least, r.choice([0, 0, 1]))))


def input_lines(r):
    lines = []
    for path in sorted(sorted({r.choice(PATHS) for _ in range(r.randrange(5))}), key=lambda _: r.random()):
        numbers = [r.choice(NUMBERS) for _ in range(r.randrange(7))]
        lines.append(path + ":" + blanks(r, 0) + "".join(n + blanks(r, 1) for n in numbers[:-1]) + "".join(numbers[-1:]) + blanks(r, 0))
        lines += r.choice([[], [], [], ["# 0: 5x"], [""], [" \t\r"]])
    return lines


def section(r, name, lines):
    """A section with these lines; the last of them may lack its line feed where nothing follows."""
    return ["===" + name + r.choice(["", "", " ", "\r", "\t "])] + lines


def joined(r, data, *sections):
    lines = [line for one in sections for line in one]
    end = b"" if lines and lines[-1] and r.random() < 0.2 else b"\n"
    return data + (b"" if data.endswith(b"\n") else b"\n") + "\n".join(lines).encode("latin-1") + end if lines else data


def with_inputs(r):
    return joined(r, running(r), section(r, "inputs", input_lines(r)) if r.random() < 0.7 else [])


# ---------------------------------------------------------------- cases without a schedule
def run(r, commands):
    """A run with a limit at its work, just below, or far from it. What stands in a schedule is read by `judge` alone."""
    data = with_inputs(r)
    found = run_of(data)
    if r.random() < 0.1:
        data = joined(r, data, section(r, "schedule", ["0;0"]))
    work = found.work if found else 300
    return words(r, any_command(r, commands), [work, work, work - 1, work + 1, 1, 2000, 100000 if found else 2000]), data


def faulty(r, commands):
    """Texts that are mostly no program or not typable; what is one runs within a small limit."""
    data = r.choice([typed, wrong_choice, wrong_choice, wrong_choice, calls, calls, wrong_name, about_limits, edge, walk])(r)[1]
    for _ in range(r.choice([0, 0, 0, 0, 1, 2, 2])):
        data = joined(r, data, section(r, r.choice(["inputs", "inputs", "schedule", "input", "="]), [r.choice(["0;0", "0: x", "0: 5"])]))
    return words(r, any_command(r, commands), [1, 10, 300, 1000]), data


def bad_inputs(r, commands):
    """One or two lines that are wrong, or a path twice; or a run with too many steps beside it."""
    lines = input_lines(r)
    for _ in range(r.choice([1, 1, 2])):
        again = [line for line in lines if line[:1] == "0"]
        line = r.choice(again) if again and r.random() < 0.5 else r.choice(BAD_INPUTS + ["0: 1", "0:", "0.0:"])
        lines.insert(r.randrange(len(lines) + 1), line)
    unread = section(r, "schedule", ["0;0"]) if r.random() < 0.2 else []
    return words(r, any_command(r, commands), [1, 300, 2000]), joined(r, running(r), section(r, "inputs", lines), unread)


def large(r, commands):
    """A report of many threads, past the limit by far; for `judge` the canonical plan, perhaps with a blank line in it."""
    n = r.choice([3700, 4000])
    data = ("priority bg; priority ui; order bg < ui; proc leaf(k : int) at bg : int { u <- output (k * k); ret (k % 7) } proc chain(k : int) at bg : int { if (k < 1) "
            "{ ret 0 } else { h <- spawn[bg] { x <- call leaf(k); ret x }; r <- call chain((k - 1)); v <- sync h; ret (r + v) } } "
            "main at ui : int { h <- spawn[bg] { x <- call chain(N); ret x }; u <- output N; ret N }\n".replace("N", str(n))).encode()
    command = r.choice(sorted(commands & {b"report", b"judge", b"run"}) * 2 + [b"judge"] * (b"judge" in commands) or sorted(commands))
    given = words(r, command, [100000, 100000, 10 * n + 9, 10 * n + 9, 10 * n + 8])
    if command == b"judge":
        lines = model.answer([b"plan"] + given[1:], data)[1].decode().split("\n")[:-1]
        if r.random() < 0.4:
            lines.insert(r.choice([len(lines) // 2, 0]), "")
        data = joined(r, data, section(r, "schedule", lines))
    return given, data


# ---------------------------------------------------------------- schedules
def prompt(r, graph, cores):
    """Any prompt schedule."""
    waits = {v: len(parents) for v, parents in graph.parents.items()}
    ready, steps_ = [v for v in waits if waits[v] == 0], []
    while ready:
        left, step = sorted(ready, key=lambda _: r.random()), []
        while left and len(step) < cores:
            v = next(v for v in left if not any(graph.order.below(graph.priority[v], graph.priority[u]) for u in left))
            step.append(v)
            left.remove(v)
        for v in step:
            for child in graph.children[v]:
                waits[child] -= 1
                if waits[child] == 0:
                    left.append(child)
        ready = left
        steps_.append(sorted(step, key=lambda _: r.random()))
    return steps_


def changed(r, steps_, graph):
    """One change about a step."""
    out = [list(step) for step in steps_]
    i = r.randrange(len(out))
    j = min(max(0, i + r.choice([-2, -1, 1, 1, 2, 3])), len(out) - 1)
    a, b = r.randrange(len(out[i])) if out[i] else 0, r.randrange(len(out[j])) if out[j] else 0
    kind = r.randrange(11)
    if kind == 0 and out[i] and out[j]:
        out[i][a], out[j][b] = out[j][b], out[i][a]
    elif kind == 1 and out[i]:
        out[j].append(out[i].pop(a))
    elif kind == 2 and out[i]:
        out[i].pop(a)
    elif kind == 3 and out[i]:
        out[j].insert(b, out[i][a])
    elif kind == 4:
        del out[i]
    elif kind == 5:
        out.insert(j, list(out[i]))
    elif kind == 6:
        out.insert(i, [])
    elif kind == 7:
        out[i:i + 1] = [out[i][:a], out[i][a:]]
    elif kind == 8:
        out[i], out[j] = out[j], out[i]
    elif kind == 9:
        del out[i:]
    else:
        out[i].insert(a, r.choice(sorted(graph.priority)))
    return out


def flawed(r, steps_, graph, cores):
    """A schedule that has at one step the flaw of a kind that is drawn, where that step allows it."""
    out, kind = [list(step) for step in steps_], r.choice("empty wide twice unready idle inverted inverted unfinished any any any".split())
    for i in sorted(range(len(out)), key=lambda _: r.random()):
        done = set(v for step in out[:i] for v in step)
        later = [v for step in out[i + 1:] for v in step]
        ready = [v for v in later if done.issuperset(graph.parents[v])]
        low = [(n, u) for n, v in enumerate(out[i]) for u in ready if graph.order.below(graph.priority[u], graph.priority[v])]
        if low or kind != "inverted":
            break
    step = out[i]
    if kind == "empty":
        out.insert(i, [])
    elif kind == "wide":
        step += (later + step * (cores + 1))[:cores + 1 - len(step)]
    elif kind == "twice":
        step[r.randrange(len(step))] = r.choice(sorted(done) + step)
    elif kind == "unready" and later:
        for v in r.sample(later[:9], min(len(later[:9]), r.choice([1, 2, 3]))):
            step.insert(r.randrange(len(step) + 1), v)
        del step[cores:]
    elif kind == "idle":
        step.pop(r.randrange(len(step)))
        out[i] = step or [later[0] if later else ((0,), 0)]
    elif kind == "inverted" and low:
        n, u = r.choice(low)
        step[n] = u
    elif kind == "any":
        pool = (step + ready) * r.choice([1, 2, 8]) + later[:6] + sorted(done)[-3:]
        out[i] = [r.choice(pool) for _ in range(r.randrange(1, min(cores, 6) + 2))]
    else:
        del out[i:]
    return out


BAD_VERTICES = ["0;0", "0:00", "00:0", "1:0", "0:-1", "0:", "0", ":0", "0.:0", "0:0,0:1", "0:4294967296", "0.4294967296:0", "#", "0:0x", "0" + ".0" * 32 + ":0", "0:+1",
                "# 0:0", "0:0:0", "0:01", "0.00:0", "0:" + "9" * 30, "0:0\x0b", "0:0\xa0", "\x00", "0: 0", "0 :0"]
UNKNOWN_VERTICES = ["0:9999", "0.77:0", "0.0.0.0.0.9:0", "0:4294967295", "0.4294967295:0", "0" + ".7" * 31 + ":0"]


def schedule_lines(r, steps_):
    between = r.choice([[" "], [" ", "\t", "  ", " \t", "\r"]])
    around = r.choice([[""], ["", "", " ", "\t", "\r"]])
    return [r.choice(around) + "".join(schedules.vertex_text(v) + r.choice(between) for v in step[:-1])
            + "".join(schedules.vertex_text(v) for v in step[-1:]) + r.choice(around) for step in steps_]


def judged(r, make, lines=lambda r, lines: lines):
    """A case of `judge` on the run of a program with at least two threads, mostly."""
    for _ in range(8):
        data = with_inputs(r) if r.random() < 0.4 else joined(r, spaced(r, tree(r)), section(r, "inputs", []) if r.random() < 0.2 else [])
        found = run_of(data)
        if found and found.work < 400 and len(found.records) > r.choice([0, 1, 1, 3]):
            break
    else:
        data = spaced(r, "priority p ; main at p : int { h <- spawn [ p ] { ret 1 } ; ret 2 }".split())
        found = run_of(data)
    given = words(r, b"judge", [found.work] * 5 + [2000, 100000, found.work - 1])
    text = lines(r, schedule_lines(r, make(found.graph, int(given[1]))))
    if b"\n===" in data or r.random() < 0.9:
        return given, joined(r, data, section(r, "schedule", text))
    return given, joined(r, data, section(r, "schedule", text), section(r, "inputs", input_lines(r)))


def promptly(r, _):
    plans = r.random() < 0.3
    return judged(r, lambda graph, cores: schedules.plan(graph, cores) if plans else prompt(r, graph, cores))


def with_flaw(r, _):
    return judged(r, lambda graph, cores: flawed(r, prompt(r, graph, cores), graph, cores))


def with_change(r, _):
    def make(graph, cores):
        found = r.choice([schedules.plan(graph, cores), prompt(r, graph, cores), prompt(r, graph, r.choice([1, 2, 3, cores]))])
        for _ in range(r.choice([0, 1, 1, 1, 2])):
            found = changed(r, found, graph) if found else found
        return found
    return judged(r, make)


def bad_schedule(r, _):
    def damaged(r, lines):
        for _ in range(r.choice([1, 1, 2, 2, 3])):
            i = r.randrange(len(lines)) if lines else 0
            vertices = lines[i].split(" ") if lines else []
            for _ in range(r.choice([1, 1, 2])):
                vertices.insert(r.randrange(len(vertices) + 1), r.choice(r.choice([BAD_VERTICES, UNKNOWN_VERTICES])))
            lines[i:i + 1] = [" ".join(vertices)]
        return lines
    return judged(r, lambda graph, cores: schedules.plan(graph, cores), damaged)


# ---------------------------------------------------------------- samples
def sampled(r, _):
    """A sample with a limit at its work, or far from it. Whatever stands in the input is not read."""
    n = r.choice([1, 1, 2, 3, 10, 30, r.randrange(1, 200), r.randrange(1, 5001)])
    return words(r, b"sample", [10 * n + 9, 10 * n + 9, 10 * n + 8, 1, 100000], n), r.choice([b"", b"", b"@", b"===x\n"])


def of_workers(r):
    """A run on workers of a program that mostly ends, mostly with a limit that is far above the work."""
    return words(r, b"run", [100000, 100000, 2000, r.randrange(1, 60)]), with_inputs(r)


# How often each kind of case comes, and the command that it needs.
GENERATORS = {"run": 36, "faulty": 32, "bad_inputs": 24, "large": 3}
JUDGED = {"promptly": 8, "with_flaw": 26, "with_change": 10, "bad_schedule": 12}
SAMPLED = {"sampled": 8}


# ---------------------------------------------------------------- what has to be hit
def answers(command):
    """The answers, as status and kind of line, that cases of this command have to hit."""
    if command == b"sample":
        return ["0", "7 limit: steps"]
    found = ["0", "3", "4", "5 section", "5 inputs: bad line", "5 inputs: path twice", "7 limit: steps"]
    found += ["7 limit: report"] * (command in (b"report", b"judge", b"run"))
    if command == b"judge":
        found += ["5 schedule: bad text", "5 schedule: unknown vertex"]
        found += ["6 flaw: " + kind for kind in "empty, wide, twice, not ready, idle, inverted, unfinished".split(", ")]
    return found


def outcomes(output):
    """How often each kind of outcome stands in a run text."""
    lines = [line.split() for line in output.decode().split("\n") if line.startswith("thread")]
    kinds = [line[4:5] + line[5:6] * (line[4] == "fault") for line in lines if len(line) > 4]
    return collections.Counter(" ".join(kind) for kind in kinds)
