#!/usr/bin/env python3
"""Times `check` beside sha256sum on texts of 1, 2 and 4 MB.

    bench/check.py [PROGRAM] [--only KIND] [--huge-pages]

Typable programs, of which a ratio of 8 is the most that may be:
  threads   blocks in blocks: spawn, sync and ret, up to 32 variables in scope and 60 open brackets
  limits    255 procedures over 8 priority variables, 16 constraints and 8 parameters, types of 16 nodes, 32 variables in scope
Hostile texts, of which a ratio of 20 is the most that may be:
  names     distinct names with blanks between
  brackets  pairs of brackets, 60 deep, in a program
  inputs    a small program and many lines of inputs
  type      one type of half a million nodes for each megabyte and a half
  comment   a comment that fills the text
The time is processor time, user and system, the least of seven runs, in milliseconds; the ratio is that of the two times.
The program runs by itself; with --huge-pages it runs with huge pages for its memory, as `./priml` starts it.
"""
import argparse
import os
import random
import resource
import subprocess
import sys
import tempfile

TOP = os.path.dirname(os.path.dirname(os.path.abspath(__file__)))
MEGABYTE = 1 << 20


def program_of(size, seed=1):
    """A typable program of `size` bytes, the last of them a comment."""
    chance = random.Random(seed)
    out = ["priority bg;\npriority ui;\norder bg < ui;\nmain at bg : int {\n"]
    length = len(out[0])
    # for each open block the variables in scope, each True where it is a thread
    blocks = [[]]

    def put(text):
        nonlocal length
        out.append(text)
        length += len(text)

    while blocks:
        scope = blocks[-1]
        if length > size - 2000 or len(scope) >= 32:
            numbers = [i for i, thread in enumerate(scope) if not thread]
            put("ret x%d }" % chance.choice(numbers) if numbers else "ret 0 }")
            blocks.pop()
            if blocks:
                put(";\n")
                blocks[-1].append(True)
            continue
        threads = [i for i, thread in enumerate(scope) if thread]
        kind = chance.random()
        if kind < 0.6 and len(blocks) < 60:
            put("x%d <- spawn[ui] { " % len(scope))
            blocks.append(list(scope))
        elif kind < 0.75 and threads:
            put("x%d <- sync x%d;\n" % (len(scope), chance.choice(threads)))
            scope.append(False)
        elif kind < 0.9 and scope:
            source = chance.randrange(len(scope))
            put("x%d <- ret x%d;\n" % (len(scope), source))
            scope.append(scope[source])
        else:
            put("x%d <- ret %d;\n" % (len(scope), chance.randrange(10 ** 6)))
            scope.append(False)
    text = "".join(out)
    if len(text) > size - 2:
        raise ValueError("the program came out too long")
    return text + "\n#" + "x" * (size - len(text) - 2)


# the priority variables of each procedure of `limits_of`, each at most the next
VARIABLES = "abcdefgh"

# a type of 15 nodes
PAIRS = "(((int * int) * (int * int)) * ((int * int) * (int * int)))"


def procedure_of(chance, number, size):
    """Procedure `number`, of about `size` bytes; it calls the procedures before it and itself."""
    given = [(i, i + 1) for i in range(7)] + [(0, j) for j in range(2, 8)] + [(1, j) for j in range(3, 6)]
    params = ["p%d : thread[%s](%s)" % (i, VARIABLES[i + 1], PAIRS) for i in range(4)] + [
        "p4 : %s" % PAIRS, "p5 : %s" % PAIRS, "p6 : int", "p7 : bool"]
    out = ["proc f%d[%s; %s](%s) at a : int {\n" % (
        number, ", ".join(VARIABLES), ", ".join("%s <= %s" % (VARIABLES[i], VARIABLES[j]) for i, j in given), ", ".join(params))]
    length = len(out[0])
    # for each open block: its priority, its variables with their kinds, and what the block of its action is
    first = [("p%d" % i, ("thread", i + 1, "pairs")) for i in range(4)] + [("p4", "pairs"), ("p5", "pairs"), ("p6", "int"), ("p7", "bool")]
    blocks = [(0, first, None)]

    def put(text):
        nonlocal length
        out.append(text)
        length += len(text)

    def of_kind(scope, kind):
        return chance.choice([name for name, k in scope if k == kind])

    while blocks:
        own, scope, opened = blocks[-1]
        name = "v%d" % len(scope)
        if length > size or len(scope) >= 32:
            put("ret %s }" % of_kind(scope, "int"))
            blocks.pop()
            if blocks:
                put(";\n")
                below = blocks[-1][1]
                below.append(("v%d" % len(below), opened))
            continue
        threads = [(n, k) for n, k in scope if isinstance(k, tuple) and k[1] >= own]
        kind = chance.random()
        if kind < 0.15 and len(blocks) < 55:
            other = chance.randrange(8)
            put("%s <- spawn[%s] { " % (name, VARIABLES[other]))
            blocks.append((other, list(scope), ("thread", other, "int")))
            continue
        if kind < 0.25 and len(blocks) < 55:
            put("%s <- do { " % name)
            blocks.append((own, list(scope), "int"))
            continue
        if kind < 0.4 and threads:
            other = chance.choice(threads)
            put("%s <- sync %s;\n" % (name, other[0]))
            scope.append((name, other[1][2]))
        elif kind < 0.5 and own == 0:
            put("%s <- call f%d[%s](%s);\n" % (name, chance.randrange(number + 1), ", ".join(VARIABLES), ", ".join("p%d" % i for i in range(8))))
            scope.append((name, "int"))
        elif kind < 0.7:
            part = "%s(%s(%s(%s)))" % (chance.choice(["fst", "snd"]), chance.choice(["fst", "snd"]), chance.choice(["fst", "snd"]), of_kind(scope, "pairs"))
            put("%s <- ret (%s + (%s * %d));\n" % (name, part, of_kind(scope, "int"), chance.randrange(1000)))
            scope.append((name, "int"))
        elif kind < 0.85:
            put("%s <- ret (not((%s < %s)) and %s);\n" % (name, of_kind(scope, "int"), of_kind(scope, "int"), of_kind(scope, "bool")))
            scope.append((name, "bool"))
        else:
            four = "((%s, %s), (%s, 1))" % tuple(of_kind(scope, "int") for _ in range(3))
            put("%s <- ret (%s, %s);\n" % (name, four, four))
            scope.append((name, "pairs"))
    put("\n")
    return "".join(out)


def limits_of(size, seed=2):
    """A typable program of `size` bytes near the limits of the language, the last of them a comment."""
    chance = random.Random(seed)
    out = ["".join("priority q%d;\n" % i for i in range(16))]
    out += [procedure_of(chance, number, size // 256 - 900) for number in range(255)]
    out.append("main at q0 : int { ret 0 }\n")
    text = "".join(out)
    if len(text) > size - 2:
        raise ValueError("the program came out too long")
    return text + "#" + "x" * (size - len(text) - 1)


def filled(front, part, back, size):
    """The front, the part as often as there is room, the back, and blanks."""
    count = (size - len(front) - len(back)) // len(part)
    text = front + part * count + back
    return text + " " * (size - len(text))


def brackets_of(size):
    """A program whose only expression is a balanced sum of ones in 40 brackets each."""
    sum_of = "(" * 40 + "1" + ")" * 40
    while 2 * len(sum_of) + 5 + 60 < size:
        sum_of = "(%s + %s)" % (sum_of, sum_of)
    return filled("priority p; main at p : int { ret ", sum_of, " }", len(sum_of) + 60)


def inputs_of(size):
    """A small program and lines of inputs, each for a path of its own."""
    out = ["priority p; main at p : int { ret 1 }\n===inputs\n"]
    length = len(out[0])
    number = 0
    while True:
        line = "0.%d: 5 -6\n" % number
        if length + len(line) > size:
            return "".join(out) + "#" * (size - length)
        out.append(line)
        length += len(line)
        number += 1


def type_of(size):
    """A main whose result type is a balanced tree of pairs."""
    ty = "int"
    while 2 * len(ty) + 3 + 60 < size:
        ty = "(%s*%s)" % (ty, ty)
    return filled("priority p; main at p : ", ty, " { ret 1 }", len(ty) + 60)


def names_of(size):
    """Distinct names with blanks between, as many as there is room for."""
    out = []
    length = 0
    number = 0
    while True:
        word = "n%d " % number
        if length + len(word) > size:
            return "".join(out) + " " * (size - length)
        out.append(word)
        length += len(word)
        number += 1


def milliseconds(command, path, environment=None):
    """The least processor time of seven runs, and the first line of the output."""
    least = line = None
    for _ in range(7):
        before = resource.getrusage(resource.RUSAGE_CHILDREN)
        with open(path) as text:
            done = subprocess.run(command, stdin=text, stdout=subprocess.PIPE, check=False, env=environment)
        after = resource.getrusage(resource.RUSAGE_CHILDREN)
        spent = (after.ru_utime + after.ru_stime - before.ru_utime - before.ru_stime) * 1000
        least = spent if least is None else min(least, spent)
        line = done.stdout.split(b"\n")[0].decode()
    return least, line


KINDS = {
    "threads": program_of,
    "limits": limits_of,
    "names": names_of,
    "brackets": brackets_of,
    "inputs": inputs_of,
    "type": type_of,
    "comment": lambda size: "#" + "x" * (size - 1),
}


def main():
    parser = argparse.ArgumentParser(description="Times `check` beside sha256sum.")
    parser.add_argument("program", nargs="?", default=os.path.join(TOP, "crates", "priml", "out", "priml"))
    parser.add_argument("--only", choices=sorted(KINDS), help="one kind of text alone")
    parser.add_argument("--huge-pages", action="store_true", help="with huge pages for the program's memory")
    args = parser.parse_args()
    environment = dict(os.environ)
    if args.huge_pages:
        environment.setdefault("GLIBC_TUNABLES", "glibc.malloc.hugetlb=1")
    program = os.path.abspath(args.program)
    print("%-10s %4s %12s %12s %8s  %s" % ("text", "MB", "check ms", "sha256 ms", "ratio", "answer"))
    with tempfile.TemporaryDirectory() as folder:
        for kind, make in KINDS.items():
            if args.only and args.only != kind:
                continue
            for megabytes in (1, 2, 4):
                path = os.path.join(folder, "%s-%d" % (kind, megabytes))
                with open(path, "w") as text:
                    text.write(make(megabytes * MEGABYTE))
                check, answer = milliseconds([program, "check"], path, environment)
                digest, _ = milliseconds(["sha256sum"], path)
                print("%-10s %4d %12.1f %12.1f %8.2f  %s" % (kind, megabytes, check, digest, check / digest, answer))


if __name__ == "__main__":
    main()
