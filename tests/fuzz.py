#!/usr/bin/env python3
"""Compares the program with tests/model.py on random words and inputs.

    fuzz.py [PROGRAM] [--cases N] [--runs N] [--seed S] [--commands LIST] [--any-cuts]

The commands, as `check,serial`, are by default all. Behind the cases come the runs: `run` on random programs with a random number of workers
and random turns has to give the status and the bytes that `report` gives. Prints how often each answer was hit, and each difference, which is written
to a temporary folder as a case that `conform PROGRAM --file CASE` runs again. The exit status is 1 where there is a difference, or
where in 2,000 cases or 300 runs or more an answer was never hit. A seed gives the same cases for the same commands each time.
With --any-cuts the cuts of a trace may end elsewhere than this program's do.
"""
import argparse
import collections
import glob
import json
import os
import random
import re
import subprocess
import sys
import tempfile

sys.dont_write_bytecode = True
import fuzz_runs
import model
import model_text
import model_types
from fuzz_programs import KINDS, about_limits, any_token, calls, edge, spaced, tokens_of, typed, walk, wrong_choice, wrong_name

HERE = os.path.dirname(os.path.abspath(__file__))


# ---------------------------------------------------------------- changes of other cases
def worked():
    """The inputs of worked cases and the examples, where they are short."""
    texts = []
    for name in sorted(glob.glob(os.path.join(HERE, "cases", "*.json"))) + sorted(
            glob.glob(os.path.join(HERE, "..", "examples", "*.priml"))):
        with open(name, "rb") as file:
            data = file.read()
        texts += [data] if name.endswith(".priml") else [
            case["stdin"].encode("latin-1" if case.get("latin1") else "utf-8")
            for case in json.loads(data) if case["words"] == ["check"] and "stdin" in case]
    return [text for text in texts if len(text) < 6000]


WORKED = worked()


def some_text(r):
    return r.choice(WORKED) if r.random() < 0.4 else r.choice([typed, wrong_choice, about_limits, edge, walk, calls])(r)[1]


ALIKE = ["int bool unit", "+ * and < ==", "fst snd not", "inl inr", "ret output", "true 1 x", "< <=", "spawn do", "( [ {"]


def changed(r, tokens, i):
    """One change about token i: some left out, some twice, another, one more, one alike, a comma, one of the names."""
    names = sorted(set(t for t in tokens if t not in KINDS and t[0] not in "0123456789@=")) + ["zz"]
    kind = r.randrange(9)
    if kind == 0:
        return tokens[:i] + tokens[i + r.randrange(1, 4):]
    if kind == 1:
        return tokens[:i] + tokens[max(0, i - r.randrange(8)):]
    if kind == 2:
        return tokens[:i] + [any_token(r)] + tokens[i:]
    if kind <= 4:
        alike = [group.split() for group in ALIKE if tokens[i] in group.split()]
        return tokens[:i] + [r.choice(alike[0]) if alike and kind == 4 else any_token(r)] + tokens[i + 1:]
    if kind == 5:
        j = r.choice([j for j in range(len(tokens)) if tokens[j] in (")", "]", ",")] or [i])
        return tokens[:j] + [r.choice(",,;")] + tokens[j:]
    j = r.choice([j for j in range(max(0, i - 6), min(len(tokens), i + 7)) if tokens[j] in names] or [i])
    return tokens[:j] + [r.choice(names)] + tokens[j + 1:]


def change_tokens(r):
    tokens = tokens_of(some_text(r))
    for _ in range(r.choice([1, 1, 2, 3])):
        tokens = changed(r, tokens, r.randrange(len(tokens))) if tokens else ["main"]
    return [b"check"], spaced(r, tokens)


def change_near(r):
    """Changes a few tokens about the place of a fault, so that two faults stand side by side."""
    data = r.choice([wrong_choice, wrong_name, about_limits, edge, edge, walk, walk, calls])(r)[1]
    for _ in range(r.choice([1, 1, 2])):
        status, line = model.answer([b"check"], data)
        tokens = model_text.tokens_of(data)[0]
        if tokens and status in (3, 4):
            i = sum(token.place < int(line.split()[-1]) for token in tokens) + r.choice([-2, -1, 0, 0, 0, 1, 2])
            data = spaced(r, changed(r, tokens_of(data), min(max(i, 0), len(tokens) - 1)))
    return [b"check"], data


PIECES = [b"=", b"<", b"-", b"#", b"\n", b"\0", b"\xff", b"\xc3\xa9", b"@", b"'", b"\x0b", b"\x0c", b"==", b"<=", b"<-", b"5", b"_",
          b"18446744073709551616", b"9" * 400, b"0" * 999 + b"1", b"\n===", b"===inputs\n", b"\n===inputs\n"]


def change_bytes(r):
    data = some_text(r)
    for _ in range(r.choice([1, 1, 2, 3])):
        i, j = r.randrange(len(data) + 1), r.randrange(len(data) + 1)
        data = r.choice([data[:i] + bytes([r.randrange(256)]) + data[i + 1:], data[:i] + r.choice(PIECES) + data[i:],
                         data[:i] + data[i + r.randrange(1, 6):], data[:i], data[:i] + data[j:j + 20] + data[i:]])
    return [b"check"], data


# ---------------------------------------------------------------- sections, words, sizes
NAMES = [b"inputs", b"schedule", b"inputs \t\r", b"schedule\r", b" inputs", b"Inputs", b"input", b"", b"=inputs", b"inputs x", b"inputs\0",
         b"inputs\xa0", b"schedule\x0b", b"schedules"]


def sections(r):
    data = r.choice([some_text(r), b"", b"@"]) + r.choice([b"\n", b"\n", b"\r\n", b"\r", b"", b"#\n"])
    for _ in range(r.randrange(4)):
        data += r.choice([b"===", b"===", b"===", b"===", b"==", b" ===", b"#==="]) + r.choice(NAMES[:4] * 8 + NAMES)
        data += r.choice([b"\n", b"\n", b"\r\n", b"\n\n", b"\n0: 1\n", b"\n@\n", b"\n0: x"])
    return [b"check"], data


NUMBERS = [b"", b"000016", b"+5", b"-5", b"5 ", b"0x5", b"1_0", b"\xef\xbc\x91", b"x", b"4294967297", b"18446744073709551617", b"9" * 40,
           b"0" * 40 + b"1", b"\xff"]


def words(r):
    command = r.choice(sorted(model.COMMANDS) * 3 + [b"Check", b"", b"--help", b"check ", b"chec", b"\xff", b"ch\xc3\xa9ck"])
    letters = model.COMMANDS.get(command, "") if r.random() < 0.8 else "WQPLN"[:r.randrange(6)]
    good = r.choice([0.5, 0.9])
    numbers = [b"%d" % r.choice([1, model.MOST[x]] if r.random() < good else [0, model.MOST[x] + 1]) for x in letters]
    if numbers and r.random() < 0.4:
        numbers[r.randrange(len(numbers))] = r.choice(NUMBERS)
    return r.choice([[]] + [[command] + numbers] * 9), r.choice([b"", b"@", WORKED[0]])


def size(r):
    head, tail = (r.choice([b"", WORKED[0], b"@", b"\n===x\n", b"\n===inputs\n", b"\n===inputs", b"main"]) for _ in range(2))
    n = 4194304 + r.choice([-1, 0, 1, 1, 2])
    return [b"check"], head + r.choice([b" ", b"0", b"#", b"x"]) * (n - len(head) - len(tail)) + tail


GENERATORS = {"typed": 8, "wrong_choice": 20, "wrong_name": 8, "about_limits": 8, "calls": 16, "edge": 18, "walk": 14,
              "change_tokens": 10, "change_near": 20, "change_bytes": 10, "sections": 12, "words": 14, "size": 1.5}


# ---------------------------------------------------------------- the comparison
class Cases:
    """Random cases of these commands. Half of them are of `check`, where others are built too."""

    def __init__(self, seed, commands):
        self.r, self.runs = random.Random(seed), commands - {b"check", b"sample"}
        self.kinds = {**(fuzz_runs.GENERATORS if self.runs else {}), **(fuzz_runs.JUDGED if b"judge" in commands else {}),
                      **(fuzz_runs.SAMPLED if b"sample" in commands else {})}
        self.share = 0 if not self.kinds else 0.5 if b"check" in commands else 1

    def next(self):
        r = self.r
        if r.random() < self.share:
            name, = r.choices(list(self.kinds), list(self.kinds.values()))
            return name, getattr(fuzz_runs, name)(r, self.runs)
        name, = r.choices(list(GENERATORS), list(GENERATORS.values()))
        return name, globals()[name](r)


def kind_of(status, output):
    """Status 0, or the status and the line without its numbers."""
    line = re.sub("( at number| at line| at)? [0-9]+$", "", output.decode().strip())
    line = re.sub("step [0-9]+ ([a-z ]*[a-z]).*", r"\1", line)
    return "%d %s" % (status, line) if status else "0"


def expected(commands):
    """For each command the answers that have to be hit: the begin of a status and a line."""
    texts = ["2 words: " + kind for kind in "no command, unknown command, wrong count, bad number, out of range".split(", ")]
    check = ["0", "5 section: unknown", "5 section: twice", "7 limit: input"]
    check += ["3 source: " + kind for kind in model_text.TOKEN_FAULTS + model_text.NAME_FAULTS] + ["4 type: " + kind for kind in model_types.TYPE_FAULTS]
    found = {command: fuzz_runs.answers(command) for command in sorted(commands)}
    return {b"any": texts, **found, b"check": check} if b"check" in commands else found


def answer_of(program, given, data):
    try:
        done = subprocess.run([program.encode()] + given, input=data, stdout=subprocess.PIPE, stderr=subprocess.PIPE, timeout=60)
        return done.returncode, done.stdout, done.stderr
    except subprocess.TimeoutExpired:
        return "no answer within 60 seconds"


class Differences:
    """Shows each difference, and writes it as a case of tests/cases to a folder that is made for the first one."""

    def __init__(self):
        self.count, self.folder = 0, None

    def add(self, name, kind, given, data, wanted, got):
        self.count += 1
        self.folder = self.folder or tempfile.mkdtemp(prefix="priml-fuzz-")
        path = os.path.join(self.folder, name + ".json")
        status, output = wanted[0], wanted[1].decode()
        is_trace = given[:1] == [b"trace"] and status == 0
        told = {"run_text": output[:output.index("cut ")]} if is_trace else {"stdout": output}
        with open(path, "w") as file:
            json.dump([{"name": name, "words": [os.fsdecode(word) for word in given], "stdin": data.decode("latin-1"), "latin1": True,
                        "status": status, **told}], file)
        print("DIFFERENCE in %s (%s), words %s, written to %s\n  wanted  %s\n  program %s" % (name, kind, given, path, wanted, got))


def show(hits, commands):
    """Prints how often each answer was hit, and gives those that never were."""
    missing, left = [], dict(hits)
    for command, kinds in expected(commands).items():
        for kind in kinds:
            own = [key for key in left if key[0] == command and key[1].startswith(kind)]
            count = sum(left.pop(key) for key in own)
            print("%7d %-7s %s" % (count, command.decode(), kind))
            missing += [] if count else ["%s %s" % (command.decode(), kind)]
    for (command, kind), count in sorted(left.items()):
        print("%7d %-7s %s (not asked for)" % (count, command.decode(), kind))
    return missing


def compare(program, args, commands, found):
    """Random cases against the model. Gives the answers that were never hit."""
    cases, hits, outcomes = Cases(args.seed, commands), collections.Counter(), collections.Counter()
    for number in range(1, args.cases + 1):
        generator, (given, data) = cases.next()
        status, output = model.answer(given, data)
        hits[given[0] if status != 2 else b"any", kind_of(status, output)] += 1
        outcomes += fuzz_runs.outcomes(output) if status == 0 and given[0] != b"graph" else {}
        got = answer_of(program, given, data)
        if not model.agrees(given, (status, output, b""), got, args.any_cuts):
            found.add("case-%d" % number, generator, given, data, (status, output, b""), got)
    missing = show(hits, commands)
    for outcome in ["value", "fault overflow", "fault zero", "fault depth"] if commands & {b"serial", b"report", b"judge"} else []:
        print("%7d threads end in %s" % (outcomes[outcome], outcome))
        missing += [] if outcomes[outcome] else [outcome]
    return missing if args.cases >= 2000 else []


def compare_runs(program, args, found):
    """Random runs on workers against the program's own reports. Gives the answers that were never hit."""
    r, hits = random.Random("runs %d" % args.seed), collections.Counter()
    for number in range(1, args.runs + 1):
        given, data = fuzz_runs.of_workers(r)
        wanted, got = answer_of(program, [b"report"] + given[3:], data), answer_of(program, given, data)
        hits["run  " + kind_of(*wanted[:2])] += 1
        hits["threads"] += wanted[1].count(b"\nthread ") + 1 if wanted[0] == 0 else 0
        if got != wanted:
            found.add("run-%d" % number, "run on workers", given, data, wanted, got)
    for hit in sorted(set(hits) | {"run  0", "run  7 limit: steps"}):
        print("%7d %s on workers" % (hits[hit], hit))
    return [hit for hit in ("run  0", "run  7 limit: steps") if args.runs >= 300 and not hits[hit]]


def main():
    parser = argparse.ArgumentParser(description="Compares the program with tests/model.py on random cases.")
    parser.add_argument("program", nargs="?", default=os.path.join(HERE, "..", "crates", "priml", "out", "priml"))
    parser.add_argument("--cases", type=int, default=2000)
    parser.add_argument("--runs", type=int, default=300, help="runs on workers against reports")
    parser.add_argument("--seed", type=int, default=1)
    parser.add_argument("--commands", help="with commas between; all by default")
    parser.add_argument("--any-cuts", action="store_true", help="for another program, whose cuts may end anywhere")
    args = parser.parse_args()
    program, found = os.path.abspath(args.program), Differences()
    if not os.path.exists(program):
        sys.exit("there is no program " + program)
    commands = set(args.commands.encode().split(b",") if args.commands else model.COMMANDS)
    if not commands <= set(model.COMMANDS):
        sys.exit("no commands: %s" % b",".join(sorted(commands - set(model.COMMANDS))).decode())
    missing = compare(program, args, commands, found) if args.cases else []
    args.runs = args.runs if commands >= {b"run", b"report"} else 0
    missing += compare_runs(program, args, found) if args.runs else []
    for answer in missing:
        print("NEVER HIT: " + answer)
    print("%d cases, %d runs on workers, %d differences" % (args.cases, args.runs, found.count))
    return 1 if found.count or missing else 0


if __name__ == "__main__":
    sys.exit(main())
