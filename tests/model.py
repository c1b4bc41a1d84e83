#!/usr/bin/env python3
"""A model of the program: what it has to answer, in Python, for tests/fuzz.py.

    model.py WORD.. < INPUT

It says in another way what docs/LANGUAGE.md and docs/FORMATS.md say, and is made to be read beside them: the headings
below are theirs. model_text.py and model_types.py do so for docs/LANGUAGE.md, model_steps.py for docs/STEPS.md,
model_schedules.py for docs/SCHEDULES.md, and model_workers.py for the runs on workers of docs/FORMATS.md. Speed and want of memory play
no part in it.
"""
import re
import sys

sys.dont_write_bytecode = True
import model_schedules as schedules
import model_steps as steps
import model_workers as workers
from model_text import Refused, need, value
from model_types import typed_program


def answer(words, data):
    """The status and the output for these words (a list of bytes) and this input (bytes). The cuts of a trace are all by worker 0."""
    try:
        command, *numbers = look_at_words(words)
        if command == b"sample":
            return 0, sample(*numbers).encode() + b"\n"
        need(len(data) <= 4194304, 7, "limit: input")
        sections = sections_of(data)
        order, procedures, main = typed_program(sections[b"program"])
        lines = ["ok"]
        if command != b"check":
            job = steps.Job(procedures, main, read_inputs(lines_of(sections[b"inputs"])))
            lines = told(command, numbers, records_within(numbers[-1], job), order, lines_of(sections[b"schedule"]))
    except Refused as end:
        return end.args[0], end.args[1].encode() + b"\n"
    return 0, "".join(line + "\n" for line in lines).encode()


def records_within(limit, job):
    try:
        return job.records_within(limit)
    except steps.PastLimit:
        raise Refused(7, "limit: steps")


def agrees(words, wanted, got, any_cuts=False):
    """Whether a program that gives this status, output and standard error gives what is wanted. With `any_cuts` the cuts of a trace may
    end anywhere."""
    if words[:1] != [b"trace"] or wanted[0] != 0 or got[0] != 0:
        return got == wanted
    same = workers.is_right_trace if any_cuts else workers.is_same_trace
    return same(wanted[1], got[1], value(words[1]), value(words[2])) and got[2] == wanted[2]


def sample(n, _workers, _quantum, cores, limit):
    """The line of `sample`, which reads nothing."""
    order, procedures, main = typed_program(workers.made(n))
    records = records_within(limit, steps.Job(procedures, main, {}))
    return workers.summary_text(n, records, schedules.plan(schedules.Graph(records, order), cores))


def told(command, numbers, records, order, schedule_lines):
    """The lines of each command but `check` and `sample`. The cores stand before the step limit."""
    if command == b"serial":
        return steps.run_text(records)
    if command == b"trace":
        return steps.run_text(records) + workers.cuts_text(records, numbers[1])
    graph = schedules.Graph(records, order)
    if command == b"graph":
        return schedules.graph_text(graph)
    cores = numbers[-2]
    if command == b"judge":
        schedule, fault = schedules.read_schedule(schedule_lines, graph)
        need(fault is None, 5, "schedule: %s" % fault)
        flaw = schedules.flaw(graph, cores, schedule)
        need(flaw is None, 6, "flaw: step %s" % flaw)
    else:
        schedule = schedules.plan(graph, cores)
    if command == b"plan":
        return schedules.plan_text(schedule)
    need(len(graph.threads) * len(graph.priority) <= 134217728, 7, "limit: report")
    return steps.run_text(records) + schedules.response_text(graph, schedule, cores)


# ---------------------------------------------------------------- Words
COMMANDS = {b"check": "", b"serial": "L", b"graph": "L", b"report": "PL", b"plan": "PL", b"judge": "PL",
            b"run": "WQPL", b"trace": "WQL", b"sample": "NWQPL"}
MOST = {"W": 16, "Q": 1000, "P": 1024, "L": 100000, "N": 5000}


def look_at_words(words):
    """The command and its numbers."""
    need(words, 2, "words: no command")
    are_texts = all(word.decode("utf-8", "ignore").encode() == word for word in words)
    need(words[0] in COMMANDS and are_texts, 2, "words: unknown command")
    letters = COMMANDS[words[0]]
    need(len(words) - 1 == len(letters), 2, "words: wrong count")
    for number, (word, letter) in enumerate(zip(words[1:], letters), 1):
        need(re.fullmatch(b"[0-9]+", word), 2, "words: bad number at number %d" % number)
        need(1 <= value(word) <= MOST[letter], 2, "words: out of range at number %d" % number)
    return [words[0]] + [value(word) for word in words[1:]]


# ---------------------------------------------------------------- Sections
def sections_of(data):
    """The texts of the sections: the program is all before the first line that begins one."""
    texts, name, start = {}, b"program", 0
    for heading in re.finditer(rb"(?m)^===([^\n]*)\n?", data):
        texts[name], start = data[start:heading.start()], heading.end()
        line = data.count(b"\n", 0, heading.start()) + 1
        name = heading.group(1).rstrip(b" \t\r")
        need(name in (b"inputs", b"schedule"), 5, "section: unknown at line %d" % line)
        need(name not in texts, 5, "section: twice at line %d" % line)
    texts[name] = data[start:]
    return {b"inputs": b"", b"schedule": b"", **texts}


def lines_of(text):
    lines = text.split(b"\n")
    return lines if lines[-1] else lines[:-1]


# ---------------------------------------------------------------- Inputs
INPUTS_LINE = re.compile(rb"(%s):[ \t\r]*((?:-?[0-9]+(?:[ \t\r]+-?[0-9]+)*)?)[ \t\r]*" % schedules.PATH)


def read_inputs(lines):
    """The list of numbers of each path that has a line."""
    inputs = {}
    for i, line in enumerate(lines, 1):
        if not line.strip(b" \t\r") or line.startswith(b"#"):
            continue
        found = INPUTS_LINE.fullmatch(line)
        path = found and schedules.path_of(found.group(1))
        need(path, 5, "inputs: bad line %d" % i)
        numbers = [value(n.lstrip(b"-")) * (-1 if n.startswith(b"-") else 1) for n in found.group(2).split()]
        need(all(-2 ** 63 <= n < 2 ** 63 for n in numbers), 5, "inputs: bad line %d" % i)
        need(path not in inputs, 5, "inputs: path twice at line %d" % i)
        inputs[path] = numbers
    return inputs


if __name__ == "__main__":
    status, output = answer([word.encode("utf-8", "surrogateescape") for word in sys.argv[1:]], sys.stdin.buffer.read())
    sys.stdout.buffer.write(output)
    sys.exit(status)
