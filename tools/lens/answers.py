"""The texts that the program prints, read as docs/FORMATS.md has them, and a report as a table."""
import re
from collections import namedtuple

from .program import Trouble

Thread = namedtuple("Thread", "path priority steps outcome outputs")
Row = namedtuple("Row", "path priority time work span bound")
Graph = namedtuple("Graph", "threads spawns joins")  # threads as (path, priority, steps); edges as pairs of vertices
Report = namedtuple("Report", "threads work cores steps rows")
Cut = namedtuple("Cut", "path first steps worker")

THREAD = re.compile(r"thread ([0-9.]+) ([A-Za-z_]\w*) (\d+) ((?:value|fault) .+)")
RESPONSE = re.compile(r"response ([0-9.]+) ([A-Za-z_]\w*) time (\d+) work (\d+) span (\d+) bound (\d+)")
OUT = re.compile(r"out((?: -?\d+)+)")
CUT = re.compile(r"cut ([0-9.]+) from (\d+) steps (\d+) worker (\d+)")
BARE_THREAD = re.compile(r"thread ([0-9.]+) ([A-Za-z_]\w*) (\d+)")
EDGE = re.compile(r"(spawn|join) ([0-9.]+:\d+) ([0-9.]+:\d+)")


def not_understood(line):
    return Trouble("the program answered a line that lens does not know: %.80r" % line)


def read_report(text):
    """The run text and the response lines."""
    threads, rows, numbers = [], [], {}
    for line in text.splitlines():
        thread, response, out = THREAD.fullmatch(line), RESPONSE.fullmatch(line), OUT.fullmatch(line)
        number = re.fullmatch(r"(work|cores|steps) (\d+)", line)
        if thread:
            path, priority, steps, outcome = thread.groups()
            threads.append(Thread(path, priority, int(steps), outcome, []))
        elif out and threads:
            threads[-1].outputs.extend(int(one) for one in out.group(1).split())
        elif number:
            numbers[number.group(1)] = int(number.group(2))
        elif response:
            path, priority, *values = response.groups()
            rows.append(Row(path, priority, *map(int, values)))
        else:
            raise not_understood(line)
    if len(numbers) != 3 or [one.path for one in threads] != [one.path for one in rows]:
        raise Trouble("the program's report is not whole")
    return Report(threads, numbers["work"], numbers["cores"], numbers["steps"], rows)


def read_graph(text):
    """The graph text."""
    threads, edges = [], {"spawn": [], "join": []}
    for line in text.splitlines():
        thread, edge = BARE_THREAD.fullmatch(line), EDGE.fullmatch(line)
        if thread:
            threads.append((thread.group(1), thread.group(2), int(thread.group(3))))
        elif edge:
            edges[edge.group(1)].append((edge.group(2), edge.group(3)))
        else:
            raise not_understood(line)
    return Graph(threads, edges["spawn"], edges["join"])


def read_plan(text):
    """The steps of a plan, each a list of pairs of a path and a number."""
    steps = []
    for line in text.splitlines():
        vertices = [one.rpartition(":") for one in line.split()]
        if not all(re.fullmatch(r"[0-9.]+", path) and number.isdigit() for path, _, number in vertices):
            raise not_understood(line)
        steps.append([(path, int(number)) for path, _, number in vertices])
    return steps


def read_cuts(text):
    """The cuts of a trace, behind the run text."""
    cuts = []
    for line in text.splitlines():
        cut = CUT.fullmatch(line)
        if cut:
            cuts.append(Cut(cut.group(1), *map(int, cut.groups()[1:])))
        elif not (THREAD.fullmatch(line) or OUT.fullmatch(line) or re.fullmatch(r"work \d+", line)):
            raise not_understood(line)
    return cuts
