"""What docs/FORMATS.md says of runs on workers, in Python: the cuts of a trace, the summary of a sample and the source that it is
made of. The headings below are its. Which worker makes a cut depends on the run, so the model's own cuts are all by worker 0, and
a program agrees with it where the rest is the same."""
import re

from model_steps import path_text, value_text

# ---------------------------------------------------------------- Cuts
CUT = re.compile(r"cut ([0-9.]+) from (0|[1-9][0-9]*) steps ([1-9][0-9]*) worker (0|[1-9][0-9]*)")
THREAD = re.compile(r"thread ([0-9.]+) \S+ ([0-9]+) .*")


def turns(events, quantum):
    """The steps of each turn of a thread: a turn ends behind a spawn, before a join, with the thread, or after a quantum."""
    lengths, length = [], 0
    for event in events:
        if length and (event[0] == "Join" or length == quantum):
            lengths.append(length)
            length = 0
        length += 1
        if event[0] == "Spawn":
            lengths.append(length)
            length = 0
    return lengths + [length] * (length > 0)


def cuts_text(records, quantum):
    """The lines of the cuts, all by worker 0."""
    lines = []
    for record in records:
        first = 0
        for length in turns(record.events, quantum):
            lines.append("cut %s from %d steps %d worker 0" % (path_text(record.path), first, length))
            first += length
    return lines


def cuts_of(text):
    """The cuts of these lines, each a path, the first step, the number of steps and the worker; None where a line is no cut."""
    found = [CUT.fullmatch(line) for line in text.split("\n")[:-1]]
    if None in found or not text.endswith("\n"):
        return None
    return [(one.group(1),) + tuple(int(n) for n in one.groups()[1:]) for one in found]


def cuts_fault(run_text, text, workers, quantum, lengths=None):
    """What is wrong with the cuts in this text of the run with this run text, or None. Cuts cover the steps of each thread, in the order
    of the threads; `lengths` are the steps of each cut, for some threads by their paths."""
    cuts = cuts_of(text)
    if cuts is None:
        return "a line that is no cut"
    cuts.reverse()
    for path, steps in [(one.group(1), int(one.group(2))) for one in map(THREAD.fullmatch, run_text.split("\n")) if one]:
        covered, own = 0, []
        while cuts and cuts[-1][0] == path:
            _, first, length, worker = cuts.pop()
            if first != covered:
                return "a cut of %s from %d where %d steps are covered" % (path, first, covered)
            if length > quantum or worker >= workers:
                return "a cut of %s of %d steps by worker %d" % (path, length, worker)
            covered += length
            own.append(length)
        if covered != steps:
            return "the cuts of %s cover %d of %d steps" % (path, covered, steps)
        if own != (lengths or {}).get(path, own):
            return "the cuts of %s are %s" % (path, own)
    return "a cut more, of %s" % cuts[-1][0] if cuts else None


def is_same_trace(wanted, got, workers, _):
    """Whether two traces are the same but for the workers, of which the second one has so many."""
    numbers = [int(n) for n in re.findall(rb"(?m)^cut .* worker ([0-9]+)$", got)]
    by_one = re.sub(rb"(?m)^(cut .* worker )(0|[1-9][0-9]*)$", rb"\g<1>0", got)
    return by_one == wanted and all(n < workers for n in numbers)


def is_right_trace(wanted, got, workers, quantum):
    """Whether two traces have one run text, and the second one cuts of it."""
    run_text = wanted[:wanted.index(b"cut ")]
    return got.startswith(run_text) and not cuts_fault(run_text.decode(), got[len(run_text):].decode(), workers, quantum)


# ---------------------------------------------------------------- Summary
def summary_text(n, records, plan):
    work = sum(len(record.events) for record in records)
    outputs = sum(event[0] == "Wrote" for record in records for event in record.events)
    value = value_text(records[0].outcome[1])
    return "sample %d threads %d work %d outputs %d steps %d value %s" % (n, len(records), work, outputs, len(plan), value)


# ---------------------------------------------------------------- The source that is made of a number
MADE = b"""priority bg;
priority ui;
order bg < ui;
proc leaf(k : int) at bg : int {
  u <- output (k * k);
  ret (k % 7)
}
proc chain(k : int) at bg : int {
  if (k < 1) { ret 0 }
  else {
    h <- spawn[bg] { x <- call leaf(k); ret x };
    r <- call chain((k - 1));
    v <- sync h;
    ret (r + v)
  }
}
main at ui : int {
  h <- spawn[bg] { x <- call chain(N); ret x };
  u <- output N;
  ret N
}
"""


def made(n):
    return MADE.replace(b"N", b"%d" % n)
