#!/usr/bin/env python3
"""Times runs on workers, alone or beside another program of the same words, and looks whether they are as fast as they have to be.

    bench/workers.py [PROGRAM] [--beside OTHER] [--only PART] [--runs N] [--huge-pages]

  one worker        `run 1 64 1 L` and `report 1 L` on the programs of bench/run.py: processor time, at most twice that of the report
  heavy steps       64 threads that wait for nobody, of steps that evaluate some thousand nodes each, on 1, 2 and 4 workers: time by the
                    clock, with 4 workers at most 1/2.5 of that with 1. It wants 4 idle processors
  turns of a step   `run 16 1 1 L` and `run 1 64 1 L`: time by the clock, at most ten times as long
  runs alone        `trace 1 64 L` and `serial L`, `sample 5000 4 64 2 L`: processor time, without a bound
Times are in milliseconds, the least of several runs (7), with the start of the process. A part's figure is the quotient of two times. The
exit status is 1 where a bound is missed.
"""
import argparse
import collections
import os
import subprocess
import sys
import tempfile
import time

sys.dont_write_bytecode = True
from run import DEEP, FAN, LONG, MAKE, THIN

TOP = os.path.dirname(os.path.dirname(os.path.abspath(__file__)))
THREADS, TURNS, ACTIONS, DEPTH = 64, 48, 8, 11


def sum_of(depth, seed):
    """A sum with 2^depth summands, in brackets `depth` deep."""
    if depth == 0:
        return "n" if seed % 3 else str(seed % 10)
    return "(%s %s %s)" % (sum_of(depth - 1, seed * 5 + 1), "+-"[seed % 2], sum_of(depth - 1, seed * 7 + 3))


def heavy():
    actions = "".join("  x%d <- ret %s;\n" % (k, sum_of(DEPTH, k)) for k in range(ACTIONS))
    return """priority p;
proc heavy(n : int) at p : int {
%s  if (n < 1) { ret x0 } else { r <- call heavy((n - 1)); ret r }
}
proc fan(k : int) at p : int {
  if (k < 1) { ret 0 }
  else {
    h <- spawn[p] { r <- call heavy(%d); ret r };
    r <- call fan((k - 1));
    v <- sync h;
    ret ((r + v) %% 1000)
  }
}
main at p : int { x <- call fan(%d); ret x }
""" % (actions, TURNS, THREADS)


def milliseconds(command, path):
    """The processor time of one run, and its time by the clock."""
    with open(path) as text:
        start = time.perf_counter()
        child = subprocess.Popen(command, stdin=text, stdout=subprocess.DEVNULL)
        _, status, usage = os.wait4(child.pid, 0)
        clock = time.perf_counter() - start
    child.returncode = os.waitstatus_to_exitcode(status)
    return {"processor": (usage.ru_utime + usage.ru_stime) * 1000, "clock": clock * 1000}


# `words` are timed, and measured by the time of `by`; the quotient may be at most `most`, where that is not None.
Part = collections.namedtuple("Part", "name text words by which most")
ONE, TURNS_OF_ONE = "run 1 64 1 100000", "run 16 1 1 100000"
TEXTS = [("fan", FAN), ("chain", LONG), ("thin", THIN), ("deep", DEEP)]


def parts():
    found = [Part("one worker, " + name, text, ONE, "report 1 100000", "processor", 2) for name, text in TEXTS + [("heavy", heavy())]]
    found += [Part("heavy steps, 2 workers", heavy(), "run 2 64 1 100000", ONE, "clock", None),
              Part("heavy steps, 4 workers", heavy(), "run 4 64 1 100000", ONE, "clock", 1 / 2.5)]
    found += [Part("turns of a step, " + name, text, TURNS_OF_ONE, ONE, "clock", 10) for name, text in TEXTS]
    return found + [Part("alone, trace", MAKE, "trace 1 64 100000", "serial 100000", "processor", None),
                    Part("alone, 4 workers", MAKE, "trace 4 64 100000", "serial 100000", "clock", None),
                    Part("alone, sample", "", "sample 5000 1 64 2 100000", "sample 5000 4 64 2 100000", "clock", None)]


def measured(part, programs, path, runs):
    """For each program the least time of the words and of those by which they are measured; the runs take turns."""
    commands = [[program] + words.split() for program in programs for words in (part.words, part.by)]
    times = [[milliseconds(command, path)[part.which] for command in commands] for _ in range(runs)]
    least = [min(column) for column in zip(*times)]
    return list(zip(least[::2], least[1::2]))


def main():
    parser = argparse.ArgumentParser(description="Times runs on workers.")
    parser.add_argument("program", nargs="?", default=os.path.join(TOP, "crates", "priml", "out", "priml"))
    parser.add_argument("--beside", metavar="OTHER", help="another program of the same words")
    parser.add_argument("--only", default="", help="only the parts whose name has this text")
    parser.add_argument("--runs", type=int, default=7, help="how often each is run (default 7)")
    parser.add_argument("--huge-pages", action="store_true", help="with huge pages for the memory")
    args = parser.parse_args()
    if args.huge_pages:
        os.environ.setdefault("GLIBC_TUNABLES", "glibc.malloc.hugetlb=1")
    programs, missed = [os.path.abspath(program) for program in (args.program, args.beside) if program], 0
    print("%d processors, load %.1f" % (os.cpu_count(), os.getloadavg()[0]))
    print("%-24s%-11s" % ("part", "time") + "".join("%10s" % head for head in ["ms", "by ms", "quotient"] * len(programs)) + "   at most")
    with tempfile.TemporaryDirectory() as folder:
        for part in [part for part in parts() if args.only in part.name]:
            path = os.path.join(folder, "input")
            with open(path, "w") as file:
                file.write(part.text)
            pairs = measured(part, programs, path, args.runs)
            figures = "".join("%10.1f%10.1f%10.2f" % (time, by, time / by) for time, by in pairs)
            is_missed = part.most is not None and pairs[0][0] > part.most * pairs[0][1]
            missed += is_missed
            bound = "%10.2f%s" % (part.most, "  MISSED" if is_missed else "") if part.most else "         -"
            print("%-24s%-11s" % (part.name, part.which) + figures + bound, flush=True)
    return 1 if missed else 0


if __name__ == "__main__":
    sys.exit(main())
