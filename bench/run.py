#!/usr/bin/env python3
"""Times the commands that run a program, near 100,000 steps, alone or beside another program of the same words.

    bench/run.py [PROGRAM] [--beside OTHER] [--only PART] [--runs N] [--huge-pages]

  serial, make      9,900 leaves that one thread spawns by recursion, and joins: 99,009 steps
  serial, deep      calls that go 33,000 deep
  graph, plan       the program of 9,900 leaves
  judge             the same, 15 spawns deeper, so that the canonical plan on 16 cores, which is judged, is a text of 4 MB
  report, fan       1,320 threads of 66 steps, all spawned and joined by one
  report, chain     1,320 threads of 66 steps, each of which joins the one before
  report, thin      2,700 threads of 13 steps, each of which joins the one before
The time is processor time, user and system, the least of several runs (7), in milliseconds; the memory is the most that was in
use, in MB. Of two programs the runs take turns, and a ratio is the first one's figure by the other's. That both print the
same is looked at too. The program runs by itself; with --huge-pages it runs with huge pages, as `./priml` starts it.
"""
import argparse
import fcntl
import os
import re
import subprocess
import sys
import tempfile
import time

TOP = os.path.dirname(os.path.dirname(os.path.abspath(__file__)))

LEAVES = """priority bg;
priority ui;
order bg < ui;
proc leaf(k : int) at bg : int {
  u <- output (k * k);
  ret (k % 7)
}
proc chain(k : int) at bg : int {
  if (k < 1) { ret 0 }
  else {
    h <- spawn[bg] { x <- call leaf(k); ret x };
    r <- call chain((k - 1));
    v <- sync h;
    ret (r + v)
  }
}
main at ui : int {
  h <- BEGIN spawn[bg] { x <- call chain(9900); ret x } END;
  u <- output 9900;
  ret 9900
}
"""
MAKE = LEAVES.replace("BEGIN", "").replace("END", "")
NESTED = LEAVES.replace("BEGIN", "spawn[bg] { h <- " * 15).replace("END", "; x <- sync h; ret 1 }" * 15)

DEEP = """priority p;
proc f(n : int) at p : int { if (n < 1) { ret 0 } else { x <- call f((n - 1)); ret (x + 1) } }
main at p : int { x <- call f(33000); ret x }
"""

# a call of `work` makes 62 steps
WORK = """priority p;
proc work(n : int) at p : int { if (n < 1) { ret 0 } else { x <- call work((n - 1)); ret (x + n) } }
"""
FAN = WORK + """proc fan(k : int) at p : int {
  if (k < 1) { ret 0 }
  else {
    h <- spawn[p] { u <- output k; x <- call work(20); ret x };
    r <- call fan((k - 1));
    v <- sync h;
    ret (r + v)
  }
}
main at p : int { x <- call fan(1320); ret x }
"""
CHAIN = WORK + """proc chain(k : int, before : thread[p](int)) at p : int {
  if (k < 1) { x <- sync before; ret x }
  else {
    h <- spawn[p] { y <- sync before; BODY };
    r <- call chain((k - 1), h);
    ret r
  }
}
main at p : int { first <- spawn[p] { ret 1 }; x <- call chain(COUNT, first); ret x }
"""
LONG = CHAIN.replace("BODY", "x <- call work(20); ret (x + y)").replace("COUNT", "1319")
THIN = CHAIN.replace("BODY", "y <- ret (y + 1); " * 10 + "ret y").replace("COUNT", "2699")

PARTS = [("serial, make", ["serial", "100000"], MAKE), ("serial, deep", ["serial", "100000"], DEEP),
         ("graph", ["graph", "100000"], MAKE), ("plan, 1 core", ["plan", "1", "100000"], MAKE),
         ("plan, 1,024 cores", ["plan", "1024", "100000"], MAKE), ("judge, 16 cores", ["judge", "16", "100000"], NESTED)]
PARTS += [("report, %s, %s" % (name, "1 core" if cores == 1 else "%d cores" % cores), ["report", str(cores), "100000"], text)
          for name, text in (("fan", FAN), ("chain", LONG), ("thin", THIN)) for cores in (1, 16)]


def output_of(command, path):
    with open(path) as text:
        return subprocess.run(command, stdin=text, stdout=subprocess.PIPE, check=False).stdout


def milliseconds(command, path):
    """The processor time of one run."""
    with open(path) as text:
        child = subprocess.Popen(command, stdin=text, stdout=subprocess.DEVNULL)
    _, _, usage = os.wait4(child.pid, 0)
    child.returncode = 0
    return (usage.ru_utime + usage.ru_stime) * 1000


def megabytes(command, path):
    """The most memory of one run. A program makes its whole answer before it writes; so it is looked at while it waits to
    write into a pipe that is full."""
    reading, writing = os.pipe()
    os.write(writing, b" " * fcntl.fcntl(writing, fcntl.F_SETPIPE_SZ, 4096))
    with open(path) as text:
        child = subprocess.Popen(command, stdin=text, stdout=writing)
    os.close(writing)
    most, waits = 0, 0
    while waits < 20 and child.poll() is None:
        with open("/proc/%d/status" % child.pid) as file:
            status = file.read()
        found = re.search(r"VmHWM:\s*(\d+)", status)
        most = int(found.group(1)) if found else most
        waits = waits + 1 if re.search(r"State:\s*S", status) else 0
        time.sleep(0.001)
    while os.read(reading, 1 << 16):
        pass
    os.close(reading)
    child.wait()
    return most / 1024


def input_of(part, words, text, program):
    """The program's text; for `judge` with the canonical plan as its schedule."""
    if words[0] != "judge":
        return text
    with tempfile.NamedTemporaryFile("w", suffix=".priml") as file:
        file.write(text)
        file.flush()
        plan = output_of([program, "plan"] + words[1:], file.name).decode()
    return text + "===schedule\n" + plan


def main():
    parser = argparse.ArgumentParser(description="Times the commands that run a program.")
    parser.add_argument("program", nargs="?", default=os.path.join(TOP, "crates", "priml", "out", "priml"))
    parser.add_argument("--beside", metavar="OTHER", help="another program of the same words, and the ratios to it")
    parser.add_argument("--only", default="", help="only the parts whose name has this text")
    parser.add_argument("--runs", type=int, default=7, help="how often each is run (default 7)")
    parser.add_argument("--huge-pages", action="store_true", help="with huge pages for the memory")
    args = parser.parse_args()
    if args.huge_pages:
        os.environ.setdefault("GLIBC_TUNABLES", "glibc.malloc.hugetlb=1")
    programs = [os.path.abspath(program) for program in (args.program, args.beside) if program]
    heads = ["ms", "MB"] + ["other ms", "other MB", "ms ratio", "MB ratio"] * (len(programs) - 1)
    print("%-24s" % "part" + "".join("%10s" % head for head in heads) + "  answer")
    with tempfile.TemporaryDirectory() as folder:
        for part, words, text in PARTS:
            if args.only not in part:
                continue
            path = os.path.join(folder, "input")
            with open(path, "w") as file:
                file.write(input_of(part, words, text, programs[-1]))
            commands = [[program] + words for program in programs]
            outputs = [output_of(command, path) for command in commands]
            times = [[milliseconds(command, path) for command in commands] for _ in range(args.runs)]
            least = [min(column) for column in zip(*times)]
            most = [megabytes(command, path) for command in commands]
            figures = [figure for pair in zip(least, most) for figure in pair]
            if len(programs) == 2:
                figures += [least[0] / max(least[1], 0.1), most[0] / most[1]]
            told = outputs[0].split(b"\n")[0].decode()
            told += "" if len(set(outputs)) == 1 else "  DIFFERENT: the other one says " + outputs[1].split(b"\n")[0].decode()
            print("%-24s" % part + "".join("%10.1f" % figure for figure in figures) + "  " + told, flush=True)


if __name__ == "__main__":
    sys.exit(main())
