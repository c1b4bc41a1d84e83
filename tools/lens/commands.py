"""The words of `lens` and what each command does."""
import argparse
import json
import os
import sys

from . import answers, drawing, findings, report, server, traces, view
from .program import Program, Refusal, Trouble, read_file, reason
from .texts import plain

MOST_STEPS = "100000"
FAILED, CLOSED = 1, 9
EPILOG = """The program is that of --program, or of the variable PRIML, or ./priml beside lens. FILE may be - for standard input.
Exit status: that of the program (docs/FORMATS.md); 1 where lens cannot read a file, write one or run the program; 2 for wrong
words; 9 where its output is closed. NO_COLOR switches colours off."""


def parser():
    """The grammar of the words."""
    shared = argparse.ArgumentParser(add_help=False)
    shared.add_argument("--program", metavar="PATH", default=argparse.SUPPRESS, help="the program to ask")
    limit = argparse.ArgumentParser(add_help=False)
    limit.add_argument("-l", dest="limit", metavar="STEPS", default=MOST_STEPS, help="steps that all threads together may make (%(default)s)")
    cores = argparse.ArgumentParser(add_help=False)
    cores.add_argument("-p", dest="cores", metavar="CORES", required=True, help="cores of the schedule")
    out = argparse.ArgumentParser(add_help=False)
    out.add_argument("-o", dest="out", metavar="OUT", help="the file to write, instead of standard output")

    top = argparse.ArgumentParser(prog="lens", parents=[shared], description="Shows what priml says.", epilog=EPILOG)
    kinds = top.add_subparsers(dest="command", metavar="COMMAND", required=True)

    def add(name, work, parents, told):
        one = kinds.add_parser(name, parents=[shared] + parents, help=told, description=told)
        one.set_defaults(work=work)
        return one

    one = add("check", check, [], "explains the fault of each file, at its place")
    one.add_argument("files", nargs="+", metavar="FILE")
    one.add_argument("--json", action="store_true", help="a list of findings for tools")
    for name, told in (("report", "the responses and bounds of the canonical plan as a table; -p 1,2,4 compares"),
                       ("judge", "the same for the schedule in the file, or its flaw")):
        one = add(name, tables, [limit, cores], told)
        one.add_argument("file", metavar="FILE")
        form = one.add_mutually_exclusive_group()
        form.add_argument("--csv", dest="form", action="store_const", const=report.as_csv)
        form.add_argument("--json", dest="form", action="store_const", const=report.as_json)
    for name, work, parents, told in (
            ("dot", dot, [limit, out], "the cost graph for Graphviz"),
            ("svg", svg, [limit, cores, out], "the plan as a picture: cores down, steps across"),
            ("view", page, [limit, cores, out], "one page with plan, threads and bounds, and cost graph")):
        add(name, work, parents, told).add_argument("file", metavar="FILE")
    one = add("trace", trace, [limit, out], "the plan, or the cuts of a run on workers, in the Chrome trace event format")
    shown = one.add_mutually_exclusive_group(required=True)
    shown.add_argument("-p", dest="cores", metavar="CORES", help="the plan on so many cores")
    shown.add_argument("--workers", metavar="WORKERS", help="a run on so many workers")
    one.add_argument("-q", dest="quantum", metavar="STEPS", default="64", help="steps that a worker makes in one turn (%(default)s)")
    one.add_argument("file", metavar="FILE")
    one = add("lsp", lsp, [], "a language server on standard streams")
    one.add_argument("--stdio", action="store_true", help="changes nothing; clients add it")
    return top


class Session:
    """The words of one call, the program, and the ends of the terminal."""

    def __init__(self, words, top):
        self.words = words
        self.program = Program(getattr(words, "program", None), top)

    def show(self, finding, text, stream):
        """Writes a finding for a person, with colour where the stream is a terminal that wants it."""
        colour = stream.isatty() and os.environ.get("TERM") != "dumb" and not os.environ.get("NO_COLOR")
        stream.write(findings.as_text(finding, text, findings.Ink(colour)))

    def read(self, name):
        return read_file(name, sys.stdin and sys.stdin.buffer)

    def write(self, text):
        """Writes to the file of -o, or to standard output."""
        out = getattr(self.words, "out", None)
        if out is None or out == "-":
            sys.stdout.write(text)
            return
        try:
            with open(out, "w", encoding="utf-8", newline="\n") as file:
                file.write(text)
        except (OSError, ValueError) as fault:
            raise Trouble("cannot write %s: %s" % (out, reason(fault)))


def check(session):
    """Asks `check` of each file; the status is the first that is not 0."""
    status, told = 0, []
    for name in session.words.files:
        try:
            text = session.read(name)
        except Trouble as trouble:
            complain(trouble)
            status = status or FAILED
            continue
        answer = session.program.answer(["check"], text.data)
        status = status or answer.status
        if answer.status == 0:
            if not session.words.json:
                session.write("%s: ok\n" % plain(name))
            continue
        finding = findings.explain(answer, text)
        told.append(findings.as_data(finding))
        if not session.words.json:
            session.show(finding, text, sys.stdout)
    if session.words.json:
        session.write(json.dumps(told, indent=1, ensure_ascii=True) + "\n")
    return status


def tables(session):
    """Asks `report` or `judge` for each number of cores."""
    words = session.words
    text = session.read(words.file)
    reports = [answers.read_report(session.program.ask([words.command, cores, words.limit], text))
               for cores in words.cores.split(",")]
    if words.form:
        session.write(words.form(reports))
    else:
        session.write(report.table(reports[0]) if len(reports) == 1 else report.side_by_side(reports))
    return 0


def run_of(session):
    """The file, the graph of its run, and the plan on these cores."""
    words = session.words
    text = session.read(words.file)
    plan = session.program.ask(["plan", words.cores, words.limit], text)
    return text, answers.read_graph(session.program.ask(["graph", words.limit], text)), answers.read_plan(plan)


def title(text):
    return plain(os.path.basename(text.name))


def dot(session):
    text = session.read(session.words.file)
    graph = answers.read_graph(session.program.ask(["graph", session.words.limit], text))
    session.write(drawing.dot(graph, title(text)))
    return 0


def svg(session):
    text, graph, steps = run_of(session)
    session.write(drawing.svg(graph, steps, int(session.words.cores), title(text)))
    return 0


def trace(session):
    words = session.words
    if words.workers:
        text = session.read(words.file)
        cuts = answers.read_cuts(session.program.ask(["trace", words.workers, words.quantum, words.limit], text))
        graph = answers.read_graph(session.program.ask(["graph", words.limit], text))
        session.write(traces.of_cuts(graph, cuts, int(words.workers), title(text)))
        return 0
    text, graph, steps = run_of(session)
    session.write(traces.trace(graph, steps, int(words.cores), title(text)))
    return 0


def page(session):
    text, graph, steps = run_of(session)
    told = session.program.ask(["report", session.words.cores, session.words.limit], text)
    session.write(view.page(answers.read_report(told), graph, steps, title(text)))
    return 0


def lsp(session):
    return server.serve(session.program, sys.stdin.fileno(), sys.stdout.buffer)


def complain(trouble):
    """One line on standard error, if there is one."""
    if sys.stderr:
        sys.stderr.write("lens: %s\n" % plain(str(trouble)))


def main(top):
    """Does one command and answers the exit status."""
    for end in (sys.stdout, sys.stderr):
        if end:
            end.reconfigure(encoding="utf-8", errors="replace")
    session = Session(parser().parse_args(), top)
    if not sys.stdout:
        complain("the output is closed")
        return CLOSED
    try:
        status = work_of(session)
        sys.stdout.flush()
        return status
    except BrokenPipeError:
        os.dup2(os.open(os.devnull, os.O_WRONLY), sys.stdout.fileno())
        complain("the output is closed")
        return CLOSED
    except OSError as fault:
        os.dup2(os.open(os.devnull, os.O_WRONLY), sys.stdout.fileno())
        complain("cannot write the output: %s" % reason(fault))
        return CLOSED
    except KeyboardInterrupt:
        return 130


def work_of(session):
    try:
        return session.words.work(session)
    except Refusal as refusal:
        finding = findings.explain(refusal.answer, refusal.text)
        session.show(finding, refusal.text, sys.stderr)
        return finding.status
    except Trouble as trouble:
        complain(trouble)
        return FAILED
