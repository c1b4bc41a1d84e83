"""lens check: the place of a fault, its line, and every kind of refusal."""
import json
import os
import pty
import re
import subprocess
import time
import unicodedata
import unittest
from random import Random

from case import LENS, TOP, Case
from lens import findings, refusals
from lens.program import Answer
from lens.texts import Text

INVERSION = """priority bg;
priority ui;
order bg < ui;
main at ui : int {
  h <- spawn[bg] { ret 5 };
  x <- sync h;
  ret x
}
"""


def shown(line, data, status=4):
    text = Text("f.priml", data if isinstance(data, bytes) else data.encode())
    finding = findings.explain(Answer(status, line + "\n"), text)
    return findings.as_text(finding, text, findings.Ink(False))


class Kinds(unittest.TestCase):
    def lines_of_the_docs(self):
        """The lines of refusal of the tables in docs/, with a number or a vertex for each letter."""
        found = set()
        for page in ("FORMATS.md", "LANGUAGE.md"):
            with open(os.path.join(TOP, "docs", page), encoding="utf-8") as file:
                text = file.read()
            found.update(re.findall(r"`((?:source|section|inputs|schedule|flaw|limit|words): [^`]*[^`.])`", text))
            found.update(re.findall(r"`(read fault|out of memory)`", text))
            if page == "LANGUAGE.md":
                kinds = re.findall(r"^\| `([a-z ]+)` \|.*`type: ", text, re.MULTILINE)
                self.assertEqual(len(kinds), 8)
                found.update("type: %s at A" % kind for kind in kinds)
        many = [line for line in found if "WHAT" in line]
        found.difference_update(many)
        for what in ("priorities", "pairs", "procedures", "priority variables", "constraints", "parameters", "variables", "type nodes"):
            found.update(line.replace("WHAT", what) for line in many)
        found.discard("flaw: step I KIND")
        found = {re.sub(r"\b[AKI]\b", "3", line) for line in found}
        return sorted(re.sub(r"\b[VU]\b", "0.1:2", line) for line in found)

    def test_each_line_of_the_docs_is_explained(self):
        lines = self.lines_of_the_docs()
        self.assertGreater(len(lines), 45)
        for line in lines:
            with self.subTest(line):
                finding = findings.explain(Answer(3, line + "\n"), Text("f", b"abcdef\n===schedule\n\n\n0.1:2\n"))
                self.assertNotEqual(finding.kind, "unknown")
                for sentence in (finding.asks, finding.mends):
                    self.assertRegex(sentence, r"\A[A-Z`].*\.\Z|\A[0-9.:]+ .*\.\Z")
                self.assertNotRegex(finding.title + finding.asks + finding.mends, r"\{[a-z]+\}")

    def test_each_kind_stands_in_the_docs(self):
        lines = self.lines_of_the_docs()
        for kind in refusals.KINDS:
            with self.subTest(kind.pattern):
                self.assertTrue(any(refusals.kind_of(line) and refusals.kind_of(line)[0] is kind for line in lines))

    def test_a_line_that_is_none(self):
        self.assertEqual(shown("type: new kind at 3", "abc"), "f.priml: error: type: new kind at 3\n")


class Places(unittest.TestCase):
    def test_inversion(self):
        self.assertEqual(shown("type: inversion at 95", INVERSION), """f.priml:6:8: error: inversion
6 |   x <- sync h;
  |        ^~~~
A thread waits only for a thread whose priority is known to be at least its own. Spawn the awaited thread at this \
priority or a higher one, or move the `sync` into a thread of a lower one; in a procedure the constraint `p <= q` makes it known.
""")

    def first_lines(self, line, data):
        return shown(line, data).split("\n")[:3]

    def test_tabs_and_characters(self):
        data = "# é漢\t\n\tx <- # é漢 ?\n\t漢?"
        at = data.encode().rindex(b"?")
        self.assertEqual(self.first_lines("source: unexpected at %d" % at, data),
                         ["f.priml:3:3: error: unexpected", "3 |     漢?", "  |       ^"])

    def test_past_the_end(self):
        for at in (5, 6, 9000000):
            self.assertEqual(self.first_lines("source: unexpected at %d" % at, "proc\n"),
                             ["f.priml:2:1: error: unexpected", "2 | (the file ends here)", "  | ^"])
        self.assertEqual(self.first_lines("source: unexpected at 0", ""),
                         ["f.priml:1:1: error: unexpected", "1 | (the file ends here)", "  | ^"])

    def test_carriage_returns(self):
        self.assertEqual(self.first_lines("source: unexpected at 8", "proc f\r\nmain\r\n"),
                         ["f.priml:2:1: error: unexpected", "2 | main", "  | ^~~~"])

    def test_what_steers_a_terminal_is_not_shown(self):
        text = shown("source: bad byte at 2", b"a \x1b[31m\x07\xff \xe2\x80\xae x")
        self.assertIn("1 | a ?[31m?\ufffd ? x\n", text)

    def test_a_long_line(self):
        data = b" " * 70 + b"word " + b"y" * 1000000
        self.assertEqual(self.first_lines("source: unexpected at 70", data),
                         ["f.priml:1:71: error: unexpected", "1 | ..." + " " * 60 + "word " + "y" * 55 + "...",
                          "  | " + " " * 63 + "^~~~"])
        many = "漢" * 300000
        self.assertEqual(self.first_lines("source: bad byte at 600000", many)[0], "f.priml:1:200001: error: bad byte")

    def test_lines_of_sections(self):
        data = "priority p;\n===inputs\n0: 1\n0: 2\n===schedule\n0:0\n0:1 0:1\n"
        self.assertEqual(self.first_lines("inputs: path twice at line 2", data)[:2], ["f.priml:4:1: error: path twice", "4 | 0: 2"])
        self.assertEqual(self.first_lines("flaw: step 2 twice 0:1", data),
                         ["f.priml:7:5: error: step 2 has 0:1 twice", "7 | 0:1 0:1", "  |     ^"])
        self.assertEqual(self.first_lines("flaw: step 3 unfinished 0:2", data)[0], "f.priml:8:1: error: unfinished")
        self.assertEqual(self.first_lines("section: twice at line 5", data)[0], "f.priml:5:1: error: section twice")

    def test_a_section_that_is_not_there(self):
        self.assertEqual(self.first_lines("flaw: step 1 unfinished 0:0", "main")[0], "f.priml:1:5: error: unfinished")

    def test_random_texts_and_places(self):
        """Nothing is raised, no control character is shown, and no line is long, whatever the bytes and the place are."""
        random = Random(20)
        pieces = [b"\n", b"\r", b"\t", b"a", b" ", b"===", b"===inputs\n", b"\xff", b"\xe2\x80\xae", "é漢😀e\u0301".encode(), b"\x1b[2J", b"\x00", b"<-", b"x" * 300]
        for _ in range(3000):
            data = b"".join(random.choice(pieces) for _ in range(random.randrange(30)))
            line = random.choice(["source: unexpected at %d", "inputs: bad line %d", "section: twice at line %d", "flaw: step %d twice 0:0"])
            told = shown(line % random.choice([0, 1, 7, random.randrange(len(data) + 3), 10 ** 7, 10 ** 25]), data)
            lines = told.split("\n")
            self.assertRegex(lines[0], r"\Af\.priml:[1-9][0-9]*:[1-9][0-9]*: error: ")
            self.assertEqual(len(lines), 5)
            self.assertLess(len(lines[1]), 500)
            self.assertFalse([one for one in told if unicodedata.category(one)[0] == "C" and one != "\n"])

    def test_no_place(self):
        self.assertEqual(shown("limit: input", "x").split("\n")[0], "f.priml: error: limit: input")


class Calls(Case):
    def test_ok_and_refused(self):
        program = self.fake(check=(4, "type: inversion at 95\n"))
        status, out, _ = self.lens("check", self.file("a.priml", INVERSION), program=program)
        self.assertEqual((status, out.split("\n")[0]), (4, self.path("a.priml") + ":6:8: error: inversion"))
        self.assertNotIn("\033", out)
        self.assertEqual(self.lens("check", "a.priml", program=self.fake(check=(0, "ok\n"))), (0, "a.priml: ok\n", ""))

    def on_terminal(self, **settings):
        """What a call writes to a terminal."""
        main, end = pty.openpty()
        env = dict({name: value for name, value in os.environ.items() if name != "NO_COLOR"}, **dict({"TERM": "xterm"}, **settings))
        call = subprocess.Popen([LENS, "check", self.file("a.priml", INVERSION), "--program", self.fake(check=(4, "type: inversion at 95\n"))],
                                stdin=subprocess.DEVNULL, stdout=end, env=env)
        os.close(end)
        told = b""
        try:
            while True:
                some = os.read(main, 4096)
                if not some:
                    break
                told += some
        except OSError:  # a terminal without a writer ends so on Linux
            pass
        os.close(main)
        self.assertEqual(call.wait(), 4)
        return told.decode()

    def test_colour(self):
        self.assertIn("\033[1;31merror:\033[0m", self.on_terminal())
        self.assertNotIn("\033", self.on_terminal(NO_COLOR="1"))
        self.assertNotIn("\033", self.on_terminal(TERM="dumb"))

    def test_json(self):
        self.file("a.priml", INVERSION)
        status, out, _ = self.lens("check", "--json", "a.priml", program=self.fake(check=(4, "type: inversion at 95\n")))
        one, = json.loads(out)
        self.assertEqual(status, 4)
        self.assertEqual([one[name] for name in ("file", "status", "answer", "kind", "title", "line", "column", "offset", "length")],
                         ["a.priml", 4, "type: inversion at 95", "type", "inversion", 6, 8, 95, 4])

    def test_what_cannot_be_read(self):
        program = self.fake(check=(0, "ok\n"))
        os.mkdir(self.path("d"))
        self.file("a.priml", "")
        status, out, told = self.lens("check", "d", "none", "a.priml", program=program)
        self.assertEqual((status, out), (1, "a.priml: ok\n"))
        self.assertEqual(told, "lens: cannot read d: Is a directory\nlens: cannot read none: No such file or directory\n")

    def test_no_program(self):
        self.file("a.priml", "")
        self.assertEqual(self.lens("check", "a.priml", "--program", "./none"),
                         (1, "", "lens: cannot run the program ./none: No such file or directory\n"))
        self.file("bad", "#!/bin/sh\nkill -9 $$\n")
        os.chmod(self.path("bad"), 0o755)
        self.assertEqual(self.lens("check", "a.priml", "--program", "./bad")[2], "lens: the program ./bad ended with signal 9\n")

    def test_from_any_folder_and_through_a_link(self):
        os.symlink(LENS, self.path("link"))
        self.file("a.priml", "")
        done = subprocess.run([self.path("link"), "check", "a.priml", "--program", self.fake(check=(0, "ok\n"))],
                              cwd=self.folder.name, stdout=subprocess.PIPE)
        self.assertEqual(done.stdout, b"a.priml: ok\n")

    def test_a_closed_pipe(self):
        self.file("a.priml", "")
        call = subprocess.Popen("sleep 0.3; %s check %s --program %s; echo $? >&2" % (LENS, "a.priml " * 3, self.fake(check=(0, "ok\n"))),
                                shell=True, cwd=self.folder.name, stdout=subprocess.PIPE, stderr=subprocess.PIPE)
        call.stdout.close()
        told = call.stderr.read().decode()
        call.stderr.close()
        call.wait()
        self.assertEqual(told, "lens: the output is closed\n9\n")

    def test_ends_that_are_closed_or_full(self):
        self.file("a.priml", "")
        program = self.fake(check=(0, "ok\n"))
        for ends, told in ((">&-", "lens: the output is closed\n9\n"), ("> /dev/full", "lens: cannot write the output: No space left on device\n9\n"),
                           ("2>&- >&-", "9\n"), ("- <&-", "lens: cannot read -: standard input is closed\n1\n")):
            if "full" in ends and not os.path.exists("/dev/full"):
                continue
            done = subprocess.run("exec 3>&2; %s check --program %s a.priml %s; echo $? >&3" % (LENS, program, ends), shell=True,
                                  cwd=self.folder.name, stdout=subprocess.PIPE, stderr=subprocess.PIPE)
            with self.subTest(ends):
                self.assertEqual(done.stderr.decode(), told)

    def test_starts_of_lines(self):
        for data in (b"", b"\n", b"a\nb", b"ab\n" * 5000 + b"c", b"x" * 9000 + b"\n" * 9000):
            text, starts = Text("f", data), [0] + [at + 1 for at, one in enumerate(data) if one == 10]
            for number in [1, 2, 3, len(starts) // 2 + 1, len(starts)]:
                self.assertEqual(text.start_of_line(number), starts[number - 1] if number <= len(starts) else len(data))
            self.assertEqual(text.start_of_line(len(starts) + 1), len(data))

    def test_files_of_the_program(self):
        self.need_program()
        for name, status in (("inversion", 4), ("fetch", 0), ("dashboard", 0)):
            self.assertEqual(self.lens("check", os.path.join(TOP, "examples", name + ".priml"))[0], status)
        for data, title in ((b"\xff\xfe\x00", "1:1: error: bad byte"), (b"===", "1:1: error: unknown section"),
                            (b"#" * 4194305, " error: limit: input"), (b"#" * 1000000, "1:1000001: error: unexpected")):
            out = self.lens("check", "-", given=data)[1]
            self.assertIn(title, out.split("\n")[0])

    def test_four_megabytes_in_a_second(self):
        data = b"# \xc3\xa4\n" * 838000 + b"main"
        program = self.fake(check=(3, "source: unexpected at %d\n" % len(data)))
        self.file("large", data)
        began = time.process_time(), os.times()
        text = Text("large", data)
        finding = findings.explain(Answer(3, "source: unexpected at %d\n" % len(data)), text)
        findings.as_text(finding, text, findings.Ink(True))
        self.assertLess(time.process_time() - began[0], 1)
        self.assertIn("large:838001:5: error: unexpected", self.lens("check", "large", program=program)[1])
