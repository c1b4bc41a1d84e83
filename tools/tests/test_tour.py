"""docs/TOUR.md: each of its calls answers what stands there, and what it asks the reader to try ends as it says."""
import json
import os
import re
import subprocess

from case import LENS, PROGRAM, TOP, Case


class Tour(Case):
    def setUp(self):
        super().setUp()
        with open(os.path.join(TOP, "docs", "TOUR.md"), encoding="utf-8") as file:
            self.blocks = re.findall(r"```\n(.*?)```", file.read(), re.DOTALL)
        self.files = {}
        for block in self.blocks:
            head = re.match(r"# (\w+\.priml)\n", block)
            if head:
                self.files[head.group(1)] = block
                self.file(head.group(1), block)

    def changed(self, name, *changes):
        """A file of the tour with changes, under its name."""
        text = self.files[name]
        for old, new in changes:
            self.assertEqual(text.count(old), 1, old)
            text = text.replace(old, new)
        self.file(name, text)

    def test_calls(self):
        self.need_program()
        os.symlink(LENS, self.path("lens"))
        os.symlink(os.path.abspath(PROGRAM), self.path("priml"))
        called = 0
        for block in self.blocks:
            for call, told in re.findall(r"^\$ (.*)\n((?:[^$].*\n)*)", block, re.MULTILINE):
                called += 1
                with self.subTest(call):
                    done = subprocess.run(call, shell=True, cwd=self.folder.name, stdout=subprocess.PIPE, stderr=subprocess.STDOUT)
                    self.assertEqual(done.stdout.decode(), told)
        self.assertEqual(called, 17)

    def error(self, *words):
        _, out, told = self.lens(*words)
        return re.search(r"error: (.*)", out + told).group(1)

    def test_what_to_try(self):
        self.need_program()
        self.changed("first.priml", ("{ ret 4096 }", "{ told <- output 4096; ret 4096 }"))
        self.assertIn("thread 0.0 bg 3 ", self.asked("serial", "100", given=self.data("first.priml")))
        self.changed("third.priml", ("order bg < ui;", "order bg < ui; order ui < bg;"))
        self.assertEqual(self.error("check", "third.priml"), "cycle")
        self.changed("typed.priml", ("0: 5", "0: 5,6"))
        self.assertEqual(self.lens("check", "typed.priml")[0], 0)
        self.assertEqual(self.error("report", "typed.priml", "-p", "1"), "bad inputs line")
        wrong = ("call waited[ui, ui](small)", "call waited[ui, bg](large)")
        self.changed("sums.priml", wrong)
        self.assertEqual(self.error("check", "sums.priml"), "constraint")
        self.changed("sums.priml", wrong, ("; p <= q", ""))
        self.assertEqual(self.error("check", "sums.priml"), "inversion")
        self.assertEqual(self.error("judge", "better.priml", "-p", "2"), "step 3 leaves a core idle")

    def data(self, name):
        with open(self.path(name), "rb") as file:
            return file.read()

    def test_cuts_stay(self):
        self.need_program()
        one, four = (self.asked("trace", workers, "5", "200", given=self.data("sums.priml")) for workers in "14")
        self.assertEqual(re.sub(r"worker [0-3]\n", "worker 0\n", four), one)
        self.assertEqual(self.lens("trace", "sums.priml", "--workers", "4", "-q", "5", "-o", "sums.json"), (0, "", ""))
        self.assertIn("traceEvents", json.loads(self.data("sums.json")))

    def test_urgent_rows_stay(self):
        self.need_program()
        before = self.lens("report", "sums.priml", "-p", "2", "--csv")[1].split("\n")[1:3]
        self.changed("sums.priml", ("sum[bg](4)", "sum[bg](40)"))
        self.assertEqual(self.lens("report", "sums.priml", "-p", "2", "--csv")[1].split("\n")[1:3], before)
