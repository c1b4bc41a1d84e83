"""The examples: what the program says of each, and that what their comments tell to look at is there."""
import os
import subprocess

from case import PROGRAM, TOP, Case
from lens import answers

FOLDER = os.path.join(TOP, "examples")
FAMILIES = ["alarm", "build", "chat", "dashboard", "editor", "game", "photos", "server"]


class Examples(Case):
    def source(self, name):
        with open(os.path.join(FOLDER, name), "rb") as file:
            return file.read()

    def report(self, name, cores):
        """The rows of a report by path."""
        told = answers.read_report(self.asked("report", str(cores), "1000", given=self.source(name + ".priml")))
        return {row.path: row for row in told.rows}

    def test_each_family_is_whole(self):
        names = set(os.listdir(FOLDER))
        for family in FAMILIES:
            self.assertLessEqual({family + ".priml", family + "-bad.priml", family + ".report"}, names)
        for name in names:
            self.assertTrue(self.source(name).startswith(b"# ") or name.endswith(".report"), name)

    def test_check(self):
        self.need_program()
        for name in sorted(os.listdir(FOLDER)):
            if name.endswith(".priml"):
                wrong = name.endswith("-bad.priml") or name == "inversion.priml"
                done = subprocess.run([PROGRAM, "check"], input=self.source(name), stdout=subprocess.PIPE)
                with self.subTest(name):
                    self.assertRegex(done.stdout.decode(), r"\Atype: inversion at \d+\n\Z" if wrong else r"\Aok\n\Z")

    def test_reports(self):
        self.need_program()
        for name in sorted(os.listdir(FOLDER)):
            if name.endswith(".report"):
                with self.subTest(name):
                    self.assertEqual(self.asked("report", "2", "1000", given=self.source(name[:-7] + ".priml")), self.source(name).decode())

    def test_bounds(self):
        self.need_program()
        for family in FAMILIES:
            for cores in (1, 2, 3, 8):
                for row in self.report(family, cores).values():
                    with self.subTest((family, cores, row.path)):
                        self.assertLessEqual(cores * row.time, row.work + (cores - 1) * row.span)
                        self.assertEqual(row.bound, (row.work + (cores - 1) * row.span) // cores)

    def test_what_to_look_at(self):
        self.need_program()
        for cores in (1, 2, 8):
            editor, alarm, photos = (self.report(name, cores) for name in ("editor", "alarm", "photos"))
            self.assertEqual((editor["0"].time, editor["0"].bound), (46, 46))
            self.assertEqual([(alarm[path].time, alarm[path].bound) for path in ("0.0.0", "0.0.1")], [(7, 7), (7, 7)])
            self.assertEqual((photos["0.1"].time, photos["0"].time), (18, 25))
            self.assertEqual(photos["0.0"].span, 42)
        self.assertEqual(self.report("game", 1)["0.1"].bound, 124)
        self.assertEqual(self.report("game", 2)["0.1"].time, 4)
        server = self.report("server", 2)
        self.assertLessEqual(max(server[path].time for path in ("0.0", "0.2", "0.4", "0.6")), 11)
        others = [row.time for row in server.values() if row.priority != "serve"]
        self.assertEqual((min(others), max(others)), (24, 52))
        chat = self.report("chat", 2)
        for chain in (lambda row: row.time, lambda row: row.span):
            values = [chain(row) for row in chat.values() if row.priority == "net"]
            self.assertEqual(values, sorted(set(values)))
