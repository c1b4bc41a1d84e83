"""lens dot, svg, view and trace."""
import json
import os
import re
import shutil
import subprocess
import unittest
import xml.etree.ElementTree as xml

from case import Case
from lens import answers, drawing, traces
from lens.program import Trouble
from test_report import REPORT, SOURCE

GRAPH = """thread 0 ui 7
thread 0.0 bg 3
thread 0.1 ui 2
spawn 0:2 0.0:0
spawn 0:3 0.1:0
join 0.1:1 0:4
"""
PLAN = """0:0
0:1
0:2
0:3 0.0:0
0.1:0 0.0:1
0.1:1 0.0:2
0:4
0:5
0:6
"""
DOT = """digraph "a" {
  rankdir=TB; compound=true;
  node [shape=circle, width=0.3, fixedsize=false, margin="0.04", fontsize=9, style=filled];
  subgraph "cluster_0" {
    label="0 ui"; color="#4c78a8"; fontsize=11;
    node [fillcolor="#4c78a8", color="#4c78a8", fontcolor="#ffffff"];
    "0:0" [label="0"];
    "0:1" [label="1"];
    "0:2" [label="2"];
    "0:3" [label="3"];
    "0:4" [label="4"];
    "0:5" [label="5"];
    "0:6" [label="6"];
    "0:0" -> "0:1" -> "0:2" -> "0:3" -> "0:4" -> "0:5" -> "0:6";
  }
  subgraph "cluster_0.0" {
    label="0.0 bg"; color="#f58518"; fontsize=11;
    node [fillcolor="#f58518", color="#f58518", fontcolor="#000000"];
    "0.0:0" [label="0"];
    "0.0:1" [label="1"];
    "0.0:2" [label="2"];
    "0.0:0" -> "0.0:1" -> "0.0:2";
  }
  subgraph "cluster_0.1" {
    label="0.1 ui"; color="#4c78a8"; fontsize=11;
    node [fillcolor="#4c78a8", color="#4c78a8", fontcolor="#ffffff"];
    "0.1:0" [label="0"];
    "0.1:1" [label="1"];
    "0.1:0" -> "0.1:1";
  }
  "0:2" -> "0.0:0" [color="#2f5597", constraint=true];
  "0:3" -> "0.1:0" [color="#2f5597", constraint=true];
  "0.1:1" -> "0:4" [color="#c44e52", style=dashed];
}
"""
BARS = [("0", 0, 1, 4, 0), ("0.0", 1, 4, 3, 0), ("0.1", 0, 5, 2, 0), ("0", 0, 7, 3, 4)]


class Parts(unittest.TestCase):
    def test_bars(self):
        self.assertEqual(drawing.bars(answers.read_plan(PLAN)), (BARS, 2))
        self.assertEqual(drawing.bars([]), ([], 0))

    def test_a_thread_stays_on_its_row_only_where_there_is_one(self):
        steps = [[("0", 0), ("0.0", 0)], [("0.0", 1)], [("0.0", 2), ("0.1", 0)]]
        self.assertEqual(drawing.bars(steps)[0], [("0", 0, 1, 1, 0), ("0.0", 1, 1, 1, 0), ("0.0", 0, 2, 2, 1), ("0.1", 1, 3, 1, 0)])

    def test_no_row_is_used_twice_in_a_step(self):
        steps = [[("0", 0)], [("0.%d" % at, 0) for at in range(9)], [("0.8", 1), ("0.3", 1), ("0.0", 1)], [("0.3", 2), ("0.8", 2), ("1", 3)]]
        used = [(bar.row, step) for bar in drawing.bars(steps)[0] for step in range(bar.step, bar.step + bar.length)]
        self.assertEqual(len(used), len(set(used)))
        self.assertEqual(len(used), sum(map(len, steps)))

    def test_cuts_are_placed_where_they_can_start_first(self):
        graph = answers.Graph([("0", "p", 4), ("0.0", "p", 3)], [("0:1", "0.0:0")], [])
        cuts = [answers.Cut("0", 0, 2, 0), answers.Cut("0", 2, 2, 1), answers.Cut("0.0", 0, 3, 1)]
        self.assertEqual(traces.placed(graph, cuts), [("0", 0, 1, 2, 0), ("0", 1, 3, 2, 2), ("0.0", 1, 5, 3, 0)])

    def test_cuts_that_wait_for_each_other(self):
        graph = answers.Graph([("0", "p", 4), ("0.0", "p", 2)], [("0:1", "0.0:0")], [("0.0:1", "0:2")])
        self.assertRaises(Trouble, traces.placed, graph, [answers.Cut("0", 0, 4, 0), answers.Cut("0.0", 0, 2, 1)])

    def test_ticks(self):
        self.assertEqual(drawing.ticks(1), [1])
        self.assertEqual(drawing.ticks(5), [1, 2, 3, 4, 5])
        self.assertEqual(drawing.ticks(88), [1, 10, 20, 30, 40, 50, 60, 70, 80, 88])
        self.assertEqual(drawing.ticks(20000), [1, 2000, 4000, 6000, 8000, 10000, 12000, 14000, 16000, 18000, 20000])


class Pictures(Case):
    def run_of(self, command, *words):
        self.file("a", "")
        program = self.fake(graph=(0, GRAPH), plan=(0, PLAN), report=(0, REPORT))
        status, out, told = self.lens(command, "a", *words, program=program)
        self.assertEqual((status, told), (0, ""))
        return out

    def test_dot(self):
        self.assertEqual(self.run_of("dot"), DOT)
        self.assertEqual(drawing.quoted('a"b\\c'), '"a\\"b\\\\c"')

    def test_graphviz_takes_it(self):
        if not shutil.which("dot"):
            self.skipTest("no Graphviz (dot)")
        done = subprocess.run(["dot", "-Tsvg"], input=DOT.encode(), stdout=subprocess.PIPE, stderr=subprocess.PIPE)
        self.assertEqual((done.returncode, done.stderr), (0, b""))
        self.assertEqual(done.stdout.count(b'class="node"'), 12)

    def test_svg(self):
        top = xml.fromstring(self.run_of("svg", "-p", "2"))
        space = "{http://www.w3.org/2000/svg}"
        self.assertEqual([one.find(space + "title").text for one in top.iter(space + "g")],
                         ["0 ui, steps 1 to 4", "0.0 bg, steps 4 to 6", "0.1 ui, steps 5 to 6", "0 ui, steps 7 to 9"])
        self.assertIn('<rect x="60" y="63" width="112" height="20" fill="#4c78a8"', self.run_of("svg", "-p", "2"))
        self.assertIn("a: 2 cores, 9 steps", "".join(top.itertext()))

    def test_trace(self):
        events = json.loads(self.run_of("trace", "-p", "2"))["traceEvents"]
        self.assertEqual([one["args"]["name"] for one in events if one["ph"] == "M"], ["a on 2 cores", "core 0", "core 1"])
        runs = [one for one in events if one["ph"] == "X"]
        self.assertEqual([(one["name"], one["tid"], one["ts"], one["dur"]) for one in runs],
                         [("0 ui", 0, 0, 4), ("0.0 bg", 1, 3, 3), ("0.1 ui", 0, 4, 2), ("0 ui", 0, 6, 3)])
        self.assertEqual(runs[3]["args"], {"thread": "0", "priority": "ui", "first vertex": "0:4", "first step": 7, "last step": 9})
        self.assertEqual([one["ph"] for one in events if one["ph"] in "sf"], ["s", "f"] * 3)

    def test_cuts_of_workers(self):
        told = ("thread 0 ui 4 value 1\nthread 0.0 bg 3 value 2\nwork 7\ncut 0 from 0 steps 2 worker 0\ncut 0 from 2 steps 2 worker 1\n"
                "cut 0.0 from 0 steps 2 worker 1\ncut 0.0 from 2 steps 1 worker 0\n")
        graph = "thread 0 ui 4\nthread 0.0 bg 3\nspawn 0:1 0.0:0\njoin 0.0:2 0:2\n"
        self.file("a.priml", "")
        words = ["trace", "a.priml", "--workers", "2"]
        status, out, err = self.lens(*words, program=self.fake(trace=(0, told), graph=(0, graph)))
        self.assertEqual((status, err), (0, ""))
        events = json.loads(out)["traceEvents"]
        self.assertEqual([one["args"]["name"] for one in events if one["ph"] == "M"], ["a.priml on 2 workers", "worker 0", "worker 1"])
        self.assertEqual([(one["name"], one["tid"], one["ts"], one["dur"]) for one in events if one["ph"] == "X"],
                         [("0 ui", 0, 0, 2), ("0.0 bg", 1, 2, 2), ("0.0 bg", 0, 4, 1), ("0 ui", 1, 5, 2)])
        status, out, err = self.lens(*words, program=self.fake(graph=(0, graph)))
        self.assertEqual((status, out, err.split("\n")[0]), (2, "", "a.priml: error: unknown command"))

    def test_view(self):
        out = self.run_of("view", "-p", "2")
        self.assertNotRegex(out, r"https?://(?!www\.w3\.org/2000/svg)")
        self.assertIn("default-src 'none'", out)
        data = json.loads(re.search(r"const data = (.*);\n", out).group(1))
        self.assertEqual(data["bars"], [[0, 0, 1, 4, 0], [1, 1, 4, 3, 0], [2, 0, 5, 2, 0], [0, 0, 7, 3, 4]])
        self.assertEqual(data["threads"][1], ["0.0", 1, 3, 3, 6, 9, 3, "value 4096"])
        self.assertEqual(out.count("<circle"), 12)
        self.assertEqual(out.count('class="spawn"'), 2)

    def test_a_name_that_would_leave_the_script(self):
        name = "<!--<script>@@DATA@@&.priml"
        self.file(name, "")
        program = self.fake(graph=(0, GRAPH), plan=(0, PLAN), report=(0, REPORT))
        out = self.lens("view", name, "-p", "2", program=program)[1]
        self.assertEqual(out.count("<script"), 1)
        self.assertEqual(out.count("</script"), 1)
        self.assertNotIn("<!--", out)

    def test_a_large_graph_is_not_drawn(self):
        self.file("a", "")
        program = self.fake(graph=(0, "thread 0 ui 301\n"), plan=(0, "".join("0:%d\n" % at for at in range(301))), report=(0, """\
thread 0 ui 301 value 1
work 301
cores 1
steps 301
response 0 ui time 301 work 301 span 301 bound 301
"""))
        out = self.lens("view", "a", "-p", "1", program=program)[1]
        self.assertIn("The graph has 301 vertices; up to 300 are drawn here.", out)
        self.assertNotIn("<circle", out)

    def test_where_it_cannot_be_written(self):
        self.file("a", "")
        self.assertEqual(self.lens("dot", "a", "-o", "none/x", program=self.fake(graph=(0, GRAPH))),
                         (1, "", "lens: cannot write none/x: No such file or directory\n"))

    def test_of_the_program(self):
        self.need_program()
        self.file("a", SOURCE)
        self.assertEqual(self.lens("dot", "a"), (0, DOT, ""))
        for command in ("svg", "view", "trace"):
            self.file("a", SOURCE)
            of_the_program = self.lens(command, "a", "-p", "2")[1]
            of_the_program = of_the_program.replace('"value 3"', '"value (3, inl(()))"')  # the other outcome of the fixed report
            self.assertEqual(of_the_program, self.run_of(command, "-p", "2"))
        self.file("a", SOURCE)
        self.assertEqual(self.lens("dot", "a", "-l", "3", "-o", "x")[0], 7)
        self.assertFalse(os.path.exists(self.path("x")))

    def test_cuts_of_the_program(self):
        self.need_program()
        self.file("a", SOURCE)
        events = json.loads(self.lens("trace", "a", "--workers", "3", "-q", "2")[1])["traceEvents"]
        cuts = [one for one in events if one["ph"] == "X"]
        when = {}
        for cut in cuts:
            path, first = cut["args"]["first vertex"].split(":")
            when.update({"%s:%d" % (path, int(first) + at): cut["ts"] + at for at in range(cut["dur"])})
        graph = answers.read_graph(GRAPH)
        self.assertEqual(sorted(when), sorted("%s:%d" % (path, at) for path, _, steps in graph.threads for at in range(steps)))
        self.assertEqual(len({(cut["tid"], cut["ts"] + at) for cut in cuts for at in range(cut["dur"])}), len(when))
        edges = graph.spawns + graph.joins + [("%s:%d" % (path, at), "%s:%d" % (path, at + 1)) for path, _, steps in graph.threads for at in range(steps - 1)]
        for before, after in edges:
            self.assertLess(when[before], when[after])

    def browse(self, page, width=1280):
        """The page as a browser has it after a while."""
        browser = shutil.which("chromium") or shutil.which("chromium-browser") or shutil.which("google-chrome")
        if not browser:
            self.skipTest("no Chromium")
        done = subprocess.run([browser, "--headless", "--no-sandbox", "--disable-gpu", "--virtual-time-budget=2000", "--dump-dom",
                               "--window-size=%d,800" % width, "--user-data-dir=" + self.path("profile"), "file://" + self.file("page.html", page)],
                              stdout=subprocess.PIPE, stderr=subprocess.DEVNULL, timeout=40)
        return done.stdout.decode()

    def test_a_browser_runs_the_page(self):
        probe = """<script>
"use strict";
const told = [document.documentElement.scrollWidth <= innerWidth ? "fits" : "too wide", get("range").textContent];
const over = (step, row) => canvas.dispatchEvent(new PointerEvent("pointermove",
  {clientX: x_of(step) + canvas.getBoundingClientRect().left, clientY: canvas.getBoundingClientRect().top + top_ + (row + 0.5) * high_}));
over(5.5, 1);
told.push(tip.textContent.replaceAll("\\n", ", "));
over(1.5, 1);
told.push(tip.style.display);
get("in").click();
told.push((high - low) + " steps");
frame.dispatchEvent(new KeyboardEvent("keydown", {key: "0"}));
told.push(get("range").textContent);
document.querySelectorAll("th button")[4].click();
told.push([...document.querySelectorAll("tbody td:first-child")].map(one => one.textContent).join(" "));
const mark = make("p", told.join("; "));
mark.id = "probe";
document.body.append(mark);
</script>"""
        out = self.browse(self.run_of("view", "-p", "2").replace("</body>", probe + "</body>"), width=500)
        self.assertIn('<p id="summary">2 cores, 9 steps, 3 threads, work 12</p>', out)
        self.assertEqual(len(re.findall(r"<tr title=", out)), 3)
        self.assertIn('<p id="probe">fits; steps 1 to 9; 0.0 bg, steps 4 to 6, vertex 0.0:1; none; 8 steps; steps 1 to 9; 0.0 0 0.1</p>', out)
