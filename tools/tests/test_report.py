"""lens report and judge: the table, CSV, JSON, and several numbers of cores."""
import json

from case import Case

REPORT = """thread 0 ui 7 value 15
thread 0.0 bg 3 value 4096
out 7 -8
thread 0.1 ui 2 value (3, inl(()))
work 12
cores 2
steps 9
response 0 ui time 9 work 9 span 9 bound 9
response 0.0 bg time 3 work 9 span 3 bound 6
response 0.1 ui time 2 work 2 span 2 bound 2
"""
SOURCE = """priority bg;
priority ui;
order bg < ui;

main at ui : int {
  n <- input;
  page <- spawn[bg] { told <- output 7; ret 4096 };
  size <- spawn[ui] { ret 3 };
  s <- sync size;
  case n inl none { ret s } inr k { ret (s * k) }
}
===inputs
0: 5
===schedule
0:0
0:1
0:2
0:3
"""
TABLE = """cores 2, steps 9, work 12
thread  priority  response  bound  left  response of bound
0       ui               9      9     0  ##############################
0.0     bg               3      6     3  ##########..........
0.1     ui               2      2     0  #######
"""


class Tables(Case):
    def test_table(self):
        self.file("a", "")
        self.assertEqual(self.lens("report", "a", "-p", "2", program=self.fake(report=(0, REPORT))), (0, TABLE, ""))

    def test_csv(self):
        self.file("a", "")
        self.assertEqual(self.lens("report", "a", "-p2", "--csv", program=self.fake(report=(0, REPORT)))[1], """\
cores,thread,priority,steps,outcome,work,span,response,bound,left
2,0,ui,7,value 15,9,9,9,9,0
2,0.0,bg,3,value 4096,9,3,3,6,3
2,0.1,ui,2,"value (3, inl(()))",2,2,2,2,0
""")

    def test_json(self):
        self.file("a", "")
        one, = json.loads(self.lens("report", "a", "-p2", "--json", program=self.fake(report=(0, REPORT)))[1])
        self.assertEqual((one["cores"], one["steps"], one["work"], len(one["threads"])), (2, 9, 12, 3))
        self.assertEqual(one["threads"][1], {"thread": "0.0", "priority": "bg", "steps": 3, "outcome": "value 4096", "work": 9,
                                             "span": 3, "response": 3, "bound": 6, "left": 3, "outputs": [7, -8]})

    def test_answers_that_are_not_known(self):
        self.file("a", "")
        self.assertEqual(self.lens("report", "a", "-p2", program=self.fake(report=(0, "thread x\n"))),
                         (1, "", "lens: the program answered a line that lens does not know: 'thread x'\n"))
        self.assertEqual(self.lens("report", "a", "-p2", program=self.fake(report=(0, REPORT[:100])))[0], 1)

    def test_of_the_program(self):
        self.need_program()
        self.file("a", SOURCE)
        self.assertEqual(self.lens("report", "a", "-p", "2", "-l", "12")[:2], (0, TABLE))
        self.assertEqual(self.lens("report", "a", "-p", "1,2"), (0, """\
cores                          1               2
steps                         12               9
thread  priority  response/bound  response/bound
0       ui                   9/9             9/9
0.0     bg                   9/9             3/6
0.1     ui                   2/2             2/2
""", ""))
        self.assertEqual(self.lens("report", "a", "-p", "2", "-l", "11"), (7, "", """\
a: error: limit: steps
All threads together make at most as many steps as `-l` allows, 100,000 at most. Allow more steps, or look for a call that calls itself without end.
"""))
        self.assertEqual(self.lens("judge", "a", "-p", "2"), (6, "", """\
a:18:1: error: step 4 leaves a core idle
18 | 0:3
   | ^
No core is idle while a vertex is ready, and 0.0:0 is ready here. Add 0.0:0 to this step.
"""))
        for cores in ("0", "1025", "x", ""):
            self.assertEqual(self.lens("report", "a", "-p", cores)[0], 2)
