"""The files for editors and the shell, and the manual pages."""
import json
import os
import re
import shutil
import subprocess

from case import LENS, PROGRAM, TOP, Case
from lens import commands
from lens.scopes import RESERVED

EDITORS = os.path.join(TOP, "editors")


def read(*names):
    with open(os.path.join(TOP, *names), encoding="utf-8") as file:
        return file.read()


class Words(Case):
    def test_reserved_words(self):
        told = re.search(r"The reserved words are: ([^.]*)\.", read("docs", "LANGUAGE.md")).group(1)
        self.assertEqual(RESERVED, told.replace("\n", " ").replace(",", "").split())
        vim = re.findall(r"^syntax keyword priml(?!Todo)\w+ (.*)$", read("editors", "vim", "syntax", "priml.vim"), re.MULTILINE)
        self.assertEqual(sorted(" ".join(vim).split()), sorted(RESERVED))
        grammar = json.loads(read("editors", "vscode", "syntaxes", "priml.tmLanguage.json"))
        words = [one["match"] for one in grammar["repository"]["words"]["patterns"]]
        self.assertEqual(sorted(re.findall(r"[a-z]{2,}", " ".join(words))), sorted(RESERVED))

    def test_files_of_the_extension(self):
        package = json.loads(read("editors", "vscode", "package.json"))
        self.assertEqual(json.loads(read("editors", "vscode", "language-configuration.json"))["comments"], {"lineComment": "#"})
        for one in package["contributes"]["grammars"] + package["contributes"]["languages"]:
            self.assertTrue(os.path.exists(os.path.join(EDITORS, "vscode", one.get("path") or one["configuration"])))
        matcher = package["contributes"]["problemMatchers"][0]["pattern"]["regexp"]
        self.assertEqual(re.match(matcher, "a b.priml:8:11: error: inversion").groups(), ("a b.priml", "8", "11", "error", "inversion"))

    def test_grammar(self):
        patterns = re.findall(r'"(?:match|begin|end)": ("(?:[^"\\]|\\.)*")', read("editors", "vscode", "syntaxes", "priml.tmLanguage.json"))
        self.assertGreater(len(patterns), 15)
        for pattern in patterns:
            re.compile(json.loads(pattern))


class Vim(Case):
    def vim(self, *calls, asked):
        """Starts Vim with the files of this repository alone, makes the calls, and answers the values that are asked, as texts."""
        if not shutil.which("vim"):
            self.skipTest("no Vim")
        lines = list(calls) + ["call writefile([%s], 'out', 'a')" % one for one in asked] + ["qa!", ""]
        script = self.file("calls.vim", "\n".join(lines))
        subprocess.run(["vim", "-N", "-u", "NONE", "-i", "NONE", "-n", "-es", "--cmd", "set rtp^=" + os.path.join(EDITORS, "vim"), "-S", script],
                       stdin=subprocess.DEVNULL, stdout=subprocess.DEVNULL, stderr=subprocess.DEVNULL, cwd=self.folder.name, timeout=30)
        with open(self.path("out"), encoding="utf-8") as file:
            return file.read().splitlines()

    def test_syntax(self):
        self.file("a.priml", "priority bg; # note\norder bg < ui;\nmain at ui : int {\n  h <- spawn[bg] { ret 15 };\n===inputs\n0.1: 5\n")
        places = [(1, 1, "primlDeclaration"), (1, 10, "primlPriority"), (1, 15, "primlComment"), (2, 12, "primlPriority"), (3, 9, "primlPriority"),
                  (3, 14, "primlType"), (4, 5, "primlSign"), (4, 9, "primlAction"), (4, 24, "primlNumber"), (5, 1, "primlHead"), (6, 1, "primlPath")]
        asked = ["synIDattr(synID(%d, %d, 1), 'name')" % place[:2] for place in places]
        out = self.vim("filetype plugin on", "syntax on", "edit a.priml", asked=asked)
        self.assertEqual(out, [name for _, _, name in places])

    def test_make(self):
        self.file("a.priml", "x\nyy\n")
        text = "a.priml:2:1: error: bad byte\n2 | yy\n  | ^~\nA rule. A way.\na.priml: error: limit: input\nAnother rule. Another way.\nb.priml: ok\n"
        self.file("told", text)
        out = self.vim("filetype plugin on", "edit a.priml", "cgetfile told",
                       asked=["json_encode(map(getqflist(), '[bufname(v:val.bufnr), v:val.lnum, v:val.col, v:val.text]'))"])
        self.assertEqual(json.loads(out[0]), [["a.priml", 2, 1, "bad byte\nA rule. A way."], ["a.priml", 0, 0, "limit: input\nAnother rule. Another way."]])

    def test_the_call_of_make(self):
        self.file("a.priml", "")
        self.assertEqual(self.vim("filetype plugin on", "edit a.priml", asked=["&makeprg"]), ["'lens' check %:S"])

    def test_making(self):
        self.file("a b.priml", "x\n")
        out = self.vim("let $PRIML = '%s'" % self.fake(check=(3, "source: unexpected at 0\n")), "let g:priml_lens = '%s'" % LENS,
                       "filetype plugin on", "edit a\\ b.priml", "silent make!",
                       asked=["json_encode(map(getqflist(), '[bufname(v:val.bufnr), v:val.lnum, v:val.col, split(v:val.text, nr2char(10))[0]]'))"])
        self.assertEqual(json.loads(out[0]), [["a b.priml", 1, 1, "unexpected"]])


class Neovim(Case):
    SCRIPT = """
local told = {}
local function wait(holds)
  vim.wait(20000, holds, 50)
  local messages = {}
  for _, one in ipairs(vim.diagnostic.get(0)) do
    table.insert(messages, { one.lnum + 1, one.col + 1, vim.split(one.message, "\\n")[1] })
  end
  table.insert(told, messages)
end
local function faults(number)
  return function() return #vim.diagnostic.get(0) == number end
end
vim.cmd("luafile " .. vim.env.CLIENT)
vim.cmd("edit a.priml")
wait(faults(1))
vim.api.nvim_buf_set_lines(0, 1, 2, false, { "main at p : int { ret 1 }" })
wait(faults(0))
vim.api.nvim_buf_set_lines(0, 1, 2, false, { "main at q : int { ret 1 }" })
wait(faults(1))
local file = io.open("told.json", "w")
file:write(vim.fn.json_encode(told))
file:close()
vim.cmd("quitall!")
"""

    def test_faults_as_the_text_changes(self):
        self.need_program()
        if not shutil.which("nvim"):
            self.skipTest("no nvim")
        self.file("a.priml", "priority p;\nmain at p : int { ret true }\n")
        self.file("script.lua", self.SCRIPT)
        env = dict(os.environ, CLIENT=os.path.join(EDITORS, "neovim", "priml.lua"), PRIML=PROGRAM, XDG_STATE_HOME=self.folder.name,
                   XDG_CACHE_HOME=self.folder.name, PATH=TOP + os.pathsep + os.environ["PATH"])
        subprocess.run(["nvim", "--headless", "-u", "NONE", "-n", "-c", "luafile script.lua"], cwd=self.folder.name, env=env,
                       stdin=subprocess.DEVNULL, stdout=subprocess.PIPE, stderr=subprocess.STDOUT, timeout=90)
        with open(self.path("told.json"), encoding="utf-8") as file:
            told = json.load(file)
        self.assertEqual([[one[:2] for one in state] for state in told], [[[2, 1]], [], [[2, 9]]])
        self.assertIn("mismatch", told[0][0][2])
        self.assertIn("unknown name", told[2][0][2])


class Shell(Case):
    def complete(self, *words):
        """What bash would complete in the last word."""
        script = 'source "$1"; shift; COMP_WORDS=("$@"); COMP_CWORD=$(($# - 1)); _${1} ; printf "%s\\n" "${COMPREPLY[@]}"'
        done = subprocess.run(["bash", "-c", script, "bash", os.path.join(EDITORS, "bash", "priml.bash")] + list(words),
                              stdout=subprocess.PIPE, cwd=self.folder.name)
        return done.stdout.decode().split()

    def test_completion(self):
        self.file("a.priml", "")
        self.file("b.txt", "")
        os.mkdir(self.path("examples"))
        self.assertEqual(self.complete("priml", "s"), ["serial", "sample"])
        self.assertEqual(self.complete("priml", "report", ""), [])
        self.assertEqual(self.complete("lens", "re"), ["report"])
        self.assertEqual(self.complete("lens", "report", ""), ["a.priml", "examples/"])
        self.assertEqual(self.complete("lens", "report", "--"), ["--program", "--help", "--csv", "--json"])
        self.assertEqual(self.complete("lens", "report", "-p", "1"), ["1", "1,2,4,8"])
        self.assertEqual(self.complete("lens", "trace", "--workers", "1"), ["1", "16"])
        self.assertEqual(self.complete("lens", "trace", "-q", ""), ["1", "8", "64", "1000"])

    def test_it_knows_all_commands(self):
        kinds = next(one for one in commands.parser()._actions if one.choices).choices
        self.assertEqual(self.complete("lens", ""), list(kinds))
        page = read("docs", "lens.1").replace("\\-", "-")
        for name, parser in kinds.items():
            self.assertRegex(page, r"\n\.B %s\n" % name)
            told = self.complete("lens", name, "-")
            for action in parser._actions:
                for option in action.option_strings[-1:]:
                    self.assertIn(option, told)
                    self.assertTrue(option == "--help" or option in page, option)

    def test_pages(self):
        page = read("docs", "priml.1").replace("\\-", "-")
        for row in re.findall(r"^\| (`[a-z]+.*?`) \|", read("docs", "FORMATS.md").split("## Sections")[0], re.MULTILINE):
            for command in re.findall(r"`([^`]+)`", row):
                name, _, numbers = command.partition(" ")
                self.assertTrue("\n.B %s\n" % name in page or '\n.BI %s " %s"\n' % (name, numbers) in page, command)
        if not shutil.which("groff"):
            self.skipTest("no groff")
        for name in ("lens.1", "priml.1"):
            done = subprocess.run(["groff", "-man", "-Tutf8", "-ww", os.path.join(TOP, "docs", name)], stdout=subprocess.PIPE, stderr=subprocess.PIPE)
            self.assertEqual((done.returncode, done.stderr), (0, b""))
