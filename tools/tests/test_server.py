"""lens lsp: faults, symbols, hover, definition, completion, and messages that are none."""
import json
import subprocess
import time
import unittest

from case import LENS, PROGRAM, Case
from lens.scopes import Outline
from lens.server import Document

SOURCE = """priority log;
priority bg;
priority ui;
order log < bg;
order bg < ui;
# é 😀
proc wait[p, q; p <= q](h : thread[q](int), n : int) at p : int {
  x <- sync h;
  ret (x + n)
}
main at ui : int {
  h <- spawn[bg] { k <- ret 5; ret k };
  case inl[(unit + int)](()) inl none { ret 1 } inr some { y <- ret 2; ret y }
}
===inputs
0: 5
"""


class Shown(unittest.TestCase):
    def setUp(self):
        self.outline = Outline(SOURCE)

    def at(self, words, behind=0):
        return SOURCE.index(words) + behind

    def test_declarations(self):
        self.assertEqual([one.name for one in self.outline.priorities], ["log", "bg", "ui"])
        self.assertEqual(self.outline.pairs, [("log", "bg"), ("bg", "ui")])
        wait, main = self.outline.routines
        self.assertEqual((wait.name, wait.variables, wait.given, wait.parameters), ("wait", ["p", "q"], [("p", "q")], ["h", "n"]))
        self.assertEqual(wait.head, "proc wait[p, q; p <= q](h : thread[q](int), n : int) at p : int")
        self.assertEqual(SOURCE[wait.end - 1:wait.end + 5], "}\nmain")
        self.assertEqual((main.name, main.head, SOURCE[main.end:]), ("main", "main at ui : int", "\n===inputs\n0: 5\n"))

    def test_order(self):
        self.assertEqual(self.outline.related("bg", 0), (["log"], ["ui"]))
        self.assertEqual(self.outline.related("log", 0), ([], ["bg", "ui"]))
        self.assertEqual(self.outline.related("q", self.at("ret (x")), (["p"], []))
        self.assertEqual(Outline("order a < b; order b < a;").related("a", 0), (["b"], ["b"]))

    def test_scope(self):
        for words, names in (("ret (x", ["x", "n", "h"]), ("sync h", ["n", "h"]), ("k <- ret", []), ("ret k", ["k"]), ("case", ["h"]),
                             ("ret 1", ["none", "h"]), ("ret y", ["y", "some", "h"]), ("order log", []), ("main", [])):
            with self.subTest(words):
                self.assertEqual(self.outline.variables_at(self.at(words)), names)

    def test_where_priorities_stand(self):
        text = "order a < b; proc f[p, q; p <= a](x : int) at p : int { y <- call f[a, b]((b < a), a); case inl[thread[b](a)](b) }"
        outline = Outline(text)
        found = [at for at, token in enumerate(outline.tokens) if token.text in ("a", "b") and outline.is_priority(at)]
        told = " ".join("(%s)" % token.text if at in found else token.text for at, token in enumerate(outline.tokens))
        self.assertEqual(told, "order (a) < (b) ; proc f [ p , q ; p <= (a) ] ( x : int ) at p : int { y <- call f [ (a) , (b) ] "
                               "( ( b < a ) , a ) ; case inl [ thread [ (b) ] ( a ) ] ( b ) }")

    def test_texts_that_are_being_typed(self):
        for end in range(len(SOURCE)):
            outline = Outline(SOURCE[:end])
            for offset in (0, end // 2, end):
                outline.variables_at(offset), outline.priorities_at(offset), outline.before(offset), outline.index_at(offset)
        for text in ("proc", "main", "proc f", "proc f[", "order", "{}}}", "\x00"):
            Outline(text).variables_at(len(text))

    def test_positions(self):
        document = Document("a\r\nb\U0001f600c\rd\n")
        for offset, line, character in ((0, 0, 0), (3, 1, 0), (4, 1, 1), (5, 1, 3), (7, 2, 0), (8, 2, 1), (9, 3, 0)):
            position = {"line": line, "character": character}
            self.assertEqual(document.position(offset), position)
            self.assertEqual(document.offset(position), offset)
        self.assertEqual(document.offset({"line": 0, "character": 99}), 1)
        self.assertEqual(document.offset({"line": 99, "character": 99}), 9)


class Served(Case):
    def talk(self, *messages, program=None, raw=b""):
        """What the server says to these messages, and its exit status."""
        given = b""
        for number, (method, parameters) in enumerate(messages):
            message = {"jsonrpc": "2.0", "method": method, "params": parameters}
            if "/did" not in method and method not in ("exit", "initialized"):
                message["id"] = number
            body = json.dumps(message).encode()
            given += b"Content-Length: %d\r\n\r\n%s" % (len(body), body)
        status, out, told = self.lens("lsp", program=program or self.fake(check=(0, "ok\n")), given=given + raw)
        found = []
        while out:
            head, _, out = out.partition("\r\n\r\n")
            length = int(head.rpartition(" ")[2])
            found.append(json.loads(out[:length]))
            out = out[length:]
        return status, found, told

    def opened(self, text=SOURCE):
        return ("textDocument/didOpen", {"textDocument": {"uri": "file:///a%20b.priml", "languageId": "priml", "version": 1, "text": text}})

    def at(self, words, behind=0):
        return {"textDocument": {"uri": "file:///a%20b.priml"}, "position": Document(SOURCE).position(SOURCE.index(words) + behind)}

    def asked(self, method, *places):
        status, found, _ = self.talk(("initialize", {}), self.opened(), *[("textDocument/" + method, place) for place in places],
                                     ("shutdown", None), ("exit", None))
        self.assertEqual(status, 0)
        return [one["result"] for one in found if one.get("id", 0) >= 2][:-1]

    def test_faults(self):
        at = len(SOURCE[:SOURCE.index("sync h")].encode())
        status, found, _ = self.talk(("initialize", {}), self.opened(), program=self.fake(check=(4, "type: inversion at %d\n" % at)))
        self.assertEqual(status, 1)
        self.assertEqual(found[1]["method"], "textDocument/publishDiagnostics")
        one, = found[1]["params"]["diagnostics"]
        self.assertEqual(one["range"], {"start": {"line": 7, "character": 7}, "end": {"line": 7, "character": 11}})
        self.assertEqual((one["severity"], one["code"], one["source"]), (1, "inversion", "priml"))
        self.assertTrue(one["message"].startswith("inversion: A thread waits only"))

    def test_faults_of_inputs(self):
        for serial, lines in (((5, "inputs: bad line 1\n"), [15]), ((7, "limit: steps\n"), []), ((2, "words: unknown command\n"), []), ((0, "work 1\n"), [])):
            found = self.talk(self.opened(), program=self.fake(check=(0, "ok\n"), serial=serial))[1]
            self.assertEqual([one["range"]["start"]["line"] for one in found[0]["params"]["diagnostics"]], lines)

    def test_only_the_last_text_is_checked(self):
        change = ("textDocument/didChange", {"textDocument": {"uri": "file:///a%20b.priml"}, "contentChanges": [{"text": "x"}]})
        _, found, _ = self.talk(self.opened(), change, change, program=self.fake(check=(3, "source: unexpected at 1\n")))
        self.assertEqual([one["params"]["diagnostics"][0]["range"] for one in found],
                         [{"start": {"line": 0, "character": 1}, "end": {"line": 0, "character": 1}}])

    def test_closing_clears(self):
        _, found, _ = self.talk(self.opened(), ("textDocument/didClose", {"textDocument": {"uri": "file:///a%20b.priml"}}))
        self.assertEqual(found[-1]["params"], {"uri": "file:///a%20b.priml", "diagnostics": []})

    def test_symbols(self):
        found, = self.asked("documentSymbol", {"textDocument": {"uri": "file:///a%20b.priml"}})
        self.assertEqual([one["name"] for one in found], ["log", "bg", "ui", "wait", "main"])
        self.assertEqual(found[3]["range"], {"start": {"line": 6, "character": 0}, "end": {"line": 9, "character": 1}})

    def test_hover(self):
        bg, q, wait, word, none = self.asked("hover", self.at("spawn[bg]", 7), self.at("thread[q]", 7), self.at("wait["),
                                             self.at("sync"), self.at("# é", 1))
        self.assertEqual(bg["contents"]["value"], "priority `bg`\n\nbelow: `ui`\n\nabove: `log`")
        self.assertEqual(q["contents"]["value"], "priority `q`\n\nbelow: none\n\nabove: `p`")
        self.assertEqual(wait["contents"]["value"], "```priml\nproc wait[p, q; p <= q](h : thread[q](int), n : int) at p : int\n```")
        self.assertIsNone(word)
        self.assertIsNone(none)

    def test_completion(self):
        found = self.asked("completion", self.at("bg] { k"), self.at("h;\n  ret"), self.at("ret (x", 5))
        names = [[one["label"] for one in some] for some in found]
        self.assertEqual(names[:2], [["log", "bg", "ui"], ["n", "h"]])
        self.assertEqual(names[2][:7], ["x", "n", "h", "wait", "p", "q", "log"])
        self.assertIn("spawn", names[2])

    def test_definition(self):
        found, = self.asked("definition", self.at("main at ui", 9))
        self.assertEqual(found["range"]["start"], {"line": 2, "character": 9})

    def test_messages_that_are_none(self):
        _, found, _ = self.talk(("initialize", {}), ("none", {}), ("textDocument/hover", {}), ("textDocument/hover", {"textDocument": 1}))
        self.assertEqual([one.get("error", {}).get("code") for one in found], [None, -32601, -32602, -32602])
        self.assertEqual(self.talk(raw=b"Content-Length: 2\r\n\r\n{]")[1][0]["error"]["code"], -32700)
        self.assertEqual(self.talk(raw=b"Content-Length: 2\r\n\r\n[]")[1][0]["error"]["code"], -32600)
        self.assertEqual(self.talk(raw=b"hello\r\n\r\n")[2], "lens: the client's message has no length\n")
        self.assertEqual(self.talk(raw=b"Content-Length: 20\r\n\r\n{}")[0], 1)
        self.assertEqual(self.talk(("textDocument/didOpen", {}))[2], "lens: a notice without its parts: 'textDocument'\n")

    def test_the_program_is_asked_while_the_client_waits(self):
        self.need_program()
        body = json.dumps({"jsonrpc": "2.0", "method": self.opened()[0], "params": self.opened("priority p; main at p : int { ret true }")[1]}).encode()
        call = subprocess.Popen([LENS, "lsp", "--program", PROGRAM], stdin=subprocess.PIPE, stdout=subprocess.PIPE)
        began = time.time()
        call.stdin.write(b"Content-Length: %d\r\n\r\n%s" % (len(body), body))
        call.stdin.flush()
        head = call.stdout.readline()
        call.stdout.readline()
        told = json.loads(call.stdout.read(int(head.split()[1])))
        self.assertEqual(told["params"]["diagnostics"][0]["code"], "mismatch")
        self.assertLess(time.time() - began, 20)
        call.stdin.close()
        call.stdout.close()
        self.assertEqual(call.wait(), 1)
