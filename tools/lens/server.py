"""A language server on standard streams: the faults that the program tells, and what the text shows by itself."""
import json
import os
import re
import select
import sys
from urllib.parse import unquote, urlsplit

from . import findings
from .program import Trouble
from .scopes import NO_ROUTINE, RESERVED, Outline
from .texts import Text

LINE_END = re.compile(r"\r\n|\n|\r")
PARSE, REQUEST, METHOD, PARAMETERS = -32700, -32600, -32601, -32602
CONSTANT, FUNCTION = 14, 12  # kinds of symbols
VARIABLE_ITEM, FUNCTION_ITEM, WORD_ITEM, CONSTANT_ITEM = 6, 3, 14, 21  # kinds of completions
MOST_MESSAGE = 64 * 1024 * 1024


class Document:
    """A text and its lines; positions count UTF-16 units, as the protocol has it."""

    def __init__(self, text):
        self.text = text
        self.data = text.encode("utf-8", "surrogatepass")
        self.starts = [0] + [found.end() for found in LINE_END.finditer(text)]
        self.made = None

    @property
    def outline(self):
        """The outline of the text, made when it is asked for."""
        if self.made is None:
            self.made = Outline(self.text)
        return self.made

    def offset(self, position):
        line = min(max(0, position["line"]), len(self.starts) - 1)
        start = self.starts[line]
        end = self.starts[line + 1] if line + 1 < len(self.starts) else len(self.text)
        units = position["character"]
        for at in range(start, end):
            if units <= 0 or self.text[at] in "\r\n":
                return at
            units -= 2 if self.text[at] > "\uffff" else 1
        return end

    def position(self, offset):
        low, high = 0, len(self.starts)
        while high - low > 1:
            middle = (low + high) // 2
            low, high = (middle, high) if self.starts[middle] <= offset else (low, middle)
        return {"line": low, "character": len(self.text[self.starts[low]:offset].encode("utf-16-le", "surrogatepass")) // 2}

    def span(self, start, end):
        return {"start": self.position(start), "end": self.position(end)}

    def span_of_bytes(self, start, length):
        """The span of a token by its place in bytes; at least one unit where the text has one."""
        begin = len(self.data[:start].decode("utf-8", "replace"))
        end = len(self.data[:start + length].decode("utf-8", "replace"))
        return self.span(begin, min(max(end, begin + 1), len(self.text)))


class Server:
    """Answers the messages of one client."""

    def __init__(self, program, write):
        self.program, self.write = program, write
        self.documents, self.changed = {}, {}
        self.stopped = False
        self.methods = {"initialize": self.initialize, "shutdown": self.shutdown,
                        "textDocument/documentSymbol": self.symbols, "textDocument/hover": self.hover,
                        "textDocument/definition": self.definition, "textDocument/completion": self.completion}

    def message(self, message):
        """Answers one message, if it wants an answer."""
        if not isinstance(message, dict):
            return self.write({"jsonrpc": "2.0", "id": None, "error": {"code": REQUEST, "message": "no message"}})
        method, number, given = message.get("method"), message.get("id"), message.get("params") or {}
        if method is None:
            return None
        if "id" not in message:
            return self.notice(method, given)
        answer = {"jsonrpc": "2.0", "id": number}
        if self.stopped:
            answer["error"] = {"code": REQUEST, "message": "the server was shut down"}
        elif method not in self.methods:
            answer["error"] = {"code": METHOD, "message": "unknown method %s" % method}
        else:
            try:
                answer["result"] = self.methods[method](given)
            except (KeyError, TypeError, ValueError, AttributeError) as fault:
                answer["error"] = {"code": PARAMETERS, "message": "wrong parameters: %s" % fault}
        return self.write(answer)

    def notice(self, method, given):
        try:
            if method == "textDocument/didOpen":
                self.take(given["textDocument"]["uri"], given["textDocument"]["text"])
            elif method == "textDocument/didChange" and given["contentChanges"]:
                self.take(given["textDocument"]["uri"], given["contentChanges"][-1]["text"])
            elif method == "textDocument/didClose":
                name = given["textDocument"]["uri"]
                self.documents.pop(name, None)
                self.changed.pop(name, None)
                self.publish(name, [])
        except (KeyError, TypeError, AttributeError) as fault:
            log("a notice without its parts: %s" % fault)

    def take(self, name, text):
        self.documents[name] = Document(text)
        self.changed[name] = True

    def check_changed(self):
        """Asks the program about each text that has changed."""
        while self.changed:
            name, _ = self.changed.popitem()
            document = self.documents[name]
            text = Text(path_of(name), document.data)
            try:
                answer = self.fault_of(text)
            except Trouble as trouble:
                log(str(trouble))
                self.publish(name, [])
                continue
            self.publish(name, [] if answer is None else [diagnostic(document, findings.explain(answer, text))])

    def fault_of(self, text):
        """The program's refusal of a text, or None. Inputs are looked at by a run of one step, whose end plays no part."""
        answer = self.program.answer(["check"], text.data)
        if answer.status == 0 and "inputs" in text.sections():
            answer = self.program.answer(["serial", "1"], text.data)
            return answer if answer.status == 5 else None
        return answer if answer.status else None

    def publish(self, name, faults):
        self.write({"jsonrpc": "2.0", "method": "textDocument/publishDiagnostics", "params": {"uri": name, "diagnostics": faults}})

    def initialize(self, _):
        return {"capabilities": {"textDocumentSync": {"openClose": True, "change": 1}, "documentSymbolProvider": True,
                                 "hoverProvider": True, "definitionProvider": True,
                                 "completionProvider": {"triggerCharacters": ["["]}},
                "serverInfo": {"name": "lens"}}

    def shutdown(self, _):
        self.stopped = True

    def opened(self, given):
        document = self.documents[given["textDocument"]["uri"]]
        return document, document.outline, document.offset(given["position"]) if "position" in given else 0

    def symbols(self, given):
        document, outline, _ = self.opened(given)
        found = []
        for one in outline.priorities:
            span = document.span(one.start, one.start + len(one.name))
            found.append({"name": one.name, "kind": CONSTANT, "detail": "priority", "range": span, "selectionRange": span})
        for one in outline.routines:
            found.append({"name": one.name, "kind": FUNCTION, "detail": one.head, "range": document.span(one.start, one.end),
                          "selectionRange": document.span(one.at, one.at + len(one.name))})
        return found

    def hover(self, given):
        document, outline, offset = self.opened(given)
        at = outline.index_at(offset)
        if at is None:
            return None
        token = outline.tokens[at]
        routine = next((one for one in outline.routines if one.name == token.text), None)
        if routine and (outline.word(at - 1) == "call" or routine.at == token.start):
            words = "```priml\n%s\n```" % routine.head
        elif outline.is_priority(at) and token.text in outline.priorities_at(offset):
            words = self.told_of(outline, token.text, offset)
        else:
            return None
        return {"contents": {"kind": "markdown", "value": words},
                "range": document.span(token.start, token.start + len(token.text))}

    def told_of(self, outline, name, offset):
        below, above = outline.related(name, offset)
        lines = ["priority `%s`" % name]
        for word, names in (("below", above), ("above", below)):
            lines.append("%s: %s" % (word, ", ".join("`%s`" % one for one in names) or "none"))
        return "\n\n".join(lines)

    def definition(self, given):
        document, outline, offset = self.opened(given)
        at = outline.index_at(offset)
        if at is None:
            return None
        name = outline.word(at)
        places = [one.at for one in outline.routines if outline.word(at - 1) in ("call", "proc") and one.name == name]
        if outline.is_priority(at) and name not in (outline.routine_at(offset) or NO_ROUTINE).variables:
            places += [one.start for one in outline.priorities if one.name == name]
        if not places:
            return None
        return {"uri": given["textDocument"]["uri"], "range": document.span(places[0], places[0] + len(name))}

    def completion(self, given):
        _, outline, offset = self.opened(given)
        last, _ = outline.before(offset)
        priorities = [item(one, CONSTANT_ITEM, "priority") for one in outline.priorities_at(offset)]
        routines = [item(one.name, FUNCTION_ITEM, one.head) for one in outline.routines if one.name != "main"]
        variables = [item(one, VARIABLE_ITEM, "variable") for one in outline.variables_at(offset)]
        if last in ("at", "order", "<=", "["):
            return priorities
        if last == "call":
            return routines
        if last == "sync":
            return variables
        return variables + routines + priorities + [item(one, WORD_ITEM, "word") for one in RESERVED]


def item(name, kind, detail):
    return {"label": name, "kind": kind, "detail": detail}


def diagnostic(document, finding):
    place = finding.place
    span = document.span_of_bytes(place.offset, finding.length) if place else document.span(0, 0)
    words = ("%s: %s %s" % (finding.title, finding.asks, finding.mends)).rstrip(": ")
    return {"range": span, "severity": 1, "source": "priml", "code": finding.title, "message": words}


def path_of(name):
    return unquote(urlsplit(name).path) or name


def log(words):
    sys.stderr.write("lens: %s\n" % words)
    sys.stderr.flush()


class Stream:
    """Messages with their lengths before them, from a file descriptor."""

    def __init__(self, source):
        self.source, self.waiting = source, bytearray()

    def ready(self):
        """Whether a message, or a part of one, can be read without waiting."""
        return bool(self.waiting) or bool(select.select([self.source], [], [], 0)[0])

    def more(self):
        some = os.read(self.source, 65536)
        self.waiting += some
        return bool(some)

    def body(self):
        """The next message as bytes; None at the end of the stream."""
        while b"\r\n\r\n" not in self.waiting:
            if len(self.waiting) > 4096:
                raise Trouble("the client's message has no length")
            if not self.more():
                return None
        head, _, _ = bytes(self.waiting).partition(b"\r\n\r\n")
        found = re.search(rb"(?im)^content-length:[ \t]*([0-9]{1,9})\r?$", head)
        if not found or int(found.group(1)) > MOST_MESSAGE:
            raise Trouble("the client's message has no length")
        start, length = len(head) + 4, int(found.group(1))
        while len(self.waiting) < start + length:
            if not self.more():
                return None
        body = bytes(self.waiting[start:start + length])
        del self.waiting[:start + length]
        return body


def serve(program, source, sink):
    """Serves until the client ends; answers the exit status."""
    def write(message):
        body = json.dumps(message).encode()
        sink.write(b"Content-Length: %d\r\n\r\n%s" % (len(body), body))
        sink.flush()

    server, stream = Server(program, write), Stream(source)
    while True:
        if server.changed and not stream.ready():
            server.check_changed()
        body = stream.body()
        if body is None:
            server.check_changed()
            return 0 if server.stopped else 1
        try:
            message = json.loads(body)
        except ValueError:
            write({"jsonrpc": "2.0", "id": None, "error": {"code": PARSE, "message": "no JSON"}})
            continue
        if isinstance(message, dict) and message.get("method") == "exit":
            return 0 if server.stopped else 1
        server.message(message)
