"""What the text of a program shows without being right: declarations, the order of priorities, the names in scope at a place.

This answers no question of the language; the program does. It serves a text that is being typed."""
import re
from collections import namedtuple

RESERVED = """priority order proc main at ret spawn sync call do input output if else case inl inr fst snd not and or true
false unit bool int thread""".split()
FORM = re.compile(r"[ \t\r\n]+|#[^\n]*|(?P<word>[A-Za-z_][A-Za-z0-9_]*)|[0-9]+|<-|<=|==|.", re.DOTALL)

Token = namedtuple("Token", "text start")
Priority = namedtuple("Priority", "name start")
# `start` is that of the word `proc` or `main`, `at` that of the name, `end` is behind its block; `given` are pairs of names.
Routine = namedtuple("Routine", "name start at end head variables given parameters")
NO_ROUTINE = Routine("", 0, 0, 0, "", [], [], [])


def tokens_of(text):
    """The tokens of the program section, blanks and comments left out."""
    section = re.search(r"^===", text, re.MULTILINE)
    text = text[:section.start()] if section else text
    return [Token(found.group(), found.start()) for found in FORM.finditer(text)
            if not found.group()[0] in " \t\r\n#"]


def is_name(word):
    return re.fullmatch(r"[A-Za-z_][A-Za-z0-9_]*", word) is not None and word not in RESERVED


class Outline:
    """The declarations of a text."""

    def __init__(self, text):
        self.text, self.tokens = text, tokens_of(text)
        self.priorities, self.pairs, self.routines = [], [], []
        at = 0
        while at < len(self.tokens):
            at = self.declaration(at)

    def word(self, at):
        return self.tokens[at].text if 0 <= at < len(self.tokens) else ""

    def declaration(self, at):
        """Takes the declaration that begins here, if one does, and answers where to go on."""
        word, name = self.word(at), self.word(at + 1)
        if word == "priority" and is_name(name):
            self.priorities.append(Priority(name, self.tokens[at + 1].start))
            return at + 2
        if word == "order" and self.word(at + 2) == "<":
            self.pairs.append((name, self.word(at + 3)))
            return at + 4
        if word == "proc" and is_name(name) or word == "main":
            return self.routine(at)
        return at + 1

    def routine(self, at):
        name_at = at + 1 if self.word(at) == "proc" else at
        body = name_at + 1
        while body < len(self.tokens) and self.word(body) not in ("{", "proc", "main", "priority", "order"):
            body += 1
        variables, given, parameters = self.head(name_at + 1, body)
        behind = self.behind_block(body)
        last = self.tokens[behind - 1]
        start = self.tokens[at].start
        head_end = self.tokens[body - 1].start + len(self.tokens[body - 1].text)
        self.routines.append(Routine(self.word(name_at), start, self.tokens[name_at].start, last.start + len(last.text),
                                     " ".join(self.text[start:head_end].split()), variables, given, parameters))
        return max(behind, at + 1)

    def head(self, at, end):
        """Priority variables, constraints and parameters between a routine's name and its block."""
        variables, given, parameters = [], [], []
        if self.word(at) == "[":
            at += 1
            while at < end and self.word(at) != "]":
                if self.word(at + 1) == "<=":
                    given.append((self.word(at), self.word(at + 2)))
                    at += 2
                elif is_name(self.word(at)):
                    variables.append(self.word(at))
                at += 1
        while at < end:
            if is_name(self.word(at)) and self.word(at + 1) == ":" and self.word(at - 1) in ("(", ","):
                parameters.append(self.word(at))
            at += 1
        return variables, given, parameters

    def behind_block(self, at):
        """The first token behind the block that begins here, or behind the text."""
        depth = 0
        while at < len(self.tokens):
            depth += {"{": 1, "}": -1}.get(self.word(at), 0)
            if depth <= 0:
                return at + 1 if self.word(at) == "}" else at
            at += 1
        return at

    def routine_at(self, offset):
        """The routine whose text has this place."""
        inside = [one for one in self.routines if one.start <= offset]
        return inside[-1] if inside and (offset <= inside[-1].end or inside[-1] is self.routines[-1]) else None

    def priorities_at(self, offset):
        """The names of the priorities in scope: the variables of the routine, and the declared ones."""
        routine = self.routine_at(offset)
        names = (routine.variables if routine else []) + [one.name for one in self.priorities]
        return list(dict.fromkeys(names))

    def related(self, name, offset):
        """The priorities strictly below and strictly above a name, as pairs and constraints in scope say."""
        routine = self.routine_at(offset)
        pairs = self.pairs + (list(routine.given) if routine else [])
        return reached(name, [(high, low) for low, high in pairs]), reached(name, pairs)

    def variables_at(self, offset):
        """The variables in scope at a place, the latest first."""
        routine = self.routine_at(offset)
        if routine is None:
            return []
        blocks, waiting = [list(routine.parameters)], [None]
        for at, token in enumerate(self.tokens):
            if token.start < routine.start or token.text == "":
                continue
            if token.start >= offset:
                break
            if token.text == "{":
                branch = self.word(at - 1) if self.word(at - 2) in ("inl", "inr") and is_name(self.word(at - 1)) else None
                blocks.append([branch] if branch else [])
                waiting.append(None)
            elif token.text == "}" and len(blocks) > 1:
                blocks.pop()
                waiting.pop()
            elif token.text == "<-" and is_name(self.word(at - 1)):
                waiting[-1] = self.word(at - 1)
            elif token.text == ";" and waiting[-1]:
                blocks[-1].append(waiting[-1])
                waiting[-1] = None
        return list(dict.fromkeys(name for block in blocks[::-1] for name in block[::-1]))

    def index_at(self, offset):
        """The number of the word that has this place or ends at it, or None."""
        for at, token in enumerate(self.tokens):
            if token.start <= offset <= token.start + len(token.text) and re.match(r"\w", token.text):
                return at
        return None

    def is_priority(self, at):
        """Whether a priority stands here: behind its words, in an order pair, or in square brackets of other use than types."""
        if self.word(at - 1) in ("priority", "order", "at"):
            return True
        if self.word(at - 1) == "<" and self.word(at - 3) == "order":
            return True
        depth = 0
        for before in range(at - 1, -1, -1):
            depth += {"]": 1, ")": 1, "}": 1, "[": -1, "(": -1, "{": -1}.get(self.word(before), 0)
            if depth < 0:
                return self.word(before) == "[" and self.word(before - 1) not in ("inl", "inr")
        return False

    def before(self, offset):
        """The two tokens before the word that is being typed at a place, the nearer one first."""
        ended = [one for one in self.tokens if one.start + len(one.text) <= offset]
        if ended and ended[-1].start + len(ended[-1].text) == offset and re.match(r"\w", ended[-1].text):
            ended.pop()
        return [one.text for one in ended[:-3:-1]] + [""] * (2 - len(ended))


def reached(name, pairs):
    """All names to which pairs lead from a name, without itself, in the order in which they are met."""
    found, edge = [], [name]
    while edge:
        edge = [high for at in edge for low, high in pairs if low == at and high not in found and high != name]
        edge = list(dict.fromkeys(edge))
        found.extend(edge)
    return found
