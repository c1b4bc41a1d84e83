"""A file as its reader sees it: places in lines and characters, sections, and one line of it to show."""
import re
import unicodedata
from collections import namedtuple

# `line` and `column` count from 1, `column` in characters; `offset` is that of a byte from 0.
Place = namedtuple("Place", "line column offset")
Section = namedtuple("Section", "line start end")  # the line of its `===`, and where its text begins and ends

TOKEN = re.compile(rb"[A-Za-z_][A-Za-z0-9_]*|[0-9]+|<-|<=|==|[\x80-\xff]+|[^ \t\r\n]")
TAB = 4
AROUND = 60  # characters of a long line that are shown on each side of a place
MOST_BYTES_OF_ONE = 4  # of a character in UTF-8


def plain(text):
    """The text with each character that could steer a terminal made visible as a question mark."""
    return "".join("?" if is_control(one) else one for one in text)


def is_control(one):
    return unicodedata.category(one) in ("Cc", "Cf", "Cs", "Zl", "Zp")


def cells(one):
    """How many cells of a terminal a character takes."""
    if unicodedata.combining(one):
        return 0
    return 2 if unicodedata.east_asian_width(one) in ("W", "F") else 1


class Text:
    """The bytes of a file and its name."""

    def __init__(self, name, data):
        self.name = name
        self.data = data

    def place(self, offset):
        """The place of a byte; past the end it is the end."""
        offset = max(0, min(offset, len(self.data)))
        before = self.data[self.data.rfind(b"\n", 0, offset) + 1:offset]
        return Place(self.data.count(b"\n", 0, offset) + 1, len(decoded(before)) + 1, offset)

    def line_bounds(self, offset):
        """Where the line of a byte begins and ends, without its line feed and a carriage return before it."""
        start = self.data.rfind(b"\n", 0, offset) + 1
        end = self.data.find(b"\n", offset)
        end = len(self.data) if end < 0 else end
        if end > max(start, offset) and self.data[end - 1:end] == b"\r":
            end -= 1
        return start, end

    def start_of_line(self, number):
        """The offset at which a line begins, lines counted from 1; past the last one the end."""
        low, high, before = 0, len(self.data), 0  # `before` line feeds stand before `low`
        while high - low > 4096:
            middle = (low + high) // 2
            more = self.data.count(b"\n", low, middle)
            if before + more >= number - 1:
                high = middle
            else:
                low, before = middle, before + more
        for _ in range(number - 1 - before):
            low = self.data.find(b"\n", low) + 1
            if low == 0:
                return len(self.data)
        return low

    def token_length(self, offset):
        """The bytes of the token at a place, at least 1."""
        start, end = self.line_bounds(offset)
        found = TOKEN.match(self.data, offset, min(end, offset + 400))
        return found.end() - found.start() if found else 1

    def excerpt(self, offset, length):
        """The line around a place for a terminal, how many cells stand before the place, and how many its token takes."""
        start, end = self.line_bounds(offset)
        low = max(start, offset - AROUND * MOST_BYTES_OF_ONE)
        high = min(end, offset + AROUND * MOST_BYTES_OF_ONE)
        stop = max(offset, min(offset + length, high))
        before, marked, behind = (decoded(self.data[a:b]) for a, b in ((low, offset), (offset, stop), (stop, high)))
        front = "..." if low > start or len(before) > AROUND else ""
        back = "..." if high < end or len(marked) + len(behind) > AROUND else ""
        shown_before, first = laid_out(before[-AROUND:], len(front))
        shown_marked, last = laid_out(marked[:AROUND], first)
        shown_behind, _ = laid_out(behind[:max(0, AROUND - len(marked))], last)
        return front + shown_before + shown_marked + shown_behind + back, first, max(1, last - first)

    def sections(self):
        """The sections of the input by name, the first of each."""
        found = {}
        heads = list(re.finditer(rb"^===([^\n]*)\n?", self.data, re.MULTILINE))
        for head, behind in zip(heads, heads[1:] + [None]):
            name = head.group(1).rstrip(b" \t\r").decode("utf-8", "replace")
            end = behind.start() if behind else len(self.data)
            line = self.data.count(b"\n", 0, head.start()) + 1
            found.setdefault(name, Section(line, head.end(), end))
        return found


def laid_out(text, column):
    """The text as it is shown from this column on, tabs as spaces, and the column behind it."""
    shown = []
    for one in text:
        if one == "\t":
            wide = TAB - column % TAB
            shown.append(" " * wide)
        elif is_control(one):
            wide = 1
            shown.append("?")
        else:
            wide = cells(one)
            shown.append(one)
        column += wide
    return "".join(shown), column


def decoded(some):
    return some.decode("utf-8", "replace")
