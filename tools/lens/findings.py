"""What a refusal means at its place in a file, as text for a person and as data for a tool."""
import re
from collections import namedtuple

from .refusals import MANY, kind_of
from .texts import plain

# `place` is None where the refusal has none; `length` are the bytes of the token there.
Finding = namedtuple("Finding", "file status line kind title asks mends place length")


def explain(answer, text):
    """The finding of a refusal: the program's status and line, and the text that it looked at."""
    line = answer.text.rstrip("\n")
    known = kind_of(line)
    if known is None:
        return Finding(text.name, answer.status, line, "unknown", plain(line), "", "", None, 0)
    kind, named = known
    asks, mends = MANY[named["what"]] if "what" in named else (kind.asks, kind.mends)
    offset = place_of(kind, named, text)
    title, asks, mends = (filled(words, named) for words in (kind.title, asks, mends))
    if offset is None:
        return Finding(text.name, answer.status, line, kind.family, title, asks, mends, None, 0)
    place = text.place(offset)
    return Finding(text.name, answer.status, line, kind.family, title, asks, mends, place, text.token_length(place.offset))


def filled(words, named):
    """The words with what the refusal names in place of `{name}`."""
    return re.sub(r"\{(\w+)\}", lambda found: named[found.group(1)], words)


def place_of(kind, named, text):
    """The offset that a refusal speaks of, or None."""
    if kind.where == "offset":
        return int(named["at"])
    if kind.where == "line":
        return text.start_of_line(int(named["line"]))
    if kind.where in ("inputs", "schedule"):
        return in_section(text, kind.where, int(named["line"]))
    if kind.where == "step":
        return in_step(text, int(named["step"]), named.get("v"))
    return None


def in_section(text, name, number):
    """The offset of a line of a section, lines counted in it from 1; past its end the end of the section."""
    section = text.sections().get(name)
    if section is None:
        return len(text.data)
    return min(text.start_of_line(section.line + number), section.end)


def in_step(text, number, vertex):
    """The offset of a vertex in a step of the schedule, the last one of the line, or of the step where it is not in it."""
    start = in_section(text, "schedule", number)
    if vertex is None or start == len(text.data):
        return start
    line = text.data[slice(*text.line_bounds(start))]
    found = list(re.finditer(rb"(?<![0-9.:])%s(?![0-9])" % re.escape(vertex.encode()), line))
    return start + found[-1].start() if found else start


class Ink:
    """Colour on a terminal, or none."""

    def __init__(self, on):
        self.on = on

    def paint(self, code, words):
        return "\033[%sm%s\033[0m" % (code, words) if self.on else words


def as_text(finding, text, ink):
    """The finding as lines for a person."""
    place = finding.place
    head = plain(finding.file)
    if place:
        head += ":%d:%d" % (place.line, place.column)
    lines = ["%s: %s %s" % (ink.paint("1", head), ink.paint("1;31", "error:"), ink.paint("1", finding.title))]
    if place:
        number = str(place.line)
        shown, before, marked = text.excerpt(place.offset, finding.length)
        if not shown and place.offset >= len(text.data):
            shown = "(the file ends here)"
        mark = " " * before + "^" + "~" * (marked - 1)
        lines.append("%s %s" % (ink.paint("34", number + " |"), shown))
        lines.append("%s %s" % (ink.paint("34", " " * len(number) + " |"), ink.paint("1;32", mark)))
    if finding.asks:
        lines.append("%s %s" % (finding.asks, finding.mends))
    return "\n".join(lines) + "\n"


def as_data(finding):
    """The finding for a tool."""
    place = finding.place
    return {"file": finding.file, "status": finding.status, "answer": finding.line, "kind": finding.kind,
            "title": finding.title, "line": place and place.line, "column": place and place.column,
            "offset": place and place.offset, "length": finding.length, "asks": finding.asks, "mends": finding.mends}
