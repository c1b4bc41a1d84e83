"""The proved program: where it is, and what it answers to words and an input."""
import os
import subprocess
from collections import namedtuple

from .texts import Text

Answer = namedtuple("Answer", "status text")
MOST_BYTES = 4194304
STATUSES = (0, 2, 3, 4, 5, 6, 7, 8, 9, 10)


class Trouble(Exception):
    """What keeps `lens` itself from its work: one line for the reader."""


class Refusal(Exception):
    """The program refused: its status and its line, the text that it was given, and the words."""

    def __init__(self, answer, text, words):
        super().__init__(answer.text)
        self.answer, self.text, self.words = answer, text, words


class Program:
    """A program to ask. `top` is the folder of the repository."""

    def __init__(self, path, top):
        self.path = path or os.environ.get("PRIML") or os.path.join(top, "priml")

    def answer(self, words, data):
        """The program's status and text for these words and this input."""
        try:
            done = subprocess.run([self.path] + list(words), input=data, stdout=subprocess.PIPE)
        except (OSError, ValueError) as fault:
            raise Trouble("cannot run the program %s: %s" % (self.path, reason(fault)))
        if done.returncode not in STATUSES:
            raise Trouble("the program %s ended with %s" % (self.path, ended(done.returncode)))
        return Answer(done.returncode, done.stdout.decode("utf-8", "replace"))

    def ask(self, words, text):
        """The program's output; raises what it refuses."""
        answer = self.answer(words, text.data)
        if answer.status != 0:
            raise Refusal(answer, text, words)
        return answer.text


def ended(code):
    return "signal %d" % -code if code < 0 else "status %d, which is none of its own" % code


def reason(fault):
    """The system's words for a fault, without the path that some versions of Python add."""
    number = getattr(fault, "errno", None)
    return os.strerror(number) if number else str(fault)


def read_file(name, standard_input):
    """The bytes of a file, `-` for standard input; of one that is too long as many as show the program that it is."""
    try:
        if name == "-" and standard_input is None:
            raise Trouble("cannot read -: standard input is closed")
        if name == "-":
            return Text("-", standard_input.read(MOST_BYTES + 1))
        with open(name, "rb") as file:
            return Text(name, file.read(MOST_BYTES + 1))
    except (OSError, ValueError) as fault:
        raise Trouble("cannot read %s: %s" % (name, reason(fault)))
