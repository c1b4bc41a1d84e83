"""What the tests share: a call of lens, a program that answers a fixed text, and the built program where there is one."""
import os
import shlex
import subprocess
import sys
import tempfile
import unittest

TOP = os.path.dirname(os.path.dirname(os.path.dirname(os.path.abspath(__file__))))
LENS = os.path.join(TOP, "lens")
BUILT = os.path.join(TOP, "crates", "priml", "out", "priml")
PROGRAM = os.environ.get("PRIML") or (BUILT if os.access(BUILT, os.X_OK) else None)


class Case(unittest.TestCase):
    maxDiff = None

    def setUp(self):
        self.folder = tempfile.TemporaryDirectory()
        self.addCleanup(self.folder.cleanup)

    def path(self, name):
        return os.path.join(self.folder.name, name)

    def file(self, name, content):
        """Writes a file and answers its path."""
        with open(self.path(name), "wb") as file:
            file.write(content if isinstance(content, bytes) else content.encode())
        return self.path(name)

    def fake(self, **answers):
        """A program that answers each command with a status and a text, whatever its input."""
        lines = ["#!/bin/sh", "cat > /dev/null", 'case "$1" in']
        for command, (status, text) in answers.items():
            lines.append("%s) printf %%s %s; exit %d ;;" % (command, shlex.quote(text), status))
        path = self.file("program", "\n".join(lines + ["*) echo 'words: unknown command'; exit 2 ;;", "esac", ""]))
        os.chmod(path, 0o755)
        return path

    def lens(self, *words, program=None, given=b"", **settings):
        """The status, standard output and standard error of a call of lens in the folder of the test."""
        env = {name: value for name, value in os.environ.items() if name not in ("NO_COLOR", "PRIML")}
        if program or PROGRAM:
            env["PRIML"] = program or PROGRAM
        env.update(settings)
        done = subprocess.run([sys.executable, LENS] + list(words), input=given, stdout=subprocess.PIPE, stderr=subprocess.PIPE,
                              cwd=self.folder.name, env=env, timeout=50)
        return done.returncode, done.stdout.decode(), done.stderr.decode()

    def asked(self, *words, given):
        """The output of the program itself."""
        return subprocess.run([PROGRAM] + list(words), input=given, stdout=subprocess.PIPE).stdout.decode()

    def need_program(self):
        """Skips a test where the program is not there."""
        if PROGRAM is None:
            self.skipTest("no built program (set PRIML to name one)")
