"""The program as a process: what a test gives it, and what comes of it."""

import os
import subprocess
import tempfile
import unittest
from typing import NamedTuple

ROOT = os.path.dirname(os.path.dirname(os.path.realpath(__file__)))
BUILT = os.path.join(ROOT, "crates/crossbar5_program/out/crossbar5_program")
# A run that takes longer is one that hangs.
SECONDS = 120

# The row of the documents' first example, and what FORMATS says that a replay of it prints.
DIAL = b"J,0,1,D,3041\nS,0,96,,\n"
DIALLED = b"0,1,0,D,3041,-,DIALTONE,1,3041-0-417,-\nPATHS,1\nCLOSED,4\n"
CALL = b"C,7,3041,5551234,R\n"
CALLED = (b"0,21,0,D,3041,-,DIALTONE,1,3041-0-417,-\n1,22,1,C,3041,5551234,CONNECTED,1,3041-0-800,-\n"
          b"2,23,1,R,3041,-,RELEASED,-,3041-0-800,-\nPATHS,0\nCLOSED,0\n")
EXAMPLE_PLAN = """version = 1
groups = [
  "REG register 417 418 509",
  "INTRA intra 600-601 700-711",
  "OUTA outgoing 800",
  "OUTB outgoing 801 902",
]
numbers = ["0001 3041", "0002 3052", "0003 1000", "0004 3100"]
codes = ["234 INTRA", "555 OUTA OUTB"]
faults = []
"""


def program():
    """The program that is tested: the one that bin/build makes, or the one that the caller named."""
    return os.environ.get("CROSSBAR5_PROGRAM", BUILT)


class Ended(NamedTuple):
    """What came of a run."""

    status: int
    output: bytes
    errors: bytes


def run(*words, data=b"", name="crossbar5", **how):
    """Runs the program with these words and this input. A status below 0 is a signal's number."""
    how = {"stdout": subprocess.PIPE, "stderr": subprocess.PIPE, "timeout": SECONDS, **how}
    if "stdin" not in how:
        how["input"] = data
    ran = subprocess.run([name, *words], executable=how.pop("executable", program()), **how)
    return Ended(ran.returncode, ran.stdout, ran.stderr)


def start(*words, **how):
    """Starts the program with these words, and doesn't wait for its end."""
    return subprocess.Popen(["crossbar5", *words], executable=program(), **how)


def fault(line):
    """What standard error or output has of a fault line."""
    return f"FAULT,{line}\n".encode()


class ProgramTest(unittest.TestCase):
    """A test of the program, with a folder of its own in which the program is run."""

    maxDiff = 2000

    def setUp(self):
        folder = tempfile.TemporaryDirectory(prefix="crossbar5-test-")
        self.addCleanup(folder.cleanup)
        self.folder = folder.name

    def path(self, name):
        return os.path.join(self.folder, name)

    def write(self, name, text):
        """Writes a file of the folder, and gives its path."""
        with open(self.path(name), "wb") as it:
            it.write(text.encode() if isinstance(text, str) else text)
        return self.path(name)

    def run_here(self, *words, **how):
        return run(*words, cwd=self.folder, **how)

    def expect(self, words, status=0, output=b"", errors=b"", **how):
        """Runs the program, and compares the status and both outputs, byte for byte."""
        ended = self.run_here(*words, **how)
        self.assertEqual(ended, Ended(status, output, errors))
        return ended
