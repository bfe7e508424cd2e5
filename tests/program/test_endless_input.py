"""What needs no input returns at once, and reads none: help, the version, refused words, refused markers, a plan's file
that can't be read. The input here has bytes and never ends; afterwards all of them are still there."""

import array
import contextlib
import fcntl
import os
import subprocess
import termios

from process import DIAL, ProgramTest, start

# Words, and the status with which they end.
NEED_NO_INPUT = [
    ("--help", 0), ("-h", 0), ("help", 0), ("--version", 0), ("-V", 0),
    *((f"{command} --help", 0) for command in ("replay", "walk", "look", "live", "audit", "draw", "page")),
    *((f"help {command}", 0) for command in ("replay", "walk", "look", "live", "audit", "draw", "page")),
    ("rplay", 2), ("replay stray", 2), ("--plan town.toml", 2), ("walk --short --json", 2), ("look --json --svg", 2),
    ("audit --markers X", 2), ("live --dial 48", 2), ("replay --plan", 2), ("draw --txt", 2),
    ("replay --markers XY", 2), ("walk --markers=", 2), ("look --markers " + "X" * 49, 2),
    ("live --dial 24 --completing 25", 2), ("replay --markers Y --plan none.toml", 2),
    *((f"{command} --plan none.toml", 6) for command in ("replay", "walk", "look", "live", "audit", "draw", "page")),
    ("page --plan .", 6),
]


def bytes_in(descriptor):
    """How many bytes a pipe has."""
    count = array.array("i", [0])
    fcntl.ioctl(descriptor, termios.FIONREAD, count)
    return count[0]


@contextlib.contextmanager
def endless():
    """A pipe that has rows, and whose other end stays open."""
    reading, writing = os.pipe()
    try:
        os.write(writing, DIAL)
        yield reading
    finally:
        os.close(reading)
        os.close(writing)


class EndlessInput(ProgramTest):
    def ended(self, words, stdin):
        """The status of a run, and how many bytes of its input are left."""
        with start(*words, cwd=self.folder, stdin=stdin, stdout=subprocess.PIPE, stderr=subprocess.PIPE) as running:
            try:
                running.communicate(timeout=20)
            except subprocess.TimeoutExpired:
                running.kill()
                self.fail("it waits for the end of the input")
            return running.returncode, bytes_in(stdin)

    def test_needs_no_input(self):
        for words, status in NEED_NO_INPUT:
            with self.subTest(words), endless() as stdin:
                self.assertEqual(self.ended(words.split(" "), stdin), (status, len(DIAL)))

    def test_words_that_are_not_text(self):
        with endless() as stdin:
            self.assertEqual(self.ended([b"replay", b"\xff"], stdin), (2, len(DIAL)))

    def test_input_is_awaited(self):
        """A replay on the same input waits for its end: so the others above didn't."""
        with endless() as stdin, start(stdin=stdin, stdout=subprocess.PIPE, stderr=subprocess.PIPE) as running:
            with self.assertRaises(subprocess.TimeoutExpired):
                running.communicate(timeout=0.5)
            running.kill()
