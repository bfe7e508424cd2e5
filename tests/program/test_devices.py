"""Devices that fail: a full one, closed streams, a reader that stops. docs/FORMATS.md: every failure of a read or write
of input or output ends the run with FAULT,DEVICE and status 6; one of standard error changes no status."""

import os
import resource
import signal
import subprocess

from process import CALL, CALLED, DIAL, DIALLED, ProgramTest, fault, program, start

TASKS = {"replay": DIAL, "walk": DIAL, "walk --json": DIAL, "look": DIAL, "look --json": DIAL, "look --svg": DIAL,
         "live": CALL, "audit": DIALLED, "draw": DIALLED, "draw --text": DIALLED, "page": DIALLED}
TOLD = ("--help", "help", "--version", "replay --help", "help page")
NO_OUTPUT = fault("DEVICE") + b"crossbar5: cannot write standard output\n"
NO_INPUT = fault("DEVICE") + b"crossbar5: cannot read standard input\n"
FULL = "/dev/full"
# Answers that are longer than a pipe holds, of rows that give many steps.
MANY_ROWS = b"".join(b"J,0,%d,R,3041\nS,0,128,,\n" % k for k in range(3000))


def closing(descriptor):
    """What closes a stream in the process before the program begins."""
    return lambda: os.close(descriptor)


def each(commands=TASKS):
    """Each command by its words, with an input."""
    for command in commands:
        yield command.split(" "), TASKS.get(command, b"")


class Devices(ProgramTest):
    def test_full_output(self):
        for words, data in each([*TASKS, *TOLD]):
            with self.subTest(words):
                with open(FULL, "wb") as full:
                    self.expect(words, 6, None, NO_OUTPUT, data=data, stdout=full)

    def test_full_output_of_a_fault_line(self):
        """The fault line can't be written, so the device decides."""
        with open(FULL, "wb") as full:
            ended = self.run_here("replay", data=b"J,0,1,D\n", stdout=full)
        self.assertEqual(ended.status, 6)
        self.assertTrue(ended.errors.startswith(fault("DEVICE")))

    def test_full_errors(self):
        """Standard error is lost, and nothing else."""
        for words, status, output, data in (
            (["replay"], 4, fault("T1,1"), b"J,0,1,D\n"),
            (["replay", "--markers", "Y"], 2, b"", DIAL),
            (["replay", "--plan", "none.toml"], 6, b"", DIAL),
            (["rplay"], 2, b"", DIAL),
            (["draw"], 4, b"", b"0\n"),
            (["replay"], 0, DIALLED, DIAL),
            ([b"\xff"], 2, b"", DIAL),
        ):
            with self.subTest(words), open(FULL, "wb") as full:
                self.expect(words, status, output, None, data=data, stderr=full)

    def test_both_full(self):
        with open(FULL, "wb") as full:
            self.expect(["replay"], 6, None, None, data=DIAL, stdout=full, stderr=full)

    def test_closed_output(self):
        """`>&-`"""
        for words, data in each([*TASKS, *TOLD]):
            with self.subTest(words):
                self.expect(words, 6, b"", NO_OUTPUT, data=data, preexec_fn=closing(1))

    def test_closed_output_with_a_plan(self):
        """The plan's file is opened as the stream that was closed, for reading alone: it isn't written to."""
        plan = 'version = 1\ngroups = ["REG register 999"]\nnumbers = []\ncodes = []\nfaults = []\n'
        self.write("town.toml", plan)
        self.expect(["replay", "--plan", "town.toml"], 6, b"", NO_OUTPUT, data=DIAL, preexec_fn=closing(1))
        with open(self.path("town.toml"), encoding="ascii") as it:
            self.assertEqual(it.read(), plan)

    def test_closed_input(self):
        """`<&-`"""
        for words, _ in each():
            with self.subTest(words):
                self.expect(words, 6, b"", NO_INPUT, preexec_fn=closing(0))

    def test_closed_input_that_nobody_reads(self):
        for words, _ in each(TOLD):
            with self.subTest(words):
                ended = self.run_here(*words, preexec_fn=closing(0))
                self.assertEqual((ended.status, ended.errors), (0, b""))
                self.assertTrue(ended.output)

    def test_closed_errors(self):
        """`2>&-`"""
        self.expect(["replay"], 4, fault("T1,1"), b"", data=b"J,0,1,D\n", preexec_fn=closing(2))
        self.expect(["live"], 0, CALLED, b"", data=CALL, preexec_fn=closing(2))
        self.expect(["replay", "--markers", "Y"], 2, b"", b"", data=DIAL, preexec_fn=closing(2))

    def test_input_that_is_a_folder(self):
        for words, _ in each():
            with self.subTest(words):
                folder = os.open(self.folder, os.O_RDONLY)
                try:
                    self.expect(words, 6, b"", NO_INPUT, stdin=folder)
                finally:
                    os.close(folder)

    def test_output_that_nobody_reads(self):
        """A pipe whose reader has gone is a device that fails: the status is 6, and no signal ends the program."""
        for words, data in each([*TASKS, *TOLD]):
            with self.subTest(words):
                reading, writing = os.pipe()
                os.close(reading)
                try:
                    self.expect(words, 6, None, NO_OUTPUT, data=data, stdout=writing)
                finally:
                    os.close(writing)

    def test_reader_that_stops(self):
        """`| head -1`: the answer is longer than a pipe holds, and its reader stops after the first line."""
        for command, first in (("replay", b"0,0,0,R,3041,-,NOCALL,-,-,-\n"),
                               ("walk", b"      marker 0  is given job 0: release of line 3041\n")):
            with self.subTest(command), open(self.write("rows.csv", MANY_ROWS), "rb") as rows:
                with start(command, stdin=rows, stdout=subprocess.PIPE, stderr=subprocess.PIPE) as running:
                    line = running.stdout.readline()
                    running.stdout.close()
                    errors = running.stderr.read()
                    self.assertEqual((line, running.wait(60), errors), (first, 6, NO_OUTPUT))

    def test_reader_of_the_shell(self):
        self.write("rows.csv", MANY_ROWS)
        words = ["bash", "-c", '"$0" walk <rows.csv | head -n 1; echo "${PIPESTATUS[0]}"', program()]
        ran = subprocess.run(words, cwd=self.folder, capture_output=True, timeout=60)
        self.assertEqual(ran.stdout.decode(), "      marker 0  is given job 0: release of line 3041\n6\n")
        self.assertEqual(ran.stderr, NO_OUTPUT)

    def test_errors_that_nobody_reads(self):
        reading, writing = os.pipe()
        os.close(reading)
        self.expect(["replay"], 4, fault("T1,1"), None, data=b"J,0,1,D\n", stderr=writing)
        os.close(writing)

    def test_file_that_may_not_grow(self):
        """A file at its largest size takes no byte more; the signal for that is left alone by whoever starts it."""
        def at_most_a_few_bytes():
            signal.signal(signal.SIGXFSZ, signal.SIG_IGN)
            resource.setrlimit(resource.RLIMIT_FSIZE, (10, 10))

        with open(self.path("records"), "wb") as records:
            self.expect(["replay"], 6, None, NO_OUTPUT, data=DIAL, stdout=records, preexec_fn=at_most_a_few_bytes)
        with open(self.path("records"), "rb") as records:
            self.assertEqual(records.read(), DIALLED[:10])
