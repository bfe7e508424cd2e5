"""What the program says on a terminal: what it reads, before it waits for somebody to type; and the seconds of a long
run. docs/FORMATS.md, 'On a terminal'. Neither is ever on standard output or in a file.

A terminal turns each line end into CR LF, and shows what is typed."""

import re
import subprocess
import time

from process import CALL, CALLED, DIAL, DIALLED, ProgramTest, fault, start
from terminals import END_OF_INPUT, Terminal

# Each command with an input that may be typed, and what the hint has of it.
READS = {"replay": DIAL, "walk": DIAL, "walk --json": DIAL, "look": DIAL, "look --svg": DIAL, "live": CALL,
         "audit": DIALLED, "draw": DIALLED, "draw --text": DIALLED, "page": DIALLED}
SAMPLES = {DIAL: [b"J,0,1,D,3041", b"S,0,128,,"], CALL: [b"C,7,3041,5551234,R"], DIALLED: [b"records", b"replay"]}
HINT = re.compile(rb"crossbar5: standard input is a terminal: [^\r\n]*\r?\n")
SECONDS = re.compile(rb"(\rcrossbar5: working, [0-9]+ seconds)+\r\n")
PATIENCE = 60


class TerminalTest(ProgramTest):
    def terminal(self):
        try:
            made = Terminal()
        except OSError as error:
            self.skipTest(f"the system gives no pseudo-terminal: {error}")
        self.addCleanup(made.close)
        return made

    def started(self, command, **streams):
        running = start(*command.split(" "), cwd=self.folder, **streams)
        self.addCleanup(running.wait)
        self.addCleanup(running.kill)
        return running


class Hint(TerminalTest):
    def typed(self, command, text, stderr):
        """Types the text, and gives the status and what is on standard output."""
        keyboard = self.terminal()
        running = self.started(command, stdin=keyboard.end, stdout=subprocess.PIPE, stderr=stderr)
        keyboard.type(text + END_OF_INPUT)
        output, _ = running.communicate(timeout=PATIENCE)
        return running.returncode, output

    def test_on_standard_error(self):
        for command, text in READS.items():
            screen = self.terminal()
            with self.subTest(command):
                status, output = self.typed(command, text, screen.end)
                self.assertEqual(status, 0)
                hint = screen.rest()
                self.assertIsNotNone(HINT.fullmatch(hint), hint)
                self.assertIn(b"Ctrl-D", hint)
                for sample in SAMPLES[text]:
                    self.assertIn(sample, hint)
                self.assertNotIn(b"terminal", output)
                if command in ("replay", "live"):
                    self.assertEqual(output, {"replay": DIALLED, "live": CALLED}[command])

    def test_standard_error_is_a_file(self):
        """The hint is for whoever types, wherever standard error goes."""
        with open(self.path("errors"), "w+b") as errors:
            self.assertEqual(self.typed("replay", DIAL, errors), (0, DIALLED))
            errors.seek(0)
            self.assertIsNotNone(HINT.fullmatch(errors.read()))

    def test_all_on_one_terminal(self):
        """As a user has it: what is typed, the hint and the records are on one screen."""
        screen = self.terminal()
        running = self.started("replay", stdin=screen.end, stdout=screen.end, stderr=screen.end)
        self.assertTrue(screen.wait_for(b"Ctrl-D", PATIENCE), screen.shown)
        screen.type(DIAL + END_OF_INPUT)
        self.assertEqual(running.wait(PATIENCE), 0)
        shown = screen.rest().replace(b"\r\n", b"\n")
        self.assertTrue(shown.endswith(DIALLED), shown)
        self.assertEqual(shown.count(b"standard input is a terminal"), 1)

    def test_none_without_a_terminal(self):
        """Standard input is a pipe or a file: nothing is said, not even on a terminal."""
        for command, text in READS.items():
            screen = self.terminal()
            with self.subTest(command), open(self.write("input", text), "rb") as data:
                running = self.started(command, stdin=data, stdout=subprocess.PIPE, stderr=screen.end)
                running.communicate(timeout=PATIENCE)
                self.assertEqual((running.returncode, screen.rest()), (0, b""))

    def test_before_the_plan_is_checked(self):
        self.write("town.toml", "version = 3\n")
        screen = self.terminal()
        status, output = self.typed("replay --plan town.toml", b"", screen.end)
        self.assertEqual((status, output), (3, fault("P2")))
        hint, sentence, nothing = screen.rest().split(b"\r\n")
        self.assertIsNotNone(HINT.fullmatch(hint + b"\n"))
        self.assertEqual((sentence, nothing), (b"crossbar5: town.toml: version: expected 1 or 2, found 3 (P2)", b""))

    def test_none_where_nothing_is_read(self):
        """Help, the version, refused words and markers, a plan's file that isn't there."""
        for command in ("--help", "--version", "rplay", "replay --markers Y", "replay --plan none.toml", "live --dial 48"):
            screen, keyboard = self.terminal(), self.terminal()
            with self.subTest(command):
                running = self.started(command, stdin=keyboard.end, stdout=subprocess.PIPE, stderr=screen.end)
                output, _ = running.communicate(timeout=PATIENCE)
                self.assertNotIn(b"terminal", screen.rest() + output)


class Progress(TerminalTest):
    def begun(self, command, **streams):
        """A run that has begun and waits for its input, from a pipe."""
        return self.started(command, **{"stdin": subprocess.PIPE, "stdout": subprocess.PIPE, **streams})

    def test_shown(self):
        """Standard error alone is a terminal: from two seconds on the line is there, and it ends with the run."""
        runs = {}
        for command in READS:
            screen = self.terminal()
            runs[command] = screen, self.begun(command, stderr=screen.end)
        for command, (screen, running) in runs.items():
            if command != "live":
                with self.subTest(command):
                    self.assertTrue(screen.wait_for(b"working, 2 seconds", PATIENCE), screen.shown)
                    output, _ = running.communicate(READS[command], timeout=PATIENCE)
                    self.assertEqual(running.returncode, 0)
                    self.assertIsNotNone(SECONDS.fullmatch(screen.rest()), screen.shown)
                    self.assertNotIn(b"working", output)
        with self.subTest("live, which tells no time"):
            screen, running = runs["live"]
            self.assertEqual(running.communicate(CALL, timeout=PATIENCE)[0], CALLED)
            self.assertEqual(screen.rest(), b"")

    def test_counts_on(self):
        """The seconds are written one over the other."""
        screen = self.terminal()
        running = self.begun("replay", stderr=screen.end)
        self.assertTrue(screen.wait_for(b"working, 3 seconds", PATIENCE), screen.shown)
        running.communicate(b"", timeout=PATIENCE)
        told = [int(it) for it in re.findall(rb"\rcrossbar5: working, ([0-9]+) seconds", screen.rest())]
        self.assertEqual(told, list(range(2, 2 + len(told))))

    def test_before_a_sentence(self):
        """The line of seconds is ended before a sentence is written."""
        screen = self.terminal()
        running = self.begun("replay", stderr=screen.end)
        self.assertTrue(screen.wait_for(b"working, 2 seconds", PATIENCE), screen.shown)
        running.communicate(b"J,0,1,D\n", timeout=PATIENCE)
        sentence = b"crossbar5: traffic line 1 (row 1): expected 5 fields, found 4 (T1)\r\n"
        self.assertTrue(screen.rest().endswith(b" seconds\r\n" + sentence), screen.shown)

    def test_not_of_a_short_run(self):
        screen, begun = self.terminal(), time.monotonic()
        running = self.begun("replay", stderr=screen.end)
        self.assertEqual(running.communicate(DIAL, timeout=PATIENCE)[0], DIALLED)
        if time.monotonic() - begun > 2:
            self.skipTest("the machine is so busy that the run took more than two seconds")
        self.assertEqual(screen.rest(), b"")

    def wait_as_long_as_one_that_tells(self):
        """Waits until a run that began after all others tells three seconds: so they had the time to tell two."""
        screen = self.terminal()
        running = self.begun("replay", stderr=screen.end)
        self.assertTrue(screen.wait_for(b"working, 3 seconds", PATIENCE), screen.shown)
        running.communicate(timeout=PATIENCE)

    def test_not_shown(self):
        """Standard output is a terminal, where the line would stand before the records; standard error is a file or a
        pipe, as in a script; or somebody types."""
        screens = [self.terminal() for _ in range(3)]
        with open(self.path("log"), "w+b") as log:
            runs = {
                "standard output too is a terminal": self.begun("replay", stdout=screens[0].end, stderr=screens[0].end),
                "standard error is a file": self.begun("replay", stderr=log),
                "standard error is a pipe": self.begun("replay", stderr=subprocess.PIPE),
                "standard output alone is a terminal": self.begun("replay", stdout=screens[1].end, stderr=subprocess.PIPE),
                "somebody types": self.begun("replay", stdin=screens[2].end, stderr=screens[2].end),
            }
            self.wait_as_long_as_one_that_tells()
            screens[2].type(END_OF_INPUT)
            piped = [running.communicate(timeout=PATIENCE)[1] or b"" for running in runs.values()]
            log.seek(0)
            seen = (screens[0].rest(), log.read(), b"", screens[1].rest(), screens[2].rest())
            said = {name: text + more for name, text, more in zip(runs, seen, piped)}
        for name, text in said.items():
            with self.subTest(name):
                self.assertEqual(runs[name].returncode, 0)
                self.assertNotIn(b"working", text)
