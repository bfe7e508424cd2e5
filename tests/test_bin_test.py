#!/usr/bin/env python3
"""Tests bin/test itself, on tables of small fake scripts: test_bin_test.py"""

import importlib.machinery
import importlib.util
import os
import re
import signal
import stat
import subprocess
import sys
import tempfile
import time
import unittest

HERE = os.path.dirname(os.path.realpath(__file__))
ROOT = os.path.dirname(HERE)
sys.path.insert(0, HERE)
import report  # noqa: E402
from table import Count, Run, Step, by_cases, by_status, by_unittest, picked, run_table  # noqa: E402


def shell(name, text, **how):
    """A step that is a small script of the shell."""
    return Step(name, ["sh", "-c", text], **how)


def await_file(name):
    """A line of the shell that waits for a file, and fails the step after a minute without it."""
    return f"k=0; until test -e {name}; do k=$((k + 1)); test $k -lt 3000 || exit 1; sleep 0.02; done"


GOOD = shell("good", "echo something; echo '3 passed, 0 failed'")


class OnTables(unittest.TestCase):
    """Runs tables in a folder of their own."""

    def setUp(self):
        folder = tempfile.TemporaryDirectory()
        self.addCleanup(folder.cleanup)
        self.folder = folder.name
        self.said = []

    def run_steps(self, *table, program="/the/program", at_once=1):
        """The status and the last line of a run; all lines are in `said`."""
        run = Run(self.folder, self.folder, program, lambda *text, sep=" ": self.said.extend(sep.join(text).split("\n")))
        return run_table(table, run, at_once), self.said[-1]


class Tables(OnTables):
    def test_passing(self):
        self.assertEqual(self.run_steps(GOOD, shell("other", "echo '4 passed, 0 failed'")), (0, "7 passed, 0 failed"))

    def test_no_steps(self):
        self.assertEqual(self.run_steps(), (0, "0 passed, 0 failed"))

    def test_failing(self):
        failing = shell("failing", "echo what is wrong; echo '2 passed, 1 failed'; exit 1")
        self.assertEqual(self.run_steps(GOOD, failing), (1, "5 passed, 1 failed"))
        self.assertIn("    what is wrong", self.said)

    def test_failing_with_status_0(self):
        self.assertEqual(self.run_steps(shell("sly", "echo '2 passed, 1 failed'")), (1, "2 passed, 1 failed"))

    def test_status_against_the_line(self):
        self.assertEqual(self.run_steps(shell("torn", "echo '2 passed, 0 failed'; exit 3")), (1, "2 passed, 1 failed"))
        self.assertTrue(any("ended with status 3" in line for line in self.said))

    def test_skipped(self):
        lacking = shell("lacking", "echo '9 passed, 0 failed'", needs=["no-such-command"])
        self.assertEqual(self.run_steps(GOOD, lacking), (0, "3 passed, 0 failed, 1 skipped"))
        self.assertEqual([line for line in self.said if "lacking" in line],
                         ["lacking: skipped: there is no no-such-command: it is needed"])

    def test_skipped_module(self):
        lacking = shell("lacking", "echo '9 passed, 0 failed'", needs=["python:no_such_module"])
        self.assertEqual(self.run_steps(lacking)[1], "0 passed, 0 failed, 1 skipped")

    def test_skipped_in_part(self):
        partly = shell("partly", "echo '1 passed, 0 failed'", wants={"no-such-command": "its second half"})
        self.assertEqual(self.run_steps(partly), (0, "1 passed, 0 failed, 1 skipped"))
        self.assertIn("    skipped its second half: there is no no-such-command: it is needed", self.said)

    def test_skipped_by_the_script(self):
        script = shell("script", "echo 'skipped one: no terminal here'; echo '1 passed, 0 failed, 1 skipped'")
        self.assertEqual(self.run_steps(script), (0, "1 passed, 0 failed, 1 skipped"))
        self.assertIn("    skipped one: no terminal here", self.said)

    def test_dead_by_a_signal(self):
        dead = shell("dead", "echo '2 passed, 0 failed'; kill -SEGV $$")
        self.assertEqual(self.run_steps(dead, GOOD), (1, "5 passed, 1 failed"))
        self.assertTrue(any("SIGSEGV" in line for line in self.said))

    def test_no_closing_line(self):
        for text in ("true", "echo 'all is well'", "echo '2 passed, 0 failed'; echo more", "echo '2 passed, 0 failed.'"):
            with self.subTest(text):
                self.assertEqual(self.run_steps(shell("mute", text)), (1, "0 passed, 1 failed"))

    def test_too_slow(self):
        self.assertEqual(self.run_steps(shell("slow", "sleep 60", minutes=0.005)), (1, "0 passed, 1 failed"))

    def test_not_there(self):
        self.assertEqual(self.run_steps(Step("absent", ["./absent"])), (1, "0 passed, 1 failed"))

    def test_program(self):
        """The script gets the program's path as a word."""
        named = Step("named", ["sh", "-c", 'test "$0" = /the/program && echo "1 passed, 0 failed"', "{program}"])
        self.assertEqual(self.run_steps(named), (0, "1 passed, 0 failed"))

    def test_output(self):
        """A script can read what an earlier step printed."""
        first = shell("the first", "echo '2 passed, 0 failed'")
        second = Step("second", ["cat", "{output of the first}"], after=["the first"])
        self.assertEqual(self.run_steps(first, second), (0, "4 passed, 0 failed"))

    def test_builds(self):
        built = shell("built", "true", reads=by_status)
        failed = shell("failed", "echo '5 passed, 0 failed'; exit 1", reads=by_status)
        table = built, failed, shell("on built", "echo '1 passed, 0 failed'", after=["built"]), \
            shell("on both", "echo '1 passed, 0 failed'", after=["built", "failed"])
        self.assertEqual(self.run_steps(*table), (1, "2 passed, 2 failed"))
        self.assertIn("on both: FAILED: it was not run, since failed failed", self.said)

    def test_on_a_skipped_build(self):
        table = shell("build", "true", needs=["no-such-command"], reads=by_status), shell("on it", "true", after=["build"])
        self.assertEqual(self.run_steps(*table), (0, "0 passed, 0 failed, 2 skipped"))
        self.assertIn("on it: skipped: it needs build, which was skipped", self.said)

    def test_what_is_required(self):
        path = os.environ["PATH"]
        self.addCleanup(os.environ.__setitem__, "PATH", path)
        os.environ["PATH"] = self.folder
        self.assertEqual(self.run_steps(shell("gate", "true", needs=["rt"])), (1, "0 passed, 1 failed"))

    def test_logs(self):
        self.run_steps(GOOD)
        with open(os.path.join(self.folder, "good.log"), encoding="utf-8") as it:
            self.assertEqual(it.read(), "something\n3 passed, 0 failed\n")


class AtOnce(OnTables):
    """Several steps at once. A step that marks itself leaves a file while it runs and says who else does."""

    def marked(self, name, meets=None, **how):
        """A step that is marked for a while or, if it is to meet another one, until that one has begun."""
        wait = await_file(f"{meets}.begun") if meets else "sleep 0.2"
        text = f"touch {name}.now {name}.begun; {wait}; ls *.now; rm {name}.now; echo '1 passed, 0 failed'"
        return shell(name, text, **how)

    def beside(self, name):
        """Who ran while this step did, itself included."""
        with open(os.path.join(self.folder, name + ".log"), encoding="utf-8") as it:
            return {line.removesuffix(".now\n") for line in it if line.endswith(".now\n")}

    def test_side_by_side(self):
        """The first step ends once the second has begun, the second once the third has."""
        table = self.marked("a", meets="b"), self.marked("b", meets="c"), self.marked("c")
        self.assertEqual(self.run_steps(*table, at_once=2), (0, "3 passed, 0 failed"))
        for name in "abc":
            self.assertLessEqual(len(self.beside(name)), 2)

    def test_one_at_once(self):
        self.run_steps(*map(self.marked, "abc"), at_once=1)
        self.assertEqual([self.beside(name) for name in "abc"], [{"a"}, {"b"}, {"c"}])

    def test_alone(self):
        for place in range(3):
            with self.subTest(place):
                table = [self.marked(name, alone=(name == "abc"[place])) for name in "abc"]
                self.assertEqual(self.run_steps(*table, at_once=3), (0, "3 passed, 0 failed"))
                self.assertEqual(self.beside("abc"[place]), {"abc"[place]})

    def test_after(self):
        """A step doesn't begin before what it stands on has ended, and holds up nobody else."""
        slow = shell("slow", await_file("went") + "; touch done; echo '1 passed, 0 failed'")
        late = shell("late", "test -e done && echo '1 passed, 0 failed'", after=["slow"])
        quick = shell("quick", "touch went; echo '1 passed, 0 failed'")
        self.assertEqual(self.run_steps(slow, late, quick, at_once=3), (0, "3 passed, 0 failed"))

    def test_after_a_failure(self):
        failing = shell("failing", "exit 1", reads=by_status)
        table = failing, shell("on it", "echo '1 passed, 0 failed'", after=["failing"]), GOOD
        self.assertEqual(self.run_steps(*table, at_once=3), (1, "3 passed, 2 failed"))

    def test_told_in_one_piece(self):
        table = [shell(f"step{it}", f"for k in 1 2 3; do echo of{it}; done; echo '0 passed, 1 failed'")
                 for it in range(6)]
        self.run_steps(*table, at_once=6)
        for place, line in enumerate(self.said):
            if found := re.match(r"step(\d): ", line):
                self.assertEqual(self.said[place - 4:place - 1], [f"    of{found[1]}"] * 3)

    def test_stopped(self):
        """Whoever stops a run stops all that it has started."""
        text = ("import signal, sys\nsys.path.insert(0, sys.argv[1])\nfrom table import Run, Step, run_table\n"
                "signal.signal(signal.SIGTERM, lambda *_: sys.exit(1))\n"
                "steps = [Step(it, ['sh', '-c', f'sleep 60 & echo $! >{it}; wait']) for it in 'abc']\n"
                "run_table(steps, Run(sys.argv[2], sys.argv[2], ''), 2)\n")
        with subprocess.Popen([sys.executable, "-c", text, HERE, self.folder], stdout=subprocess.DEVNULL) as running:
            sleepers = [self.number_in(name) for name in "ab"]
            running.send_signal(signal.SIGTERM)
            self.assertEqual(running.wait(20), 1)
        for number in sleepers:
            self.assertFalse(self.is_alive(number))
        self.assertFalse(os.path.exists(os.path.join(self.folder, "c")))

    def number_in(self, name):
        """The number in a file, as soon as it's there."""
        end = time.monotonic() + 20
        while time.monotonic() < end:
            try:
                with open(os.path.join(self.folder, name), encoding="utf-8") as it:
                    return int(it.read())
            except (OSError, ValueError):
                time.sleep(0.02)
        raise AssertionError(f"the step {name} doesn't begin")

    def is_alive(self, number):
        """Whether a process runs, after some time in which it may end."""
        for _ in range(100):
            try:
                with open(f"/proc/{number}/stat", encoding="utf-8") as it:
                    if it.read().rsplit(")")[-1].split()[0] == "Z":
                        return False
            except OSError:
                return False
            time.sleep(0.02)
        return True


class Readings(unittest.TestCase):
    def test_cases(self):
        self.assertEqual(by_cases(["the module in node: 5 cases, 1 differ", "120 cases, 2 differ"]), Count(118, 2))
        self.assertIsNone(by_cases(["120 cases, 2 differ", "more"]))

    def test_unittest(self):
        ran = "Ran 12 tests in 0.003s"
        for last, count in (("OK", Count(12)), ("OK (skipped=2)", Count(10, 0, 2)),
                            ("FAILED (failures=1, errors=2)", Count(9, 3))):
            with self.subTest(last):
                self.assertEqual(by_unittest(["...", "------", ran, last]), count)
        self.assertIsNone(by_unittest([ran]))
        self.assertIsNone(by_unittest(["OK"]))

    def test_unittest_itself(self):
        text = "import unittest\nclass T(unittest.TestCase):\n def test_a(self): pass\n def test_b(self): self.fail()\n"
        ran = subprocess.run([sys.executable, "-c", text + "unittest.main()"], capture_output=True, text=True)
        self.assertEqual(by_unittest([it for it in ran.stderr.split("\n") if it]), Count(1, 1))


class Reports(unittest.TestCase):
    def ran(self, text):
        """The status and the output of a file of tests that uses the reporter."""
        head = f"import sys, unittest\nsys.path.insert(0, {HERE!r})\nimport report\nclass T(unittest.TestCase):\n"
        tail = "\nsys.exit(report.run_tests(unittest.defaultTestLoader.loadTestsFromTestCase(T)))\n"
        ran = subprocess.run([sys.executable, "-c", head + text + tail], capture_output=True, text=True)
        return ran.returncode, ran.stdout.split("\n")[:-1], ran.stderr

    def test_counts(self):
        status, lines, _ = self.ran(" def test_a(self): pass\n"
                                    " def test_b(self):\n  for k in range(5):\n   with self.subTest(k): self.assertLess(k, 3)\n"
                                    " def test_c(self): self.skipTest('no reason')\n"
                                    " def test_d(self): raise OSError('lost')\n")
        self.assertEqual((status, lines[-1]), (1, "4 passed, 3 failed, 1 skipped"))
        self.assertIn("skipped __main__.T.test_c: no reason", lines)
        self.assertTrue(any("lost" in line for line in lines))

    def test_passing(self):
        self.assertEqual(self.ran(" def test_a(self): pass\n"), (0, ["1 passed, 0 failed"], ""))

    def test_no_tests(self):
        status, lines, _ = self.ran(" pass\n")
        self.assertEqual((status, lines[-1]), (1, "0 passed, 1 failed"))


class TheTable(unittest.TestCase):
    """The table of bin/test."""

    def setUp(self):
        path = os.path.join(ROOT, "bin/test")
        loader = importlib.machinery.SourceFileLoader("bin_test", path)
        self.module = importlib.util.module_from_spec(importlib.util.spec_from_loader("bin_test", loader))
        loader.exec_module(self.module)

    def names(self, *words, left_out=()):
        return [step.name for step in picked(self.module.TABLE, words, left_out)]

    def test_scripts_are_there(self):
        for step in self.module.TABLE:
            with self.subTest(step.name):
                if step.words[0] != "rt":
                    self.assertTrue(os.stat(os.path.join(ROOT, step.words[0])).st_mode & stat.S_IXUSR)

    def test_names(self):
        names = self.names()
        self.assertEqual(len(set(names)), len(names))
        for place, step in enumerate(self.module.TABLE):
            self.assertLessEqual(set(step.after), set(names[:place]))

    def test_only(self):
        self.assertEqual(self.names("tests/program"), ["bin/build", "tests/program"])
        self.assertEqual(self.names("tests/program", left_out=["bin/build"]), ["tests/program"])
        self.assertEqual(self.names("test_engine"), ["bin/build", "bin/build --library", "bin/exhibit", "exhibit/test_engine"])
        self.assertEqual(self.names("nothing"), [])

    def test_without_the_gate(self):
        self.assertEqual(self.names()[0], "rt ci")
        self.assertNotIn("rt ci", self.names(left_out=["rt ci"]))


if __name__ == "__main__":
    sys.exit(report.run_tests(unittest.defaultTestLoader.loadTestsFromModule(sys.modules["__main__"])))
