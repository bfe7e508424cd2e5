"""Tests the Python binding, on the cases of bindings/cases.py: python3 -m unittest test_crossbar5."""

import os
import threading
import unittest

import crossbar5
from crossbar5 import Engine

HERE = os.path.dirname(os.path.realpath(__file__))
CASES = os.environ.get("CROSSBAR5_CASES", os.path.join(HERE, os.pardir, "out", "cases"))
THREADS = 8
CALLS = 10_000
FIRST = "J,0,1,D,3041\nS,0,128,,\n"
HALF = "J,0,1,D,3041\nS,0,5,,\n"
RECORDS = "0,1,0,D,3041,-,DIALTONE,1,3041-0-417,-\nPATHS,1\nCLOSED,4\n"
# What the text of each task has, with these rows or records.
EACH_TASK = [
    (FIRST, RECORDS), (FIRST, "marker 0"), (FIRST, "marker 0"), (FIRST, "{"), (RECORDS, "AUDIT,LEGAL,1\n"),
    (RECORDS, "PATHS AT A GLANCE"), (RECORDS, "<svg"), (RECORDS, 'id="turn0"'), (HALF, "marker 0"), (HALF, "{"),
    (HALF, "<svg"),
]


def read_cases():
    """Each case as name, task, kinds, plan, input, status and text."""
    with open(CASES, "rb") as file:
        while line := file.readline():
            task, status, *lengths, name = line.decode().rstrip("\n").split(" ", 6)
            kinds, plan, given, text = (file.read(int(it)) for it in lengths)
            yield name, int(task), kinds, plan, given, int(status), text


def resident():
    """The resident size of this process, in bytes."""
    with open("/proc/self/statm", encoding="ascii") as file:
        return int(file.read().split()[1]) * os.sysconf("SC_PAGESIZE")


class OnCases(unittest.TestCase):
    """The answers are those of the rows and of the program, byte for byte."""

    @classmethod
    def setUpClass(cls):
        cls.cases = list(read_cases())
        cls.small = [it for it in cls.cases if len(it[3]) + len(it[4]) < 10_000 and len(it[6]) < 100_000]
        cls.engine = Engine()

    def answer(self, case, room=65536):
        name, task, kinds, plan, given, *_ = case
        engine = Engine(plan, kinds)
        return engine.answer(task, given, room)

    def test_each_case(self):
        self.assertGreater(len(self.cases), 500)
        for case in self.cases:
            with self.subTest(case[0]):
                self.assertEqual(self.answer(case), tuple(case[5:]))

    def test_each_task(self):
        for task, (given, part) in enumerate(EACH_TASK):
            with self.subTest(task=task):
                status, text = self.engine.answer(task, given)
                self.assertEqual(status, 0)
                self.assertIn(part, text.decode())

    def test_room(self):
        for case in self.small[::5]:
            length = len(case[6])
            for room in {0, max(length - 1, 0), length, length + 1}:
                with self.subTest(case[0], room=room):
                    self.assertEqual(self.answer(case, room), tuple(case[5:]))

    def test_methods_raise_by_status(self):
        for name, task, kinds, plan, given, status, text in self.small:
            if task > 10:
                continue
            with self.subTest(name):
                engine = Engine(plan, kinds)
                if status == 0:
                    self.assertEqual(engine.do(task, given), text.decode())
                    continue
                with self.assertRaises(crossbar5.EngineError) as caught:
                    engine.do(task, given)
                self.assertEqual((caught.exception.status, caught.exception.text), (status, text.decode()))

    def test_threads(self):
        wrong = []

        def run():
            for case in self.small:
                if self.answer(case) != tuple(case[5:]):
                    wrong.append(case[0])

        threads = [threading.Thread(target=run) for _ in range(THREADS)]
        for thread in threads:
            thread.start()
        for thread in threads:
            thread.join()
        self.assertEqual(wrong, [])

    def test_memory_stays(self):
        before = 0
        for call in range(CALLS):
            case = self.small[call % len(self.small)]
            self.assertEqual(self.answer(case), tuple(case[5:]))
            if call == CALLS // 4:
                before = resident()
        self.assertLess(resident() - before, 2**20)


class OfMethods(unittest.TestCase):
    """Each method does its task, and each status has its exception."""

    def setUp(self):
        self.engine = Engine()

    def test_tasks_on_rows(self):
        self.assertEqual(self.engine.replay(FIRST), RECORDS)
        self.assertEqual(self.engine.replay(FIRST.encode()), RECORDS)
        walk, short = self.engine.walk(FIRST), self.engine.walk(FIRST, short=True)
        self.assertIn("  22  marker 0", walk + short)
        self.assertLess(len(short.splitlines()), len(walk.splitlines()))

    def test_events(self):
        events = self.engine.events(FIRST)
        self.assertTrue(all(isinstance(it, dict) for it in events))
        self.assertGreaterEqual(len(events), 28)

    def test_looks(self):
        self.assertIsInstance(self.engine.look(HALF), dict)
        self.assertIn("marker 0", self.engine.look_text(HALF))
        self.assertTrue(self.engine.look_svg(HALF).lstrip().startswith("<"))

    def test_tasks_on_records(self):
        self.assertEqual(self.engine.audit(RECORDS), "AUDIT,LEGAL,1\nPATHS,1\nCLOSED,4\n")
        self.assertIn("PATHS AT A GLANCE", self.engine.draw_text(RECORDS))
        self.assertIn("<svg", self.engine.draw(RECORDS))
        self.assertIn('id="turn0"', self.engine.page(RECORDS))

    def test_plan_of_the_program(self):
        text = 'version = 2\ngroups = ["REG register 417"]\nnumbers = []\ncodes = []\nfaults = []\n'
        self.assertEqual(Engine(text).replay(FIRST), RECORDS)

    def test_refusals(self):
        for raised, message, task in [
            (crossbar5.PlanRefused, "FAULT,P2", lambda: Engine("").replay(FIRST)),
            (crossbar5.MarkersRefused, "status 2", lambda: Engine(markers="Y").replay(FIRST)),
            (crossbar5.MarkersRefused, "status 2", lambda: Engine(markers="X" * 100).walk(FIRST)),
            (crossbar5.TrafficRefused, "FAULT,T1,1", lambda: self.engine.replay("J,0,1,D\n")),
            (crossbar5.TrafficRefused, "FAULT,T1,1", lambda: self.engine.replay(b"\xff" * 1000)),
            (crossbar5.RecordsRefused, "FAULT,U1,1", lambda: self.engine.draw("J,0,1,D\n")),
            (crossbar5.FoundWrong, "AUDIT,TURNS,0", lambda: self.engine.audit(RECORDS.replace("0,1", "1,1", 1))),
            (crossbar5.FoundWrong, "AUDIT,COUNTS", lambda: self.engine.page(RECORDS.replace("CLOSED,4", "CLOSED,5"))),
            (crossbar5.NoSuchTask, "status 1", lambda: self.engine.do(11, "")),
            (crossbar5.NoSuchTask, "status 1", lambda: self.engine.do(2**32, "")),
            (crossbar5.NoSuchTask, "status 1", lambda: self.engine.do(-1, "")),
        ]:
            with self.subTest(message), self.assertRaises(raised) as caught:
                task()
            self.assertEqual(str(caught.exception), message)

    def test_no_library(self):
        with self.assertRaises(OSError):
            Engine(library="/nowhere/libcrossbar5.so")


if __name__ == "__main__":
    unittest.main()
