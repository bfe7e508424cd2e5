"""Tests what the Python binding makes of calls and answers that are out of the ordinary, on the library that
bindings/stubs/odd.c makes, where CROSSBAR5_LIBRARY says: python3 -m unittest test_edges. bindings/test runs it."""

import ctypes
import sys
import unittest

import crossbar5
from crossbar5 import Engine, Task, UnknownAnswer


def ask(plan, given="", markers="XX", task=0, **room):
    """What `answer` gives back."""
    return Engine(plan, markers).answer(task, given, **room)


def do(plan, given="", task=0):
    return Engine(plan).do(task, given)


def calls():
    """How many calls the library has had, without the one that asks."""
    return int(ask("calls")[1]) - 1


class Interface(unittest.TestCase):
    """The parameters and the answer are where crossbar5.h has them."""

    def test_order_of_parameters(self):
        self.assertEqual(ask("echo", "input", "kinds", 9), (0, b"9|echo|kinds|input"))

    def test_layout_of_the_answer(self):
        answered = crossbar5._Answered
        self.assertEqual((answered.length.offset, answered.length.size), (0, ctypes.sizeof(ctypes.c_size_t)))
        self.assertEqual((answered.status.offset, answered.status.size), (ctypes.sizeof(ctypes.c_size_t), 4))

    def test_texts_with_zero_bytes(self):
        self.assertEqual(ask("status 4", b"a\0b"), (4, b"a\0b"))


class Rooms(unittest.TestCase):
    """The library is given a room that the buffer has, or isn't called."""

    def test_rooms_that_no_buffer_has(self):
        before = calls()
        for room in (-1, -2**31, -2**63, -2**64, sys.maxsize + 1, 2**64 - 1, 2**64, 2**64 + 8, 10**30):
            with self.subTest(room=room), self.assertRaises(ValueError):
                ask("echo", room=room)
        for room in (None, "1", 1.5, b"1", [1]):
            with self.subTest(room=room), self.assertRaises(TypeError):
                ask("echo", room=room)
        with self.assertRaises(MemoryError):
            ask("echo", room=sys.maxsize)
        self.assertEqual(calls(), before + 1)

    def test_rooms_that_are_given(self):
        for room in (1, 2, 5, 100, 65536, True):
            with self.subTest(room=room):
                self.assertEqual(ask("room", room=room), (0, b"%d" % max(room, 1)))
        self.assertEqual(ask("room"), (0, b"65536"))
        # Of what doesn't fit, the length becomes the room of a second call.
        self.assertEqual(ask("room", room=0), (0, b"1"))

    def test_texts_longer_than_the_room(self):
        for length in (1, 2, 65536, 65537, 150_000):
            for room in (0, 1, length - 1, length, length + 1):
                with self.subTest(length=length, room=room):
                    self.assertEqual(ask("status 0", "x" * length, room=room), (0, b"x" * length))


class Arguments(unittest.TestCase):
    """What isn't text is refused, before the library is called."""

    def test_what_is_no_text(self):
        before = calls()
        for wrong in (5, None, ["a"], 1.5):
            for call in (lambda: Engine(wrong), lambda: Engine("echo", wrong), lambda: Engine("echo").replay(wrong)):
                with self.subTest(wrong), self.assertRaises(TypeError):
                    call()
        with self.assertRaises(ValueError):
            Engine("echo").replay("\ud800")
        self.assertEqual(calls(), before + 1)

    def test_bytes_of_any_kind(self):
        for given in (b"it", bytearray(b"it"), memoryview(b"it"), "it"):
            self.assertEqual(ask("status 0", given), (0, b"it"))

    def test_task_numbers(self):
        before = calls()
        for task in (-1, 2**32, 2**64, -2**64):
            self.assertEqual(ask("echo", task=task), (1, b""))
        for task in (1.5, "1", None):
            with self.assertRaises(TypeError):
                ask("echo", task=task)
        self.assertEqual(calls(), before + 1)
        self.assertEqual(ask("echo", task=2**32 - 1), (0, b"4294967295|echo|XX|"))


class Answers(unittest.TestCase):
    """What the library never answers is an error of its own."""

    def test_known_statuses(self):
        known = {1: crossbar5.NoSuchTask, 2: crossbar5.MarkersRefused, 3: crossbar5.PlanRefused,
                 4: crossbar5.TrafficRefused, 5: crossbar5.OutOfMemory, 7: crossbar5.FoundWrong}
        for status, raised in known.items():
            with self.subTest(status), self.assertRaises(raised) as caught:
                do(f"status {status}", "said\n")
            self.assertIs(type(caught.exception), raised)
            self.assertEqual((caught.exception.status, caught.exception.text), (status, "said\n"))
        for task in (Task.AUDIT, Task.DRAW_AS_TEXT, Task.DRAW, Task.PAGE):
            with self.assertRaises(crossbar5.RecordsRefused):
                do("status 4", "said\n", task)

    def test_unknown_statuses(self):
        for status in (6, 8, 9, 10, 77, 255, 256, 2**31, 2**32 - 1):
            for task in (Task.REPLAY, Task.AUDIT, Task.LOOK, Task.PAGE):
                with self.subTest(status, task=task), self.assertRaises(UnknownAnswer) as caught:
                    do(f"status {status}", "FAULT,T1,1\n", task)
                self.assertIs(type(caught.exception), UnknownAnswer)
                self.assertEqual((caught.exception.status, caught.exception.text), (status, "FAULT,T1,1\n"))
                self.assertEqual(str(caught.exception), f"an unknown answer, with status {status}")

    def test_statuses_as_they_are(self):
        for status in (0, 6, 8, 2**32 - 1):
            self.assertEqual(ask(f"status {status}", "text"), (status, b"text"))

    def test_text_that_is_not_utf_8(self):
        self.assertEqual(ask("bytes"), (0, b"\xff\xfe"))
        with self.assertRaises(UnknownAnswer) as caught:
            do("bytes")
        self.assertEqual((caught.exception.status, caught.exception.text), (0, "\\xff\\xfe"))

    def test_lengths_that_no_text_has(self):
        for plan in ("grows", f"length {sys.maxsize + 1}", f"length {2**64 - 1}"):
            with self.subTest(plan), self.assertRaises(UnknownAnswer) as caught:
                ask(plan)
            self.assertEqual((caught.exception.status, caught.exception.text), (0, ""))
        # One that there is no memory for.
        with self.assertRaises(MemoryError):
            ask(f"length {sys.maxsize}")


if __name__ == "__main__":
    unittest.main()
