"""The engine of crossbar5, a proved simulator of a telephone exchange, for Python.

    >>> from crossbar5 import Engine
    >>> print(Engine().replay("J,0,1,D,3041\\nS,0,128,,\\n"), end="")
    0,1,0,D,3041,-,DIALTONE,1,3041-0-417,-
    PATHS,1
    CLOSED,4

docs/FORMATS.md defines plans, rows, records and all texts. The library libcrossbar5.so is made by bindings/build.
"""

from __future__ import annotations

import ctypes
import enum
import json
import operator
import os
import sys

__all__ = [
    "Engine", "Task", "EXAMPLE_PLAN", "EngineError", "NoSuchTask", "MarkersRefused", "PlanRefused", "TrafficRefused",
    "RecordsRefused", "OutOfMemory", "FoundWrong", "UnknownAnswer",
]

# The plan that the program has if none is named.
EXAMPLE_PLAN = """\
version = 1
groups = ["REG register 417 418 509", "INTRA intra 600-601 700-711", "OUTA outgoing 800", "OUTB outgoing 801 902"]
numbers = ["0001 3041", "0002 3052", "0003 1000", "0004 3100"]
codes = ["234 INTRA", "555 OUTA OUTB"]
faults = []
"""


class Task(enum.IntEnum):
    """The tasks of the engine, by their numbers."""

    REPLAY = 0
    WALK = 1
    WALK_IN_SHORT = 2
    WALK_AS_JSON = 3
    AUDIT = 4
    DRAW_AS_TEXT = 5
    DRAW = 6
    PAGE = 7
    LOOK = 8
    LOOK_AS_JSON = 9
    LOOK_IN_SVG = 10


class EngineError(Exception):
    """The engine didn't do the task. `status` is the answer's status, and `text` its text, which may be empty."""

    def __init__(self, status, text):
        super().__init__(text.rstrip("\n").split("\n")[0] or f"status {status}")
        self.status = status
        self.text = text


class NoSuchTask(EngineError):
    """No task has the number (status 1)."""


class MarkersRefused(EngineError):
    """The kinds of the markers aren't 1 to 48 of the letters D, C and X (status 2)."""


class PlanRefused(EngineError):
    """The plan has a fault (status 3). The message is its line, such as FAULT,P2."""


class TrafficRefused(EngineError):
    """A row has a fault (status 4). The message is its line, such as FAULT,T1,1."""


class RecordsRefused(EngineError):
    """The input is no text of records (status 4). The message is the line of its fault, such as FAULT,U1,1."""


class OutOfMemory(EngineError, MemoryError):
    """Memory ran out (status 5)."""


class FoundWrong(EngineError):
    """The records aren't legal, or their counts are wrong (status 7). `text` is what the audit writes."""


class UnknownAnswer(EngineError):
    """The library answered as this module doesn't know: with another status, with a text that isn't UTF-8, or with a
    length that its text can't have. `text` has what isn't UTF-8 as escapes."""

    def __init__(self, status, text):
        super().__init__(status, text)
        self.args = (f"an unknown answer, with status {status}",)


_ON_RECORDS = {Task.AUDIT, Task.DRAW_AS_TEXT, Task.DRAW, Task.PAGE}
_ERRORS = {1: NoSuchTask, 2: MarkersRefused, 3: PlanRefused, 5: OutOfMemory, 7: FoundWrong}


def _error_of(task, status):
    """The exception for a status other than 0."""
    if status == 4:
        return RecordsRefused if task in _ON_RECORDS else TrafficRefused
    return _ERRORS.get(status, UnknownAnswer)


class _Answered(ctypes.Structure):
    _fields_ = [("length", ctypes.c_size_t), ("status", ctypes.c_uint32)]


def _library(path):
    """Loads the library: at this path, else at CROSSBAR5_LIBRARY, else beside this file or in bindings/out."""
    here = os.path.dirname(os.path.realpath(__file__))
    name = "libcrossbar5.so"
    places = [os.path.join(here, name), os.path.join(here, os.pardir, "out", name)]
    path = path or os.environ.get("CROSSBAR5_LIBRARY") or next(filter(os.path.isfile, places), None)
    if not path:
        raise FileNotFoundError(f"no {name} beside {__file__} or in bindings/out: run bindings/build")
    return ctypes.CDLL(path)


def _bytes(text):
    return text.encode() if isinstance(text, str) else bytes(memoryview(text))


def _room(room):
    room = operator.index(room)
    if not 0 <= room <= sys.maxsize:
        raise ValueError(f"room has to be from 0 to {sys.maxsize}, and is {room}")
    return room


class Engine:
    """An office with a plan and markers, in which tasks are done. It keeps nothing from one call to the next.

    plan     the plan's text, as str or bytes
    markers  a letter for each marker: D for dial tone jobs, C for completing jobs and releases, X for all jobs
    library  the path of libcrossbar5.so, if it isn't found by itself

    Rows and records are str or bytes. A method returns the text of its task, and raises an EngineError if the engine
    ends with another status than 0. Threads may share an engine; while it works, other threads of Python go on.
    """

    def __init__(self, plan: str | bytes = EXAMPLE_PLAN, markers: str | bytes = "XX", library: str | None = None):
        self.plan = _bytes(plan)
        self.markers = _bytes(markers)
        self._call = _library(library).crossbar5_answer
        part = [ctypes.c_char_p, ctypes.c_size_t]
        self._call.argtypes = [ctypes.c_uint32, *part, *part, *part, *part, ctypes.POINTER(_Answered)]
        self._call.restype = None

    def answer(self, task: int, given: str | bytes, room: int = 65536) -> tuple[int, bytes]:
        """The status and the text of the task of this number. It raises nothing for a status.

        If the text doesn't fit into `room` bytes, the task is done again with as much room as it needs. A room that no
        buffer can have is a ValueError.
        """
        task, room, given = operator.index(task), _room(room), _bytes(given)
        if not 0 <= task < 2**32:
            return 1, b""
        answered = self._called(task, given, room)
        if room < answered[1] <= sys.maxsize:
            answered = self._called(task, given, answered[1])
        status, length, out = answered
        if length > len(out):
            raise UnknownAnswer(status, "")
        return status, ctypes.string_at(out, length)

    def _called(self, task, given, room):
        """One call of the library: the status, the length of the text, and the buffer, which has it if it fits."""
        out, answered = (ctypes.c_char * room)(), _Answered()
        self._call(task, self.plan, len(self.plan), self.markers, len(self.markers), given, len(given), out, room,
                   ctypes.byref(answered))
        return answered.status, answered.length, out

    def do(self, task: int, given: str | bytes) -> str:
        """The text of the task of this number, if its status is 0."""
        status, answer = self.answer(task, given)
        try:
            text = answer.decode()
        except UnicodeDecodeError:
            raise UnknownAnswer(status, answer.decode(errors="backslashreplace")) from None
        if status == 0:
            return text
        raise _error_of(task, status)(status, text)

    def replay(self, rows: str | bytes) -> str:
        """The records of a replay of rows, with the counts."""
        return self.do(Task.REPLAY, rows)

    def walk(self, rows: str | bytes, short: bool = False) -> str:
        """A replay of rows, each step in words. In short, the tests of a row of switches share a line."""
        return self.do(Task.WALK_IN_SHORT if short else Task.WALK, rows)

    def events(self, rows: str | bytes) -> list[dict]:
        """A replay of rows, each step as a dict."""
        return [json.loads(line) for line in self.do(Task.WALK_AS_JSON, rows).splitlines()]

    def audit(self, records: str | bytes) -> str:
        """What an audit says of legal records: AUDIT,LEGAL and the right counts. Others raise FoundWrong."""
        return self.do(Task.AUDIT, records)

    def draw(self, records: str | bytes) -> str:
        """The office after records, in SVG."""
        return self.do(Task.DRAW, records)

    def draw_text(self, records: str | bytes) -> str:
        """The office after records, as text for a terminal of 80 columns."""
        return self.do(Task.DRAW_AS_TEXT, records)

    def page(self, records: str | bytes) -> str:
        """Records turn by turn, as an HTML page."""
        return self.do(Task.PAGE, records)

    def look(self, rows: str | bytes) -> dict:
        """The office as it stands after rows, with jobs half done, as a dict."""
        return json.loads(self.do(Task.LOOK_AS_JSON, rows))

    def look_text(self, rows: str | bytes) -> str:
        """The office as it stands after rows, in words."""
        return self.do(Task.LOOK, rows)

    def look_svg(self, rows: str | bytes) -> str:
        """The office as it stands after rows, in SVG."""
        return self.do(Task.LOOK_IN_SVG, rows)
