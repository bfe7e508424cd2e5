"""The library's tasks, as the program's own manual lists them (crates/crossbar5_manual)."""

import os
from typing import NamedTuple

MANUAL = os.path.join(os.path.dirname(os.path.dirname(os.path.realpath(__file__))), "crates", "crossbar5_manual", "stdout")
HEAD = "==> crossbar5/tasks.txt <==\n"


class Listed(NamedTuple):
    """A task: its number, whether its input is rows, not records, the words that ask for it, and its name."""

    number: int
    on_rows: bool
    words: list[str]
    name: str


def listed(line):
    number, given, words, name = line.split("\t")
    return Listed(int(number), {"rows": True, "records": False}[given], words.split(" "), name)


def tasks():
    """All tasks, in the order of their numbers."""
    with open(MANUAL, encoding="utf-8") as it:
        text = it.read()
    return [listed(line) for line in text.partition(HEAD)[2].partition("==> ")[0].splitlines()]
