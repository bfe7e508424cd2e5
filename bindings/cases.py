#!/usr/bin/env python3
"""Writes the cases that each binding is tested with: cases.py FILE [PROGRAM]

A case is a line `TASK STATUS` with the lengths of kinds, plan, input and text, and a name; then these four, with
nothing between. What is expected comes from the rows of crates/worked_rows, from the files of examples, and, of what
is refused or is noise, from docs/FORMATS.md. With PROGRAM, a built crossbar5, each of these is done by further tasks,
and with a few bytes changed, and the program says what is expected; it has to agree with the rows, too.
"""

import os
import random
import subprocess
import sys
import tempfile
import tomllib

from tasks import tasks

ROOT = os.path.dirname(os.path.dirname(os.path.realpath(__file__)))
ROWS = os.path.join(ROOT, "crates", "worked_rows", "data")
# Rows that say something else than the engine does.
DIFFERENT = "different.toml"
EXAMPLES = os.path.join(ROOT, "examples")

# The words of each task, and the task of each verb of a row.
WORDS = {task.number: task.words for task in tasks()}
VERBS = {"replay and audit": 0} | {task.name: task.number for task in tasks()}
ON_RECORDS = [task.number for task in tasks() if not task.on_rows]
ON_ROWS = [task.number for task in tasks() if task.on_rows]

# Each with the words and the plan's file that the program would have, and the file that it should write.
OF_EXAMPLES = [
    ("three_dials.csv", 0, None, "three_dials.out"),
    ("calls.csv", 0, None, "calls.out"),
    ("inside_call.csv", 0, None, "inside_call.out"),
    ("inside_call.out", 7, None, "inside_call.html"),
    ("two_markers.csv", 0, None, "two_markers.out"),
    ("meeting.csv", 0, None, "meeting.out"),
    ("meeting.csv", 1, None, "meeting.walk"),
    ("meeting.csv", 2, None, "meeting_short.walk"),
    ("trouble.csv", 0, "small_town.toml", "trouble.out"),
    ("trouble.csv", 1, "small_town.toml", "trouble.walk"),
    ("trouble.out", 6, "small_town.toml", "trouble.svg"),
    ("trouble.out", 5, "small_town.toml", "trouble.txt"),
    ("trouble.out", 7, "small_town.toml", "trouble.html"),
    ("hunting.csv", 0, "hunting.toml", "hunting.out"),
    ("ten_calls_from_one_frame.csv", 0, "many_registers.toml", "ten_calls_from_one_frame.out"),
]


def read(*path):
    with open(os.path.join(*path), "rb") as it:
        return it.read()


def plan_of(row, example):
    """The row's plan, as crates/worked_rows makes it: its own text, or the example with the lines that it replaces."""
    if "plan" in row:
        return row["plan"].encode()
    lines = []
    for line in example.splitlines():
        value = row.get(line.split(" = ")[0])
        if value != "":
            lines.append(line if value is None else f"{line.split(' = ')[0]} = {value}")
    return "".join(f"{line}\n" for line in lines).encode()


def of_rows():
    """The worked rows, each as name, task, kinds, plan, input, status and text."""
    example = read(ROWS, "example.toml").decode()
    for file in sorted(set(os.listdir(ROWS)) - {DIFFERENT}):
        for row in tomllib.loads(read(ROWS, file).decode()).get("rows", []):
            text = row["output"].encode()
            yield (row["name"], VERBS[row.get("verb", "replay")], row.get("markers", "XX").encode(),
                   plan_of(row, example), row.get("input", "").encode(), row.get("status", 0), text)


def of_examples():
    example = read(ROWS, "example.toml")
    for name, task, plan, wanted in OF_EXAMPLES:
        plan = read(EXAMPLES, plan) if plan else example
        yield f"{name} of the examples", task, b"XX", plan, read(EXAMPLES, name), 0, read(EXAMPLES, wanted)


def of_refusals():
    """What is refused whatever else there is, and noise."""
    plan, rows = read(ROWS, "example.toml"), b"J,0,1,D,3041\nS,0,128,,\n"
    noise = random.Random(5).randbytes(10_000_000)
    for task in (11, 12, 255, 256, 2**31, 2**32 - 1):
        yield f"no task {task}", task, b"XX", plan, rows, 1, b""
        yield f"no task {task}, with bad kinds", task, b"?", plan, rows, 1, b""
    for task in ON_ROWS:
        for kinds in (b"", b"x", b"X" * 49, b"X" * 100, b"XX\n", b"X\0", b"\xff", b"\xff" * 100, b"D\xc3\x9f"):
            yield f"kinds {kinds[:9]} in task {task}", task, kinds, plan, rows, 2, b""
            yield f"kinds {kinds[:9]} in task {task}, before a bad plan", task, kinds, b"\xff", rows, 2, b""
        yield f"a plan of brackets in task {task}", task, b"XX", b"faults = " + b"[" * 100_000, rows, 3, b"FAULT,P1\n"
        yield f"a plan of noise in task {task}", task, b"XX", noise[:100_000], rows, 3, b"FAULT,P1\n"
        yield f"rows of bytes 255 in task {task}", task, b"XX", plan, b"\xff" * 1000, 4, b"FAULT,T1,1\n"
        yield f"rows of noise in task {task}", task, b"XX", plan, b"\n\0" + noise[:100_000], 4, b"FAULT,T1,1\n"
    for task in ON_RECORDS:
        for kinds in (b"", b"\xff", b"X" * 100):
            yield f"kinds {kinds[:9]} in task {task}", task, kinds, plan, b"\xff" * 1000, 4, b"FAULT,U1,1\n"
        yield f"records of noise in task {task}", task, b"", plan, noise[:100_000], 4, b"FAULT,U1,1\n"
        yield f"a plan of bytes 255 in task {task}", task, b"", b"\xff" * 1000, b"", 3, b"FAULT,P1\n"
    yield "a plan of much noise", 0, b"XX", noise, rows, 3, b"FAULT,P1\n"
    yield "rows of much noise", 0, b"XX", plan, noise, 4, b"FAULT,T1,1\n"
    yield "records of much noise", 7, b"", plan, noise, 4, b"FAULT,U1,1\n"


def done(program, folder, task, kinds, plan, data):
    """What the program makes of a case: its status, and the text that a call of the library has."""
    with open(f"{folder}/plan", "wb") as it:
        it.write(plan)
    words = [program, *WORDS[task], "--plan", f"{folder}/plan"]
    words += [] if task in ON_RECORDS else ["--markers", kinds]
    ran = subprocess.run(words, input=data, capture_output=True)
    if ran.returncode == 2:
        return 2, b""
    # The reasons why nothing is drawn are on standard error, before a sentence.
    lines = [it for it in ran.stderr.splitlines(True) if not it.startswith(b"crossbar5: ")]
    return ran.returncode, ran.stdout or (b"".join(lines) if ran.returncode else b"")


def changed(data, chance):
    """A few bytes changed, left out or put in."""
    data = bytearray(data)
    for _ in range(chance.randint(1, 3)):
        at = chance.randrange(len(data) + 1)
        new = chance.choices(b"0123456789,JSDRCX-\n\r\" \xff", k=chance.randint(0, 2))
        data[at:at + chance.randint(0, 1)] = bytes(new)
    return bytes(data)


def of_program(program, folder, known):
    """More tasks on the known cases, and cases with changed bytes, as the program does them."""
    chance = random.Random(7)
    tasks = [task for task in WORDS if done(program, folder, task, b"XX", b"\xff", b"")[0] == 3]
    for name, task, kinds, plan, data, status, text in known:
        records = data if task in ON_RECORDS else text if (task, status) == (0, 0) else None
        for other in tasks:
            given = records if other in ON_RECORDS else None if task in ON_RECORDS else data
            if given is None or other == task or (len(given) > 2000 and other != 0):
                continue
            made = done(program, folder, other, kinds, plan, given)
            yield f"{name}, by task {other}", other, kinds, plan, given, *made
        other, given = chance.choice(tasks), changed(data, chance)
        yield f"{name}, changed", other, kinds, plan, given, *done(program, folder, other, kinds, plan, given)
        given = changed(plan, chance)
        yield f"{name}, with another plan", task, kinds, given, data, *done(program, folder, task, kinds, given, data)


def main():
    known = [*of_rows(), *of_examples()]
    cases = [*known, *of_refusals()]
    with tempfile.TemporaryDirectory() as folder:
        for program in map(os.path.abspath, sys.argv[2:]):
            for name, task, kinds, plan, data, *wanted in known:
                if [*done(program, folder, task, kinds, plan, data)] != wanted:
                    print(f"cases.py: the program differs from the row: {name}", file=sys.stderr)
            cases += of_program(program, folder, known)
    with open(sys.argv[1], "wb") as it:
        for name, task, kinds, plan, data, status, text in cases:
            it.write(f"{task} {status} {len(kinds)} {len(plan)} {len(data)} {len(text)} {name}\n".encode())
            it.write(kinds + plan + data + text)
    print(f"{len(cases)} cases in {sys.argv[1]}")


main()
