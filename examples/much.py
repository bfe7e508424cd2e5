#!/usr/bin/env python3
"""Much traffic, and what comes of it, worked out without crossbar5: much.py FOLDER

Writes data/office.toml, stdin and stdout of the program crates/crossbar5_program into the folder. What comes
of the traffic is what office_model.py makes of it. Each job's row is followed by one that lets its marker
finish, so the jobs are done whole, in the order of their rows."""

import os
import sys

import office_model

JOBS = 9020
MARKERS = "DDCCX"


def line_of(k):
    return f"{k % 10}{k // 10 % 10}{k // 100 % 6}{k // 7 % 5}"


NUMBERS = {
    f"{k:04}": [line_of(k)] + ([line_of(k + 7)] if k % 10 == 0 else []) for k in range(400)
}
GROUPS = [
    ("REG", "register", [(f"{f}{k % 10}{k // 10}",) for f in (4, 5) for k in range(6)]),
    ("INTRA", "intra", [(f"6{k}0", f"6{k}1") for k in range(8)]),
    ("OUTA", "outgoing", [(f"80{k}",) for k in range(4)]),
    ("OUTB", "outgoing", [(f"9{k}{k}",) for k in range(9)]),
]
CODES = {"234": [1], "555": [2, 3], "556": [3]}
FAULTS = ["JU040", "JU045", "JU640", "LL110", "LL115", "TL600"]


def texts(items):
    return "".join(f'  "{item}",\n' for item in items)


def plan():
    groups = [
        " ".join([name, kind] + ["-".join(member) for member in members])
        for name, kind, members in GROUPS
    ]
    numbers = [" ".join([number] + lines) for number, lines in NUMBERS.items()]
    codes = [" ".join([code] + [GROUPS[g][0] for g in route]) for code, route in CODES.items()]
    lists = {"groups": groups, "numbers": numbers, "codes": codes, "faults": FAULTS}
    return "version = 2\n" + "".join(f"{key} = [\n{texts(items)}]\n" for key, items in lists.items())


def job_at(k):
    """Job k: its kind, its line, and the digits of a completing one. In each ten of jobs a line dials,
    dials again, calls and calls again; so does a second line, now and then; and two earlier callers
    release, of whom some have no call by then."""
    ten, way = k // 10, k % 10
    lines = [line_of((ten - back) * 37 % 150) for back in (0, 1, 5, 9)]
    code = ("234", "555", "234", "556", "999")[ten % 5]
    digits = f"{code}{(ten * 13 + way) % 420:04}"
    return (
        ("D", lines[0], ""),
        ("D", lines[0], ""),
        ("C", lines[0], digits) if ten % 4 else ("D", lines[1], ""),
        ("C", lines[0], digits),
        ("R", lines[2], ""),
        ("D", lines[1], "") if ten % 3 else ("C", lines[1], digits),
        ("C", lines[1], digits) if ten % 7 else ("C", lines[2], digits),
        ("R", lines[2], "") if ten % 9 else ("D", lines[2], ""),
        ("R", lines[3], ""),
        ("D", line_of(k % 90 + ten % 2), "") if ten % 5 == 0 else ("R", lines[3], ""),
    )[way]


def main(folder):
    rows = []
    for k in range(JOBS):
        kind, line, digits = job_at(k)
        takers = [m for m, letter in enumerate(MARKERS) if letter == "X" or (letter == "D") == (kind == "D")]
        marker = takers[k // 3 % len(takers)]
        rows += [f"J,{marker},{k},{kind},{line}{' ' if digits else ''}{digits}", f"S,{marker},128,,"]
    traffic = "\n".join(rows) + "\n"
    for name, text in (
        ("data/office.toml", plan()),
        ("stdin", traffic),
        ("stdout", office_model.text_of(office_model.Plan(plan()), office_model.jobs_of(traffic))),
    ):
        os.makedirs(os.path.dirname(os.path.join(folder, name)), exist_ok=True)
        with open(os.path.join(folder, name), "w") as file:
            file.write(text)


main(sys.argv[1])
