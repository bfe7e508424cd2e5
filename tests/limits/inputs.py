"""Plans and traffic of the largest sizes, worked out outside the program: what comes of them is told by the models in
examples/."""

import functools
import os
import random
import sys

from process import ROOT

sys.path.insert(0, os.path.join(ROOT, "examples"))
import office_model  # noqa: E402

JOBS = 10_000
MARKERS = 48
# Marker 0 and each third one after it take dial tone jobs alone, the next the others, the last all.
KINDS = "DCX" * 16
TAKES = {"D": "D", "C": "CR", "X": "DCR"}
# A job that is never denied a connector has at most so many steps.
STEPS = 128


def line(k):
    """Line k of all 3,000, which go around the frames."""
    return f"{k % 10}{k // 10 % 10}{k // 100 % 6}{k // 600 % 5}"


def link(k):
    """Link k of some that are faulty: line links, junctors and trunk links."""
    kind, number = ("LL", "JU", "TL")[k % 3], k // 3
    return f"{kind}{number % 10}{number * 7 // 10 % 10}{number * 3 % 10}"


def place(k):
    """Trunk place k of all 1,000, which go around the frames."""
    return f"{k % 10}{k // 10 % 10}{k // 100}"


def group(number):
    """Group k of sixteen, each with 40 members: registers, then groups inside the office, then outgoing ones."""
    if number == 0:
        return "REG register " + " ".join(place(k) for k in range(40))
    if number < 6:
        # The two places of a pair are on one frame: ten further on.
        first = [40 + 80 * (number - 1) + k + 10 * (k // 10) for k in range(40)]
        return f"IN{number} intra " + " ".join(f"{place(k)}-{place(k + 10)}" for k in first)
    first = 440 + 40 * (number - 6)
    return f"OUT{number} outgoing " + " ".join(place(k) for k in range(first, first + 40))


def route_group(code, further):
    """A group for a code: of an odd one inside the office, of an even one outgoing."""
    return f"IN{1 + (code + further) % 5}" if code % 2 else f"OUT{6 + (code + further) % 10}"


GROUPS = [group(number) for number in range(16)]
# 3,000 numbers with ten lines each; every other has one line ten times, so that it is busy with that.
NUMBERS = [f"{k:04} " + " ".join(line(k + 37 * j * (k % 2)) for j in range(10)) for k in range(3000)]
# 64 codes with four groups each, by turns inside the office and outgoing; half of them have one group four times.
CODES = [f"{100 + k} " + " ".join(route_group(k, j * (k % 4 > 1)) for j in range(4)) for k in range(64)]
FAULTS = [link(k) for k in range(100)]


def plan_text(groups=GROUPS, numbers=NUMBERS, codes=CODES, faults=FAULTS):
    lists = {"groups": groups, "numbers": numbers, "codes": codes, "faults": faults}
    texts = ("".join(f'  "{item}",\n' for item in items) for items in lists.values())
    return "version = 2\n" + "".join(f"{name} = [\n{text}]\n" for name, text in zip(lists, texts))


@functools.cache
def full_plan():
    """The largest plan, as a model has it."""
    return office_model.Plan(plan_text())


def marker_for(kind, number):
    """A marker that takes a job of this kind, by turns."""
    takers = [k for k, letter in enumerate(KINDS) if kind in TAKES[letter]]
    return takers[number % len(takers)]


def next_line(chance, office, lines):
    """A line: by turns one that has a register, so that registers come free, and any line."""
    dialling = [place for place in sorted(office.plan.register_places) if place in office.of_place]
    if len(dialling) > 10 and chance.random() < 0.4:
        return office.of_place[chance.choice(dialling)].line
    return line(chance.randrange(lines))


def usual_job(chance, office, own):
    """What a line does that behaves: it dials, calls, and now and then hangs up. One job in ten is any job."""
    if chance.random() < 0.1:
        return chance.choice("DCR")
    path = office.of_line.get(own)
    if not path:
        return "D"
    if path.place in office.plan.register_places:
        return "C"
    return "R" if chance.random() < 0.3 else "D"


@functools.cache
def jobs(count=JOBS, lines=1500, seed=1):
    """So many jobs by 48 markers, each as number, marker, kind, line and, of a call, the digits. They are chosen by what
    the model says of their lines, so that many calls are up at a time, and every end comes."""
    chance, office, made = random.Random(seed), office_model.Office(full_plan()), []
    for number in range(count):
        own = next_line(chance, office, lines)
        kind = usual_job(chance, office, own)
        digits = (f"{chance.randrange(99, 164):03}{chance.randrange(3100):04}",) if kind == "C" else ()
        office.do(kind, own, *digits)
        made.append((number, marker_for(kind, number), kind, own, *digits))
    return tuple(made)


def job_row(number, marker, kind, own, *digits):
    return f"J,{marker},{number},{kind},{' '.join((own, *digits))}\n"


def done_whole(some_jobs):
    """Rows in which each job is done before the next one comes."""
    return "".join(job_row(*job) + f"S,{job[1]},{STEPS},,\n" for job in some_jobs)


@functools.cache
def records(count=JOBS):
    """What a replay of these jobs prints, under the largest plan."""
    return office_model.text_of(full_plan(), jobs(count))


def example_jobs(count, seed=2):
    """Jobs for the example plan: its four lines and others, by two markers that take all jobs."""
    chance, lines = random.Random(seed), ["3041", "3052", "1000", "3100", "3042", "9954"]
    made = []
    for number in range(count):
        kind = chance.choice("DDCCR")
        digits = (chance.choice(["2340002", "2340004", "5551234", "5550000", "9990000", "2349999"]),) if kind == "C" else ()
        made.append((number, number % 2, kind, chance.choice(lines), *digits))
    return made
