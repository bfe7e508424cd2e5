#!/usr/bin/env python3
"""A model of the office with one marker, written after docs/OFFICE.md, with the texts of docs/FORMATS.md:

    office_model.py PLAN.toml < TRAFFIC     the text of a replay whose jobs are done whole, in the order of their rows
    office_model.py PLAN.toml --audit < RECORDS     whether records with their cards and counts are legal

PLAN.toml may be `example`, for the example plan. Jobs are done whole if each J row is followed by enough steps of its
marker before the next one. Then no marker meets another, and turns are rows. The model knows nothing of markers, steps
and words, and checks no faults: it is for plans and traffic that are right."""

import sys
import tomllib
from typing import NamedTuple

EXAMPLE = """version = 1
groups = ["REG register 417 418 509", "INTRA intra 600-601 700-711", "OUTA outgoing 800", "OUTB outgoing 801 902"]
numbers = ["0001 3041", "0002 3052", "0003 1000", "0004 3100"]
codes = ["234 INTRA", "555 OUTA OUTB"]
faults = []
"""


class Plan:
    """The tables of a plan. A member of a group is a tuple of its places: one, or the two of a pair."""

    def __init__(self, text):
        document = tomllib.loads(text)
        self.kinds, self.members, names = [], [], []
        for item in document["groups"]:
            name, kind, *members = item.split(" ")
            names.append(name)
            self.kinds.append(kind)
            self.members.append([tuple(member.split("-")) for member in members])
        self.numbers = {number: lines for number, *lines in map(str.split, document["numbers"])}
        self.codes = {code: [names.index(name) for name in route] for code, *route in map(str.split, document["codes"])}
        self.faults = set(document["faults"])
        self.registers = self.kinds.index("register")
        self.register_places = {member[0] for member in self.members[self.registers]}
        pairs = [member for kind, members in zip(self.kinds, self.members) if kind == "intra" for member in members]
        self.other_place = {one: two for pair in pairs for one, two in (pair, pair[::-1])}


class Path(NamedTuple):
    line: str
    channel: int
    place: str

    def links(self):
        """The line link, the junctor and the trunk link."""
        frame, switch = self.line[0], self.line[1]
        return (f"LL{frame}{switch}{self.channel}", f"JU{frame}{self.place[0]}{self.channel}",
                f"TL{self.place[:2]}{self.channel}")

    def __str__(self):
        return f"{self.line}-{self.channel}-{self.place}"


class Reply(NamedTuple):
    """A job's end, the number of the trial that decided, its paths, and its cards: trials with faulty links."""

    end: str
    trial: int = 0
    paths: tuple = ()
    cards: tuple = ()


class Office:
    """A set of paths, on which jobs are done whole. No two paths share a line, a place or a link."""

    def __init__(self, plan):
        self.plan = plan
        self.of_line, self.of_place, self.links = {}, {}, set()

    def add(self, path):
        self.of_line[path.line] = self.of_place[path.place] = path
        self.links.update(path.links())

    def remove(self, path):
        del self.of_line[path.line], self.of_place[path.place]
        self.links.difference_update(path.links())

    def count(self):
        return len(self.of_line)

    def is_idle(self, member):
        return not any(place in self.of_place for place in member)

    def channel_test(self, line, place, start, taken=()):
        """The first path from the start on whose links are idle and not taken, or None."""
        for k in range(10):
            path = Path(line, (start + k) % 10, place)
            if not any(link in self.links or link in taken for link in path.links()):
                return path
        return None

    def trial(self, line, member, start, called):
        """The paths, none without a channel; and the first faulty link among them, or None."""
        calling = self.channel_test(line, member[0], start)
        paths = [calling]
        if calling and called:
            paths.append(self.channel_test(called, member[1], start, calling.links()))
        if None in paths:
            return (), None
        return tuple(paths), next((link for path in paths for link in path.links() if link in self.plan.faults), None)

    def two_trials(self, line, group, called, end):
        idle = [member for member in self.plan.members[group] if self.is_idle(member)]
        second = idle[1] if len(idle) > 1 else idle[0]
        cards = ()
        for number, member, start in ((1, idle[0], 0), (2, second, 5)):
            paths, faulty = self.trial(line, member, start, called)
            if faulty:
                cards += ((number, faulty),)
            elif paths:
                for path in paths:
                    self.add(path)
                return Reply(end, number, paths, cards)
        return Reply("TROUBLE" if cards else "NOPATH", cards=cards)

    def has_idle(self, group):
        return any(self.is_idle(member) for member in self.plan.members[group])

    def dial(self, line):
        if line in self.of_line:
            return Reply("LINEBUSY")
        if not self.has_idle(self.plan.registers):
            return Reply("REGISTERSBUSY")
        return self.two_trials(line, self.plan.registers, None, "DIALTONE")

    def complete(self, line, dialled):
        own = self.of_line.get(line)
        if not own or own.place not in self.plan.register_places:
            return Reply("NOREGISTER")
        self.remove(own)
        route, called = self.plan.codes.get(dialled[:3]), None
        if route is None:
            return Reply("VACANTCODE")
        if self.plan.kinds[route[0]] == "intra":
            lines = self.plan.numbers.get(dialled[3:])
            if lines is None:
                return Reply("VACANTNUMBER")
            called = next((it for it in lines if it != line and it not in self.of_line), None)
            if called is None:
                return Reply("CALLEDBUSY")
        group = next((it for it in route if self.has_idle(it)), None)
        if group is None:
            return Reply("TRUNKSBUSY")
        return self.two_trials(line, group, called, "CONNECTED")

    def release(self, line):
        own = self.of_line.get(line)
        if not own:
            return Reply("NOCALL")
        other = self.of_place.get(self.plan.other_place.get(own.place))
        paths = (own, other) if other else (own,)
        for path in paths:
            self.remove(path)
        return Reply("RELEASED", paths=paths)

    def do(self, kind, line, dialled=None):
        """Does a job whole: its kind is D, C or R."""
        if kind == "C":
            return self.complete(line, dialled)
        return self.dial(line) if kind == "D" else self.release(line)


def record_line(turn, number, marker, job, reply):
    """A record as a replay prints it; a job is its kind, its line and the digits of a call."""
    kind, line, *dialled = job
    paths = [str(path) for path in reply.paths] + ["-", "-"]
    return (f"{turn},{number},{marker},{kind},{line},{dialled[0] if dialled else '-'},{reply.end},{reply.trial or '-'},"
            f"{paths[0]},{paths[1]}")


def card_lines(turn, number, reply):
    return [f"TROUBLE,{turn},{number},{trial},{link}" for trial, link in reply.cards]


def counts(office):
    return [f"PATHS,{office.count()}", f"CLOSED,{4 * office.count()}"]


def text_of(plan, jobs):
    """The text of a replay that does these jobs whole, each with its number and its marker."""
    office, records, cards = Office(plan), [], []
    for turn, (number, marker, *job) in enumerate(jobs):
        reply = office.do(*job)
        records.append(record_line(turn, number, marker, job, reply))
        cards += card_lines(turn, number, reply)
    return "".join(f"{line}\n" for line in records + cards + counts(office))


def jobs_of(traffic):
    """The jobs of the J rows, each as number, marker, kind, line and, of a call, the digits."""
    for row in traffic.split("\n"):
        if row.startswith("J,"):
            _, marker, number, kind, args = row.split(",")
            yield (int(number), int(marker), kind, *args.split(" "))


def wrong_in(plan, text):
    """What is wrong with a text of records, or None: turns, replies and counts are judged, not markers and numbers."""
    office, expected, cards, lines = Office(plan), [], [], text.split("\n")
    for turn, line in enumerate(it for it in lines if it[:1].isdigit()):
        _, number, marker, kind, own, dialled, *_ = line.split(",")
        job = (kind, own) if dialled == "-" else (kind, own, dialled)
        reply = office.do(*job)
        expected.append(record_line(turn, number, marker, job, reply))
        cards += card_lines(turn, number, reply)
    for number, (found, wanted) in enumerate(zip(lines, expected + cards + counts(office) + [""]), 1):
        if found != wanted:
            return f"line {number}: expected {wanted}, found {found}"
    return None if len(lines) == len(expected + cards) + 3 else "the text doesn't end with its counts"


def main():
    with_audit = sys.argv[2:] == ["--audit"]
    if len(sys.argv) < 2 or sys.argv[2:] and not with_audit:
        sys.exit(__doc__)
    text = EXAMPLE
    if sys.argv[1] != "example":
        with open(sys.argv[1], encoding="utf-8") as it:
            text = it.read()
    if with_audit:
        sys.exit(wrong_in(Plan(text), sys.stdin.read()))
    sys.stdout.write(text_of(Plan(text), jobs_of(sys.stdin.read())))


if __name__ == "__main__":
    main()
