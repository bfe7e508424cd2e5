"""The native program, which says what the page should show."""

import json, os, subprocess, tempfile

EXAMPLE_PLAN = """version = 1
groups = ["REG register 417 418 509", "INTRA intra 600-601 700-711", "OUTA outgoing 800", "OUTB outgoing 801 902"]
numbers = ["0001 3041", "0002 3052", "0003 1000", "0004 3100"]
codes = ["234 INTRA", "555 OUTA OUTB"]
faults = []
"""
ON_ROWS = {"replay", "walk", "look"}


class Program:
    """The program at a path. Each call runs it once."""

    def __init__(self, path):
        self.path = path

    def answer(self, command, plan, kinds, given, *form):
        """The status and the standard output of a command."""
        with tempfile.NamedTemporaryFile("w", suffix=".toml", encoding="utf-8") as file:
            file.write(plan)
            file.flush()
            words = [self.path, command, "--plan", file.name, *form]
            if command in ON_ROWS:
                words += ["--markers", kinds]
            done = subprocess.run(words, input=given.encode(), capture_output=True, timeout=600)
        return done.returncode, done.stdout.decode()

    def look(self, plan, kinds, rows):
        """The office after rows as an object, or the fault line if they are refused."""
        status, text = self.answer("look", plan, kinds, rows, "--json")
        return json.loads(text) if status == 0 else text.strip()

    def replay(self, plan, kinds, rows):
        return self.answer("replay", plan, kinds, rows)[1]

    def verdict(self, plan, records):
        """The first line of an audit's answer."""
        return self.answer("audit", plan, "", records)[1].split("\n")[0]


def records_text(look):
    """The records and trouble cards of a look, as a run writes them, without counts."""
    def record(it):
        job = it["job"]
        parts = [it["turn"], job["number"], it["marker"], job["kind"], job["line"], job["dialled"], it["end"],
                 it["trial"], it["path"], it["other"]]
        return ",".join("-" if part is None else str(part) for part in parts) + "\n"

    def card(it, card):
        return f"TROUBLE,{it['turn']},{it['job']['number']},{card['trial']},{card['link']}\n"

    records = look["records"]
    return "".join(map(record, records)) + "".join(card(it, one) for it in records for one in it["cards"])


def ready(path):
    """Whether the program can be run at once: bin/crossbar5 would first compile for minutes if it isn't built."""
    state = os.path.join(os.path.dirname(os.path.realpath(path)), "build")
    if os.path.basename(path) != "crossbar5" or not os.path.exists(state):
        return os.access(path, os.X_OK)
    return subprocess.run([state, "--state"], capture_output=True, text=True).stdout.strip() == "built"
