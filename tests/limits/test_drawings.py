"""Drawings and pages of all records of 10,000 jobs, compared with examples/drawing_model.py."""

import re

import inputs
import drawing_model
from process import ProgramTest


class Drawings(ProgramTest):
    def setUp(self):
        super().setUp()
        self.write("full.toml", inputs.plan_text())
        self.plan = drawing_model.Plan(inputs.plan_text())

    def drawn(self, text, *words):
        """What the program makes of records."""
        # A page of all turns takes seconds, and on a busy machine minutes.
        ended = self.run_here(*words, "--plan", "full.toml", data=text.encode(), timeout=600)
        self.assertEqual((ended.status, ended.errors), (0, b""))
        return ended.output.decode()

    def check(self, expected, found):
        """Compares two long texts, and tells the first line that differs."""
        if found != expected:
            lines = zip(expected.split("\n"), found.split("\n"))
            place, pair = next(((k, it) for k, it in enumerate(lines, 1) if it[0] != it[1]), (0, "one is longer"))
            self.fail(f"line {place}: {pair}")

    def test_drawing(self):
        records = drawing_model.read(inputs.records())
        self.check(drawing_model.svg(self.plan, records), self.drawn(inputs.records(), "draw"))

    def test_text(self):
        records = drawing_model.read(inputs.records())
        found = self.drawn(inputs.records(), "draw", "--text")
        self.check(drawing_model.text(self.plan, records), found)
        self.assertLessEqual(max(map(len, found.split("\n"))), 80)

    def test_page(self):
        """1,500 turns are compared with the model; of all 10,000 what is there is counted."""
        text = "".join(f"{line}\n" for line in inputs.records().split("\n")[:1500])
        cards = inputs.records(1500).split("\n")[1500:-3]
        text += "".join(f"{line}\n" for line in cards)
        page = drawing_model.page(self.plan, drawing_model.read(text))
        self.check(page, self.drawn(text, "page"))

    def test_page_of_all_turns(self):
        text = inputs.records()
        page = self.drawn(text, "page")
        records = [line for line in text.split("\n") if line[:1].isdigit()]
        turns = re.findall('<section id="turn([0-9]+)">', page)
        self.assertEqual(turns, [str(turn) for turn in range(inputs.JOBS)])
        self.assertEqual(page.count("<section id="), inputs.JOBS + 1)
        set_up = sum(1 + (record.split(",")[9] != "-") for record in records
                     if record.split(",")[6] in ("DIALTONE", "CONNECTED"))
        self.assertEqual(page.count("<g data-from="), set_up)
        up = int(text.split("\n")[-3].split(",")[1])
        self.assertEqual(page.count(" data-until="), set_up - up)
        self.assertEqual(page.count('<li class="trouble">'), text.count("\nTROUBLE,"))
        self.assertIn(f"paths: {up}, crosspoints closed: {4 * up}<", page)
