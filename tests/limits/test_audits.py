"""Audits of all records of 10,000 jobs, some 480 KB, right and with one thing wrong near the end."""

import inputs
from process import ProgramTest, fault


class Audits(ProgramTest):
    def setUp(self):
        super().setUp()
        self.write("full.toml", inputs.plan_text())
        self.words = ["audit", "--plan", "full.toml"]
        self.text = inputs.records()
        lines = self.text.split("\n")
        self.records = [line for line in lines if line[:1].isdigit()]
        self.counts = "".join(f"{line}\n" for line in lines[-3:-1])

    def test_legal(self):
        self.assertGreater(len(self.text), 400_000)
        answer = f"AUDIT,LEGAL,{inputs.JOBS}\n{self.counts}".encode()
        self.expect(self.words, 0, answer, data=self.text.encode())
        self.expect(self.words, 0, answer, data=self.text.removesuffix(self.counts).encode())

    def test_wrong_counts(self):
        text = self.text.removesuffix(self.counts) + "PATHS,0\nCLOSED,0\n"
        self.expect(self.words, 7, f"AUDIT,COUNTS\n{self.counts}".encode(), data=text.encode())

    def test_wrong_reply(self):
        """Of the last job that found no call; that record then stands twice, as given and as it must be."""
        turn = max(k for k, record in enumerate(self.records) if record.split(",")[6] == "NOCALL")
        wrong = self.records[turn].replace("NOCALL", "LINEBUSY")
        text = self.text.replace(self.records[turn], wrong)
        answer = f"AUDIT,REPLY,{turn}\n{wrong}\n{self.records[turn]}\n"
        self.assertGreater(turn, 9000)
        self.expect(self.words, 7, answer.encode(), data=text.encode())

    def test_wrong_turn(self):
        last = self.records[-1]
        text = self.text.replace(last, last.replace("9999,", "10000,", 1))
        self.expect(self.words, 7, b"AUDIT,TURNS,9999\n", data=text.encode())

    def test_a_line_that_is_no_record(self):
        """The line after the last record is neither a record, a card nor a count."""
        place = len(self.records) + 1
        lines = self.text.split("\n")
        text = "\n".join(lines[:place - 1] + ["RECORD"] + lines[place - 1:])
        sentence = (f'crossbar5: records line {place}, "RECORD": expected a record, and after all records their trouble cards '
                    "and counts (U1)\n")
        self.expect(self.words, 4, fault(f"U1,{place}"), sentence.encode(), data=text.encode())
