"""Each command with each exit status that it can have, and both outputs exactly, as docs/FORMATS.md says in 'Fault lines
and exit statuses'."""

import resource

from process import CALL, CALLED, DIAL, DIALLED, Ended, ProgramTest, fault

# A command, and an input that it takes.
TASKS = {
    "replay": DIAL, "walk": DIAL, "walk --short": DIAL, "walk --json": DIAL, "look": DIAL, "look --words": DIAL,
    "look --json": DIAL, "look --svg": DIAL, "live": CALL, "audit": DIALLED, "draw": DIALLED, "draw --text": DIALLED,
    "page": DIALLED,
}
# Those whose standard output has nothing but a drawing or a page.
DRAWINGS = ("draw", "draw --text", "page")
ON_RECORDS = ("audit", *DRAWINGS)
REFUSED_PLAN = "version = 3\n"
ON_PLAN = b"crossbar5: town.toml: version: expected 1 or 2, found 3 (P2)\n"
ON_ROW = b"crossbar5: traffic line 1 (row 1): expected 5 fields, found 4 (T1)\n"
ON_RECORD = (b'crossbar5: records line 1, "0,1,0,D,3041": expected a record, and after all records their trouble '
             b"cards and counts (U1)\n")
WRONG = b"0,1,0,D,3041,-,NOPATH,-,-,-\n"
RIGHT = b"0,1,0,D,3041,-,DIALTONE,1,3041-0-417,-\n"
NOT_DRAWN = (b"crossbar5: nothing is drawn, since the records are wrong under this plan; if they were made with another, "
             b"name it with --plan\n")
# Of address space: enough to begin with, and too little for the input.
SMALL = 64 << 20


def without_memory():
    resource.setrlimit(resource.RLIMIT_AS, (SMALL, SMALL))


def each(commands=TASKS):
    """Each command, with its words."""
    for command in commands:
        yield command, command.split(" ")


class Statuses(ProgramTest):
    def placed(self, command, lines, sentence):
        """Where a fault line goes, before its sentence: for a drawing or a page to standard error."""
        if command in DRAWINGS:
            return {"output": b"", "errors": lines + sentence}
        return {"output": lines, "errors": sentence}

    def test_0_done(self):
        for command, words in each():
            with self.subTest(command):
                ended = self.run_here(*words, data=TASKS[command])
                self.assertEqual((ended.status, ended.errors), (0, b""))
                self.assertTrue(ended.output.endswith(b"\n"))
                if command == "replay":
                    self.assertEqual(ended.output, DIALLED)
                if command == "live":
                    self.assertEqual(ended.output, CALLED)

    def test_2_markers(self):
        for command, words in each(it for it in TASKS if it.startswith(("replay", "walk", "look"))):
            with self.subTest(command):
                errors = fault("MARKERS") + b'crossbar5: --markers XY: letter 2 is "Y"; expected D, C or X\n'
                self.expect([*words, "--markers", "XY"], 2, errors=errors, data=DIAL)
        errors = fault("MARKERS") + (b"crossbar5: --dial 24 --completing 25: expected at most 48 markers in all, "
                                     b"at least one of each kind\n")
        self.expect(["live", "--dial", "24", "--completing", "25"], 2, errors=errors, data=CALL)

    def test_2_words(self):
        for command, words in each():
            with self.subTest(command):
                ended = self.run_here(*words, "stray", data=TASKS[command])
                self.assertEqual((ended.status, ended.output), (2, b""))
                self.assertTrue(ended.errors.startswith(b"error: unexpected argument 'stray' found\n\nUsage: crossbar5 "))

    def test_3_plan(self):
        self.write("town.toml", REFUSED_PLAN)
        for command, words in each():
            with self.subTest(command):
                expected = self.placed(command, fault("P2"), ON_PLAN)
                self.expect([*words, "--plan", "town.toml"], 3, **expected, data=TASKS[command])

    def test_4_traffic(self):
        for command, words in each(it for it in TASKS if it not in ON_RECORDS):
            with self.subTest(command):
                data = b"C,7,3041,5551234\n" if command == "live" else b"J,0,1,D\n"
                self.expect(words, 4, fault("T1,1"), ON_ROW, data=data)

    def test_4_cause_of_t5(self):
        sentence = b'crossbar5: traffic line 1 (row 1), field 2 "2": the office has no such marker (T5, C1)\n'
        self.expect(["replay"], 4, fault("T5,1,C1"), sentence, data=b"J,2,1,D,3041\n")

    def test_4_records(self):
        for command, words in each(ON_RECORDS):
            with self.subTest(command):
                expected = self.placed(command, fault("U1,1"), ON_RECORD)
                self.expect(words, 4, **expected, data=b"0,1,0,D,3041\n")

    def test_5_memory(self):
        """An input that doesn't fit: FAULT,MEMORY alone, and nothing on standard output."""
        data = b"\n" * (2 * SMALL)
        for command, words in each():
            with self.subTest(command):
                self.expect(words, 5, errors=fault("MEMORY"), data=data, preexec_fn=without_memory)

    def test_5_memory_not_used_up(self):
        """With the same limit a small input is answered."""
        self.expect(["replay"], 0, DIALLED, data=DIAL, preexec_fn=without_memory)

    def test_6_device(self):
        for command, words in each():
            with self.subTest(command):
                errors = fault("DEVICE") + b"crossbar5: cannot read the plan town.toml: No such file or directory (os error 2)\n"
                self.expect([*words, "--plan", "town.toml"], 6, errors=errors, data=TASKS[command])

    def test_7_reply(self):
        for command, words in each(ON_RECORDS):
            with self.subTest(command):
                answer = b"AUDIT,REPLY,0\n" + WRONG + RIGHT
                self.expect(words, 7, **self.placed(command, answer, NOT_DRAWN if command in DRAWINGS else b""), data=WRONG)

    def test_7_turns(self):
        for command, words in each(ON_RECORDS):
            with self.subTest(command):
                expected = self.placed(command, b"AUDIT,TURNS,0\n", NOT_DRAWN if command in DRAWINGS else b"")
                self.expect(words, 7, **expected, data=b"1" + RIGHT[1:])

    def test_7_counts(self):
        for command, words in each(ON_RECORDS):
            with self.subTest(command):
                expected = self.placed(command, b"AUDIT,COUNTS\nPATHS,1\nCLOSED,4\n", NOT_DRAWN if command in DRAWINGS else b"")
                self.expect(words, 7, **expected, data=RIGHT + b"PATHS,2\nCLOSED,8\n")

    def test_no_command(self):
        self.assertEqual(self.run_here(data=DIAL), Ended(0, DIALLED, b""))
