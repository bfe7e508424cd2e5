"""Replays of the most jobs, markers and rows, under the largest plan; and one more of each. What comes of jobs that are
done whole is worked out by examples/office_model.py; of jobs whose steps mix it is a legal history, by the model and by
the program's own audit."""

import random

import inputs
import office_model
from process import DIAL, DIALLED, ProgramTest, fault

# Of the jobs whose steps mix, how many there are, and how many are given at a time.
MIXED, AT_A_TIME = 3000, 24


def mixed_rows(jobs):
    """Rows that give jobs to many markers at a time. At first each makes a few steps now and then; then come so many
    that each ends its job, also those that others make begin anew."""
    chance, rows = random.Random(3), []
    for at in range(0, len(jobs), AT_A_TIME):
        given = list({job[1]: job for job in jobs[at:at + AT_A_TIME]}.values())
        rows += [inputs.job_row(*job) for job in given]
        rows += [f"S,{chance.choice(given)[1]},{chance.randrange(20)},,\n" for _ in range(3 * len(given))]
        for _ in range(15):
            rows += [f"S,{job[1]},{chance.randrange(100, 300)},,\n" for job in chance.sample(given, len(given))]
    return rows


class Replays(ProgramTest):
    def setUp(self):
        super().setUp()
        self.write("full.toml", inputs.plan_text())
        self.words = ["replay", "--plan", "full.toml", "--markers", inputs.KINDS]

    def test_all_jobs_done_whole(self):
        """10,000 jobs by 48 markers under the largest plan, in 20,000 rows."""
        jobs = inputs.jobs()
        self.assertEqual((len(jobs), len({job[1] for job in jobs})), (inputs.JOBS, inputs.MARKERS))
        self.expect(self.words, 0, inputs.records().encode(), data=inputs.done_whole(jobs).encode())

    def test_every_end_comes(self):
        """The jobs above have every end that OFFICE lists but one, which stands in the test below."""
        ends = {record.split(",")[6] for record in inputs.records().split("\n") if record[:1].isdigit()}
        self.assertEqual(ends, {"DIALTONE", "LINEBUSY", "REGISTERSBUSY", "CONNECTED", "NOREGISTER", "VACANTCODE",
                                "VACANTNUMBER", "CALLEDBUSY", "TRUNKSBUSY", "TROUBLE", "NOPATH", "RELEASED", "NOCALL"})

    def test_more_rows(self):
        """More than 30,000 rows: after each job's steps a row of an idle marker, which changes nothing."""
        rows = "".join(inputs.job_row(*job) + f"S,{job[1]},128,,\nS,{job[1]},9999,,\n" for job in inputs.jobs())
        self.assertEqual(rows.count("\n"), 3 * inputs.JOBS)
        self.expect(self.words, 0, inputs.records().encode(), data=rows.encode())

    def test_steps_that_mix(self):
        """Jobs of many markers at a time, stepped in a random order, so that they meet."""
        rows = mixed_rows(inputs.jobs()[:MIXED])
        ended = self.run_here(*self.words, data="".join(rows).encode())
        self.assertEqual((ended.status, ended.errors), (0, b""))
        records = ended.output.decode()
        self.assertIsNone(office_model.wrong_in(inputs.full_plan(), records))
        count = sum(record[:1].isdigit() for record in records.split("\n"))
        self.assertEqual(count, sum(row.startswith("J") for row in rows))
        legal = f"AUDIT,LEGAL,{count}\n" + "".join(f"{it}\n" for it in records.split("\n")[-3:-1])
        self.expect(["audit", "--plan", "full.toml"], 0, legal.encode(), data=ended.output)

    def test_example_plan(self):
        """10,000 jobs of the example plan by two markers: every end is worked out."""
        jobs = inputs.example_jobs(inputs.JOBS)
        expected = office_model.text_of(office_model.Plan(office_model.EXAMPLE), jobs)
        self.expect(["replay"], 0, expected.encode(), data=inputs.done_whole(jobs).encode())

    def test_a_job_too_many(self):
        """Job numbers end with 9999: another job has a number that is too large, or that was used."""
        rows = inputs.done_whole(inputs.jobs())
        for more, line, sentence in (
            ("J,0,10000,D,3041\n", "T3,20001", 'field 3 "10000": expected a number from 0 to 9999 without leading zeros (T3)'),
            ("J,0,0,D,3041\n", "T4,20001", 'field 3 "0": duplicate number, first used on line 1 (row 1) (T4)'),
        ):
            with self.subTest(line):
                sentence = f"crossbar5: traffic line 20001 (row 20001), {sentence}\n".encode()
                self.expect(self.words, 4, fault(line), sentence, data=(rows + more).encode())

    def test_a_fault_in_a_late_row(self):
        """A sentence tells of a fault in row 101, 1,001 and 10,001 as of one in the first row."""
        for row in (101, 1001, 10001):
            with self.subTest(row):
                sentence = f"crossbar5: traffic line {row} (row {row}): expected 5 fields, found 4 (T1)\n".encode()
                self.expect(["replay"], 4, fault(f"T1,{row}"), sentence, data=b"S,0,1,,\n" * (row - 1) + b"J,0,1,D\n")

    def test_a_marker_too_many(self):
        sentence = b"crossbar5: --markers " + b"X" * 40 + b"..: expected 1 to 48 letters, found 49\n"
        self.expect(["replay", "--markers", "X" * 48], 0, DIALLED, data=DIAL)
        self.expect(["replay", "--markers", "X" * 49], 2, errors=fault("MARKERS") + sentence, data=DIAL)

    def test_last_marker(self):
        """Marker 47 is there and marker 48 is not; rows may name up to 99."""
        words = ["replay", "--markers", "X" * 48]
        self.expect(words, 0, DIALLED.replace(b"0,1,0,D", b"0,1,47,D"), data=b"J,47,1,D,3041\nS,47,96,,\n")
        for marker, line, cause in ((48, "T5,1,C1", "the office has no such marker (T5, C1)"),
                                    (99, "T5,1,C1", "the office has no such marker (T5, C1)"),
                                    (100, "T3,1", "expected a number from 0 to 99 without leading zeros (T3)")):
            with self.subTest(marker):
                sentence = f'crossbar5: traffic line 1 (row 1), field 2 "{marker}": {cause}\n'.encode()
                self.expect(words, 4, fault(line), sentence, data=f"J,{marker},1,D,3041\n".encode())

    def test_steps_of_a_row(self):
        """A row makes up to 9,999 steps."""
        self.expect(["replay"], 0, DIALLED, data=b"J,0,1,D,3041\nS,0,9999,,\n")
        sentence = (b'crossbar5: traffic line 2 (row 2), field 3 "10000": expected a number from 0 to 9999 without leading '
                    b"zeros (T3)\n")
        self.expect(["replay"], 4, fault("T3,2"), sentence, data=b"J,0,1,D,3041\nS,0,10000,,\n")
