"""The most live calls, by the most markers, judged by the audit and by examples/office_model.py."""

import inputs
import office_model
from process import CALL, CALLED, ProgramTest, fault

CALLS = 10_000


def calls():
    """Calls 0 to 9999 from 3,000 lines, each third kept, inside the office, outside, and to nobody."""
    rows = []
    for call in range(CALLS):
        code = 100 + call % 65
        hold = "K" if call % 30 == 0 else "R"
        rows.append(f"C,{call},{inputs.line(call % 3000)},{code}{call * 7 % 3050:04},{hold}\n")
    return "".join(rows)


def dialled(records):
    """The calls that were dialled: the number of a dial tone job is three times its call's."""
    fields = (record.split(",") for record in records.split("\n") if record[:1].isdigit())
    return sorted(int(job) // 3 for _, job, _, kind, *_ in fields if kind == "D")


class Live(ProgramTest):
    def setUp(self):
        super().setUp()
        self.write("full.toml", inputs.plan_text())

    def test_all_calls(self):
        data = calls().encode()
        for dial, completing in ((1, 1), (24, 24), (1, 47), (47, 1)):
            words = ["live", "--plan", "full.toml", "--dial", str(dial), "--completing", str(completing)]
            with self.subTest(" ".join(words)):
                ended = self.run_here(*words, data=data)
                self.assertEqual((ended.status, ended.errors), (0, b""))
                self.assert_legal(ended.output.decode())

    def assert_legal(self, records):
        self.assertEqual(dialled(records), list(range(CALLS)))
        self.assertIsNone(office_model.wrong_in(inputs.full_plan(), records))
        lines = records.split("\n")
        count = sum(line[:1].isdigit() for line in lines)
        answer = "".join(f"{line}\n" for line in [f"AUDIT,LEGAL,{count}", *lines[-3:-1]])
        self.expect(["audit", "--plan", "full.toml"], 0, answer.encode(), data=records.encode())

    def test_a_call_too_many(self):
        sentence = (b'crossbar5: traffic line 10001 (row 10001), field 2 "10000": expected a number from 0 to 9999 without '
                    b"leading zeros (T3)\n")
        data = calls().encode() + b"C,10000,3041,5551234,R\n"
        self.expect(["live", "--plan", "full.toml"], 4, fault("T3,10001"), sentence, data=data)

    def test_last_call(self):
        expected = CALLED
        for before, after in ((b"0,21,", b"0,29997,"), (b"1,22,", b"1,29998,"), (b"2,23,", b"2,29999,")):
            expected = expected.replace(before, after)
        self.expect(["live"], 0, expected, data=CALL.replace(b"7", b"9999", 1))

    def test_a_marker_too_many(self):
        self.expect(["live", "--dial", "47", "--completing", "1"], 0, b"PATHS,0\nCLOSED,0\n")
        errors = fault("MARKERS") + (b"crossbar5: --dial 47 --completing 2: expected at most 48 markers in all, at least "
                                     b"one of each kind\n")
        self.expect(["live", "--dial", "47", "--completing", "2"], 2, errors=errors)
