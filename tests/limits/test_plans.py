"""The largest plan by file, and plans with one more of each thing, which are refused with a sentence."""

import inputs
from process import ProgramTest, fault

MORE = {
    "groups": [*inputs.GROUPS, "MORE outgoing 999"],
    "numbers": [*inputs.NUMBERS, "3000 3041"],
    "codes": [*inputs.CODES, "999 IN1"],
    "faults": [*inputs.FAULTS, "LL000"],
}


def larger(items, place, more):
    """The list with one item that has one part more."""
    return items[:place] + [f"{items[place]} {more}"] + items[place + 1:]


class Plans(ProgramTest):
    def refused(self, rule, **lists):
        """Checks that a plan with these lists is refused by this rule, with one sentence; gives the sentence."""
        self.write("plan.toml", inputs.plan_text(**lists))
        ended = self.run_here("replay", "--plan", "plan.toml", data=b"")
        self.assertEqual((ended.status, ended.output), (3, fault(rule)))
        sentence = ended.errors.decode()
        self.assertTrue(sentence.startswith("crossbar5: plan.toml: "), sentence)
        self.assertTrue(sentence.endswith(f" ({rule})\n"), sentence)
        self.assertEqual(sentence.count("\n"), 1)
        return sentence

    def test_largest(self):
        """Its sizes are those that FORMATS allows; what replays make of it is compared in test_replays."""
        self.assertEqual([len(it) for it in (inputs.GROUPS, inputs.NUMBERS, inputs.CODES, inputs.FAULTS)],
                         [16, 3000, 64, 100])
        self.assertEqual({len(it.split(" ")) - 2 for it in inputs.GROUPS}, {40})
        self.assertEqual({len(it.split(" ")) - 1 for it in inputs.NUMBERS}, {10})
        self.assertEqual({len(it.split(" ")) - 1 for it in inputs.CODES}, {4})
        self.write("plan.toml", inputs.plan_text())
        self.expect(["replay", "--plan", "plan.toml"], 0, b"PATHS,0\nCLOSED,0\n")

    def test_an_item_too_many(self):
        """A sentence has the limit and the number that was found."""
        for name, limit in (("groups", 16), ("numbers", 3000), ("codes", 64), ("faults", 100)):
            with self.subTest(name):
                sentence = self.refused("P6", **{name: MORE[name]})
                for part in (name, str(limit), str(limit + 1)):
                    self.assertIn(part, sentence)

    def test_a_part_too_many(self):
        for name, items, place, more, limit in (
            ("groups", inputs.GROUPS, 15, "999", 40), ("groups", inputs.GROUPS, 3, "998-999", 40),
            ("numbers", inputs.NUMBERS, 2999, "3041", 10), ("codes", inputs.CODES, 63, "IN1", 4),
        ):
            with self.subTest(f"{name}, item {place}"):
                sentence = self.refused("P6", **{name: larger(items, place, more)})
                self.assertIn(str(limit), sentence)
                self.assertIn(str(limit + 1), sentence)

    def test_names(self):
        """A name has one to eight characters."""
        groups = ["REG register 000", "ABCDEFG8 outgoing 001"]
        self.write("plan.toml", inputs.plan_text(groups=groups, codes=["100 ABCDEFG8"]))
        self.expect(["replay", "--plan", "plan.toml"], 0, b"PATHS,0\nCLOSED,0\n")
        self.refused("P5", groups=["REG register 000", "ABCDEFGH9 outgoing 001"], codes=[])

    def test_a_fault_at_the_end_of_a_long_plan(self):
        """A sentence comes for a plan of any length."""
        for rule, lists in (("P5", {"faults": [*inputs.FAULTS[:99], "LL3060"]}),
                            ("P11", {"numbers": [*inputs.NUMBERS[:2999], "0000 3041"]}),
                            ("P13", {"codes": [*inputs.CODES[:63], "999 NONE"]}),
                            ("P14", {"codes": [*inputs.CODES[:63], "999 IN1 OUT6"]})):
            with self.subTest(rule):
                self.refused(rule, **lists)

    def test_a_document_that_breaks_off(self):
        """P1 with its line, more than 3,000 lines down."""
        text = inputs.plan_text()
        cut = text.rindex('"')
        self.write("plan.toml", text[:cut])
        ended = self.run_here("replay", "--plan", "plan.toml")
        self.assertEqual((ended.status, ended.output), (3, fault("P1")))
        self.assertIn(f"line {text[:cut].count(chr(10)) + 1}", ended.errors.decode())

    def test_long_comments(self):
        """A plan of more than 2 MB, most of it comments, is a plan."""
        comment = "# " + "x" * 98 + "\n"
        self.write("plan.toml", comment * 25_000 + inputs.plan_text())
        self.expect(["replay", "--plan", "plan.toml"], 0, b"PATHS,0\nCLOSED,0\n")
