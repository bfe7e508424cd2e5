"""Looks at offices of 9 and of 48 markers, in words and as JSON, compared with examples/look_model.py."""

import json
import random

import inputs
import look_model
from process import EXAMPLE_PLAN, ProgramTest


def rows(count, kinds, seed):
    """Rows in which each marker gets a job, and some make steps: so many of them meet."""
    chance, made = random.Random(seed), []
    for marker in range(count):
        kind = chance.choice(inputs.TAKES[kinds[marker]])
        digits = (chance.choice(["2340002", "5551234", "9990000"]),) if kind == "C" else ()
        made.append(inputs.job_row(marker, marker, kind, chance.choice(["3041", "3052", "1000", "3100", "3042"]), *digits))
    made += [f"S,{chance.randrange(count)},{chance.choice([1, 2, 3, 5, 8, 13, 21])},,\n" for _ in range(2 * count)]
    return made


class Looks(ProgramTest):
    def test_many_markers(self):
        for count in (9, 10, 48):
            kinds = inputs.KINDS[:count]
            made = rows(count, kinds, count)
            for end in (count // 2, count, len(made)):
                with self.subTest(f"{count} markers, {end} rows"):
                    self.check("".join(made[:end]), kinds)

    def check(self, text, kinds):
        expected = look_model.look(text, EXAMPLE_PLAN, kinds)
        words = ["look", "--markers", kinds]
        ended = self.run_here(*words, "--json", data=text.encode())
        self.assertEqual((ended.status, ended.errors), (0, b""))
        found = json.loads(ended.output)
        self.assertEqual(list(found), list(expected))
        for name, value in expected.items():
            self.assertEqual(found[name], value, name)
        self.expect([*words, "--words"], 0, look_model.words_of(expected).encode(), data=text.encode())

    def test_full_plan(self):
        """The largest plan as JSON: its numbers, codes, groups and faults, in their order."""
        self.write("full.toml", inputs.plan_text())
        ended = self.run_here("look", "--json", "--plan", "full.toml")
        self.assertEqual((ended.status, ended.errors), (0, b""))
        plan = json.loads(ended.output)["plan"]
        self.assertEqual([f"{it['number']} {' '.join(it['lines'])}" for it in plan["numbers"]], inputs.NUMBERS)
        self.assertEqual(plan["faults"], inputs.FAULTS)
        self.assertEqual([f"{it['name']} {it['kind']} {' '.join('-'.join(member) for member in it['members'])}"
                          for it in plan["groups"]], inputs.GROUPS)
        names = [it.split(" ")[0] for it in inputs.GROUPS]
        self.assertEqual([f"{it['code']} {' '.join(names[group] for group in it['groups'])}" for it in plan["codes"]],
                         inputs.CODES)
