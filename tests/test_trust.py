#!/usr/bin/env python3
"""Tests that README prints the law as its source has it, that docs/TRUST.md has the figures that bin/trust counts, and
that its lines to break are wrong bodies: test_trust.py"""

import importlib.machinery
import importlib.util
import os
import pathlib
import re
import sys
import unittest

sys.dont_write_bytecode = True
HERE = os.path.dirname(os.path.realpath(__file__))
ROOT = pathlib.Path(HERE).parent
sys.path.insert(0, HERE)
import report  # noqa: E402


def loaded():
    """bin/trust as a module."""
    loader = importlib.machinery.SourceFileLoader("trust", str(ROOT / "bin/trust"))
    module = importlib.util.module_from_spec(importlib.util.spec_from_loader("trust", loader))
    loader.exec_module(module)
    return module


TRUST = loaded()
README = (ROOT / "README.md").read_text()
PAGE = (ROOT / "docs/TRUST.md").read_text()
# What the section of README prints, in its order.
PRINTED = ["crates/turns/src/laws.rt", "crates/turns/specs/Law.antt"]


def section(text, name):
    """The text below a heading, up to the next one."""
    return text.split(f"\n## {name}\n", 1)[1].split("\n## ", 1)[0]


def blocks(text):
    """What stands between fences."""
    return re.findall(r"^```\n(.*?)^```$", text, re.M | re.S)


class Law(unittest.TestCase):
    def test_printed_as_it_stands(self):
        printed = blocks(section(README, "The theorem"))
        self.assertEqual(len(printed), len(PRINTED))
        for text, file in zip(printed, PRINTED):
            with self.subTest(file):
                self.assertEqual((ROOT / file).read_text().count("\n" + text), 1)

    def test_of_the_law(self):
        # The two fields are of `Lawful` itself, not of another record.
        law = (ROOT / PRINTED[1]).read_text()
        record = law[law.index("pub record Lawful"):].split("\n\n", 1)[0]
        self.assertIn(blocks(section(README, "The theorem"))[1], record + "\n")

    def test_short(self):
        self.assertLessEqual(len(section(README, "The theorem").strip().split("\n")) + 2, 35)

    def test_limits(self):
        sharings = (ROOT / "crates/turns/specs/Sharings.antt").read_text()
        most = re.findall(r"^abbrev pub (\w+) : Sharing$.*?^  most = (.*?);$", sharings, re.M | re.S)
        for name, number in most:
            with self.subTest(name):
                shown = number.replace(" ^ ", "^")
                self.assertIn(f"up to {shown} with `{name}`", section(README, "The theorem"))
        self.assertEqual(len(most), 2)


class Figures(unittest.TestCase):
    def test_tables(self):
        for name, rows in TRUST.ON_PAGE.items():
            with self.subTest(name):
                table = [line for line in section(PAGE, name).split("\n") if line.startswith("| ")][1:]
                self.assertEqual(table, rows(), "bin/trust write puts it there")

    def test_each_crate_has_a_layer(self):
        listed = {name for name in re.findall(r"^(\w+)[^:\n#]*:", (ROOT / "crates.txt").read_text(), re.M)}
        of_crate = TRUST.layers()
        self.assertEqual(set(of_crate), listed)
        self.assertEqual(set(of_crate.values()), {kind for kinds in TRUST.GROUPS.values() for kind in kinds})

    def test_handles(self):
        self.assertEqual((ROOT / "HANDLES").read_text(), "Handles allowed: Threads, Wait.\n")
        self.assertIn(f"{TRUST.waits()} functions may wait", PAGE)

    def test_model(self):
        lines = len((ROOT / "examples/office_model.py").read_text().splitlines())
        self.assertIn(f"in {lines} lines of Python", PAGE)


class LinesToBreak(unittest.TestCase):
    ROW = re.compile(r"^\| `(\w+)/(src/\S+)` \| `(.*)` → `(.*)` \| (.*) \|$", re.M)

    def test_wrong_bodies(self):
        rows = self.ROW.findall(PAGE)
        self.assertEqual(len(rows), 3)
        for crate, file, old, new, clause in rows:
            with self.subTest(file):
                wanted = f"file: {file}\nold: {old}\nnew: {new}\n"
                edits = [
                    re.sub(r"^(old|new): +", r"\1: ", edit.read_text(), flags=re.M)
                    for edit in (ROOT / "crates" / crate / "must-fail").glob("*.edit")
                ]
                self.assertIn(wanted, [edit.rstrip("\n") + "\n" for edit in edits])
                source = (ROOT / "crates" / crate / file).read_text()
                self.assertEqual(source.count(old), 1)
                if clause.startswith("`ensures"):
                    self.assertIn(clause.split("`")[1], source)


class Counting(unittest.TestCase):
    def test_clauses(self):
        for text, count in [
            ("ghost use a.{b};\nfn f()\n    ensures { x }\n{\n    g();\n}\n", 2),
            ("fn f()\n    requires a { x\n        → y }\n    ensures { z }\n{}\n", 3),
            ("trait T {\n    ghost S: { Type 0 };\n\n    fn f();\n}\n", 1),
            ("// requires\nfn f() {}\n", 0),
            ("fn f() -> bool {\n    let ensures_all = true;\n    ensures_all\n}\n", 0),
        ]:
            with self.subTest(text):
                self.assertEqual(TRUST.clause_lines(text), count)

    def test_verdict(self):
        lines = [
            "axioms low: none reached of the 2 declared",
            "logic=proved functions=1 sum=1",
            "axioms libc: libc::read (1 of the 2 declared)",
            "logic=proved functions=2 axioms=1 sum=1",
            "logic=proved functions=3 sum=1",
        ]
        self.assertEqual(TRUST.verdict_in(lines), ([lines[2]], lines[3]))
        self.assertIsNone(TRUST.verdict_in(lines[:2]))

    def test_atomic_instructions(self):
        listing = [
            "  401000:\tlock xadd %rax,(%rdi)",
            "  401004:\tlock cmpxchg %rsi,(%rdi)",
            "  401008:\txchg   %rax,(%rdi)",
            "  40100c:\txchg   %ax,%ax",
            "  40100e:\tmfence",
            "  401010:\tmov    (%rdi),%rax",
        ]
        self.assertEqual(
            dict(TRUST.atomic_in(listing)), {"lock xadd": 1, "lock cmpxchg": 1, "xchg": 1, "mfence": 1}
        )

    def test_rows(self):
        page = "a\n## One\n\n| x |\n|---|\n| 1 |\n\n## Two\n\n| y |\n|---|\n| 2 |\n| 3 |\n"
        self.assertEqual(TRUST.with_rows(page, "Two", ["| 4 |"]), page.replace("| 2 |\n| 3 |", "| 4 |"))

    def test_marks(self):
        code = 'let unsafe_one = "unsafe"; // unsafe\n#[unsafe(no_mangle)]\nunsafe { f() }'
        lines = list(TRUST.code_of(code, "//"))
        self.assertEqual([bool(re.search(r"(?<!#\[)\bunsafe\b", line)) for line in lines], [False, False, True])


if __name__ == "__main__":
    sys.exit(report.run_tests(unittest.defaultTestLoader.loadTestsFromModule(sys.modules["__main__"])))
