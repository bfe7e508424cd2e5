#!/usr/bin/env python3
"""Tests of run, on a small repository: tests/rows/test_run.py"""
import tempfile
import unittest
from pathlib import Path

from register import lost_rows

HARNESS = 'const FILES: [&str; 1] = ["calls.toml"];\n// "other.toml" isn\'t read.\n\nfn main() {}\n'

CALLS = '[[rows]]\nname = "one"\n\n[[rows]]\nname = "two"\n\n[[rows]]\nname = "twice"\n\n[[rows]]\nname = "twice"\n'

STDOUT = "one: as worked out\ntwice: as worked out\n"

LIB = "#[cfg(test)]\nmod fields;\n// mod other;\n"

FIELDS = """use super::*;

const WORDS: &[(u8, u64)] = &[
    (0, 22),
    // (9, 99),
    (1, 64),
];

const UNUSED: u64 = 77;

fn check(found: u64) {
    assert!(WORDS.len() > 0);
}

#[test]
fn fields_are_read() {
    check(22);
}

fn fields_are_written() {
    check(64);
}
"""

FILES = {"crates.txt": "harness may_wait=1: toml\nfield_tests:\n",
         "crates/harness/src/main.rt": HARNESS,
         "crates/harness/data/calls.toml": CALLS,
         "crates/harness/data/other.toml": '[[rows]]\nname = "one"\n',
         "crates/harness/stdout": STDOUT,
         "crates/field_tests/src/lib.rt": LIB,
         "crates/field_tests/src/fields.rt": FIELDS,
         "crates/field_tests/src/other.rt": FIELDS,
         "crates/left_out/src/lib.rt": LIB,
         "crates/left_out/src/fields.rt": FIELDS}


def data_row(row, data="harness/calls.toml", name="a row"):
    return f"[[rows]]\nname = '{name}'\nsays = 'something'\ndata = '{data}'\nrow = '{row}'\n"


def test_row(test, text=None, name="a row"):
    of_text = "" if text is None else f"text = '''{text}'''\n"
    return f"[[rows]]\nname = '{name}'\nsays = 'something'\ntest = '{test}'\n{of_text}"


class Rows(unittest.TestCase):
    def setUp(self):
        folder = tempfile.TemporaryDirectory()
        self.addCleanup(folder.cleanup)
        self.root = Path(folder.name)
        for name, text in FILES.items():
            (self.root / name).parent.mkdir(parents=True, exist_ok=True)
            (self.root / name).write_text(text, encoding="utf-8")

    def result(self, *rows):
        register = self.root / "register.toml"
        register.write_text("\n".join(rows), encoding="utf-8")
        return lost_rows(self.root, register)

    def check_run(self, row):
        self.assertEqual(self.result(row), (1, []))

    def check_lost(self, row, why):
        self.assertEqual(self.result(row), (1, [("a row", why)]))

    def test_rows_that_run(self):
        self.check_run(data_row("one"))
        self.check_run(test_row("field_tests::fields::fields_are_read"))
        self.check_run(test_row("field_tests::fields::fields_are_read", "check( 22 )"))
        self.check_run(test_row("field_tests::fields::fields_are_read", "(0, 22), (1,\n64)"))

    def test_a_row_that_no_file_has(self):
        self.check_lost(data_row("three"), "harness/calls.toml has 0 rows of this name")
        self.check_lost(data_row("twice"), "harness/calls.toml has 2 rows of this name")
        self.check_lost(data_row("one", "harness/missing.toml"), "there is no harness/missing.toml")

    def test_a_row_that_no_harness_runs(self):
        self.check_lost(data_row("one", "harness/other.toml"), "harness doesn't read other.toml")
        self.check_lost(data_row("one", "left_out/calls.toml"), "crates.txt has no left_out")
        self.check_lost(data_row("two"), "the stdout of harness has 0 lines of this name")

    def test_a_function_that_is_no_test(self):
        self.check_lost(test_row("field_tests::fields::fields_are_written"), "fields_are_written has no #[test]")
        self.check_lost(test_row("field_tests::fields::fields_are_lost"),
                        "crates/field_tests/src/fields.rt has 0 functions fields_are_lost")
        self.check_lost(test_row("left_out::fields::fields_are_read"), "crates.txt has no left_out")

    def test_a_module_that_is_not_compiled(self):
        self.check_lost(test_row("field_tests::other::fields_are_read"),
                        "crates/field_tests/src/lib.rt doesn't declare the module other")

    def test_a_text_that_no_test_has(self):
        for text in ["(0, 23)", "(9, 99)", "UNUSED", "check(64)"]:
            self.check_lost(test_row("field_tests::fields::fields_are_read", text), "fields_are_read hasn't the row's text")

    def test_a_name_that_stands_twice(self):
        twice = [("a row", "this name stands twice")] * 2
        self.assertEqual(self.result(data_row("one"), data_row("one")), (2, twice))
        self.assertEqual(self.result(data_row("one"), data_row("one", name="another")), (2, []))

    def test_a_row_that_does_not_say_where_it_runs(self):
        why = "a row has a name, says something, and has data and row, or test and perhaps text"
        self.check_lost("[[rows]]\nname = 'a row'\nsays = 'something'\n", why)
        self.check_lost(data_row("one") + "test = 'field_tests::fields::fields_are_read'\n", why)


if __name__ == "__main__":
    unittest.main()
