"""Tests that all declarations of the library's function have its parameters and the answer's fields in one order, as the
crate crossbar5_c exports them, and that all who name a task give it the number that the program's own table has:
python3 -m unittest test_interface. It reads the sources, and needs no library."""

import os
import re
import sys
import unittest

HERE = os.path.dirname(os.path.realpath(__file__))
CRATE = os.path.join(HERE, os.pardir, "crates", "crossbar5_c", "src")
sys.path.insert(0, os.path.join(HERE, "python"))
import crossbar5  # noqa: E402
from tasks import tasks  # noqa: E402

PARAMETERS = [("task", "u32"), ("plan", "&[u8]"), ("kinds", "&[u8]"), ("input", "&[u8]"), ("out", "&mut [u8]"),
              ("answer", "&mut Answered")]
FIELDS = ["length", "status"]
NAMES = ["task", "plan", "plan_length", "kinds", "kinds_length", "input", "input_length", "out", "room", "answer"]


def found(pattern, *path):
    """What stands in parentheses or braces after a pattern in a file."""
    with open(os.path.join(*path), encoding="utf-8") as it:
        return re.search(pattern, it.read(), re.S)[1]


def declared(text, separator=","):
    """The names and types of `name: type` in a list."""
    parts = (part.split(":", 1) for part in text.split(separator) if ":" in part)
    return [(re.sub(r"^pub ", "", name.strip()), kind.strip()) for name, kind in parts]


class OneOrder(unittest.TestCase):
    def test_the_crate(self):
        parameters = declared(found(r'extern "C" fn crossbar5_answer\((.*?)\n\)', CRATE, "lib.rt"))
        self.assertEqual([it for it in parameters if it[0] != "alloc"], PARAMETERS)
        fields = found(r"#\[repr\(C\)\][^{]*struct Answered \{(.*?)\}", CRATE, "answered.rt")
        self.assertEqual(declared(fields), [("length", "usize"), ("status", "u32")])

    def test_the_header(self):
        declaration = found(r"\nvoid crossbar5_answer\((.*?)\);", HERE, "c", "crossbar5.h")
        self.assertEqual([re.search(r"\w+$", it.strip())[0] for it in declaration.split(",")], NAMES)
        struct = found(r"struct crossbar5_answered \{(.*?)\};", HERE, "c", "crossbar5.h")
        self.assertEqual(re.findall(r"(\w+) (\w+);", struct), [("size_t", "length"), ("uint32_t", "status")])

    def test_rust(self):
        parameters = declared(found(r'extern "C" \{.*?crossbar5_answer\((.*?)\);', HERE, "rust", "src", "lib.rs"))
        self.assertEqual([name for name, _ in parameters][:-1], NAMES[:-1])
        fields = found(r"#\[repr\(C\)\][^{]*struct Answered \{(.*?)\}", HERE, "rust", "src", "lib.rs")
        self.assertEqual(declared(fields), [("length", "usize"), ("status", "u32")])

    def test_python(self):
        self.assertEqual([name for name, _ in crossbar5._Answered._fields_], FIELDS)


class OneTable(unittest.TestCase):
    """Names are compared without their case, spaces and underscores."""

    def setUp(self):
        self.table = {task.name.replace(" ", "").lower(): task.number for task in tasks()}

    def numbers(self, pattern, text):
        return {name.replace("_", "").lower(): int(number) for name, number in re.findall(pattern, text)}

    def test_the_header(self):
        text = found(r"enum crossbar5_task \{(.*?)\};", HERE, "c", "crossbar5.h")
        self.assertEqual(self.numbers(r"CROSSBAR5_(\w+) = (\d+)", text), self.table)

    def test_rust(self):
        text = found(r"pub enum Task \{(.*?)\n\}", HERE, "rust", "src", "lib.rs")
        self.assertEqual(self.numbers(r"(\w+) = (\d+)", text), self.table)

    def test_python(self):
        self.assertEqual({it.name.replace("_", "").lower(): it.value for it in crossbar5.Task}, self.table)
        self.assertEqual(crossbar5._ON_RECORDS, {it.number for it in tasks() if not it.on_rows})

    def test_the_page(self):
        text = found(r"const TASK = \{(.*?)\};", HERE, os.pardir, "exhibit", "page", "session.js")
        named = self.numbers(r"(\w+): (\d+)", text)
        self.assertEqual(named, {name: self.table[name] for name in named})

    def test_the_document(self):
        section = found(r"## The library\n(.*?)(?:\n## |\Z)", HERE, os.pardir, "docs", "FORMATS.md")
        rows = re.findall(r"^\| ([\d, ]+) \|.*\| (`.*`) \|$", section, re.M)
        told = [(number, words) for numbers, texts in rows
                for number, words in zip(numbers.split(", "), re.findall(r"`(?:crossbar5 )?([^`]+)`", texts), strict=True)]
        self.assertEqual(told, [(str(it.number), " ".join(it.words)) for it in tasks()])


if __name__ == "__main__":
    unittest.main()
