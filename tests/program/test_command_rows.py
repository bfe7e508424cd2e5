"""Whole command lines, each by a process of its own: the rows of crates/command_rows, which were worked out outside the
program. `rt ci` gives them to a function between byte slices; here they go through the real streams."""

import os
import tomllib

from process import ROOT, ProgramTest, program

DATA = os.path.join(ROOT, "crates/command_rows/data")
# Rows that say something else than the program does, each in one point.
DIFFERENT = "different.toml"
# What those rows have as the last line of the version.
BUILD = "a kit and a commit\n"


def rows_of(file):
    with open(os.path.join(DATA, file), "rb") as it:
        return tomllib.load(it)["rows"]


def rows():
    """Each row that says what the program does, with its file."""
    for file in sorted(os.listdir(DATA)):
        if file != DIFFERENT:
            yield from ((file, row) for row in rows_of(file))


def words_of(row):
    return row["words"].split(" ") if row["words"] else []


def plan_file(words):
    """The name after --plan, or behind its equals sign."""
    for before, word in zip(["", *words], words):
        if before == "--plan":
            return word
        if word.startswith("--plan="):
            return word.removeprefix("--plan=")
    return None


class CommandRows(ProgramTest):
    def check_text(self, row, name, text):
        """Compares an output with the row's, or with the start and the end that the row gives."""
        start, end = row.get(f"{name}_start"), row.get(f"{name}_end")
        if start is not None:
            self.assertTrue(text.startswith(start), f"{name} begins otherwise: {text[:500]}")
        if end is not None:
            self.assertTrue(text.endswith(end), f"{name} ends otherwise: {text[-500:]}")
        if start is None and end is None:
            self.assertEqual(text, row.get(name, ""), name)

    def check_row(self, row):
        words = words_of(row)
        if "plan" in row:
            self.write(plan_file(words), row["plan"])
        ended = self.run_here(*words, data=row.get("input", "").encode(), name=row.get("program", "crossbar5"))
        output = ended.output.decode()
        if row.get("output", "").endswith(BUILD):
            first, build = output.split("\n", 1)
            self.assertTrue(build.strip() and build.count("\n") == 1, f"the version's second line is {build!r}")
            output = f"{first}\n{BUILD}"
        self.check_text(row, "output", output)
        self.check_text(row, "errors", ended.errors.decode())
        self.assertEqual(ended.status, row.get("status", 0))
        if "plan" in row:
            os.unlink(self.path(plan_file(words)))

    def test_rows(self):
        for file, row in rows():
            with self.subTest(f"{file}, {row['name']}"):
                self.check_row(row)

    def test_different_rows(self):
        for row in rows_of(DIFFERENT):
            with self.subTest(row["name"]), self.assertRaises(AssertionError):
                self.check_row(row)

    def test_all_were_read(self):
        with open(os.path.join(ROOT, "crates/command_rows/stdout"), encoding="utf-8") as it:
            self.assertEqual(sum(1 for _ in rows()), it.read().count(": as worked out\n"))
        self.assertTrue(os.access(program(), os.X_OK))
