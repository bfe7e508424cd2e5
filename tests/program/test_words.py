"""Words that the process gets: help, the version, and words that are not UTF-8 text."""

import os
import re

from process import BUILT, DIAL, ROOT, Ended, ProgramTest, program, run

NOT_TEXT = b"error: a word of the command line is not UTF-8 text\n"
KIT_AND_COMMIT = re.compile(r"rattle-kit-\S+ logic [0-9a-f]+, commit ([0-9a-f]{40}(, changed since)?|unknown)")


def help_texts():
    """The help of each command, and of none, as the manual has it."""
    with open(os.path.join(ROOT, "crates/crossbar5_manual/stdout"), encoding="utf-8") as it:
        parts = re.split(r"^==> (.*) <==\n", it.read(), flags=re.MULTILINE)
    return {name[5:-4]: text for name, text in zip(parts[1::2], parts[2::2]) if name.startswith("help/")}


class Words(ProgramTest):
    def test_help(self):
        for command, text in help_texts().items():
            commands = [] if command == "crossbar5" else [command]
            for words in ([*commands, "--help"], [*commands, "-h"], ["help", *commands]):
                with self.subTest(" ".join(words)):
                    self.expect(words, 0, text.encode())

    def test_help_on_each_command(self):
        commands = {"crossbar5", "replay", "walk", "look", "live", "audit", "draw", "page"}
        self.assertLessEqual(commands, set(help_texts()))

    def test_version(self):
        for word in ("--version", "-V"):
            with self.subTest(word):
                ended = self.run_here(word)
                self.assertEqual((ended.status, ended.errors), (0, b""))
                first, second, nothing = ended.output.decode().split("\n")
                self.assertEqual((first, nothing), ("crossbar5 0.1.0", ""))
                self.assertTrue(second)

    def test_what_bin_build_has_written(self):
        if os.path.realpath(program()) != os.path.realpath(BUILT):
            self.skipTest("this program is not the one that bin/build makes, which writes the kit and the commit into it")
        second = self.run_here("--version").output.decode().split("\n")[1]
        self.assertIsNotNone(KIT_AND_COMMIT.fullmatch(second), second)

    def test_not_utf_8(self):
        for words in ([b"\xff"], [b"replay", b"--plan", b"\xff.toml"], [b"replay", b"--plan=\xff"], [b"--help", b"\xc3"],
                      [b"replay", b"--markers", b"X\xe9X"], [b"\xed\xa0\x80"]):
            with self.subTest(words):
                self.expect(words, 2, errors=NOT_TEXT, data=DIAL)

    def test_utf_8(self):
        """Words of other letters are text, as a file's name too."""
        self.write("büro.toml", "version = 3\n")
        sentence = "crossbar5: büro.toml: version: expected 1 or 2, found 3 (P2)\n".encode()
        self.expect(["replay", "--plan", "büro.toml"], 3, b"FAULT,P2\n", sentence)

    def test_name_of_the_program(self):
        """A program of another name says its own in sentences and usage all the same."""
        ended = run("call", name="/opt/office")
        self.assertEqual(ended.status, 2)
        self.assertIn(b"Usage: crossbar5 [COMMAND]\n", ended.errors)
        self.assertEqual(run("--version", name="/opt/office").output[:16], b"crossbar5 0.1.0\n")

    def test_no_words_and_no_input(self):
        self.assertEqual(self.run_here(), Ended(0, b"PATHS,0\nCLOSED,0\n", b""))
