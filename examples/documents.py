#!/usr/bin/env python3
"""Runs every command of the documents as it is written there, and compares what it prints with the text after it.

    examples/documents.py [PROGRAM]

PROGRAM takes the place of bin/crossbar5. Read are README, TOUR, LESSON, FORMATS and examples/README. A command is a
line of code that begins with printf, (printf, bin/crossbar5 or crossbar5; the code after it, up to prose or to the next
command, is what it prints. In FORMATS it stands in a sentence, `COMMAND` writes, before its code. A command with no
text after it has to end with status 0. Prints a line for each, and last `N passed, M failed`; the status is 1 where one
differs.
"""

import os
import re
import subprocess
import sys
import tempfile

ROOT = os.path.dirname(os.path.dirname(os.path.realpath(__file__)))
DOCUMENTS = ["README.md", "docs/TOUR.md", "docs/LESSON.md", "docs/FORMATS.md", "examples/README.md"]
COMMAND = re.compile(r"(\(?printf .*\| *)?(bin/)?crossbar5\b(?!:)")
# In FORMATS; placeholders such as TRAFFIC are no files.
WRITES = re.compile(r"`((?:printf|crossbar5) [^`]*)` writes$")


def code_lines(text):
    """Each line with whether it is code, without its four blanks; None for an empty line."""
    fenced = False
    for line in text.split("\n"):
        if line.startswith("```"):
            fenced = not fenced
            yield False, "" if fenced else line
        elif fenced:
            yield True, line
        elif not line:
            yield None, ""
        else:
            yield line.startswith("    "), line[4:] if line.startswith("    ") else line


def commands_of(text):
    """The commands of a document, each with the lines that it prints."""
    found, blanks = [], 0
    for is_code, line in code_lines(text):
        writes = not is_code and WRITES.search(line)
        if is_code is None:
            blanks += 1
            continue
        if writes:
            found.append((writes[1], []))
        elif is_code and COMMAND.match(line):
            found.append((line, []))
        elif is_code and found and found[-1] is not None:
            lines = found[-1][1]
            lines += [""] * blanks * bool(lines) + [line]
        elif line:
            found.append(None)
        blanks = 0
    return [it for it in found if it and not re.search(r"\b[A-Z]{5,}\b(?!,)", it[0].split("<")[-1])]


def run(command, folder, program):
    """What the command prints to standard output, and its status."""
    words = re.sub(r"(?<![\w/])(?:bin/)?crossbar5\b", program, command)
    words = re.sub(r"> (?!\S*/)(\S+)$", rf"> {folder}/\1", words)
    ran = subprocess.run(["bash", "-o", "pipefail", "-c", words], cwd=ROOT, stdout=subprocess.PIPE, text=True)
    return ran.stdout, ran.returncode


def main():
    program = os.path.abspath(sys.argv[1]) if sys.argv[1:] else f"{ROOT}/bin/crossbar5"
    count = failures = 0
    with tempfile.TemporaryDirectory() as folder:
        for document in DOCUMENTS:
            with open(f"{ROOT}/{document}", encoding="utf-8") as it:
                commands = commands_of(it.read())
            for command, lines in commands:
                printed, status = run(command, folder, program)
                is_right = printed == "".join(f"{it}\n" for it in lines) if lines else status == 0
                count += 1
                failures += not is_right
                print(f"{document}: {command}: {'as written' if is_right else 'differs'}", flush=True)
                if not is_right:
                    print(printed[:500], f"(status {status})")
    print(f"{count - failures} passed, {failures} failed")
    return failures > 0


sys.exit(main())
