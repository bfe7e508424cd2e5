#!/usr/bin/env python3
"""The sum of all that the exhibit's page is made from: sources.py prints it.

exhibit/exhibit.html stands in the repository, so that a museum needs nothing but that file. It has this sum in its head.
exhibit/test_made.py compares both, so that nobody forgets to make the page again (`bin/exhibit exhibit/exhibit.html`).
"""

import hashlib
import os
import re

HERE = os.path.dirname(os.path.realpath(__file__))
ROOT = os.path.dirname(HERE)
LIBRARY = "crossbar5_c"


def crates_below(name):
    """A crate of crates.txt with those that it stands on."""
    with open(os.path.join(ROOT, "crates.txt"), encoding="utf-8") as it:
        lines = [line.split("#")[0] for line in it]
    uses = {words[0].split()[0]: words[1].split() for words in (line.split(":") for line in lines) if len(words) == 2}
    found, left = set(), [name]
    while left:
        crate = left.pop()
        if crate in uses and crate not in found:
            found.add(crate)
            left += uses[crate]
    return sorted(found)


def files_in(*folders, ending=""):
    for folder in folders:
        for top, inner, names in os.walk(os.path.join(ROOT, folder)):
            inner[:] = [name for name in inner if name != "__pycache__"]
            yield from (os.path.join(top, name) for name in names if name.endswith(ending))


def sources():
    """The files that the page is made from, by their paths."""
    code = files_in(*(f"crates/{crate}/src" for crate in crates_below(LIBRARY)), ending=".rt")
    page = files_in("exhibit/page", "exhibit/engine", "exhibit/wasm")
    examples = (path for path in files_in("examples") if re.search(r"\.(toml|csv)$", path))
    others = (os.path.join(ROOT, name) for name in ("crates/worked_rows/data/example.toml", "exhibit/bundle.py"))
    unused = (".md", "in_node.js", "served.js", "test_steps.py")
    return sorted(path for path in {*code, *page, *examples, *others} if not path.endswith(unused))


def source_sum():
    total = hashlib.sha256()
    for path in sources():
        with open(path, "rb") as it:
            total.update(f"{os.path.relpath(path, ROOT)} {hashlib.sha256(it.read()).hexdigest()}\n".encode())
    return total.hexdigest()


if __name__ == "__main__":
    print(source_sum())
