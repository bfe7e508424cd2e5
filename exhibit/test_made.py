#!/usr/bin/env python3
"""Tests that exhibit/exhibit.html is made from the sources as they are: test_made.py

If this fails, run `bin/exhibit exhibit/exhibit.html`. Where bin/exhibit has made the page of these sources already, both
are compared byte for byte.
"""

import os
import re
import unittest

from sources import HERE, source_sum

IN_REPOSITORY = os.path.join(HERE, "exhibit.html")
MADE = os.path.join(HERE, "out", "exhibit.html")


def read(path):
    with open(path, encoding="utf-8", newline="") as it:
        return it.read()


def sum_in(page):
    found = re.search(r'<meta name="sources" content="([0-9a-f]{64})">', page)
    return found and found[1]


class Made(unittest.TestCase):
    def test_the_page_is_made_from_these_sources(self):
        self.assertEqual(sum_in(read(IN_REPOSITORY)), source_sum(), "run bin/exhibit exhibit/exhibit.html")

    def test_the_page_is_what_is_made_here(self):
        if not os.path.isfile(MADE) or sum_in(read(MADE)) != source_sum():
            self.skipTest("bin/exhibit hasn't made the page of these sources here")
        self.assertTrue(read(IN_REPOSITORY) == read(MADE), "the page in the repository is another one")


if __name__ == "__main__":
    unittest.main()
