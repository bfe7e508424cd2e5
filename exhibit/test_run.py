#!/usr/bin/env python3
"""Tests which scenarios exhibit/test/run chooses, without a browser: test_run.py"""

import argparse
import importlib.machinery
import importlib.util
import os
import sys
import unittest

sys.dont_write_bytecode = True
FOLDER = os.path.join(os.path.dirname(os.path.realpath(__file__)), "test")
sys.path.insert(0, FOLDER)


def loaded():
    """The script as a module."""
    loader = importlib.machinery.SourceFileLoader("run", os.path.join(FOLDER, "run"))
    module = importlib.util.module_from_spec(importlib.util.spec_from_loader("run", loader))
    loader.exec_module(module)
    return module


RUN = loaded()


def chosen(only="", left_out="", untimed=False, pictures=None):
    given = argparse.Namespace(only=only, left_out=left_out, untimed=untimed, pictures=pictures)
    return [it.name for it in RUN.chosen(given)]


class Choice(unittest.TestCase):
    def test_untimed_leaves_out_what_measures_time(self):
        all_of_them = chosen()
        self.assertTrue({"k1", "k2"} <= set(all_of_them))
        self.assertEqual(chosen(untimed=True), [name for name in all_of_them if name not in ("k1", "k2")])
        self.assertEqual((chosen("k"), chosen("k", untimed=True)), (["k1", "k2"], []))
        self.assertEqual((chosen("f2,g"), chosen("f2,g", untimed=True)), (["f2", "g1", "g2"], ["f2", "g1", "g2"]))

    def test_the_rest(self):
        """What --only and --except choose by the same names are all scenarios, each once."""
        for names in ("a", "f2,g", "b,j", "nothing"):
            with self.subTest(names):
                self.assertEqual(sorted(chosen(names) + chosen(left_out=names)), sorted(chosen()))
        self.assertEqual(chosen("b", left_out="b2,b4"), ["b1", "b3", "b5"])

    def test_all_of_the_module_timed_are(self):
        own = [it for it in RUN.scenario.ALL if it.act.__module__ == "timed"]
        self.assertTrue(own and all(it.timed for it in own))
        self.assertEqual([it.name for it in RUN.scenario.ALL if it.timed and it not in own], [])


if __name__ == "__main__":
    unittest.main()
