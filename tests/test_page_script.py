#!/usr/bin/env python3
"""Tests bin/page_script, and that everything that has the page's script has it as it is packed: test_page_script.py"""

import glob
import importlib.machinery
import importlib.util
import os
import re
import shutil
import subprocess
import sys
import tempfile
import unittest
import xml.etree.ElementTree

sys.dont_write_bytecode = True
HERE = os.path.dirname(os.path.realpath(__file__))
ROOT = os.path.dirname(HERE)
PACKER = "bin/page_script"
sys.path.insert(0, HERE)
import report  # noqa: E402


def loaded():
    """The script as a module."""
    loader = importlib.machinery.SourceFileLoader("page_script", os.path.join(ROOT, PACKER))
    module = importlib.util.module_from_spec(importlib.util.spec_from_loader("page_script", loader))
    loader.exec_module(module)
    return module


PAGE_SCRIPT = loaded()
SOURCE = PAGE_SCRIPT.read(PAGE_SCRIPT.SOURCE)

# Each script with what it is packed to.
COMMENTS = [
    ("a = 1; // one\n// two\nb = 2; /* three */", "a=1;b=2;"),
    ("/* one // two */ a(); // three /* four\nb(); // */ five", "a();b();"),
    ("a(/**/); /***/ b(); /* it's */ c('d');", "a();b();c('d');"),
    ("return/* one */a", "return a"),
]
TEXTS = [
    ("a('// no  comment',  '/* none */'); // one", "a('// no  comment','/* none */');"),
    ("""a("it's", 'the  "one"'); // it's one""", """a("it's",'the  "one"');"""),
    (r"a('it\'s // no', '\\'); // one", r"a('it\'s // no','\\');"),
    ("a = ' ' + '  ';", "a=' '+'  ';"),
]
BLANKS = [
    ("const a = 1, b = - 1;", "const a=1,b=-1;"),
    ("if ( typeof a === 'b' ) return 'c' in d;", "if(typeof a==='b')return'c'in d;"),
    ("a + +b; a - -b; a + ++b; a++ + b; a - --b;", "a+ +b;a- -b;a+ ++b;a+++b;a- --b;"),
    ("1 .a; 1.5 .a; a ? .5 : b; a ? b : .5;", "1 .a;1.5 .a;a? .5:b;a?b:.5;"),
    ("a = > b; a ! = b; $ _ 1;", "a= >b;a! =b;$ _ 1;"),
    ("f = (a, ...b) => ({ a, b });", "f=(a,...b)=>({a,b});"),
]
LINE_ENDS = [
    ("a;\nb", "a;b"), ("a\nb", "a\nb"), ("a // one\nb", "a\nb"), ("a /* one\n */ b", "a\nb"), ("a /* one */ b", "a b"),
    ("f(\n  a,\n  b\n)", "f(a,b)"), ("[\n  a,\n]", "[a,]"), ("{\n  a\n}", "{a}"), ("a\n  .b\n  .c()", "a.b.c()"),
    ("a =\n  b", "a=b"), ("a\n  = b", "a=b"), ("a =>\n  b", "a=>b"), ("a\n  ? b\n  : c", "a?b:c"),
    ("a ||\n  b", "a||b"), ("a\n  || b", "a||b"), ("a\n(b)", "a\n(b)"), ("a\n[b]", "a\n[b]"),
    ("a\n+b", "a\n+b"), ("a\n-b", "a\n-b"), ("a\n++\nb", "a\n++\nb"), ("a--\nb", "a--\nb"), ("a\n!b", "a\n!b"),
    ("return\na", "return\na"), ("return\n{}", "return\n{}"), ("a\n'b'", "a\n'b'"), ("a\n.5", "a\n.5"),
    ("class A { a\n*b() {} }", "class A{a\n*b(){}}"), ("a = {}\nb", "a={}\nb"), ("if (a)\n  b", "if(a)\nb"),
    ("1\n.a", "1 .a"), ("\n\na\n\n\nb\n\n", "a\nb"),
]
PACKED = COMMENTS + TEXTS + BLANKS + LINE_ENDS

# What isn't packed, with the line that is named.
UNKNOWN = [("a;\nb = `c`;", 2), ("a / b", 1), ("\n\na = /b/;", 3), ("a = 'b;\n", 1), ('a = "b;', 1), ("a; /* b", 1),
           ("#a", 1), ("a\tb", 1), ("a\r\nb", 1), ("a\n'\u00e9'", 2), ("// \u2028 a", 1), ("a; @b", 1), (r"a\u0062", 1)]
NOT_IN_A_PAGE = ["a < b", "a && b", "'<'", '"</script>"', "a[b[0]]>c", "\"'''\""]


def tokens(script):
    return [token for _, token in PAGE_SCRIPT.tokens(script)]


def as_rust_reads(text):
    """What Rust makes of a continued text between quotes."""
    read = {None: "", "n": "\n"}
    return re.sub(r"\\(?:\n\s*|(.))", lambda found: read.get(found[1], found[1]), text)


def scripts_of(path):
    return re.findall("<script>(.*?)</script>", PAGE_SCRIPT.read(path), re.DOTALL)


class Packing(unittest.TestCase):
    def test_what_is_packed(self):
        for source, packed in PACKED:
            with self.subTest(source):
                self.assertEqual(PAGE_SCRIPT.packed(source), packed)

    def test_nothing_else_is_lost(self):
        for source in (SOURCE, *(source for source, _ in PACKED)):
            with self.subTest(source[:40]):
                packed = PAGE_SCRIPT.packed(source)
                self.assertEqual(tokens(packed), tokens(source))
                self.assertEqual(PAGE_SCRIPT.packed(packed), packed)

    def test_what_is_unknown(self):
        for source, line in UNKNOWN:
            with self.subTest(source), self.assertRaisesRegex(PAGE_SCRIPT.PackError, f"page.js, line {line}: "):
                PAGE_SCRIPT.packed(source)

    def test_what_no_page_may_have(self):
        for source in NOT_IN_A_PAGE:
            with self.subTest(source), self.assertRaisesRegex(PAGE_SCRIPT.PackError, "can't stand in a page"):
                PAGE_SCRIPT.packed(source)

    def test_literal(self):
        long = "".join(f'const a{it} = {it} in "b \\\\ {it}"\n' for it in range(200))
        for source in (SOURCE, long, "a('\\'', \"  \\\"\")"):
            with self.subTest(source[:40]):
                text = PAGE_SCRIPT.literal(source)
                self.assertEqual(as_rust_reads(text), PAGE_SCRIPT.packed(source))
                self.assertLessEqual(max(map(len, text.split("\n"))), 90)


class Files(unittest.TestCase):
    """What the repository has."""

    def setUp(self):
        self.packed = PAGE_SCRIPT.packed(SOURCE)

    def test_check(self):
        ran = subprocess.run([os.path.join(ROOT, PACKER), "--check"], capture_output=True, text=True)
        self.assertEqual((ran.returncode, ran.stdout, ran.stderr), (0, "", ""))

    def test_print(self):
        ran = subprocess.run([os.path.join(ROOT, PACKER), "--print"], capture_output=True, text=True)
        self.assertEqual((ran.returncode, ran.stdout, ran.stderr), (0, self.packed, ""))

    def test_constant(self):
        code = PAGE_SCRIPT.read("crates/xbar_page/src/script.rt")
        found = re.findall(r'const SCRIPT: &str = "(.*?)(?<!\\)";', code, re.DOTALL)
        self.assertEqual([as_rust_reads(it) for it in found], [self.packed])

    def test_pages(self):
        """Each page among the rows and the examples, whether the packer names it or not."""
        files = [path for name in ("crates/*/data/*", "examples/*.html") for path in glob.glob(name, root_dir=ROOT)]
        with_script = [path for path in files if scripts_of(path)]
        self.assertEqual(sorted(with_script), sorted(PAGE_SCRIPT.PAGES))
        for path in with_script:
            with self.subTest(path):
                self.assertEqual(set(scripts_of(path)), {self.packed})

    def test_in_xml(self):
        script = xml.etree.ElementTree.fromstring(f"<script>{self.packed}</script>")
        self.assertEqual((script.text, len(script)), (self.packed, 0))

    def test_source(self):
        self.assertLessEqual(max(map(len, SOURCE.split("\n"))), 120)


class Writing(unittest.TestCase):
    """The packer on copies of the files that it reads and writes."""

    def setUp(self):
        folder = tempfile.TemporaryDirectory()
        self.addCleanup(folder.cleanup)
        self.folder = folder.name
        for path in (PACKER, PAGE_SCRIPT.SOURCE, PAGE_SCRIPT.CODE, *PAGE_SCRIPT.PAGES):
            os.makedirs(os.path.dirname(self.path(path)), exist_ok=True)
            shutil.copy(os.path.join(ROOT, path), self.path(path))

    def path(self, name):
        return os.path.join(self.folder, name)

    def read(self, name):
        with open(self.path(name), encoding="utf-8", newline="") as it:
            return it.read()

    def write(self, name, text):
        with open(self.path(name), "w", encoding="utf-8", newline="") as it:
            it.write(text)

    def replace(self, name, old, new):
        text = self.read(name)
        self.assertIn(old, text)
        self.write(name, text.replace(old, new, 1))

    def ran(self, *words):
        ran = subprocess.run([self.path(PACKER), *words], capture_output=True, text=True)
        return ran.returncode, ran.stdout, ran.stderr

    def test_one_that_differs(self):
        """Each file, changed by one word."""
        for name in (PAGE_SCRIPT.CODE, *PAGE_SCRIPT.PAGES):
            with self.subTest(name):
                right = self.read(name)
                self.replace(name, "function stop", "function halt")
                wrong = self.read(name)
                sentence = f"bin/page_script: {name} hasn't the script of {PAGE_SCRIPT.SOURCE}: run bin/page_script\n"
                self.assertEqual(self.ran("--check"), (1, "", sentence))
                self.assertEqual(self.read(name), wrong)
                self.assertEqual(self.ran(), (0, f"bin/page_script: wrote {name}\n", ""))
                self.assertEqual(self.read(name), right)

    def test_a_source_that_is_changed(self):
        self.replace(PAGE_SCRIPT.SOURCE, "last - 1", "last - 2")
        self.assertEqual(self.ran("--check")[0], 1)
        files = (PAGE_SCRIPT.CODE, *PAGE_SCRIPT.PAGES)
        before = {name: self.read(name) for name in files}
        self.assertEqual(self.ran(), (0, "".join(f"bin/page_script: wrote {name}\n" for name in files), ""))
        for name in files:
            with self.subTest(name):
                self.assertEqual(self.read(name), before[name].replace("(last-1)", "(last-2)"))
        self.assertEqual(self.ran("--check"), (0, "", ""))

    def test_a_comment_changes_nothing(self):
        self.replace(PAGE_SCRIPT.SOURCE, "(() => {", "// <&>`/\n(  (  ) => {")
        self.assertEqual(self.ran("--check"), (0, "", ""))

    def test_nothing_is_written(self):
        """A script that can't be packed, and a file without a place for it."""
        for name, old, new, said in (
            (PAGE_SCRIPT.SOURCE, "last - 1", "last / 1", "page.js, line"),
            (PAGE_SCRIPT.SOURCE, "last - 1", "last - '&'", "can't stand in a page"),
            (PAGE_SCRIPT.CODE, "const SCRIPT:", "const THE_SCRIPT:", "script.rt has no place"),
            ("examples/trouble.html", "<script>", "", "trouble.html has no place"),
        ):
            with self.subTest(new):
                right = self.read(name)
                self.replace(name, old, new)
                self.replace("examples/inside_call.html", "function stop", "function halt")
                for words in ((), ("--check",)):
                    status, output, errors = self.ran(*words)
                    self.assertEqual((status, output), (1, ""))
                    self.assertRegex(errors, f"^bin/page_script: .*{re.escape(said)}.*\n$")
                self.replace("examples/inside_call.html", "function halt", "function stop")
                self.write(name, right)
        self.assertEqual(self.ran("--check"), (0, "", ""))


if __name__ == "__main__":
    sys.exit(report.run_tests(unittest.defaultTestLoader.loadTestsFromModule(sys.modules["__main__"])))
