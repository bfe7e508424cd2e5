#!/usr/bin/env python3
"""Tests how the page is put together, on a small page of its own: test_bundle.py"""

import base64
import gzip
import json
import os
import re
import tempfile
import unittest

import bundle

FILES = {
    "index.html": "<style>@@STYLE@@</style><script>@@ENGINE@@</script><script>@@SCRIPT@@</script>"
                  "<p id=texts>@@TEXTS@@</p><p id=plans>@@PLANS@@</p><p id=films>@@FILMS@@</p>",
    "style.css": "p { margin: 0 }",
    "main.js": "// The last.\nimport { begin } from './first.js';\nimport {\n  other,\n} from './second.js';\n\nbegin('@@STYLE@@');\n",
    "first.js": "import { other } from './second.js';\nexport const begin = other;\n",
    "second.js": "export function other() {}\nconst own = 1;\n",
    "texts/en.json": '{"end": "</script><!--\\u2028", "all": "all"}',
    "texts/de.json": '{"all": "alle"}',
    "films.json": '[{"name": "a", "rows": "calls.csv", "plan": null, "kinds": "XX"},'
                  ' {"name": "b", "rows": "examples/trouble.csv", "plan": "examples/small_town.toml", "kinds": "D"}]',
}


class Bundle(unittest.TestCase):
    def setUp(self):
        self.folder = tempfile.TemporaryDirectory()
        self.addCleanup(self.folder.cleanup)
        self.addCleanup(setattr, bundle, "PAGE", bundle.PAGE)
        bundle.PAGE = self.folder.name
        os.mkdir(os.path.join(bundle.PAGE, "texts"))
        for name, text in {**FILES, "engine": 'const MODULE = "@@MODULE@@";'}.items():
            self.write(name, text)

    def write(self, name, text):
        with open(os.path.join(bundle.PAGE, name), "w", encoding="utf-8") as it:
            it.write(text)

    def made(self, module=b"module"):
        return bundle.bundle(os.path.join(bundle.PAGE, "engine"), module)

    def value(self, name):
        return json.loads(re.search(f"<p id={name}>(.*?)</p>", self.made())[1])

    def test_texts_plans_and_films(self):
        self.assertEqual(self.value("texts"), {"en": {"end": "</script><!--\u2028", "all": "all"}, "de": {"all": "alle"}})
        plans, films = self.value("plans"), self.value("films")
        self.assertTrue(plans["example"].startswith("version = 1\n"))
        self.assertIn("small_town", plans)
        self.assertEqual([film["plan"] for film in films], [plans["example"], plans["small_town"]])
        self.assertEqual(films[1]["rows"], "J,0,1,D,3041\nS,0,96,,\n")

    def test_scripts(self):
        page = self.made()
        self.assertTrue(page.startswith("<style>p { margin: 0 }</style>"))
        # What a value has is not looked at again.
        self.assertIn("<script>function other() {}\nconst own = 1;\n\nconst begin = other;\n\n"
                      "// The last.\nbegin('@@STYLE@@');\n</script>", page)
        packed = re.search('const MODULE = "(.*?)";', page)[1]
        self.assertEqual(gzip.decompress(base64.b64decode(packed)), b"module")
        self.assertEqual(page.count("</script"), 2)
        self.assertNotIn("<!--", page)

    def test_what_is_refused(self):
        for name, text, said in (
            ("index.html", "@@WHAT@@", "@@WHAT@@"),
            ("main.js", "import { begin, end } from './first.js';\n", "end"),
            ("main.js", "import { begin } from './third.js';\n", "third.js"),
            ("main.js", "begin();\n", "first.js"),
            ("first.js", "import * as all from './second.js';\nexport const begin = 1;\n", "another form"),
            ("first.js", "export const begin = 1;\nexport const own = 1;\n", "own"),
            ("second.js", "import { begin } from './first.js';\nexport const other = 1;\n", "first.js imports second.js"),
            ("style.css", "</STYLE>", "style.css"),
            ("second.js", "export const other = '</script>';\n", "</script"),
            ("texts/en.json", "{", "en.json"),
            ("films.json", "{}", "films.json"),
            ("films.json", '[{"name": "a", "rows": "calls.csv", "plan": null}]', "films.json"),
            ("films.json", '[{"name": "a", "rows": "none.csv", "plan": null, "kinds": "XX"}]', "none.csv"),
            ("films.json", '[{"name": "a", "rows": "../README.md", "plan": null, "kinds": "XX"}]', "README.md"),
        ):
            with self.subTest(text):
                self.write(name, text)
                with self.assertRaisesRegex(bundle.BundleError, re.escape(said)):
                    self.made()
                self.write(name, FILES[name])

    def test_what_is_missing(self):
        with self.assertRaisesRegex(bundle.BundleError, "@@MODULE@@"):
            self.made(module=None)
        for name in FILES:
            if not name.startswith("texts/"):
                os.rename(os.path.join(bundle.PAGE, name), os.path.join(bundle.PAGE, "away"))
                with self.subTest(name), self.assertRaisesRegex(bundle.BundleError, re.escape(name)):
                    self.made()
                os.rename(os.path.join(bundle.PAGE, "away"), os.path.join(bundle.PAGE, name))


if __name__ == "__main__":
    unittest.main()
