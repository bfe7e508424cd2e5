"""Makes the one page of the exhibit from its parts.

bundle(engine_script, module=None) gives the page as text. exhibit/page/index.html is the frame, and has placeholders:

    @@STYLE@@   page/style.css
    @@SCRIPT@@  page/main.js and the modules that it imports, as one script: each module stands behind those that it
                imports, without the words `import` and `export`. A page from a file can't load modules
    @@ENGINE@@  the engine's script, a file such as engine/inside.js; in it @@MODULE@@ is the module, packed by gzip, in
                base64
    @@SOURCES@@ the sum of all that the page is made from, by sources.py
    @@TEXTS@@   an object: the content of each page/texts/*.json by its name without .json
    @@PLANS@@   an object: the text of each examples/*.toml by its name without .toml, and by 'example' the plan that
                the program has if none is named
    @@FILMS@@   an array of {name, plan, kinds, rows}, by page/films.json: an array of objects with the same names,
                where rows is a file of examples, and plan is one too, or null for the example plan. Here both are
                texts

The last three are JSON in which no `<` stands for itself, so nothing in it ends a script element or begins a comment.
What is missing, or can't stand where it is put, raises a BundleError that names it.
"""

import base64
import gzip
import json
import os
import re
import sys

from sources import source_sum

HERE = os.path.dirname(os.path.realpath(__file__))
ROOT = os.path.dirname(HERE)
PAGE = os.path.join(HERE, "page")
EXAMPLES = os.path.join(ROOT, "examples")
EXAMPLE_PLAN = os.path.join(ROOT, "crates", "worked_rows", "data", "example.toml")

PLACEHOLDER = re.compile("@@([A-Z]+)@@")


class BundleError(Exception):
    """The page can't be made. The message says why, and names the file or the placeholder."""


def shown(path):
    return os.path.relpath(path, ROOT)


def read(*path):
    path = os.path.join(*path)
    try:
        with open(path, encoding="utf-8", newline="") as it:
            return it.read()
    except OSError as why:
        raise BundleError(f"{shown(path)} can't be read: {why.strerror}") from why
    except UnicodeDecodeError as why:
        raise BundleError(f"{shown(path)} isn't UTF-8 text") from why


def read_json(*path):
    try:
        return json.loads(read(*path))
    except ValueError as why:
        raise BundleError(f"{shown(os.path.join(*path))} isn't JSON: {why}") from why


def names(folder, ending):
    """The names of a folder's files with this ending, without it."""
    try:
        found = sorted(os.listdir(folder))
    except OSError as why:
        raise BundleError(f"{shown(folder)} can't be read: {why.strerror}") from why
    return [name.removesuffix(ending) for name in found if name.endswith(ending)]


def as_json(value):
    """JSON for a script element. U+2028 and U+2029 are told by numbers too, as everything outside ASCII is."""
    return json.dumps(value, separators=(",", ":")).replace("<", "\\u003c")


def texts():
    folder = os.path.join(PAGE, "texts")
    return as_json({name: read_json(folder, f"{name}.json") for name in names(folder, ".json")})


def plans():
    of_examples = {name: read(EXAMPLES, f"{name}.toml") for name in names(EXAMPLES, ".toml")}
    return as_json({"example": read(EXAMPLE_PLAN), **of_examples})


def example(film, name):
    """The text of a file of examples that a film names, with or without the folder."""
    if not isinstance(name, str) or "/" in name.removeprefix("examples/"):
        raise BundleError(f"exhibit/page/films.json, {film}: {name!r} isn't a file of examples")
    return read(EXAMPLES, name.removeprefix("examples/"))


def film(it):
    if not isinstance(it, dict) or not {"name", "plan", "kinds", "rows"} <= it.keys():
        raise BundleError(f"exhibit/page/films.json: {it!r} lacks one of name, plan, kinds and rows")
    name, plan = it["name"], it["plan"]
    plan = read(EXAMPLE_PLAN) if plan is None else example(name, plan)
    return {**it, "plan": plan, "rows": example(name, it["rows"])}


def films():
    found = read_json(PAGE, "films.json")
    if not isinstance(found, list):
        raise BundleError("exhibit/page/films.json isn't a list")
    return as_json([film(it) for it in found])


# What a module of the page imports, and what it declares for others.
IMPORT = re.compile(r"^import \{([^}]*)\} from '\./([\w-]+\.js)';\n+", re.MULTILINE)
DECLARED = re.compile(r"^(export )?(?:async )?(?:const|let|function\*?|class) (\$|\w+)", re.MULTILINE)


def imported(name, above=()):
    """The texts of a module and of those that it stands on, by name, each behind those that it imports."""
    if name in above:
        raise BundleError("exhibit/page: " + " imports ".join([*above, name]))
    text, found = read(PAGE, name), {}
    for names, other in IMPORT.findall(text):
        found.update(imported(other, (*above, name)))
        exported = {it for exports, it in DECLARED.findall(found[other]) if exports}
        lacks = {it.strip() for it in names.split(",")} - exported - {""}
        if lacks:
            raise BundleError(f"exhibit/page/{name}: {other} doesn't export {', '.join(sorted(lacks))}")
    return {**found, name: text}


def script():
    """The page's modules as one script. Each file of the folder has to be among them, so that none is forgotten."""
    found = imported("main.js")
    for name in names(PAGE, ".js"):
        if f"{name}.js" not in found:
            raise BundleError(f"no module that main.js stands on imports exhibit/page/{name}.js")
    declared = [it for text in found.values() for _, it in DECLARED.findall(text)]
    for it in declared:
        if declared.count(it) > 1:
            raise BundleError(f"exhibit/page: two modules declare {it}, and they become one script")
    text = "\n".join(re.sub("^export ", "", IMPORT.sub("", it), flags=re.MULTILINE) for it in found.values())
    if re.search("^(import|export)\\b", text, re.MULTILINE):
        raise BundleError("exhibit/page: a module has an import or an export of another form than { names }")
    return without("</script", text, "a script of exhibit/page")


def style():
    return without("</style", read(PAGE, "style.css"), "exhibit/page/style.css")


def without(ending, text, what):
    """The text, which may not have what ends the element that it is put into."""
    for word in (ending, "<!--"):
        if word in text.lower():
            raise BundleError(f"{what} has '{word}', which ends its element, or begins a comment")
    return text


def packed(module):
    if module is None:
        raise BundleError("@@MODULE@@ has no value: no module was given")
    return base64.b64encode(gzip.compress(module, 9, mtime=0)).decode()


def engine(path, module):
    text = filled(read(path), shown(path), {"MODULE": lambda: packed(module)})
    return without("</script", text, shown(path))


def filled(text, name, values):
    """The text with each placeholder replaced by its value. What a value has is not looked at again."""
    def value(found):
        if found[1] not in values:
            raise BundleError(f"{name}: {found[0]} has no value")
        return values[found[1]]()
    return PLACEHOLDER.sub(value, text)


def bundle(engine_script, module=None):
    """The page with the engine's script, the path of a file, and the bytes of the module, if the script has one."""
    return filled(read(PAGE, "index.html"), "exhibit/page/index.html", {
        "STYLE": style, "SCRIPT": script, "SOURCES": source_sum, "TEXTS": texts, "FILMS": films, "PLANS": plans,
        "ENGINE": lambda: engine(engine_script, module),
    })


def main():
    """Prints the page: bundle.py ENGINE_SCRIPT [MODULE]. With --script, prints the page's own script alone."""
    module = None
    try:
        if sys.argv[1:] == ["--script"]:
            return sys.stdout.write(script())
        if len(sys.argv) > 2:
            with open(sys.argv[2], "rb") as it:
                module = it.read()
        sys.stdout.write(bundle(sys.argv[1], module))
    except (BundleError, OSError) as why:
        sys.exit(f"exhibit/bundle.py: {why}")


if __name__ == "__main__":
    main()
