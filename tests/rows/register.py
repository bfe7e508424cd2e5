"""Checks where the rows of a register run: each row of data has a harness that reads it, and each other row a test.

A register is a TOML file with a table [[rows]] for each row. register.toml says at its head what a row has."""
import re
import tomllib
from collections import Counter

DECLARED = re.compile(r"^(?:pub(?:\([a-z]+\))? )?(?:const|static|fn|struct|enum|trait|type) (\w+)|^impl\b.*?(\w+)(?:<.*>)? \{",
                      re.MULTILINE)


def code_of(path):
    """The text of a source file without the lines that are comments."""
    lines = path.read_text(encoding="utf-8").splitlines()
    return "\n".join(line for line in lines if not line.lstrip().startswith("//"))


def is_crate(root, crate):
    listed = (root / "crates.txt").read_text(encoding="utf-8").splitlines()
    return any(line.partition(":")[0].partition(" ")[0] == crate for line in listed)


def why_not_in_data(root, row):
    """Why no harness runs the row of data, or None."""
    crate, _, file = row["data"].partition("/")
    folder = root / "crates" / crate
    if not is_crate(root, crate):
        return f"crates.txt has no {crate}"
    if not (folder / "data" / file).is_file():
        return f"there is no {row['data']}"
    if f'"{file}"' not in code_of(folder / "src" / "main.rt"):
        return f"{crate} doesn't read {file}"
    names = [one["name"] for one in tomllib.loads((folder / "data" / file).read_text(encoding="utf-8")).get("rows", [])]
    if names.count(row["row"]) != 1:
        return f"{row['data']} has {names.count(row['row'])} rows of this name"
    told = (folder / "stdout").read_text(encoding="utf-8").splitlines().count(f"{row['row']}: as worked out")
    return None if told == 1 else f"the stdout of {crate} has {told} lines of this name"


def module_file(root, crate, modules):
    """The source file of a module, and why it isn't compiled, or None."""
    file, folder = root / "crates" / crate / "src" / "lib.rt", root / "crates" / crate / "src"
    for module in modules:
        if not re.search(rf"^(?:pub(?:\([a-z]+\))? )?mod {module};$", code_of(file), re.MULTILINE):
            return file, f"{file.relative_to(root)} doesn't declare the module {module}"
        file, folder = folder / f"{module}.rt", folder / module
        if not file.is_file():
            return file, f"there is no {file.relative_to(root)}"
    return file, None


def items_of(code):
    """The text of the items of a file by their names. Items of one name are put together."""
    starts = list(DECLARED.finditer(code))
    items = {}
    for start, after in zip(starts, [one.start() for one in starts[1:]] + [len(code)]):
        name = start[1] or start[2]
        items[name] = items.get(name, "") + code[start.start():after]
    return items


def reached_from(items, name):
    """The text of an item and of all that it names in its file, directly or by others."""
    found, left = {}, [name]
    while left:
        one = left.pop()
        if one in items and one not in found:
            found[one] = items[one]
            left += re.findall(r"\w+", items[one])
    return "\n".join(found.values())


def without_spaces(text):
    return re.sub(r"\s+", "", text)


def why_no_test(root, row):
    """Why no test runs the row, or None."""
    crate, *modules, name = row["test"].split("::")
    if not is_crate(root, crate):
        return f"crates.txt has no {crate}"
    file, why = module_file(root, crate, modules)
    if why:
        return why
    code = code_of(file)
    declared = re.findall(rf"((?:^#\[.*\]\n)*)^(?:pub )?fn {name}\b", code, re.MULTILINE)
    if len(declared) != 1:
        return f"{file.relative_to(root)} has {len(declared)} functions {name}"
    if "#[test]" not in declared[0].splitlines():
        return f"{name} has no #[test]"
    if without_spaces(row.get("text", "")) not in without_spaces(reached_from(items_of(code), name)):
        return f"{name} hasn't the row's text"
    return None


KEYS = {frozenset(["name", "says", "data", "row"]): why_not_in_data,
        frozenset(["name", "says", "test"]): why_no_test,
        frozenset(["name", "says", "test", "text"]): why_no_test}


def why_lost(root, row):
    """Why the row runs nowhere, or None."""
    check = KEYS.get(frozenset(row))
    return check(root, row) if check else "a row has a name, says something, and has data and row, or test and perhaps text"


def lost_rows(root, register):
    """The number of rows of a register, and each that is lost with the reason."""
    rows = tomllib.loads(register.read_text(encoding="utf-8"))["rows"]
    names = Counter(row.get("name") for row in rows)
    lost = []
    for row in rows:
        why = "this name stands twice" if names[row.get("name")] > 1 else why_lost(root, row)
        if why:
            lost.append((row.get("name"), why))
    return len(rows), lost
