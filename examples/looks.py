#!/usr/bin/env python3
"""Compares `crossbar5 look` and `walk --json` with the model in look_model.py, and with the schema:

    looks.py [PROGRAM [COUNT]]

First the traffic of the worked rows and of the examples, cut after each row; then COUNT random traffics (default 300),
also cut after each row. Each look is compared with the model, object by object, and its words and records with those
that a replay leaves once further rows have brought all markers to the end of their jobs. Looks of the worked rows are
checked against docs/look.schema.json, by Python's `jsonschema` (python3-jsonschema in Debian). Prints what differs, and
last `N passed, M failed`, of traffics; the status is 1 where one differs.
"""
import json, os, random, subprocess, sys, tomllib
from concurrent.futures import ThreadPoolExecutor

HERE = os.path.dirname(os.path.realpath(__file__))
sys.path.insert(0, HERE)
import look_model, walk_model

PROGRAM = os.path.abspath(sys.argv[1]) if len(sys.argv) > 1 else os.path.join(HERE, "../bin/crossbar5")
COUNT = int(sys.argv[2]) if len(sys.argv) > 2 else 300
SCHEMA = json.load(open(os.path.join(HERE, "../docs/look.schema.json")))


def run(command, rows, plan, kinds, *form):
    path = plan_file(plan)
    found = subprocess.run([PROGRAM, command, "--plan", path, "--markers", kinds, *form], input=rows.encode(),
                           capture_output=True)
    return found.returncode, found.stdout.decode()

FILES = {}
def plan_file(plan):
    if plan not in FILES:
        import tempfile
        file = tempfile.NamedTemporaryFile("w", suffix=".toml", delete=False)
        file.write(plan)
        file.close()
        FILES[plan] = file.name
    return FILES[plan]


def differences(rows, plan, kinds, schema):
    """What is wrong with the look after these rows."""
    status, text = run("look", rows, plan, kinds, "--json")
    expected = look_model.look(rows, plan, kinds)
    if isinstance(expected, str):
        return [] if (status, text) == (4, expected + "\n") else [f"expected {expected}, found {status} {text[:200]}"]
    if status != 0:
        return [f"status {status}: {text[:200]}"]
    found, wrong = json.loads(text), []
    if schema is not None:
        wrong += [f"schema: {e.message[:200]} at {list(e.absolute_path)}" for e in schema.iter_errors(found)]
    for name in expected:
        if found.get(name) != expected[name]:
            wrong.append(f"{name}: expected {json.dumps(expected[name])[:600]}, found {json.dumps(found.get(name))[:600]}")
    if list(found) != list(expected):
        wrong.append(f"members {list(found)}")
    if run("look", rows, plan, kinds, "--words") != (0, look_model.words_of(expected)):
        wrong.append("the words differ")
    return wrong

def settled_differences(rows, plan, kinds):
    """Rows that bring all markers to the end of their jobs: a look at them tells what a replay does."""
    own = "".join(f"S,{k},9999,,\n" for k in range(len(kinds)))
    for _ in range(len(kinds) + 1):
        rows += own
    status, text = run("look", rows, plan, kinds, "--json")
    if status != 0:
        return []
    found = json.loads(text)
    if any(m["job"] for m in found["markers"]):
        return ["a marker is still at its job"]
    _, report = run("replay", rows, plan, kinds)
    lines = report.splitlines()
    records = [look_model.record(line, [c for c in lines if c.startswith("TROUBLE")])
               for line in lines if line.split(",")[0].isdigit()]
    words = [int(w) for w in found["words"]]
    fields = lambda ws: sum(1 for w in ws for v in range(10) if walk_model.field(w, words[w], v))
    counts = [f"PATHS,{fields([w for w in range(200) if walk_model.is_line_switch(w)])}", f"CLOSED,{fields(range(400))}"]
    _, told = run("look", rows, plan, kinds)
    wrong = []
    if found["records"] != records:
        wrong.append("records differ from the replay's")
    if lines[-2:] != counts:
        wrong.append(f"counts {counts}, replay {lines[-2:]}")
    if not told.endswith(report) or told.count("\n") != len(kinds) + len(lines):
        wrong.append("the words don't end with the replay's report")
    return wrong

def walk_differences(rows, plan, kinds):
    """The events of walk --json say what the lines of a walk say."""
    status, lines = run("walk", rows, plan, kinds)
    other, events = run("walk", rows, plan, kinds, "--json")
    if status != other:
        return [f"statuses {status}, {other}"]
    if status != 0:
        return [] if lines == events else ["fault lines differ"]
    said = [json.loads(line) for line in events.splitlines()]
    told = []
    for event in said:
        if event["event"] == "step":
            told.append(f"{event['step']:4}  marker {event['marker']}  {event['says']}")
            told += [f"{'':18}trouble card: trial {c['trial']}, {c['link']} is faulty"
                     for c in (event["record"] or {"cards": []})["cards"]]
        elif event["event"] == "assignment":
            told.append(f"      marker {event['marker']}  {event['says']}")
        else:
            told.append(f"      {event['says']}")
    return [] if told == lines.splitlines() else ["the events don't say what the lines say"]


def worked():
    """(name, rows, plan, kinds) of the worked rows and the examples."""
    data = os.path.join(HERE, "../crates/worked_rows/data")
    for file in sorted(os.listdir(data)):
        table = tomllib.load(open(os.path.join(data, file), "rb"))
        for row in table.get("rows", []):
            if row.get("verb", "").split(" ")[0] in ("replay", "walk") and "input" in row and "plan" not in row:
                yield f"{file}: {row.get('name')}", row["input"], walk_model.EXAMPLE, row.get("markers", "XX")
    for name in ("three_dials", "meeting", "two_markers", "ten_calls_from_one_frame"):
        yield name, open(os.path.join(HERE, name + ".csv")).read(), walk_model.EXAMPLE, "XX"

def some_plan(chance):
    plan = walk_model.EXAMPLE
    if chance.random() < 0.5:
        links = sorted({chance.choice(["LL3{}{}", "JU3{}{}", "TL4{}{}"]).format(chance.randrange(10), chance.randrange(10))
                        for _ in range(chance.randrange(1, 30))})
        plan = plan.replace("faults = []", f"faults = {json.dumps(links)}")
    return plan

def some_rows(chance):
    kinds = "".join(chance.choice("XXXDC") for _ in range(chance.randrange(1, 6)))
    lines, rows = ["3041", "3052", "1000", "3100", "3042"], []
    for number in range(1, chance.randrange(3, 14)):
        k = chance.randrange(len(kinds))
        if chance.random() < 0.4:
            kind = chance.choice({"X": "DCR", "D": "D", "C": "CR"}[kinds[k]])
            dialled = " " + chance.choice(["2340002", "5551234", "2340004", "9990000"]) if kind == "C" else ""
            rows.append(f"J,{k},{number},{kind},{chance.choice(lines)}{dialled}")
        else:
            rows.append(f"S,{k},{chance.choice([1, 2, 3, 5, 8, 13, 21, 34, 55])},,")
    return rows, kinds


def check(case):
    name, rows, plan, kinds, schema, cuts = case
    wrong = []
    lines = [line for line in rows.splitlines() if line]
    for end in range(len(lines) + 1) if cuts else [len(lines)]:
        part = "".join(line + "\n" for line in lines[:end])
        try:
            wrong += [f"{name}, after {end} rows: {w}" for w in differences(part, plan, kinds, schema)]
        except (AssertionError, ValueError, KeyError, StopIteration) as error:
            wrong.append(f"{name}, after {end} rows: the model stops with {error!r}")
    whole = "".join(line + "\n" for line in lines)
    wrong += [f"{name}: {w}" for w in settled_differences(whole, plan, kinds) + walk_differences(whole, plan, kinds)]
    return wrong

def main():
    try:
        import jsonschema
        schema = jsonschema.Draft202012Validator(SCHEMA)
    except ImportError:
        print("without Python's jsonschema (python3-jsonschema) no look is checked against the schema")
        schema = None
    chance = random.Random(5)
    cases = [(*case, schema, len(case[1]) < 2000) for case in worked()]
    count = len(cases)
    for number in range(COUNT):
        rows, kinds = some_rows(chance)
        cases.append((f"random {number}", "".join(r + "\n" for r in rows), some_plan(chance), kinds, None, True))
    wrong, failures = [], 0
    with ThreadPoolExecutor(os.cpu_count()) as pool:
        for found in pool.map(check, cases):
            wrong += found
            failures += bool(found)
    for line in wrong[:40]:
        print(line)
    print(f"{count} worked traffics, {COUNT} random ones: {len(wrong)} differences")
    for path in FILES.values():
        os.unlink(path)
    print(f"{len(cases) - failures} passed, {failures} failed")
    sys.exit(1 if wrong else 0)


if __name__ == "__main__":
    main()
