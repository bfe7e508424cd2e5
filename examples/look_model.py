"""A model of `crossbar5 look`, on top of walk_model.py, written after docs/FORMATS.md (Look).

    look_model.py [--plan FILE] [--markers KINDS] [--words] < TRAFFIC

--words prints what `look --words` would print instead.
"""
import csv, io, json, re, sys
from walk_model import EXAMPLE, TURN_WORD, Office, Plan, conn_name, conn_word, field, joined, rows_done

KINDS = {"D": "dial tone", "C": "completing", "X": "combined"}
LETTERS = {"L": "line link frame", "T": "trunk link frame", "G": "group"}


def connector(c):
    return {"kind": LETTERS[c[0]], "number": c[1]}

def place(w):
    if w >= 400:
        return {"kind": "group", "number": w - 400}
    frame, at = divmod(w % 200, 20)
    side = "line" if w < 200 else "trunk"
    kind = f"{side} switch" if at < 10 else f"{side} junctor switch"
    return {"kind": kind, "frame": frame, "number": at % 10}

def items(w, value):
    if w >= 400:
        return [{"field": i, "value": 1, "name": str(i)} for i in range(64) if value >> i & 1]
    return [{"field": v, "value": field(w, value, v), "name": joined(w, v, field(w, value, v))}
            for v in range(10) if field(w, value, v)]

def job(number, kind, line, dialled):
    return {"number": number, "kind": kind, "line": line, "dialled": dialled}

def record(line, cards):
    """A record by its line and the lines of the trouble cards."""
    turn, number, marker, kind, own, dialled, end, trial, path, other = line.split(",")
    none = lambda text: None if text == "-" else text
    return {"turn": int(turn), "marker": int(marker), "job": job(int(number), kind, own, none(dialled)), "end": end,
            "trial": None if trial == "-" else int(trial), "path": none(path), "other": none(other),
            "cards": [{"trial": int(c.split(",")[3]), "link": c.split(",")[4]}
                      for c in cards if c.split(",")[1] == turn]}


class Watched(Office):
    """An office that keeps, of each step, what it changed in the words and how it was told."""
    def __init__(self, plan, kinds):
        super().__init__(plan, kinds)
        self.events, self.in_row = [], 0

    def assign(self, k, number, kind, line, dialled):
        super().assign(k, number, kind, line, dialled)
        says = self.lines[-1].split("  ", 4)[-1]
        self.events.append({"event": "assignment", "marker": k, "job": job(number, kind, line, dialled), "says": says})

    def step(self, k):
        before, lines, records, turned = list(self.words), len(self.lines), len(self.records), self.markers[k]
        if not super().step(k):
            return False
        self.in_row += 1
        says = re.sub(r"^ *\d+  marker \d+  ", "", self.lines[lines])
        added = self.records[records:]
        self.events.append(self.event(k, says, before, added))
        return True

    def event(self, k, says, before, added):
        verb = says.split(" ")[0]
        act = {"requests": "request", "seizes": "seize", "would": "seize", "withdraws": "withdraw", "tests": "test",
               "takes": "turn", "closes": "close", "opens": "open", "frees": "free"}.get(verb)
        if verb == "marks":
            act = "close" if says.endswith("busy") else "open"
        word = self.word_of(act, says)
        changed = before[word] ^ self.words[word]
        number = lambda pattern: next(map(int, re.findall(pattern, says)), None)
        return {"event": "step", "step": self.in_row, "marker": k, "act": act,
                "object": None if act == "turn" else place(word) if act in ("test", "close", "open")
                else connector(conn_of(word)),
                "word": word, "found": str(before[word]) if act in ("test", "open") else None,
                "items": items(word, before[word]) if act == "test" else
                items(word, changed) if act in ("close", "open") else [],
                "holder": number(r": marker (\d+) holds it"), "preferred": number(r": marker (\d+) is preferred"),
                "turn": number(r"^takes turn (\d+):"),
                "record": record(added[0], self.cards) if added else None,
                "ended": number(r", and has done job (\d+)$"), "says": says}

    @staticmethod
    def word_of(act, says):
        if act == "turn":
            return TURN_WORD
        found = re.search(r"(line|trunk) link frame (\d)", says)
        if act in ("request", "seize", "withdraw", "free"):
            if found:
                return {"line": 416, "trunk": 426}[found[1]] + int(found[2])
            return 436 + int(re.search(r"group (\d+)", says)[1])
        switch = re.search(r"(line|trunk) (junctor )?switch (\d),(\d)", says)
        if switch:
            return {"line": 0, "trunk": 200}[switch[1]] + 20 * int(switch[3]) + (10 if switch[2] else 0) + int(switch[4])
        return 400 + int(re.search(r"group (\d+)", says)[1])


def conn_of(w):
    return ("L", w - 416) if w < 426 else ("T", w - 426) if w < 436 else ("G", w - 436)

def next_step(office, m):
    """What the marker does next: its act, its word, the bits that it changes, and its words."""
    if m.phase == "give back":
        if m.request is not None:
            return "withdraw", conn_word(m.request), 0, f"withdraws its request for {conn_name(m.request)}"
        return "free", conn_word(m.attempt.held[0]), 0, f"frees {conn_name(m.attempt.held[0])}"
    if m.phase == "past":
        if m.left:
            return effect(m.left[0][1])
        return "free", conn_word(m.attempt.held[0]), 0, f"frees {conn_name(m.attempt.held[0])}"
    if m.request is not None:
        return "seize", conn_word(m.request), 0, f"seizes {conn_name(m.request)}"
    what, of = m.wanted
    if what == "seize":
        return "request", conn_word(of), 0, f"requests {conn_name(of)}"
    if what == "test":
        at = place(of)
        name = f"group {of - 400}" if of >= 400 else f"{at['kind']} {at['frame']},{at['number']}"
        return "test", of, 0, f"tests {name}"
    return "turn", TURN_WORD, 0, "takes its turn"

def effect(says):
    act = "close" if says.startswith("closes") or says.endswith("busy") else "open"
    word = Watched.word_of(act, says)
    if word >= 400:
        bits = 1 << int(re.search(r"member (\d+)", says)[1])
    else:
        bits = next(value << ((6 if word < 200 and word % 20 < 10 else 4) * v) for v in range(10) for value in range(1, 32)
                    if (word < 200 and word % 20 < 10 or value < 16) and f": {joined(word, v, value)} are" in says)
    return act, word, bits, says

def told(step):
    act, word, bits, says = step
    return {"act": act, "object": None if act == "turn" else place(word) if act in ("test", "close", "open")
            else connector(conn_of(word)), "word": word, "items": items(word, bits), "says": says}

def closed(office, text):
    """How many of a path's crosspoints are closed."""
    line, n, at = text.split("-")
    (l, s, x), n, (t, u, a) = (int(line[0]), int(line[1]), 5 * int(line[2]) + int(line[3])), int(n), map(int, at)
    points = [(20*l + s, n, 1 + x), (20*l + 10 + n, t, 1 + s), (200 + 20*t + 10 + n, l, 1 + u), (200 + 20*t + u, n, 1 + a)]
    return sum(field(w, office.words[w], v) == value for w, v, value in points)

def marker(office, k):
    m = office.markers[k]
    own = {"marker": k, "kind": KINDS[office.kinds[k]]}
    if m is None:
        return own | {"job": None, "turn": None, "next": None, "held": [], "requested": None, "effects": [], "paths": []}
    number, effects, paths = left(office, m)
    return own | {
        "job": job(m.job, m.kind, m.line, m.dialled), "turn": number,
        "next": told(next_step(office, m)), "held": [connector(c) for c in m.attempt.held],
        "requested": None if m.request is None else connector(m.request),
        "effects": [told(effect(says)) for says in effects],
        "paths": [{"path": p, "closed": closed(office, p)} for p in paths]}

def left(office, m):
    """The number of the turn, the effects that are left, and the paths that they close or open."""
    if m.phase == "past":
        fields = next(r for r in office.records if r.split(",")[1] == str(m.job)).split(",")
        return int(fields[0]), [says for _, says in m.left], [p for p in fields[8:] if p != "-"]
    if m.phase == "try" and m.request is None and m.wanted[0] == "turn":   # it has decided, and takes its turn next
        shadow = Office(m.attempt.plan, "X")
        copy = type("Copy", (), {"k": 0, "job": m.job, "kind": m.kind, "line": m.line, "dialled": m.dialled, "left": []})()
        shadow.turn(copy, m.wanted[1])
        return None, [says for _, says in copy.left], [p.text() for p in m.wanted[1].paths]
    return None, [], []

def plan_object(text):
    import tomllib
    d = tomllib.loads(text)
    names = [g.split(" ")[0] for g in d["groups"]]
    return {"groups": [{"name": g.split(" ")[0], "kind": g.split(" ")[1], "members": [m.split("-") for m in g.split(" ")[2:]]}
                       for g in d["groups"]],
            "numbers": [{"number": n.split(" ")[0], "lines": n.split(" ")[1:]} for n in d["numbers"]],
            "codes": [{"code": c.split(" ")[0], "groups": [names.index(n) for n in c.split(" ")[1:]]} for c in d["codes"]],
            "faults": d["faults"]}

def told_of(c):
    return f"{c['kind']} {c['number']}"

def words_of(found):
    """What `look --words` prints of an office, by its object."""
    lines = []
    for m in found["markers"]:
        job = m["job"]
        if job is None:
            lines.append(f"marker {m['marker']}, {m['kind']}: idle")
            continue
        what = {"D": "dial tone for line {line}", "C": "call of line {line} to {dialled}",
                "R": "release of line {line}"}[job["kind"]].format(**job)
        lines.append(f"marker {m['marker']}, {m['kind']}: job {job['number']}, {what}")
        lines.append(f"  next: {m['next']['says']}")
        lines += [f"  holds {told_of(c)}" for c in m["held"]]
        lines += [f"  requests {told_of(c)}" for c in [m["requested"]] if c]
        lines += [f"  left: {e['says']}" for e in m["effects"]]
        lines += [f"  path {p['path']}: {p['closed']} of 4 crosspoints closed" for p in m["paths"]]
    words = [int(w) for w in found["words"]]
    count = lambda ws: sum(1 for w in ws for v in range(10) if field(w, words[w], v))
    none = lambda value: "-" if value is None else str(value)
    for r in found["records"]:
        job = r["job"]
        lines.append(",".join(map(none, [r["turn"], job["number"], r["marker"], job["kind"], job["line"], job["dialled"],
                                         r["end"], r["trial"], r["path"], r["other"]])))
    lines += [f"TROUBLE,{r['turn']},{r['job']['number']},{c['trial']},{c['link']}"
              for r in found["records"] for c in r["cards"]]
    lines += [f"PATHS,{count([w for w in range(200) if w % 20 < 10])}", f"CLOSED,{count(range(400))}"]
    return "".join(line + "\n" for line in lines)

def look(text, plan=EXAMPLE, kinds="XX"):
    """The object, or a fault line."""
    fault = rows_done(Office(Plan(plan), kinds), text)
    if fault:
        return fault
    office = Watched(Plan(plan), kinds)
    for row in (r for r in csv.reader(io.StringIO(text.removeprefix("\ufeff"), newline="")) if r):
        office.events, office.in_row = [], 0
        rows_done(office, ",".join(row) + "\n")
    words = office.words
    return {"plan": plan_object(plan), "markers": [marker(office, k) for k in range(len(kinds))],
            "connectors": [{"connector": connector(conn_of(w)), "word": w,
                            "holder": (words[w] & 63) - 1 if words[w] & 63 else None,
                            "requests": [j for j in range(48) if words[w] >> (8 + j) & 1]}
                           for w in range(416, 452) if words[w]],
            "shown": [{"word": w, "object": place(w), "items": items(w, words[w])} for w in range(416) if words[w]],
            "records": [record(r, office.cards) for r in office.records],
            "words": [str(w) for w in words], "events": office.events}

if __name__ == "__main__":
    args, plan, kinds = sys.argv[1:], EXAMPLE, "XX"
    if "--plan" in args:
        plan = open(args[args.index("--plan") + 1]).read()
    if "--markers" in args:
        kinds = args[args.index("--markers") + 1]
    found = look(sys.stdin.read(), plan, kinds)
    if isinstance(found, str):
        print(found)
    elif "--words" in args:
        sys.stdout.write(words_of(found))
    else:
        print(json.dumps(found, separators=(",", ":")))
