"""A model of `crossbar5 walk`, written after docs/OFFICE.md (order of steps) and docs/FORMATS.md (Walk).

    walk_model.py [--plan FILE] [--markers KINDS] [--short] [--records] < TRAFFIC

--records prints what `replay` would print instead. Plans are taken to be right. Of a trace that breaks off
(words that no lawful office shows) the model knows nothing: it stops with an error.
"""
import csv, io, sys, tomllib

EXAMPLE = '''version = 1
groups = ["REG register 417 418 509", "INTRA intra 600-601 700-711", "OUTA outgoing 800", "OUTB outgoing 801 902"]
numbers = ["0001 3041", "0002 3052", "0003 1000", "0004 3100"]
codes = ["234 INTRA", "555 OUTA OUTB"]
faults = []
'''
TURN_WORD = 452


# ---- texts and numbers -------------------------------------------------------------------------------------
def ten(text):
    return tuple(int(c) for c in text)                                  # (t, u, a)

def len_of(text):
    return int(text[0]), int(text[1]), 5 * int(text[2]) + int(text[3])  # (l, s, x)

def len_text(l, s, x):
    return f"{l}{s}{x // 5}{x % 5}"

class Path:
    def __init__(self, line, n, place):
        self.line, self.n, self.place = line, n, place
    def text(self):
        return f"{len_text(*self.line)}-{self.n}-{''.join(map(str, self.place))}"
    def links(self):                                                     # in the order of the fault list's look-up
        (l, s, _), n, (t, u, _) = self.line, self.n, self.place
        return [f"LL{l}{s}{n}", f"JU{l}{t}{n}", f"TL{t}{u}{n}"]
    def crosspoints(self):                                               # (word, field, value), by the table's order
        (l, s, x), n, (t, u, a) = self.line, self.n, self.place
        return [(20*l + s, n, 1 + x), (20*l + 10 + n, t, 1 + s),
                (200 + 20*t + 10 + n, l, 1 + u), (200 + 20*t + u, n, 1 + a)]


class Plan:
    def __init__(self, text):
        d = tomllib.loads(text)
        self.groups = []
        for item in d["groups"]:
            name, kind, *members = item.split(" ")
            # a member is (first place,) or (first place, second place)
            self.groups.append((name, kind, [tuple(ten(p) for p in m.split("-")) for m in members]))
        names = [g[0] for g in self.groups]
        self.register = next(i for i, g in enumerate(self.groups) if g[1] == "register")
        self.numbers = {i.split(" ")[0]: [len_of(x) for x in i.split(" ")[1:]] for i in d["numbers"]}
        self.codes = {i.split(" ")[0]: [names.index(n) for n in i.split(" ")[1:]] for i in d["codes"]}
        self.faults = set(d["faults"])
        self.at = {}                                                     # place -> (group, member, other place)
        for g, (_, _, members) in enumerate(self.groups):
            for i, m in enumerate(members):
                for side, p in enumerate(m):
                    self.at[p] = (g, i, m[1 - side] if len(m) == 2 else None)


# ---- words -------------------------------------------------------------------------------------------------
def is_line_switch(w):
    return w < 200 and w % 20 < 10

def width(w):
    return 6 if is_line_switch(w) else 4

def field(w, value, v):
    return value >> (width(w) * v) & ((1 << width(w)) - 1)

def field_that_holds(w, value, wanted):
    return next((v for v in range(10) if field(w, value, v) == wanted), None)

def conn_word(c):
    return {"L": 416, "T": 426, "G": 436}[c[0]] + c[1]

def conn_name(c):
    return {"L": "line link frame", "T": "trunk link frame", "G": "group"}[c[0]] + f" {c[1]}"

def word_name(w):
    if w >= 400:
        return f"group {w - 400}"
    frame, place = divmod(w % 200, 20)
    side = "line" if w < 200 else "trunk"
    return f"{side} switch {frame},{place}" if place < 10 else f"{side} junctor switch {frame},{place - 10}"

def joined(w, v, value):
    """The two things that a crosspoint joins, by the table in 'A path and its four crosspoints'."""
    frame, place = divmod(w % 200, 20)
    if w < 200 and place < 10:                                           # line switch (l,s), field n, 1 + x
        return f"line {len_text(frame, place, value - 1)} and LL{frame}{place}{v}"
    if w < 200:                                                          # line junctor switch (l,n), field t, 1 + s
        return f"LL{frame}{value - 1}{place - 10} and JU{frame}{v}{place - 10}"
    if place >= 10:                                                      # trunk junctor switch (t,n), field l, 1 + u
        return f"JU{v}{frame}{place - 10} and TL{frame}{value - 1}{place - 10}"
    return f"TL{frame}{place}{v} and place {frame}{place}{value - 1}"    # trunk switch (t,u), field n, 1 + a

def found_text(w, value):
    if w >= 400:
        busy = [str(i) for i in range(40) if value >> i & 1]
        return "busy members: " + ", ".join(busy) if busy else "all members idle"
    closed = [joined(w, v, field(w, value, v)) for v in range(10) if field(w, value, v)]
    return "closed: " + "; ".join(closed) if closed else "nothing closed"


# ---- the three jobs: each a generator of ("seize", connector) and ("test", word), which returns its decision ---
class End:
    def __init__(self, name, trial=None, paths=(), opens=(), open_bit=None, close_bit=None, cards=()):
        self.name, self.trial, self.paths, self.opens = name, trial, list(paths), list(opens)
        self.open_bit, self.close_bit, self.cards = open_bit, close_bit, list(cards)

class Attempt:
    """What one attempt has seized and read."""
    def __init__(self, plan):
        self.plan, self.held, self.read, self.gone = plan, [], {}, []
    def seize(self, c):
        if c not in self.held:
            yield ("seize", c)
    def test(self, w):
        if w not in self.read:
            self.read[w] = yield ("test", w)
    def value(self, w):
        value = self.read[w]
        for ww, v, _ in self.gone:                                       # a register's path that is gone counts as 0
            if ww == w:
                value &= ~(((1 << width(w)) - 1) << (width(w) * v))
        return value
    def field(self, w, v):
        return field(w, self.value(w), v)

    def channel(self, line, place, start, busy=()):
        (l, s, _), (t, u, _) = line, place
        for d in range(10):
            n = (start + d) % 10
            idle = (self.field(20*l + s, n) == 0 and self.field(20*l + 10 + n, t) == 0
                    and self.field(200 + 20*t + u, n) == 0)
            path = Path(line, n, place)
            if idle and not set(path.links()) & set(busy):
                return path
        return None

    def trials(self, g, line, called):
        members = self.plan.groups[g][2]
        idle = [i for i in range(len(members)) if not self.read[400 + g] >> i & 1]
        cards, i = [], idle[0]
        for trial, start in ((1, 0), (2, 5)):
            if trial == 2:
                i = next((j for j in idle if j > i), i)
            member = members[i]
            yield from self.seize(("T", member[0][0]))
            for t, u, _ in member:
                yield from self.test(200 + 20*t + u)
            for n in range(10):
                yield from self.test(20*line[0] + 10 + n)
            if called is not None:
                for n in range(10):
                    yield from self.test(20*called[0] + 10 + n)
            calling_path = self.channel(line, member[0], start)
            if calling_path is None:
                continue                                                 # no channel
            paths = [calling_path]
            if called is not None:
                called_path = self.channel(called, member[1], start, calling_path.links())
                if called_path is None:
                    continue
                paths.append(called_path)
            bad = [k for p in paths for k in p.links() if k in self.plan.faults]
            if bad:
                cards.append((trial, bad[0]))
                continue
            return (trial, i, paths, cards)
        return (None, None, [], cards)

    def dial(self, line, _dialled):
        l, s, x = line
        yield from self.seize(("L", l))
        yield from self.test(20*l + s)
        if field_that_holds(20*l + s, self.read[20*l + s], 1 + x) is not None:
            return End("LINEBUSY")
        g = self.plan.register
        yield from self.seize(("G", g))
        yield from self.test(400 + g)
        if all(self.read[400 + g] >> i & 1 for i in range(len(self.plan.groups[g][2]))):
            return End("REGISTERSBUSY")
        trial, i, paths, cards = yield from self.trials(g, line, None)
        if trial is None:
            return End("TROUBLE" if cards else "NOPATH", cards=cards)
        return End("DIALTONE", trial, paths, close_bit=(g, i), cards=cards)

    def own_path(self, line):
        """Steps 1 to 4 of Complete and of Release; nothing where the line has no path."""
        l, s, x = line
        yield from self.seize(("L", l))
        yield from self.test(20*l + s)
        n = field_that_holds(20*l + s, self.read[20*l + s], 1 + x)
        if n is None:
            return None
        yield from self.test(20*l + 10 + n)
        t = field_that_holds(20*l + 10 + n, self.read[20*l + 10 + n], 1 + s)
        assert t is not None
        yield from self.seize(("T", t))
        yield from self.test(200 + 20*t + 10 + n)
        u = self.field(200 + 20*t + 10 + n, l) - 1
        assert 0 <= u < 10
        yield from self.test(200 + 20*t + u)
        a = self.field(200 + 20*t + u, n) - 1
        assert 0 <= a < 10
        return Path(line, n, (t, u, a))

    def complete(self, line, dialled):
        plan, g0 = self.plan, self.plan.register
        own = yield from self.own_path(line)
        if own is None or plan.at[own.place][0] != g0:
            return End("NOREGISTER")
        yield from self.seize(("G", g0))
        back = dict(opens=[own], open_bit=(g0, plan.at[own.place][1]))
        self.gone = own.crosspoints()
        route = plan.codes.get(dialled[:3])
        if route is None:
            return End("VACANTCODE", **back)
        called = None
        if plan.groups[route[0]][1] == "intra":
            lines = plan.numbers.get(dialled[3:])
            if lines is None:
                return End("VACANTNUMBER", **back)
            for other in lines:
                if other == line:
                    continue
                l, s, x = other
                yield from self.seize(("L", l))
                yield from self.test(20*l + s)
                if field_that_holds(20*l + s, self.value(20*l + s), 1 + x) is None:
                    called = other
                    break
            if called is None:
                return End("CALLEDBUSY", **back)
        for g in route:
            yield from self.seize(("G", g))
            yield from self.test(400 + g)
            if any(not self.read[400 + g] >> i & 1 for i in range(len(plan.groups[g][2]))):
                break
        else:
            return End("TRUNKSBUSY", **back)
        trial, i, paths, cards = yield from self.trials(g, line, called)
        if trial is None:
            return End("TROUBLE" if cards else "NOPATH", cards=cards, **back)
        return End("CONNECTED", trial, paths, close_bit=(g, i), cards=cards, **back)

    def release(self, line, _dialled):
        own = yield from self.own_path(line)
        if own is None:
            return End("NOCALL")
        g, i, other = self.plan.at[own.place]
        yield from self.seize(("G", g))
        if other is None:
            return End("RELEASED", paths=[own], opens=[own], open_bit=(g, i))
        t, u, a = other
        yield from self.test(200 + 20*t + u)
        n = field_that_holds(200 + 20*t + u, self.read[200 + 20*t + u], 1 + a)
        assert n is not None
        yield from self.test(200 + 20*t + 10 + n)
        l = field_that_holds(200 + 20*t + 10 + n, self.read[200 + 20*t + 10 + n], 1 + u)
        assert l is not None
        yield from self.seize(("L", l))
        yield from self.test(20*l + 10 + n)
        s = self.field(20*l + 10 + n, t) - 1
        assert 0 <= s < 10
        yield from self.test(20*l + s)
        x = self.field(20*l + s, n) - 1
        assert 0 <= x < 30
        party = Path((l, s, x), n, other)
        return End("RELEASED", paths=[own, party], opens=[own, party], open_bit=(g, i))


# ---- markers and the office --------------------------------------------------------------------------------
class Marker:
    def __init__(self, k, job, kind, line, dialled):
        self.k, self.job, self.kind, self.line, self.dialled = k, job, kind, line, dialled
        self.phase, self.request, self.expected, self.left = "try", None, None, []
        self.begun = False
    def anew(self, plan):
        self.phase, self.request, self.expected, self.begun = "try", None, None, True
        self.attempt = Attempt(plan)
        job = {"D": self.attempt.dial, "C": self.attempt.complete, "R": self.attempt.release}[self.kind]
        self.steps = job(len_of(self.line), self.dialled)
        self.go(None)
    def go(self, answer):
        try:
            self.wanted = self.steps.send(answer)
        except StopIteration as stop:
            self.wanted = ("turn", stop.value)


class Office:
    def __init__(self, plan, kinds):
        self.plan, self.kinds, self.words = plan, kinds, [0] * 453
        self.markers = [None] * len(kinds)
        self.lines, self.records, self.cards, self.made = [], [], [], 0

    def tell(self, k, words):
        self.lines.append(f"{self.made:4}  marker {k}  {words}")

    def assign(self, k, job, kind, line, dialled):
        m = Marker(k, job, kind, line, dialled)
        m.anew(self.plan)
        self.markers[k] = m
        what = {"D": f"dial tone for line {line}", "C": f"call of line {line} to {dialled}",
                "R": f"release of line {line}"}[kind]
        self.lines.append(f"      marker {k}  is given job {job}: {what}")

    def judge(self, k, word):
        if word & 63:
            return f"marker {(word & 63) - 1} holds it"
        lower = [j for j in range(k) if word >> (8 + j) & 1]
        return f"marker {lower[0]} is preferred" if lower else None

    def step(self, k):
        m = self.markers[k]
        if m is None:
            return False
        self.made += 1
        words, own = self.words, 1 << (8 + k)
        if m.phase == "give back":
            if m.request is not None:
                c = m.request
                words[conn_word(c)] &= ~own
                m.request = None
                last = not m.attempt.held
                self.tell(k, f"withdraws its request for {conn_name(c)}" + (", and begins anew" if last else ""))
            else:
                c = m.attempt.held.pop(0)
                words[conn_word(c)] &= ~63
                last = not m.attempt.held
                self.tell(k, f"frees {conn_name(c)}" + (", and begins anew" if last else ""))
            if last:
                m.anew(self.plan)
        elif m.phase == "past":
            if m.left:
                change, words_told = m.left.pop(0)
                change()
                self.tell(k, words_told)
            else:
                c = m.attempt.held.pop(0)
                words[conn_word(c)] &= ~63
                last = not m.attempt.held
                self.tell(k, f"frees {conn_name(c)}" + (f", and has done job {m.job}" if last else ""))
                if last:
                    self.markers[k] = None
        elif m.request is not None:                                      # a seize
            c = m.request
            found = words[conn_word(c)]
            if found == m.expected:
                words[conn_word(c)] = (found & ~own) | (1 + k)
                m.attempt.held.append(c)
                m.request = None
                self.tell(k, f"seizes {conn_name(c)}")
                m.go(None)
            else:
                off = self.judge(k, found)
                if off:
                    m.phase = "give back"
                m.expected = found
                self.tell(k, f"would seize {conn_name(c)}: " + (off or "its word has changed, it tries again"))
        elif m.wanted[0] == "seize":                                     # its request
            c = m.wanted[1]
            words[conn_word(c)] |= own
            m.request, m.expected = c, words[conn_word(c)]
            off = self.judge(k, m.expected)
            if off:
                m.phase = "give back"
            self.tell(k, f"requests {conn_name(c)}" + (f": {off}" if off else ""))
        elif m.wanted[0] == "test":
            w = m.wanted[1]
            self.tell(k, f"tests {word_name(w)}: {found_text(w, words[w])}")
            m.go(words[w])
        else:
            self.turn(m, m.wanted[1])
        return True

    def turn(self, m, end):
        turn = self.words[TURN_WORD]
        self.words[TURN_WORD] += 1
        texts = [p.text() for p in end.paths]
        said = f"takes turn {turn}: job {m.job} ends {end.name}"
        if end.name == "RELEASED":
            said += ", and takes out " + " and ".join(texts)
        elif end.trial is not None:
            said += f" at trial {end.trial} by " + " and ".join(texts)
        self.tell(m.k, said)
        for trial, link in end.cards:
            self.lines.append(f"{'':18}trouble card: trial {trial}, {link} is faulty")
        self.records.append(",".join([str(turn), str(m.job), str(m.k), m.kind, m.line, m.dialled or "-", end.name,
                                      str(end.trial or "-")] + (texts + ["-", "-"])[:2]))
        self.cards += [f"TROUBLE,{turn},{m.job},{trial},{link}" for trial, link in end.cards]
        m.phase = "past"
        for p in end.opens:
            for w, v, value in p.crosspoints():
                self.effect(m, w, ((1 << width(w)) - 1) << (width(w) * v), False,
                            f"opens {word_name(w)}: {joined(w, v, value)} are parted")
        if end.open_bit:
            g, i = end.open_bit
            self.effect(m, 400 + g, 1 << i, False, f"marks member {i} of group {g} idle")
        if end.close_bit:
            for p in end.paths:
                for w, v, value in p.crosspoints():
                    self.effect(m, w, value << (width(w) * v), True,
                                f"closes {word_name(w)}: {joined(w, v, value)} are joined")
            g, i = end.close_bit
            self.effect(m, 400 + g, 1 << i, True, f"marks member {i} of group {g} busy")

    def effect(self, m, w, bits, closes, told):
        def change():
            if closes:
                assert not self.words[w] & bits, told
                self.words[w] |= bits
            else:
                assert self.words[w] & bits, told
                self.words[w] &= ~bits
        m.left.append((change, told))

    def run(self, k):
        while self.step(k):
            pass

    def settle(self):
        self.lines.append("      the rows are done, and the office settles")
        every = range(len(self.markers))
        for k in every:
            if self.markers[k] and self.markers[k].phase == "past":
                self.run(k)
        for k in every:
            m = self.markers[k]
            if m:
                if m.request is not None or m.attempt.held:
                    m.phase = "give back"
                    while m.phase == "give back":
                        self.step(k)
                else:
                    m.anew(self.plan)
        for k in every:
            self.run(k)


# ---- traffic -----------------------------------------------------------------------------------------------
def number(text, top):
    return text.isascii() and text.isdigit() and str(int(text)) == text and int(text) <= top

def is_line(text):
    return len(text) == 4 and text.isascii() and text.isdigit() and text[2] <= "5" and text[3] <= "4"

def rows_done(office, text):
    """Does the rows; a fault line, or nothing."""
    seen = set()
    rows = [r for r in csv.reader(io.StringIO(text.removeprefix("\ufeff"), newline="")) if r]
    for i, r in enumerate(rows, 1):
        if len(r) != 5:
            return f"FAULT,T1,{i}"
        if r[0] not in ("J", "S", "C"):
            return f"FAULT,T2,{i}"
        if r[0] == "C":
            return f"FAULT,T6,{i}"
        if r[0] == "J":
            if r[3] not in ("D", "C", "R"):
                return f"FAULT,T2,{i}"
            line, _, dialled = r[4].partition(" ")
            good = is_line(line) and (len(dialled) == 7 and dialled.isascii() and dialled.isdigit() if r[3] == "C"
                                      else line == r[4])
            if not (number(r[1], 99) and number(r[2], 9999) and good):
                return f"FAULT,T3,{i}"
            if r[2] in seen:
                return f"FAULT,T4,{i}"
            seen.add(r[2])
            k = int(r[1])
            if k >= len(office.markers):
                return f"FAULT,T5,{i},C1"
            if office.markers[k]:
                return f"FAULT,T5,{i},C2"
            if office.kinds[k] != "X" and (office.kinds[k] == "D") != (r[3] == "D"):
                return f"FAULT,T5,{i},C3"
            office.assign(k, int(r[2]), r[3], line, dialled or None)
        else:
            if not (number(r[1], 99) and number(r[2], 9999) and r[3] == r[4] == ""):
                return f"FAULT,T3,{i}"
            k = int(r[1])
            if k >= len(office.markers):
                return f"FAULT,T5,{i},C1"
            for _ in range(int(r[2])):
                if not office.step(k):
                    break
    return None

def traffic(office, text):
    """Does the rows, and settles the office; a fault line, or nothing."""
    fault = rows_done(office, text)
    if not fault:
        office.settle()
    return fault


# ---- rows of tests in one line, after FORMATS.md -----------------------------------------------------------
def in_short(lines):
    """Each line of a walk is looked at alone; a row of tests is one that may be put behind the row before it."""
    import re
    a_test = re.compile(r"(?P<at> *\d+)  marker (?P<k>\d+)  tests (?P<side>line|trunk) junctor switch "
                        r"(?P<f>\d),(?P<n>\d): (?P<found>.*)")
    rows = []                                                            # each a list of lines with their matches
    for line in lines:
        m = a_test.fullmatch(line)
        if m and rows and rows[-1][-1][1]:
            p = rows[-1][-1][1]
            if (all(m[x] == p[x] for x in ("k", "side", "f")) and int(m["n"]) == int(p["n"]) + 1
                    and int(m["at"]) == int(p["at"]) + 1):
                rows[-1].append((line, m))
                continue
        rows.append([(line, m)])
    told = []
    for row in rows:
        a, z = row[0][1], row[-1][1]
        if len(row) == 1:
            told.append(row[0][0])
            continue
        finds = [m["found"].removeprefix("closed: ") for _, m in row if m["found"] != "nothing closed"]
        found = "closed: " + "; ".join(finds) if finds else "nothing closed"
        told.append(f"{a['at']}  marker {a['k']}  tests {a['side']} junctor switches {a['f']},{a['n']} to "
                    f"{z['f']},{z['n']} (steps {int(a['at'])} to {int(z['at'])}): {found}")
    return told


def walk(text, plan=EXAMPLE, kinds="XX", short=False):
    office = Office(Plan(plan), kinds)
    fault = traffic(office, text)
    lines = [fault] if fault else in_short(office.lines) if short else office.lines
    return "".join(x + "\n" for x in lines)

def replay(text, plan=EXAMPLE, kinds="XX"):
    office = Office(Plan(plan), kinds)
    fault = traffic(office, text)
    if fault:
        return fault + "\n"
    count = lambda ws: sum(1 for w in ws for v in range(10) if field(w, office.words[w], v))
    lines = office.records + office.cards + [f"PATHS,{count([w for w in range(200) if is_line_switch(w)])}",
                                             f"CLOSED,{count(range(400))}"]
    return "".join(x + "\n" for x in lines)

if __name__ == "__main__":
    args, plan, kinds = sys.argv[1:], EXAMPLE, "XX"
    if "--plan" in args:
        plan = open(args[args.index("--plan") + 1]).read()
    if "--markers" in args:
        kinds = args[args.index("--markers") + 1]
    text = sys.stdin.read()
    sys.stdout.write(replay(text, plan, kinds) if "--records" in args else walk(text, plan, kinds, "--short" in args))
