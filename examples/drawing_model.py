#!/usr/bin/env python3
"""A model of `draw`, `draw --text` and `page`, after docs/FORMATS.md and the definitions of the crates svg,
xbar_office_text, xbar_office_drawing and xbar_page. It trusts the records (no audit), reads them and a plan, and replays the set of paths by
what the records tell: a path that comes is put into the order of lines, one that is taken out goes, and a completing job gives its register back.
The page's script it takes from bin/page_script.
Usage: drawing_model.py text|svg|page PLAN < RECORDS"""
import os, subprocess, sys, tomllib

# ---- the plan
class Plan:
    def __init__(self, text):
        t = tomllib.loads(text)
        self.groups = []
        self.at = {}          # place -> (group, index, other place or None)
        for g, item in enumerate(t["groups"]):
            name, kind, *members = item.split(" ")
            self.groups.append((name, kind))
            for i, m in enumerate(members):
                if kind == "intra":
                    a, b = m.split("-")
                    self.at[a] = (g, i, b); self.at[b] = (g, i, a)
                else:
                    self.at[m] = (g, i, None)
        self.faults = t["faults"]
        self.numbers = {}     # line -> the first number that has it
        for item in t["numbers"]:
            number, *lines = item.split(" ")
            for l in lines: self.numbers.setdefault(l, number)
    def to_register(self, p):
        m = self.at.get(p.place)
        return m is not None and self.groups[m[0]][1] == "register"
    def member(self, p):
        m = self.at.get(p.place)
        return "no member" if m is None else f"{self.groups[m[0]][0]} {m[1]}"
    def other(self, p):
        m = self.at.get(p.place)
        return f", with {m[2]}" if m is not None and m[2] else ""
    def end_text(self, p): return ("register " if self.to_register(p) else "trunk ") + self.member(p)
    def use_text(self, p): return ("register's path: " if self.to_register(p) else "call: ") + self.member(p) + self.other(p)
    def use_class(self, p): return "register" if self.to_register(p) else "call"

# ---- paths and records
class Path:
    def __init__(self, text):
        self.text = text
        self.line, n, self.place = text.split("-")
        self.n = int(n)
        self.lf, self.ls = int(self.line[0]), int(self.line[1])
        self.lx = 5 * int(self.line[2]) + int(self.line[3])
        self.tf, self.ts, self.ta = (int(c) for c in self.place)
    def ll(self, n=None): return f"LL{self.lf}{self.ls}{self.n if n is None else n}"
    def ju(self, n=None): return f"JU{self.lf}{self.tf}{self.n if n is None else n}"
    def tl(self, n=None): return f"TL{self.tf}{self.ts}{self.n if n is None else n}"
    def links(self): return f"{self.ll()}, {self.ju()}, {self.tl()}"
    # twenty words a frame: ten of its line (trunk) switches, then ten of its junctor switches; the trunk side begins at 200
    def crosspoints(self):
        return [(20 * self.lf + self.ls, self.n, 1 + self.lx), (20 * self.lf + 10 + self.n, self.tf, 1 + self.ls),
                (200 + 20 * self.tf + 10 + self.n, self.lf, 1 + self.ts), (200 + 20 * self.tf + self.ts, self.n, 1 + self.ta)]

class Record:
    def __init__(self, line):
        self.line = line
        f = line.split(",")
        self.turn, self.job, self.marker = int(f[0]), int(f[1]), int(f[2])
        self.kind, self.of, self.dialled, self.end, self.trial = f[3], f[4], f[5], f[6], f[7]
        self.paths = [Path(x) for x in f[8:10] if x != "-"]
        self.cards = []       # (trial, link)

def read(text):
    records = {}
    for line in text.split("\n"):
        if line == "" or line.startswith("PATHS") or line.startswith("CLOSED"): continue
        if line.startswith("TROUBLE,"):
            _, turn, job, trial, link = line.split(",")
            records[int(turn)].cards.append((int(trial), link))
        else:
            r = Record(line); records[r.turn] = r
    return [records[k] for k in sorted(records)]

def after(plan, paths, r):
    """the paths after a record, in the order of the set: by line, channel, place (with_path of xbar_equip/specs/Paths.antt puts a path there)."""
    if r.kind == "C" and r.end != "NOREGISTER":
        paths = [p for p in paths if not (p.line == r.of and plan.to_register(p))]
    if r.end == "RELEASED":
        gone = {p.text for p in r.paths}
        paths = [p for p in paths if p.text not in gone]
    if r.end in ("DIALTONE", "CONNECTED"):
        paths = sorted(paths + r.paths, key=lambda p: (p.line, p.n, p.place))
    return paths

def brought(r): return r.paths if r.end in ("DIALTONE", "CONNECTED") else []

# ---- text
def text(plan, records):
    paths = []
    for r in records: paths = after(plan, paths, r)
    o = []
    if not paths: o.append("No path is up.")
    else:
        o.append("PATHS AT A GLANCE")
        for p in paths:
            o.append(f"{p.line} --[frame {p.lf}]-- channel {p.n} --[frame {p.tf}]-- {p.place}   {plan.use_text(p)}")
    for p in paths:
        o.append("")
        o.append("A REGISTER'S PATH" if plan.to_register(p) else "A CALL'S PATH")
        o.append(f"{p.text}: line {p.line} to {plan.end_text(p)}, channel {p.n}")
        o.append(f"         +-- line link frame {p.lf} --+         +- trunk link frame {p.tf} --+")
        o.append(f"{p.line} ----X-------- {p.ll()} --------X--{p.ju()}--X-------- {p.tl()} --------X---- {p.place}")
        o.append("         +-----------------------+         +-----------------------+")
        wide, narrow = " " * 21, " " * 7
        s = [f"{p.lf},{p.ls}", f"{p.lf},{p.n}", f"{p.tf},{p.n}", f"{p.tf},{p.ts}"]
        o.append("switch  " + s[0] + wide + s[1] + narrow + s[2] + wide + s[3])
        for name, k in (("word    ", 0), ("field   ", 1), ("holds   ", 2)):
            v = [str(c[k]).rjust(3) for c in p.crosspoints()]
            o.append(name + v[0] + wide + v[1] + narrow + v[2] + wide + v[3])
    order = [k + f"{d:03}" for k in ("LL", "JU", "TL") for d in range(1000)]
    out = [l for l in order if l in plan.faults]
    if out:
        o += ["", "LINKS OUT OF ORDER"]
        for l in out:
            a, b, c = l[2:]
            where = {"LL": f"at line switch {a},{b}", "JU": f"from line link frame {a} to trunk link frame {b}", "TL": f"at trunk switch {a},{b}"}[l[:2]]
            o.append(f"{l}: channel {c}, {where}")
    for r in records:
        for trial, l in r.cards:
            row = lambda edge, t: edge + t.ljust(44) + "|"
            kind = {"LL": 0, "JU": 1, "TL": 2}[l[:2]]
            m = ["#" if kind == i else "." for i in range(3)]
            ten = lambda d: "".join(" #" if str(i) == d else " ." for i in range(10))
            first = ["line link frame   ", "line link frame   ", "trunk link frame  "][kind]
            second = ["line switch       ", "trunk link frame  ", "trunk switch      "][kind]
            o += ["", "   ." + "-" * 45 + ".", row("  /  ", f"TROUBLE CARD: {l} is faulty"), row(" /   ", f"turn {r.turn}, job {r.job}"),
                  row("|    ", f"marker {r.marker}, trial {trial}"), row("|    ", f"{m[0]} line link   {m[1]} junctor   {m[2]} trunk link"),
                  row("|    ", " " * 19 + "0 1 2 3 4 5 6 7 8 9"), row("|    ", first + ten(l[2])), row("|    ", second + ten(l[3])),
                  row("|    ", "channel           " + ten(l[4])), "'" + "-" * 48 + "'"]
    return "".join(x + "\n" for x in o)

# ---- figures
def esc(s): return s.replace("&", "&amp;").replace("<", "&lt;").replace(">", "&gt;").replace('"', "&quot;")
def box(x, y, w, h, c): return f'<rect x="{x}" y="{y}" width="{w}" height="{h}" class="{c}"/>\n'
def stroke(x, y, x2, y2, c): return f'<line x1="{x}" y1="{y}" x2="{x2}" y2="{y2}" class="{c}"/>\n'
def dot(x, y, c): return f'<circle cx="{x}" cy="{y}" r="3" class="{c}"/>\n'
def words(x, y, c, t): return f'<text x="{x}" y="{y}" class="{c}">{esc(t)}</text>\n'
def copy(x, y, name): return f'<use href="#{name}" x="{x}" y="{y}"/>\n'
def trail(c, first, *rest):
    """a stroke through points; three points are a curve, which ends at the last of them"""
    d = f"M{first[0]} {first[1]}"
    for p in rest:
        d += f"L{p[0]} {p[1]}" if len(p) == 2 else "C" + " ".join(f"{x} {y}" for x, y in p)
    return f'<path d="{d}" class="{c}"/>\n'
def named(name, figures): return f'<g id="{name}">\n' + figures + "</g>\n"
TEN = range(10)

# ---- what is drawn once, and copied
def level(k): return 4 + 8 * k        # the middle of the row of a switch in its frame
def line_frame():
    o = box(0, 0, 332, 80, "frame") + "".join(stroke(166, level(s), 290, level(n), "idle") for s in TEN for n in TEN)
    for k in TEN: o += stroke(4, level(k), 124, level(k), "lines") + box(130, level(k) - 3, 36, 6, "switch") + box(290, level(k) - 3, 36, 6, "switch")
    return o
def trunk_frame():
    o = box(0, 0, 294, 80, "frame") + "".join(stroke(42, level(n), 166, level(u), "idle") for n in TEN for u in TEN)
    for k in TEN: o += stroke(208, level(k), 288, level(k), "trunks") + box(6, level(k) - 3, 36, 6, "switch") + box(166, level(k) - 3, 36, 6, "switch")
    return o
def mesh(): return trail("bar", (0, 2), (5, 2)) + trail("bar", (2, 0), (2, 5))
CORNERS = [(24, 0), (480, 0), (480, 226), (0, 226), (0, 24), (24, 0)]
def blank_card():
    o = trail("card", *CORNERS)
    for i, name in enumerate(("line link", "junctor", "trunk link")): o += box(140 + 110 * i, 98, 9, 15, "place") + words(155 + 110 * i, 111, "plain", name)
    for d in TEN: o += words(194 + 28 * d, 136, "middle", str(d))
    for i in range(3):
        for d in TEN: o += box(190 + 28 * d, 142 + 26 * i, 9, 15, "place")
    return o
def shapes():
    return ("<defs>\n" + named("line-frame", line_frame()) + named("trunk-frame", trunk_frame()) + named("blank-card", blank_card())
            + '<pattern id="mesh" width="5" height="5" patternUnits="userSpaceOnUse">\n' + mesh() + "</pattern>\n</defs>\n")

# ---- the office
def frame_top(f): return 62 + 83 * f
def row(f, k): return frame_top(f) + level(k)
def fault(l):
    a, b, n = (int(c) for c in l[2:])
    if l[:2] == "LL": return trail("fault", (376, row(a, b)), (500, row(a, n)))
    if l[:2] == "TL": return trail("fault", (1000, row(a, n)), (1124, row(a, b)))
    return trail("fault", (536, row(a, n)), ((750, row(a, n)), (750, row(b, n)), (964, row(b, n))))
def two_frames(f):
    return (copy(210, frame_top(f), "line-frame") + words(24, frame_top(f) + 48, "number", str(f))
            + copy(958, frame_top(f), "trunk-frame") + words(1576, frame_top(f) + 48, "number", str(f)))
def bundle(l, t):
    a, b = frame_top(l) + 40, frame_top(t) + 40
    return trail("bundle", (542, a), ((750, a), (750, b), (958, b)))
def heads():
    o = words(16, 52, "head", "line link frames")
    for x, name in ((274, "lines"), (358, "switches"), (438, "line links"), (518, "switches"), (750, "junctors"), (982, "switches"), (1062, "trunk links"), (1142, "switches"), (1206, "trunks")):
        o += words(x, 52, "head middle", name)
    return o + words(1584, 52, "head end", "trunk link frames")
def sample(left, right, y, c): return stroke(left, y, right, y, c + " edge") + stroke(left, y, right, y, c)
def key():
    o = sample(1130, 1180, 24, "register") + words(1188, 29, "plain", "to a register")
    o += sample(1310, 1360, 24, "call") + words(1368, 29, "plain", "of a call")
    return o + stroke(1450, 24, 1500, 24, "fault") + words(1508, 29, "plain", "faulty link")
def office(plan):
    return (key() + heads() + "".join(bundle(l, t) for l in TEN for t in TEN) + "".join(two_frames(f) for f in TEN) + "".join(fault(l) for l in plan.faults))

# ---- a path in it
def course(p):
    a, b, c, d = row(p.lf, p.ls), row(p.lf, p.n), row(p.tf, p.n), row(p.tf, p.ts)
    return [(216 + 4 * p.lx, a), (376, a), (500, b), (536, b), ((750, b), (750, c), (964, c)), (1000, c), (1124, d), (1170 + 8 * p.ta, d)]
def points(p):
    return [(343 + 3 * p.n, row(p.lf, p.ls)), (503 + 3 * p.tf, row(p.lf, p.n)), (967 + 3 * p.lf, row(p.tf, p.n)), (1127 + 3 * p.n, row(p.tf, p.ts))]
def path_trails(plan, p): return trail(plan.use_class(p) + " edge", *course(p)) + trail(plan.use_class(p), *course(p))
def path_dots(plan, p): return "".join(dot(x, y, plan.use_class(p)) for x, y in points(p))
def line_name(plan, p, column):
    if column > 3: return ""
    number = plan.numbers.get(p.line)
    return words(204 - 40 * column, frame_top(p.lf) + 16 * (p.ls // 2) + 13, "line" if number else "line unlisted", number or p.line)
def trunk_name(plan, p, column):
    if column > 2: return ""
    return words(1260 + 102 * column, frame_top(p.tf) + 16 * (p.ts // 2) + 13, "trunk", plan.member(p))
def names(plan, paths):
    o = ""
    for i, p in enumerate(paths):
        earlier = paths[:i]
        o += line_name(plan, p, sum((q.lf, q.ls // 2) == (p.lf, p.ls // 2) for q in earlier))
        o += trunk_name(plan, p, sum((q.tf, q.ts // 2) == (p.tf, p.ts // 2) for q in earlier))
    return o

# ---- its switches
def switch(left, columns, name, crosspoint):
    word, field, value = crosspoint
    x, y = left + 5 * value - 3, 72 + 5 * field
    o = words(left, 60, "plain", name) + box(left, 70, 5 * columns, 50, "mesh")
    o += trail("closed", (left - 5, y), (x, y), (x, 124)) + dot(x, y, "point")
    return o + words(left, 140, "field", f"word {word}") + words(left, 158, "field", f"field {field} = {value}")
def heading(plan, p): return f"line {p.line}, channel {p.n}, {plan.end_text(p)} at place {p.place}"
def path_card(plan, p):
    c = p.crosspoints()
    o = words(0, 16, "big", p.text) + words(480, 16, "end", p.links()) + words(0, 36, "plain", heading(plan, p))
    o += switch(5, 30, f"line switch {p.lf},{p.ls}", c[0]) + switch(190, 10, f"junctor {p.lf},{p.n}", c[1])
    return o + switch(290, 10, f"junctor {p.tf},{p.n}", c[2]) + switch(390, 10, f"trunk {p.tf},{p.ts}", c[3])

# ---- cards
def card_face(r, trial, l):
    o = copy(0, 0, "blank-card") + words(40, 34, "big", "TROUBLE") + words(460, 34, "told", l + " is faulty")
    for left, name, v in ((40, "turn", r.turn), (230, "job", r.job), (330, "marker", r.marker), (430, "trial", trial)):
        o += words(left, 60, "small", name) + words(left, 80, "plain", str(v))
    kind = {"LL": 0, "JU": 1, "TL": 2}[l[:2]]
    o += box(140 + 110 * kind, 98, 9, 15, "hole")
    names = [("line link frame", "line switch"), ("line link frame", "trunk link frame"), ("trunk link frame", "trunk switch")][kind] + ("channel",)
    for i, name in enumerate(names):
        o += words(178, 155 + 26 * i, "end", name) + box(190 + 28 * int(l[2 + i]), 142 + 26 * i, 9, 15, "hole")
    return o

# ---- the drawing
def entry(plan, p):
    number = plan.numbers.get(p.line)
    return (sample(0, 30, 15, plan.use_class(p)) + words(40, 20, "plain", p.text)
            + words(134, 20, "plain", (number + " " if number else "") + "to " + plan.member(p)))
def title(paths): return words(16, 30, "big", f"paths: {len(paths)}, crosspoints closed: {4 * len(paths)}")
def part(x, y, figures): return f'<g transform="translate({x} {y})">\n' + figures + "</g>\n"
def laid_out(count, width, height, top, pictures): return "".join(part(40 + width * (k % count), top + height * (k // count), o) for k, o in enumerate(pictures))
def rows(n, columns): return (n + columns - 1) // columns
STYLE = ("text{font:14px Georgia,'DejaVu Serif',serif;fill:#2b2620}.sheet{fill:#f6f0e2}"
    ".frame{fill:#fbf8ef;stroke:#8c7d63}.switch{fill:#efe6d2;stroke:#8c7d63;stroke-width:.7}"
    ".lines{stroke:#a8997d;stroke-width:4;stroke-dasharray:1 3}.trunks{stroke:#a8997d;stroke-width:4;stroke-dasharray:1 7}"
    ".idle{stroke:#c9bda3;stroke-width:.35}.bundle{fill:none;stroke:#d8cdb5;stroke-width:.6}.mesh{fill:url(#mesh)}.bar{stroke:#c0b396;stroke-width:.8}"
    "path{fill:none}.call{stroke:#a3201b;stroke-width:2.4}.call.edge{stroke:#f6f0e2;stroke-width:5}"
    ".register{stroke:#f6f0e2;stroke-width:1.6}.register.edge{stroke:#1f4e79;stroke-width:4.4}"
    "circle.call{fill:#2b2620;stroke:#f6f0e2;stroke-width:1}circle.register{fill:#f6f0e2;stroke:#1f4e79;stroke-width:1.6}"
    ".fault{stroke:#b35309;stroke-width:2.4;stroke-dasharray:6 4}"
    ".closed{stroke:#2b2620;stroke-width:1.4}.point{fill:#a3201b}"
    ".card{fill:#f3e3bf;stroke:#8c7d63}.place{fill:#fbf3dc;stroke:#cdb88a}.hole{fill:#2b2620}"
    ".middle{text-anchor:middle}.end,.told,.line{text-anchor:end}.number{text-anchor:middle;font-size:24px;fill:#6f624b}"
    ".head,.small,.field{fill:#5d523f}.head{font-style:italic}.unlisted{font-style:italic;fill:#5d523f}.big{font-size:18px;font-weight:bold}")
def picture_head(width, height, style=None):
    o = f'<svg xmlns="http://www.w3.org/2000/svg" viewBox="0 0 {width} {height}" width="{width}" height="{height}">\n'
    return o + ("" if style is None else "<style>" + esc(style) + "</style>\n")
def cards_in(r): return [(r, trial, l) for trial, l in r.cards]
def svg(plan, records):
    paths = []
    for r in records: paths = after(plan, paths, r)
    cards = [c for r in records for c in cards_in(r)]
    n = len(paths)
    below = 940 + 24 * rows(n, 4)
    under = below + 184 * rows(n, 3)
    height = under + 250 * rows(len(cards), 3)
    o = picture_head(1600, height, STYLE) + '<rect width="100%" height="100%" class="sheet"/>\n' + shapes()
    o += part(0, 0, title(paths) + office(plan) + "".join(path_trails(plan, p) for p in paths) + "".join(path_dots(plan, p) for p in paths) + names(plan, paths))
    o += laid_out(4, 390, 24, 920, [entry(plan, p) for p in paths]) + laid_out(3, 520, 184, below, [path_card(plan, p) for p in paths])
    o += laid_out(3, 520, 250, under, [card_face(*c) for c in cards])
    return o + "</svg>\n"
# ---- page
PAGE_STYLE = (
"*{box-sizing:border-box}body{margin:0;background:#f6f0e2;color:#2b2620;font:16px/1.45 Georgia,'DejaVu Serif',serif}"
"svg{display:block;max-width:100%;height:auto}"
"header{padding:10px 20px 8px;border-bottom:1px solid #c9bda3}h1{font-size:21px;margin:0 0 6px}h2{font-size:19px;margin:0 0 8px}"
"a{color:#1f4e79}button,select,nav a{font:inherit;color:#2b2620;background:#fbf8ef;border:1px solid #8c7d63;border-radius:4px;padding:4px 12px;cursor:pointer}"
"nav a{text-decoration:none;color:#1f4e79}button[aria-pressed=true]{background:#1f4e79;color:#fff}"
":focus-visible{outline:3px solid #1f4e79;outline-offset:2px}"
"#controls{display:flex;flex-wrap:wrap;gap:8px;align-items:center}#controls[hidden]{display:none}#at{flex:1 1 240px;min-width:120px;accent-color:#1f4e79}#told{min-width:96px}"
"main{display:grid;grid-template-columns:minmax(0,1fr);gap:16px;padding:14px 20px}"
"section,section nav{display:none}section{scroll-margin-top:100vh}#status{position:absolute;width:1px;height:1px;overflow:hidden;clip-path:inset(50%)}.now{display:block}"
"ul{margin:0 0 8px;padding-left:20px}pre{margin:8px 0;font-size:13px;white-space:pre-wrap;overflow-wrap:anywhere;color:#5d523f}"
".trouble{list-style:none;margin-left:-20px;padding:4px 10px;background:#f3e3bf;border-left:4px solid #b35309}"
"summary{cursor:pointer;color:#1f4e79}.card-face,.switches{margin:8px 0;width:100%;max-width:480px}"
"#frames{overflow-x:auto}#frames svg{min-width:960px;width:100%}"
"#turns{margin:8px 0 0;padding:0;list-style:none;max-height:300px;overflow-y:auto;border-top:1px solid #c9bda3}"
"#turns a{display:block;padding:2px 6px;text-decoration:none}#turns li{content-visibility:auto;contain-intrinsic-size:auto 27px}#turns a[aria-current]{background:#1f4e79;color:#fff}"
"[data-from]{display:none}.stands{display:inline}"
".stands path{opacity:.62}.stands text{opacity:.85;font-size:16px}.new path,.new text{opacity:1}"
".new .call{stroke-width:4}.new .call.edge{stroke-width:9}.new .register{stroke-width:3}.new .register.edge{stroke-width:7.5}.new circle.call,.new circle.register{stroke-width:1.6}"
".new text{font-size:20px;font-weight:bold}"
"@media(min-width:1100px){main{grid-template-columns:330px minmax(0,1fr)}#told{min-width:120px}#aside{max-height:calc(100vh - 112px);overflow-y:auto;padding-right:6px}"
"#frames svg{min-width:0;max-height:calc(100vh - 112px)}}"
"@media(min-width:1500px){main{grid-template-columns:390px minmax(0,1fr)}}"
"@media(max-width:600px){body{font-size:17px}button,select{padding:9px 14px}header,main{padding-left:12px;padding-right:12px}#turns a{padding:8px 6px}}"
"@media(prefers-reduced-motion:no-preference){.new path{animation:lit .5s ease-out}@keyframes lit{from{opacity:0}}}")
PLAIN_STYLE = ("section:target,section:last-of-type,[data-from]{display:block}section:target~section:last-of-type,[data-until]{display:none}"
"section nav{display:flex;gap:8px;margin-bottom:8px}")
def script():
    """the page's script, packed from its source: it is the same on every page, and the model has none of its own"""
    words = [os.path.join(os.path.dirname(os.path.realpath(__file__)), "../bin/page_script"), "--print"]
    return subprocess.run(words, stdout=subprocess.PIPE, text=True, check=True).stdout

def link(rel, to, label): return f'<a rel="{rel}" href="#{"start" if to is None else f"turn{to}"}">{label}</a>\n'
def no_link(label): return f"<span>{label}</span>\n"
def turn_link(rel, to, label): return no_link(label) if to is None else link(rel, to, label)
BEFORE, AFTER = "&#8592; before", "after &#8594;"
PLAIN = {"CALLEDBUSY": "Called busy: no line of the number that was dialled is idle, but perhaps the calling one.",
         "LINEBUSY": "Line busy: the line is in a path already.", "REGISTERSBUSY": "Registers busy: no register is idle.",
         "TRUNKSBUSY": "Trunks busy: no trunk that the code leads to is idle.", "NOPATH": "No path: no trial found an idle channel.",
         "TROUBLE": "Trouble: both trials failed, and at least one of them at a faulty link.", "VACANTCODE": "Vacant code: the office has no such code.",
         "VACANTNUMBER": "Vacant number: the office has no such number.", "NOREGISTER": "No register: the line has no register.",
         "NOCALL": "No call: the line has no path."}

def sentences(plan, r):
    o = [f"Marker {r.marker} does job {r.job}."]
    other = f" with line {r.paths[1].line}" if len(r.paths) == 2 else ""
    if r.end == "DIALTONE": o.append(f"Dial tone: trial {r.trial} found a path to {plan.end_text(r.paths[0])}.")
    elif r.end == "CONNECTED": o.append(f"Connected{other}: trial {r.trial} found a path to {plan.end_text(r.paths[0])}.")
    elif r.end == "RELEASED": o.append(f"Released{other}: the path to {plan.end_text(r.paths[0])} is gone.")
    else: o.append(PLAIN[r.end])
    if r.kind == "C" and r.end != "NOREGISTER": o.append("The register is given back: four crosspoints open.")
    if r.end == "RELEASED":
        o += [f"Path {p.text} is taken out: {p.links()} are idle again. Four crosspoints open." for p in r.paths]
    o += [f"Channel {p.n} is idle from line {p.line} to place {p.place}: {p.links()}. Four crosspoints close." for p in brought(r)]
    return o

def asked(r): return f"line {r.of} " + {"D": "wants dial tone", "C": f"calls {r.dialled}", "R": "hangs up"}[r.kind]
def stays(plan, records):
    """each path that a turn sets up, with the place of the turn that sets it up and of the one that takes it out"""
    o, since, before = [], {}, []
    for k, r in enumerate(records):
        now = after(plan, before, r)
        here = {p.text for p in now}
        for p in before:
            if p.text not in here: o[since.pop(p.text)][2] = k
        for p in now:
            if p.text not in since:
                since[p.text] = len(o)
                o.append([p, k, None])
        before = now
    return o
def stay(plan, p, k, until):
    o = f'<g data-from="{k}"' + ("" if until is None else f' data-until="{until}"') + ">\n"
    o += f"<title>{p.text}: {plan.end_text(p)}</title>\n"
    return o + path_trails(plan, p) + path_dots(plan, p) + line_name(plan, p, 0) + trunk_name(plan, p, 0) + "</g>\n"
def inset(height, figures, c): return f'<svg xmlns="http://www.w3.org/2000/svg" viewBox="0 0 480 {height}" class="{c}">\n' + figures + "</svg>\n"
def switches(plan, p): return inset(164, path_card(plan, p), "switches")
HEAD = ('<!DOCTYPE html>\n<html lang="en" xmlns="http://www.w3.org/1999/xhtml">\n<head>\n<meta charset="utf-8"/>\n'
  '<meta name="viewport" content="width=device-width, initial-scale=1"/>\n<title>A No. 5 Crossbar office, turn by turn</title>\n<style>')
CONTROLS = ('</style></noscript>\n</head>\n<body>\n<header>\n<h1>A No. 5 Crossbar office, turn by turn</h1>\n<div id="controls" role="group" aria-label="Turns" hidden="hidden">\n'
  '<button id="first" type="button">start</button>\n<button id="before" type="button">&#8592; before</button>\n'
  '<button id="play" type="button" aria-pressed="false">play</button>\n<button id="after" type="button">after &#8594;</button>\n<button id="final" type="button">last</button>\n'
  '<input id="at" type="range" min="0" max="0" value="0" aria-label="Turn"/>\n<output id="told" for="at">start</output>\n'
  '<label>one turn in <select id="speed"><option value="0.5">half a second</option><option value="1">1 second</option><option value="3" selected="selected">3 seconds</option><option value="8">8 seconds</option></select></label>\n'
  '</div>\n<p id="status" role="status"></p>\n</header>\n<main>\n<div id="aside">\n')
def page(plan, records):
    o = HEAD + STYLE + PAGE_STYLE + "</style>\n<noscript><style>" + PLAIN_STYLE + CONTROLS
    first = records[0].turn if records else None
    last = records[-1].turn if records else None
    o += '<section id="start">\n<h2>The office before all turns</h2>\n<nav>\n' + turn_link("next", first, AFTER) + "</nav>\n"
    o += f'<ul>\n<li>No path stands: all crosspoints are open.</li>\n<li>Jobs that take their turn: {len(records)}.</li>\n</ul>\n</section>\n'
    before = None
    for i, r in enumerate(records):
        following = records[i + 1].turn if i + 1 < len(records) else None
        o += f'<section id="turn{r.turn}">\n<h2>Turn {r.turn}: {asked(r)}</h2>\n<nav>\n' + link("prev", before, BEFORE)
        o += turn_link("next", following, AFTER) + "</nav>\n"
        o += '<ul>\n' + "".join(f"<li>{esc(s)}</li>\n" for s in sentences(plan, r))
        o += "".join(f'<li class="trouble">Trouble card: trial {t}, {l} is faulty.</li>\n' for t, l in r.cards) + "</ul>\n"
        o += "".join(inset(228, card_face(*c), "card-face") for c in cards_in(r)) + "".join(switches(plan, p) for p in brought(r))
        o += "<pre><code>" + r.line + "\n" + "".join(f"TROUBLE,{r.turn},{r.job},{t},{l}\n" for t, l in r.cards) + "</code></pre>\n</section>\n"
        before = r.turn
    o += '<details id="list">\n<summary>All turns</summary>\n<ol id="turns">\n<li><a href="#start">before all turns</a></li>\n'
    o += "".join(f'<li><a href="#turn{r.turn}">{r.turn}: {asked(r)}</a></li>\n' for r in records) + "</ol>\n</details>\n</div>\n"
    o += ('<div id="frames" tabindex="0" role="region" aria-label="The office">\n<svg xmlns="http://www.w3.org/2000/svg" viewBox="0 0 1600 900" role="img" aria-labelledby="name said">\n'
          '<title id="name">The frames of the office, and its paths</title>\n<desc id="said">Ten line link frames at the left, ten trunk link frames at the right, and the junctors between them. A path is a line from a line to a trunk, with a dot at each of its four crosspoints.</desc>\n')
    now = [p for p, k, until in stays(plan, records) if until is None]
    o += shapes() + f'<text x="16" y="30" class="big" id="count">paths: {len(now)}, crosspoints closed: {4 * len(now)}</text>\n' + office(plan)
    o += "".join(stay(plan, *s) for s in stays(plan, records)) + "</svg>\n</div>\n"
    return o + "</main>\n<script>" + script() + "</script>\n</body>\n</html>\n"

MAKE = {"text": text, "svg": svg, "page": page}
if __name__ == "__main__":
    sys.stdout.write(MAKE[sys.argv[1]](Plan(open(sys.argv[2]).read()), read(sys.stdin.read())))
