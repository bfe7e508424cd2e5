"""Hands of every kind: at a kiosk, at the keyboard alone, and on everything at once."""

import random, re, time

from browser import BrowserError
from page import phone
from scenario import scenario

# Where the focus is: what it's on, and whether a visitor sees it there.
FOCUS = """
const here = document.activeElement;
if (!here || here === document.body || here === document.documentElement) return {lost: true};
const box = here.getBoundingClientRect();
const parts = [here, here.parentElement, ...(here.labels ?? [])];
const marked = parts.some(part => {
    const style = getComputedStyle(part);
    return (style.outlineStyle !== "none" && parseFloat(style.outlineWidth) >= 1) || style.boxShadow !== "none";
});
const inside = box.bottom > 0 && box.right > 0 && box.top < innerHeight && box.left < innerWidth;
const name = here.tagName.toLowerCase() + (here.id ? "#" + here.id : "") + (here.className ? "." + here.className : "");
const why = !marked ? "has no mark" : !inside ? "is outside the window" : !box.width || !box.height ? "has no size" : "";
return {lost: false, name, why};
"""

# Whether the focus is on the first element that fits a selector; else whether it's in the same group of controls.
AT = """
const wanted = document.querySelector(values[0]), here = document.activeElement;
if (!wanted) return "absent";
if (here === wanted || here.matches(values[0])) return "there";
const group = "[role=tablist], [role=toolbar], [role=radiogroup], [role=listbox], [role=grid]";
return here.closest(group) && here.closest(group) === wanted.closest(group) ? "near" : "away";
"""


class Keys:
    """A visitor who has a keyboard alone, and who must always see where the focus is."""

    def __init__(self, test):
        self.test, self.browser, self.page = test, test.browser, test.page
        self.lost = True  # nothing has the focus at first

    def press(self, name, modifiers=()):
        """Presses a key. Only Tab may lead out of the page, at its end; no other key may lose the focus."""
        was_lost, before = self.lost, self.browser.run(FOCUS)
        self.browser.key(name, modifiers)
        self.page.idle()
        focus = self.browser.run(FOCUS)
        self.lost = focus["lost"]
        if self.lost:
            self.test.check(was_lost or name == "Tab", f"the focus is lost after {name} on {before.get('name')}")
        else:
            self.test.check(not focus["why"], f"the focus on {focus['name']} isn't to be seen: it {focus['why']}")

    def go(self, css):
        """Goes to an element with Tab, within a group of controls with the arrow keys."""
        for _ in range(250):
            at = self.browser.run(AT, css)
            if at == "there":
                return
            if at == "near" and self._within(css):
                return
            self.press("Tab")
        raise BrowserError(f"the keyboard doesn't lead to {css}")

    def _within(self, css):
        """Tries the arrow keys of a group, and says whether they led there."""
        for arrow in ("ArrowRight", "ArrowDown"):
            for _ in range(12):
                self.press(arrow)
                at = self.browser.run(AT, css)
                if at != "near":
                    return at == "there"
        return False

    def do(self, css, key="Enter"):
        self.go(css)
        self.press(key)


def finish(keys):
    """Presses the markers' own buttons, until all are idle."""
    for _ in range(40):
        if not keys.page.enabled(".marker button.finish"):
            return
        keys.do(".marker button.finish:enabled")
    raise BrowserError("the markers don't come to an end by the keyboard")


def step_and_listen(test, keys, steps):
    """Makes steps, and compares what the live region says with the words of the step."""
    for _ in range(steps):
        keys.do(".marker button.step:enabled", "Space")
        events = test.page.look()["events"]
        said, words = test.page.text("#told"), events[-1]["says"] if events else ""
        # The page names a group where the engine has its number.
        wanted = re.sub(r"group\\ [0-9]+", "the [a-zA-Z0-9 ]+", re.escape(words))
        test.check(words and re.search(wanted, said), f"the live region says {said!r}, the step {words!r}")


@scenario("h", "a call from start to end by the keyboard alone, with the focus always visible")
def keyboard_alone(test):
    page, keys = test.page, Keys(test)
    page.automatic(False)
    test.browser.run("document.activeElement.blur()")
    keys.do(phone("0001", "button.lift"))
    step_and_listen(test, keys, 4)
    finish(keys)
    page.wait_for_state("0001", ["tone"], 5)
    for digit in "2340004":
        keys.press(digit)
    finish(keys)
    page.wait_for_state("0004", ["ringing"], 5)
    keys.do(phone("0004", "button.answer"), "Space")
    page.wait_for_state("0001", ["talking"], 5)
    keys.do(phone("0001", "button.hang"))
    finish(keys)
    page.wait_for_state("0001", ["idle"], 5)
    live = test.browser.run("const told = document.querySelector('#told');"
                            "return told.ariaLive || told.getAttribute('role')")
    test.check(live in ("polite", "assertive", "status", "log", "alert"), f"#told is no live region: {live}")
    test.check(page.ends()[:2] == ["DIALTONE", "CONNECTED"], f"the records end {page.ends()}")
    test.check_office("by the keyboard")


@scenario("h2", "the tabs and the choice of a phone by the arrow keys")
def arrow_keys(test):
    keys = Keys(test)
    keys.go('[role=tab][data-mode="day"]')
    for _ in range(4):
        keys.press("ArrowRight")
        if test.browser.run("return document.activeElement.dataset.mode") == "break":
            break
    keys.press("Enter")
    mode = test.browser.run("return document.body.dataset.mode")
    test.check(mode == "break", f"the arrow keys and Enter lead from day to {mode}")


# What moves when the page plays by itself.
SIGHT = "return document.body.dataset.mode + document.querySelector('#say').textContent"
LINKS_OUT = """
const here = location.href.split("#")[0], parts = [...document.querySelectorAll("a[href], area[href], form, iframe")];
return parts.filter(part => part.checkVisibility() && (part.href ?? "x").split("#")[0] !== here)
    .map(part => part.outerHTML.slice(0, 100));
"""


def wait_for_films(browser):
    browser.wait("return document.body.dataset.mode === 'film' && !document.querySelector('#attract').hidden", 20)


def check_attract(test, end):
    """The page begins to play by itself, and ends that when a visitor comes, for whom it lifts a receiver."""
    page, browser = test.page, test.browser
    page.open("#kiosk=4", shows_all=False)
    first = browser.run(SIGHT)
    browser.wait(f"{SIGHT} !== values[0]", 20, first)
    time.sleep(1)
    end()
    browser.wait("return document.body.dataset.mode === 'day'", 5)
    page.wait_for_state("0001", ["wanting", "tone"], 10)
    page.press(phone("0001", "button.hang"))
    page.wait_for_state("0001", ["idle"], 20)
    wait_for_films(browser)


@scenario("g1", "kiosk: the page plays by itself, a key or a touch ends that and lifts a receiver, and no link leads out")
def kiosk(test):
    browser = test.browser
    check_attract(test, lambda: browser.key("Enter"))
    browser.size(1280, 720, touch=True)
    check_attract(test, lambda: browser.tap(640, 360))
    links = browser.run(LINKS_OUT)
    test.check(not links, f"links lead out of the page: {links}")


# All that a visitor could leave behind, as the page shows it.
STATE = """
const { page } = exhibit, of = name => page.stages[name];
return {
    language: document.documentElement.lang, level: document.body.dataset.level, mute: page.sound.isMuted,
    stages: ["day", "break", "rush", "film"].map(name => [of(name).auto, of(name).speed, of(name).message ?? ""]),
    break: of("break").session.rows?.length ?? 0, rush: of("rush").session.rows?.length ?? 0,
    films: of("film").films.length, film: of("film").film.name, first: of("day").first,
    open: document.querySelectorAll("dialog[open], details[open]").length,
};
"""


def leave_behind(test):
    """What visitors may do, each by a name, that the next one must not find."""
    page = test.page

    def other_mode(name, *acts):
        page.mode(name)
        for css in acts:
            page.press(css)

    return {
        "another language": lambda: page.language("de"),
        "markers that don't work by themselves": lambda: (page.show_all(), page.automatic(False)),
        "another speed": lambda: (page.show_all(), page.automatic(True, "Home")),
        "all of the control": page.show_all,
        "silence": lambda: page.press("#mute"),
        "a contest under way": lambda: other_mode("break", "#both", '.duellist[data-marker="0"]'),
        "a rush hour under way": lambda: other_mode("rush", "#pause", "#pause"),
        "a film that is stopped": lambda: other_mode("film", "#play"),
        "a dialog": lambda: page.browser.click("#about"),
    }


@scenario("g2", "kiosk: nothing that a visitor leaves behind is there for the next one")
def kiosk_resets(test):
    page, browser = test.page, test.browser
    page.open("#kiosk=3", shows_all=False)
    wait_for_films(browser)
    browser.tap(640, 360)
    page.wait_for_state("0001", ["wanting", "tone"], 10)
    fresh = browser.run(STATE)
    for name, leave in leave_behind(test).items():
        # What comes of the first touch itself is swallowed for a moment.
        time.sleep(0.8)
        leave()
        wait_for_films(browser)
        browser.tap(640, 360)
        page.wait_for_state("0001", ["wanting", "tone"], 10)
        left = browser.run(STATE)
        test.check(left == fresh, f"{name}: the next visitor finds {left}, not {fresh}")


# The middle of a control, of a dialog if one is open; 0 the phones and markers, 1 any, 2 a place of the window. What asks
# for a file or leads away is left out.
ANYTHING = """
const [among, wanted, x, y] = values, away = "input[type=file], label:has(input[type=file]), a[href]:not([href^='#'])";
const usual = ".phone button, [data-digit], .marker button, #one, #undo, #auto, .entry, #both, #random, #pause, #skip";
const any = "button, select, input, [role=tab], summary";
const place = document.querySelector("dialog[open]") ?? document;
const parts = [...place.querySelectorAll(among === 0 && place === document ? usual : any)]
    .filter(part => !part.disabled && part.checkVisibility() && !part.closest(away));
if (among === 2 || !parts.length) return document.elementFromPoint(x, y)?.closest(away) ? null : [x, y];
const part = parts[wanted % parts.length];
part.scrollIntoView({block: "nearest", behavior: "instant"});
const box = part.getBoundingClientRect();
return [box.left + box.width / 2, box.top + box.height / 2];
"""
KEYS = [*"0123456789", "Tab", "Tab", "Tab", "Enter", "Enter", "Space", "Escape", "ArrowLeft", "ArrowRight", "ArrowUp",
        "ArrowDown", "Home", "End", "PageDown", *"abemrsuz?"]


def press_anything(browser, chance, width, height):
    """One act of a visitor who doesn't look."""
    if chance.random() < 0.3:
        return browser.key(chance.choice(KEYS), ["Shift"] if chance.random() < 0.1 else [])
    among = chance.choices((0, 1, 2), (70, 15, 15))[0]
    place = browser.run(ANYTHING, among, chance.randrange(1000), chance.randrange(width), chance.randrange(height))
    if place and 0 <= place[0] < width and 0 <= place[1] < height:
        browser.press(*place)


@scenario("i", "300 random clicks and keys in 10 seconds leave an office that the program accepts")
def everything_at_once(test):
    page, browser = test.page, test.browser
    for seed in range(3):
        page.open()
        chance, begun, acts = random.Random(seed), time.monotonic(), 0
        while acts < 300:
            press_anything(browser, chance, 1280, 720)
            acts += 1
            time.sleep(max(0, acts / 30 - (time.monotonic() - begun)))
        test.figure(f"{acts} acts in {time.monotonic() - begun:.1f} s, {len(page.rows().splitlines())} rows,"
                    f" mode {browser.run('return document.body.dataset.mode')}")
        page.rest()
        test.check_office(f"visitor {seed}")
