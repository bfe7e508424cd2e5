"""Calls that a visitor makes: step by step in random orders, whole, and in vain."""

import os, random
from xml.etree import ElementTree

from browser import BrowserError
from page import marker, phone
from scenario import scenario

MOST_ACTS, MOST_UNDOS = 900, 12


class Order:
    """Two calls whose steps, undos and digits come in an order that a seed chooses."""

    def __init__(self, test, seed):
        self.test, self.page, self.chance = test, test.page, random.Random(seed)
        self.digits = {"0001": "2340002", "0003": "5550000"}
        self.by = ("keyboard", "keypad")[seed % 2]
        self.undos, self.past = 0, []

    def run(self):
        for _ in range(MOST_ACTS):
            now = self.page.situation()
            if self._over(now):
                return
            if now["rows"] not in self.past[-1:]:
                self.past.append(now["rows"])
            self._act(now)
        raise BrowserError(f"two calls aren't over after {MOST_ACTS} acts")

    def _over(self, now):
        completed = [end for end in now["ends"] if end[0] == "C"]
        return len(completed) == 2 and not now["jobs"]

    def _act(self, now):
        """Undoes or steps; a visitor's own part comes as soon as the phone lets it."""
        if now["undo"] and self.undos < MOST_UNDOS and self.chance.random() < 0.08:
            return self._undo()
        for number, digits in self.digits.items():
            state = now["phones"][number]
            if state == "idle":
                return self.page.lift(number)
            if state in ("tone", "dialling") and self.chance.random() < 0.3:
                return self.page.dial(number, digits, self.by)
        self._step(now)

    def _undo(self):
        """Takes an act back. The rows are then those before it; a digit alone adds none."""
        before = self.page.rows()
        earlier = [rows for rows in self.past if rows != before]
        self.page.press("#undo")
        self.undos += 1
        after = self.page.rows()
        self.test.check(after in (before, *earlier[-1:]), f"after an undo the rows are {after!r}, before it {before!r}")
        self.past = earlier if after != before else self.past

    def _step(self, now):
        if now["one"] and self.chance.random() < 0.2:
            self.page.press("#one")
        elif now["steps"]:
            self.page.press(marker(self.chance.choice(now["steps"])))


@scenario("a", "two calls, both markers stepped in random orders with undos, as the program has it")
def random_orders(test):
    page, undos = test.page, 0
    for seed in range(test.options.seed, test.options.seed + test.options.orders):
        page.open()
        page.automatic(False)
        order = Order(test, seed)
        order.run()
        undos += order.undos
        where = f"order {seed}"
        test.check_office(where)
        check_saved(test, where)
    test.figure(f"{test.options.orders} orders, {undos} undos")


def check_saved(test, where):
    """The saved rows are the page's, and the saved records what the program replays of them, with or without counts."""
    page, rows = test.page, test.page.rows()
    test.check(page.save("#save-rows") == rows, f"{where}: the saved rows aren't those of the page")
    replayed = test.program.replay(page.plan(), page.kinds(), rows)
    test.check(without_counts(page.save("#save-records")) == without_counts(replayed), f"{where}: the saved records aren't those of a replay")
    test.check(is_drawing(page.save("#save-svg")), f"{where}: the saved drawing is no SVG")


def without_counts(records):
    return "".join(line for line in records.splitlines(True) if not line.startswith(("PATHS,", "CLOSED,")))


def is_drawing(saved):
    """Whether a file is well-formed and has the root of an SVG drawing."""
    try:
        return ElementTree.fromstring(saved).tag == "{http://www.w3.org/2000/svg}svg"
    except ElementTree.ParseError:
        return False


def whole_call(test, by):
    """A call from 0001 to 0004, answered and ended, while the markers work by themselves."""
    page = test.page
    page.automatic(True, "End")
    page.lift("0001")
    page.wait_for_state("0001", ["tone"])
    page.dial("0001", "2340004", by)
    dialled = [marker["job"]["dialled"] for marker in page.look()["markers"] if marker["job"]]
    dialled += [record["job"]["dialled"] for record in page.look()["records"]]
    test.check("2340004" in dialled, f"2340004 was dialled, and the office has {dialled}")
    page.wait_for_state("0001", ["ringback"])
    page.wait_for_state("0004", ["ringing"])
    page.press(phone("0004", "button.answer"))
    for number in ("0001", "0004"):
        page.wait_for_state(number, ["talking"])
    page.press(phone("0001", "button.hang"))
    page.wait_for_state("0001", ["idle"])
    if page.state("0004") != "idle":
        page.press(phone("0004", "button.hang"))
        page.wait_for_state("0004", ["idle"])
    page.automatic(False)
    ends = page.ends()
    test.check(ends[:3] == ["DIALTONE", "CONNECTED", "RELEASED"], f"the records end {ends}")
    test.check_office("the whole call")
    test.check_audit("the whole call")
    test.check(page.look()["shown"] == [], "switches are closed after the call")


@scenario("b1", "a whole call inside the office, dialled at the keypad")
def call_by_keypad(test):
    whole_call(test, "keypad")


@scenario("b2", "a whole call inside the office, dialled at the rotary dial")
def call_by_rotary_dial(test):
    whole_call(test, "rotary")


class Told:
    """What the page tells of calls that fail in different ways."""

    def __init__(self, test):
        self.test, self.seen = test, {}

    def expect(self, number, end):
        """The last record of this phone's line has this end, and the page tells it in words of its own."""
        page = self.test.page
        line = next(item["lines"][0] for item in page.look()["plan"]["numbers"] if item["number"] == number)
        ends = [record["end"] for record in page.look()["records"] if record["job"]["line"] == line]
        self.test.check(ends[-1:] == [end], f"the record of {number} ends {ends[-1:]}, not {end}")
        state, words = self.test.state_and_words(number)
        self.test.check(words, f"the phone {number} says nothing after {end}")
        self.test.check(state not in ("idle", "tone", "dialling", "calling", "ringback", "ringing", "talking"),
                        f"the phone {number} shows {state} after {end}")
        other = self.seen.get((state, words))
        self.test.check(other in (None, end), f"the page says {words!r} after {end} as after {other}")
        self.seen[state, words] = end
        self.test.check_office(end)


@scenario("b3", "a busy line, a wrong code, a wrong number, all trunks busy: each is told as it is")
def calls_in_vain(test):
    told, page = Told(test), test.page
    page.automatic(False)
    page.lift("0003")
    page.finish()
    for digits, end in (("2340003", "CALLEDBUSY"), ("9990001", "VACANTCODE"), ("2349999", "VACANTNUMBER")):
        page.call("0001", digits)
        told.expect("0001", end)
        page.press(phone("0001", "button.hang"))
        page.finish()
    page.dial("0003", "5550000")
    page.finish()
    for number in ("0001", "0002"):
        page.call(number, "5551234")
    page.call("0004", "5551234")
    told.expect("0004", "TRUNKSBUSY")


@scenario("b4", "two visitors call each other at once, and one calls himself")
def calls_across(test):
    """The first to take its turn finds the other busy, and then has no path: the other reaches it."""
    page = test.page
    page.automatic(False)
    for number in ("0001", "0002"):
        page.lift(number)
    page.finish()
    page.dial("0001", "2340002")
    page.dial("0002", "2340001")
    page.finish()
    ends = page.ends()
    test.check(ends[2:] == ["CALLEDBUSY", "CONNECTED"], f"two that call each other end {ends[2:]}")
    test.check_office("calls across")
    page.call("0004", "2340004")
    test.check(page.ends()[-1] == "CALLEDBUSY", f"one that calls himself ends {page.ends()[-1]}")
    test.check_office("a call to oneself")


# From now on the engine gives this answer, or none.
ENGINE_GIVES = """
exhibit.engine.answer = async () => { if (!values[0]) throw new Error("it is gone"); return values[0]; };
"""


@scenario("b5", "an engine that gives no answer: no verdict, no drawing, and the page says why")
def no_answer(test):
    page, browser = test.page, test.browser
    page.automatic(False)
    page.lift("0001")
    page.finish()
    browser.forget_downloads()
    for answer in (None, {"status": 5, "text": ""}, {"status": 4, "text": "FAULT,U1,1\n"}):
        browser.run(ENGINE_GIVES, answer)
        page.press("#audit")
        browser.wait("return document.querySelector('#verdict').className === 'unjudged'")
        test.check(len(page.text("#verdict")) > 30, f"the page doesn't say why it can't judge: {page.text('#verdict')!r}")
        page.press("#files")
        page.forget_messages()
        browser.click("#save-svg")
        page.wait_for_message(10)
        test.check(page.text("#files-message"), "the page doesn't say why there is no drawing")
        test.check(not os.listdir(browser.downloads), f"the page saves {os.listdir(browser.downloads)}")
        browser.click("#files-dialog .close")
