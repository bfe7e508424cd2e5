"""The exhibit's page as a visitor handles it: phones, markers, tabs, films, files."""

import time

from browser import BrowserError

# What a visitor can do now, and what the office says, in one call.
SITUATION = """
await exhibit.idle();
const all = css => [...document.querySelectorAll(css)], look = exhibit.look();
return {
    phones: Object.fromEntries(all(".phone").map(phone => [phone.dataset.number, phone.dataset.state])),
    steps: all(".marker button.step:enabled").map(button => button.closest(".marker").dataset.marker),
    undo: all("#undo:enabled").length > 0, one: all("#one:enabled").length > 0,
    jobs: look.markers.filter(marker => marker.job).length, rows: exhibit.rows(),
    ends: look.records.map(record => [record.job.kind, record.job.line, record.end]),
};
"""

FILMS = "return [...document.querySelectorAll('#film option')].map(option => option.value)"

# Whether a digit can be dialled: its hole or key is there, and the wheel has come back.
AT_REST = """
const dial = document.querySelector(values[1]), digit = document.querySelector(values[0] + ":enabled");
return digit && !dial.hasAttribute("data-busy");
"""

# Whether the wheel has come back, so that what was dialled has counted.
HAS_DIALLED = "return !document.querySelector(values[0])?.hasAttribute('data-busy')"

SELECT = """
const list = document.querySelector(values[0]);
list.value = values[1];
for (const kind of ["input", "change"]) list.dispatchEvent(new Event(kind, {bubbles: true}));
"""


def phone(number, part=""):
    """The selector of a phone, or of a part of it such as `button.lift`."""
    return f'.phone[data-number="{number}"] {part}'.strip()


def duellist(number):
    """The selector of the large button that steps a marker while a visitor tries to break the office."""
    return f'.duellist[data-marker="{number}"]'


def marker(number, part="button.step"):
    return f'.marker[data-marker="{number}"] {part}'


class Page:
    def __init__(self, browser, address):
        self.browser, self.address = browser, address

    def open(self, fragment="", shows_all=True):
        """Loads the page anew, and waits until it shows the empty office; by default all of its control."""
        self.browser.open(self.address + fragment)
        self.browser.wait("return window.exhibit && await exhibit.idle().then(() => exhibit.look())", 60)
        if shows_all:
            self.show_all()

    def show_all(self):
        if self.browser.run("return document.body.dataset.level === 'call'"):
            self.press("button.everything")

    def idle(self):
        self.browser.run("await exhibit.idle()")

    def press(self, css):
        """Clicks, and waits until the click is answered and drawn."""
        self.browser.click(css)
        self.idle()

    def enabled(self, css):
        return self.browser.run("return !!document.querySelector(values[0] + ':enabled')", css)

    def text(self, css):
        """The text of an element, empty if it isn't there."""
        return self.browser.run("return document.querySelector(values[0])?.textContent.trim() ?? ''", css)

    def count(self, css):
        return self.browser.run("return document.querySelectorAll(values[0]).length", css)

    # What the page holds.

    def rows(self):
        return self.browser.run("return exhibit.rows()")

    def plan(self):
        return self.browser.run("return exhibit.plan()")

    def kinds(self):
        return self.browser.run("return exhibit.kinds()")

    def look(self):
        return self.browser.run("return exhibit.look()")

    def situation(self):
        return self.browser.run(SITUATION)

    def state(self, number):
        return self.browser.run("return document.querySelector(values[0])?.dataset.state", phone(number))

    def ends(self):
        """The ends of the records so far."""
        return [record["end"] for record in self.look()["records"]]

    # What a visitor does.

    def mode(self, name):
        self.press(f'[role=tab][data-mode="{name}"]')
        self.browser.wait("return document.body.dataset.mode === values[0]", 20, name)
        self.idle()

    def language(self, name):
        self.browser.run(SELECT, "#language", name)
        self.browser.wait("return document.documentElement.lang.startsWith(values[0])", 10, name)
        self.idle()

    def automatic(self, wanted, speed=None):
        """Lets the markers work by themselves or not; at `End` the speed is the highest."""
        if speed:
            self.browser.run("document.querySelector('#speed').focus()")
            self.browser.key(speed)
        if self.browser.run("return document.querySelector('#auto').checked") != wanted:
            self.browser.click("#auto")
        if not wanted:
            self.idle()

    def lift(self, number):
        self.press(phone(number, "button.lift"))

    def choose(self, number):
        """Chooses a phone, unless it's chosen."""
        if self.browser.run("return document.querySelector(values[0]).ariaCurrent", phone(number)) != "true":
            self.press(phone(number, "button.choose"))

    def dial(self, number, digits, by="keyboard"):
        """Dials digits at a phone by the keyboard, the `keypad` or the `rotary` dial."""
        self.choose(number)
        for digit in digits:
            if by == "keyboard":
                self.browser.key(digit)
            else:
                css, dial = phone(number, f'.{by} button[data-digit="{digit}"]'), phone(number, ".rotary")
                self.browser.wait(AT_REST, 10, css, dial)
                self.browser.click(css)
                self.browser.wait(HAS_DIALLED, 10, dial)
            self.idle()

    def finish(self, most=200):
        """Lets one marker after another finish, until all are idle."""
        for _ in range(most):
            if not self.enabled(".marker button.finish"):
                return
            self.press(".marker button.finish:enabled")
        raise BrowserError("the markers don't come to an end")

    def call(self, number, digits, by="keyboard"):
        """Lifts a receiver, dials, and lets the markers finish."""
        self.lift(number)
        self.finish()
        self.dial(number, digits, by)
        self.finish()

    def wait_for_state(self, number, states, seconds=60):
        self.browser.wait("return values[1].includes(document.querySelector(values[0])?.dataset.state)", seconds,
                          phone(number), states)
        self.idle()

    def wait_until_still(self, still=1.5, most=120):
        """Waits until the rows have been the same for some seconds."""
        rows, since, end = self.rows(), time.monotonic(), time.monotonic() + most
        while time.monotonic() - since < still:
            if time.monotonic() > end:
                raise BrowserError(f"the office is still at work after {most} seconds")
            time.sleep(0.1)
            now = self.rows()
            if now != rows:
                rows, since = now, time.monotonic()
        self.idle()

    def close_dialogs(self):
        for _ in range(3):
            if self.count("dialog[open]"):
                self.browser.key("Escape")
                self.idle()

    def save(self, css):
        """Saves something by a button of the dialog of files, and gives its text."""
        self.browser.click("#files")
        _, saved = self.browser.downloaded(lambda: self.browser.click(css))
        self.browser.click("#files-dialog .close")
        return saved.decode()

    def skip(self, rows):
        """Goes on in a film by as many rows as there still are, at most so many."""
        for _ in range(rows):
            if not self.enabled("#skip"):
                return
            self.press("#skip")

    def rest(self):
        """Stops what goes on by itself, also what was still to come when it was stopped."""
        self.close_dialogs()
        for _ in range(5):
            self.automatic(False)
            self.wait_until_still()
            if not self.browser.run("return document.querySelector('#auto').checked"):
                return
        raise BrowserError("the markers can't be stopped")

    def films(self):
        return self.browser.run(FILMS)

    def play(self, name):
        """Chooses a film and lets it play as fast as it can."""
        self.browser.run(SELECT, "#film", name)
        self.idle()
        self.automatic(True, "End")

    def forget_messages(self):
        self.browser.run("for (const id of ['message', 'files-message']) document.getElementById(id).textContent = ''")

    def wait_for_message(self, seconds=90):
        """Waits until the page says what it makes of a file, be it good or bad."""
        self.browser.wait("return document.querySelector('#message').textContent"
                          " || document.querySelector('#files-message').textContent", seconds)
        self.idle()

    def drop(self, path):
        self.forget_messages()
        self.browser.drop_file("body", path)
        self.wait_for_message()
