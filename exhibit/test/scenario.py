"""What a scenario is, and what it's given."""

import os, tempfile

from page import phone
from program import records_text

LISTED = 100  # of the last turns the page lists at least so many
ALL = []  # the scenarios, in the order of their modules


class Scenario:
    def __init__(self, name, title, act, timed):
        self.name, self.title, self.act, self.timed = name, title, act, timed


def scenario(name, title, timed=False):
    """Makes a scenario of a function that takes a Test. A timed one fails on a machine that is slow, or has other work."""
    def keep(act):
        ALL.append(Scenario(name, title, act, timed))
        return act
    return keep


class Test:
    """A page in a browser, the program beside it, and what was found wrong so far."""

    def __init__(self, page, program, options):
        self.page, self.browser, self.program, self.options = page, page.browser, program, options
        self.wrong, self.figures = [], []
        self.folder = tempfile.TemporaryDirectory(prefix="exhibit-test-")

    def begin(self):
        """A fresh page in a window of the usual size, and nothing found."""
        self.wrong, self.figures = [], []
        self.browser.errors()
        self.browser.reduced_motion(False)
        self.browser.size(1280, 720)
        self.page.open()

    def check(self, right, sentence):
        """Notes what is wrong, once."""
        if not right and sentence not in self.wrong:
            self.wrong.append(sentence)
        return right

    def figure(self, text):
        """Notes a figure to be printed beside the scenario."""
        self.figures.append(text)

    def file(self, name, content):
        """A file of this name and content for the page to read."""
        path = os.path.join(self.folder.name, name)
        with open(path, "wb") as file:
            file.write(content if isinstance(content, bytes) else content.encode())
        return path

    def check_office(self, where):
        """The page's office is what the program says of the page's rows."""
        page, rows = self.page, self.page.rows()
        said, shown = self.program.look(page.plan(), page.kinds(), rows), page.look()
        if not self.check(isinstance(said, dict), f"{where}: the program refuses the page's rows: {said}"):
            return
        different = [name for name in said if name != "events" and said[name] != shown.get(name)]
        self.check(not different, f"{where}: the page and the program differ in {', '.join(different)}")
        turns = page.browser.run("return [...document.querySelectorAll('#turns li[data-turn]')]"
                                 ".map(item => +item.dataset.turn)")
        told = [record["turn"] for record in said["records"]]
        listed = len(turns) >= min(len(told), LISTED) and turns == told[len(told) - len(turns):]
        self.check(listed, f"{where}: the turns in the list are {turns}, in the office {told}"[:300])

    def check_audit(self, where):
        """The page's audit says what the program's says of the records so far, and that is that all is legal."""
        page = self.page
        page.press("#audit")
        page.browser.wait("return document.querySelector('#verdict').textContent.includes('AUDIT,')", 30)
        records = records_text(self.program.look(page.plan(), page.kinds(), page.rows()))
        verdict, shown = self.program.verdict(page.plan(), records), page.text("#verdict")
        self.check(verdict.startswith("AUDIT,LEGAL,"), f"{where}: the program's audit says {verdict}")
        self.check(verdict in shown, f"{where}: the page's audit says {shown!r}, the program's {verdict}")

    def state_and_words(self, number):
        return self.page.state(number), self.page.text(phone(number, ".state"))
