"""A browser that a test works like a visitor: Chromium or Firefox, behind one interface.

`open_browser("chromium")` and `open_browser("firefox")` give a browser without a window. It has a fresh profile in a
temporary folder and no network: all but 127.0.0.1 and files goes to a proxy that isn't there. It ends with `close`,
with the Python program, and when that is killed. chromium.py and firefox.py speak the protocols.

A page's element is named by a CSS selector, which means the first element that it fits.
"""

import atexit, base64, json, os, shutil, signal, subprocess, tempfile, time
from abc import ABC, abstractmethod

NOWHERE = "127.0.0.1:9"  # the port of the discard service, where nobody listens
PACKAGES = {"chromium": "chromium", "firefox": "firefox-esr"}


class BrowserError(Exception):
    """What a visitor couldn't do, or what the browser refused, in one sentence."""


def open_browser(name):
    """A browser of this name, `chromium` or `firefox`, that has begun."""
    if name == "chromium":
        from chromium import Chromium
        return Chromium()
    from firefox import Firefox
    return Firefox()


def missing_package(name):
    """The Debian package of this browser if it isn't installed, else None."""
    return None if shutil.which(PACKAGES[name]) else PACKAGES[name]


class Process:
    """A program that ends with this one, and a temporary folder for it. What it prints goes to `log` there."""

    def __init__(self):
        self.folder = tempfile.mkdtemp(prefix="exhibit-test-")
        self.log = os.path.join(self.folder, "log")
        self.running = None
        atexit.register(self.end)

    def start(self, words, pass_fds=()):
        """Starts the program with these words, in a session of its own. The system kills it if this program dies."""
        with open(self.log, "wb") as log:
            self.running = subprocess.Popen(
                ["setpriv", "--pdeathsig", "KILL", "--", *words], stdin=subprocess.DEVNULL, stdout=log, stderr=log,
                env=dict(os.environ, HOME=self.folder, TMPDIR=self.folder), pass_fds=pass_fds, start_new_session=True)

    def ended(self):
        return self.running is None or self.running.poll() is not None

    def printed(self):
        with open(self.log, encoding="utf-8", errors="replace") as log:
            return log.read()

    def end(self):
        """Ends the program with all that it started, and removes the folder. A second call does nothing."""
        atexit.unregister(self.end)
        if self.running is not None:
            self._signal(signal.SIGTERM)
            try:
                self.running.wait(5)
            except subprocess.TimeoutExpired:
                pass
            self._signal(signal.SIGKILL)
            self.running.wait()
            self.running = None
        shutil.rmtree(self.folder, ignore_errors=True)

    def _signal(self, number):
        """Sends a signal to the session's processes, if some are left."""
        try:
            os.killpg(self.running.pid, number)
        except ProcessLookupError:
            pass


# Where the middle of an element is, or why a visitor can't press there. The element is scrolled into view first.
PLACE = """
const element = document.querySelector(values[0]);
if (!element) return {fault: "is not in the page"};
element.scrollIntoView({block: "center", inline: "center", behavior: "instant"});
const box = element.getBoundingClientRect();
const shown = element.checkVisibility({visibilityProperty: true, opacityProperty: true});
if (!shown || !box.width || !box.height) return {fault: "is not visible"};
const x = box.left + box.width / 2, y = box.top + box.height / 2;
const top = document.elementFromPoint(x, y);
if (!top) return {fault: "is outside the window"};
if (!element.contains(top) && !(element.labels && [...element.labels].some(label => label.contains(top))))
    return {fault: "is covered by " + top.tagName.toLowerCase() + (top.id && "#" + top.id)};
if (element.matches(":disabled")) return {fault: "is disabled"};
return {x, y};
"""

# Drops a file made in the page on an element: for a protocol that has no files to drag.
DROP = """
const [css, name, bytes] = values;
const place = document.querySelector(css), held = new DataTransfer();
held.items.add(new File([Uint8Array.from(atob(bytes), letter => letter.charCodeAt(0))], name));
for (const kind of ["dragenter", "dragover", "drop"])
    place.dispatchEvent(new DragEvent(kind, {bubbles: true, cancelable: true, composed: true, dataTransfer: held}));
"""


class Browser(ABC):
    """What both browsers do. A subclass fills in how."""

    name = ""

    def __init__(self):
        self.process = Process()
        self.downloads = self._folder("downloads")
        self.found = []  # the errors since the last call of errors()

    def _folder(self, name):
        path = os.path.join(self.process.folder, name)
        os.makedirs(path)
        return path

    # Each protocol's own part.

    @abstractmethod
    def open(self, url):
        """Loads the page of this address anew, also if only what follows `#` differs, and waits until it's loaded."""

    @abstractmethod
    def size(self, width, height, scale=1, touch=False):
        """Gives the page a window of this many CSS pixels, of `scale` dots each, on a screen with or without touch."""

    @abstractmethod
    def run(self, javascript, *values):
        """Runs the body of an async function with `values`, and gives what it returns, awaited, by way of JSON."""

    @abstractmethod
    def press(self, x, y):
        """Presses and lets go the mouse at this place of the window."""

    @abstractmethod
    def tap(self, x, y):
        """Touches the window at this place with a finger."""

    @abstractmethod
    def key(self, name, modifiers=()):
        """Presses and lets go a key, such as `a`, `Enter` or `ArrowLeft`, while modifiers such as `Shift` are held."""

    @abstractmethod
    def files(self, css, path):
        """Chooses a file in an input of files."""

    @abstractmethod
    def picture(self):
        """What the window shows, as the bytes of a PNG file."""

    @abstractmethod
    def reduced_motion(self, wanted):
        """Says whether the visitor wants less motion."""

    @abstractmethod
    def _note_errors(self):
        """Puts what the page reported since the last call into `found`."""

    @abstractmethod
    def _leave(self):
        """Asks the browser to end."""

    # What follows from it.

    def place(self, css):
        """The middle of an element that a visitor can press."""
        found = self.run(PLACE, css)
        if "fault" in found:
            raise BrowserError(f"{css} {found['fault']}")
        return found["x"], found["y"]

    def click(self, css):
        self.press(*self.place(css))

    def touch(self, css):
        self.tap(*self.place(css))

    def type(self, text):
        for letter in text:
            self.key(letter)

    def drop_file(self, css, path):
        """Drops a file on an element."""
        self.place(css)
        with open(path, "rb") as file:
            self.run(DROP, css, os.path.basename(path), base64.b64encode(file.read()).decode())

    def screenshot(self, path):
        with open(path, "wb") as file:
            file.write(self.picture())

    def errors(self):
        """Uncaught exceptions and console errors since the last call, a text for each."""
        self._note_errors()
        found, self.found = self.found, []
        return found

    def wait(self, javascript, seconds=10, *values):
        """Runs the body of a function again and again until it returns something that isn't false, and gives that."""
        end = time.monotonic() + seconds
        while True:
            found = self.run(javascript, *values)
            if found or time.monotonic() > end:
                break
            time.sleep(0.02)
        if not found:
            raise BrowserError(f"waited {seconds} seconds in vain for: {' '.join(javascript.split())[:200]}")
        return found

    def forget_downloads(self):
        """Removes what pages have saved."""
        for name in os.listdir(self.downloads):
            os.remove(os.path.join(self.downloads, name))

    def downloaded(self, act, seconds=20):
        """Does `act`, waits for the file that the page saves, and gives its name and bytes."""
        self.forget_downloads()
        act()
        end = time.monotonic() + seconds
        while time.monotonic() < end:
            time.sleep(0.03)
            names = os.listdir(self.downloads)
            if names and not any(is_unfinished(name) for name in names):
                with open(os.path.join(self.downloads, names[0]), "rb") as file:
                    return names[0], file.read()
        raise BrowserError(f"no file was saved within {seconds} seconds")

    def close(self):
        try:
            if not self.process.ended():
                self._leave()
        except (BrowserError, OSError):
            pass
        self.process.end()

    def __enter__(self):
        return self

    def __exit__(self, *_):
        self.close()


def is_unfinished(name):
    """Whether a browser is still writing the file of this name."""
    return name.startswith(".") or name.endswith((".crdownload", ".part", ".tmp"))


def wrapped(javascript):
    """The text of a function, with `values` for its arguments, that runs this body and gives its value as JSON."""
    return ("async (...values) => { const value = await (async () => {" + javascript +
            "\n})(); return JSON.stringify(value === undefined ? null : value); }")


def unwrapped(text):
    return None if text is None else json.loads(text)
