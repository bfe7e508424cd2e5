"""Chromium by its DevTools protocol, over a pair of pipes: it reads descriptor 3 and writes descriptor 4.

A message is a JSON object that ends with a zero byte. An answer has its command's `id`; all else are events.
"""

import base64, fcntl, json, os, select, time

from browser import NOWHERE, Browser, BrowserError, unwrapped, wrapped

WORDS = [
    "--headless=new", "--remote-debugging-pipe", "--no-first-run", "--no-default-browser-check", "--mute-audio",
    "--disable-background-networking", "--disable-component-update", "--disable-default-apps", "--disable-extensions",
    "--disable-sync", "--disable-dev-shm-usage", "--disable-features=Translate,MediaRouter,OptimizationHints",
    "--disable-background-timer-throttling", "--disable-renderer-backgrounding", "--force-color-profile=srgb",
    "--disable-backgrounding-occluded-windows", "--password-store=basic", "--use-mock-keychain",
    "--host-resolver-rules=MAP * ~NOTFOUND, EXCLUDE 127.0.0.1", f"--proxy-server=http://{NOWHERE}", "about:blank",
]
PATIENCE = 120  # the seconds that any answer may take

# Keys that aren't letters or digits: code, number, and the text that the key types.
KEYS = {
    "Enter": ("Enter", 13, "\r"), "Tab": ("Tab", 9, ""), " ": ("Space", 32, " "), "Escape": ("Escape", 27, ""),
    "Backspace": ("Backspace", 8, ""), "Delete": ("Delete", 46, ""), "Home": ("Home", 36, ""), "End": ("End", 35, ""),
    "ArrowLeft": ("ArrowLeft", 37, ""), "ArrowUp": ("ArrowUp", 38, ""), "ArrowRight": ("ArrowRight", 39, ""),
    "ArrowDown": ("ArrowDown", 40, ""), "PageUp": ("PageUp", 33, ""), "PageDown": ("PageDown", 34, ""),
}
MODIFIERS = {"Alt": 1, "Control": 2, "Meta": 4, "Shift": 8}


def key_of(name):
    """The code, number and text of a key."""
    name = " " if name == "Space" else name
    if name in KEYS:
        return (name, *KEYS[name])
    if name.isdigit():
        return name, f"Digit{name}", ord(name), name
    return name, f"Key{name.upper()}" if name.isalpha() else "", ord(name.upper()), name


class Pipes:
    """The two pipes to a browser. Descriptors stand above 9, so that bash can make 3 and 4 of them."""

    def __init__(self):
        reader, self.writing = os.pipe()
        self.reading, writer = os.pipe()
        self.theirs = tuple(fcntl.fcntl(number, fcntl.F_DUPFD_CLOEXEC, 10) for number in (reader, writer))
        os.close(reader)
        os.close(writer)
        self.pending = b""

    def words(self, command):
        """The words that run a command with the pipes at 3 and 4."""
        reader, writer = self.theirs
        return ["bash", "-c", f'exec 3<&{reader} 4>&{writer} {reader}<&- {writer}>&-; exec "$@"', "bash", *command]

    def forget_theirs(self):
        for number in self.theirs:
            os.close(number)

    def write(self, message):
        left = json.dumps(message).encode() + b"\0"
        while left:
            left = left[os.write(self.writing, left):]

    def read(self, end):
        """The next message, or None if there is none by the time `end`."""
        while b"\0" not in self.pending:
            ready, _, _ = select.select([self.reading], [], [], max(0, end - time.monotonic()))
            if not ready:
                return None
            more = os.read(self.reading, 1 << 20)
            if not more:
                raise BrowserError("Chromium ended")
            self.pending += more
        message, self.pending = self.pending.split(b"\0", 1)
        return json.loads(message)

    def close(self):
        for number in (self.reading, self.writing):
            os.close(number)


class Chromium(Browser):
    name = "Chromium"

    def __init__(self):
        super().__init__()
        self.pipes, self.number, self.session, self.loaded = Pipes(), 0, None, False
        own = [f"--user-data-dir={self._folder('profile')}", *(["--no-sandbox"] if os.geteuid() == 0 else [])]
        self.process.start(self.pipes.words(["chromium", *own, *WORDS]), self.pipes.theirs)
        self.pipes.forget_theirs()
        self._attach()

    def _attach(self):
        """Goes to the one page that is there, and asks for what it reports."""
        page = next(t for t in self._call("Target.getTargets")["targetInfos"] if t["type"] == "page")
        attached = self._call("Target.attachToTarget", targetId=page["targetId"], flatten=True)
        self.session = attached["sessionId"]
        for domain in ("Page", "Runtime", "Log", "DOM"):
            self._call(domain + ".enable")
        self._call("Emulation.setFocusEmulationEnabled", enabled=True)
        self._call("Page.setInterceptFileChooserDialog", enabled=True)
        self._call("Browser.setDownloadBehavior", behavior="allow", downloadPath=self.downloads)

    def _call(self, method, **values):
        """Sends a command and waits for its answer. Events that come before it are noted."""
        self.number += 1
        number, message = self.number, {"id": self.number, "method": method, "params": values}
        self.pipes.write(message | ({"sessionId": self.session} if self.session else {}))
        end = time.monotonic() + PATIENCE
        while True:
            answer = self.pipes.read(end)
            if answer is None:
                raise BrowserError(f"Chromium gave no answer to {method}")
            if answer.get("id") != number:
                self._note(answer)
            elif "error" in answer:
                raise BrowserError(f"{method}: {answer['error'].get('message')}")
            else:
                return answer["result"]

    def _note(self, event):
        """Notes an event if it's the end of a load, or something that a page shouldn't do."""
        method, values = event.get("method"), event.get("params", {})
        if method == "Page.loadEventFired":
            self.loaded = True
        elif method == "Runtime.exceptionThrown":
            details = values["exceptionDetails"]
            self.found.append(details.get("exception", {}).get("description") or details["text"])
        elif method == "Runtime.consoleAPICalled" and values["type"] in ("error", "assert"):
            self.found.append("console: " + " ".join(shown(value) for value in values["args"]))
        elif method == "Log.entryAdded" and values["entry"]["level"] == "error":
            entry = values["entry"]
            self.found.append(f"log: {entry['text']} {entry.get('url', '')[:100]}")
        elif method == "Page.javascriptDialogOpening":
            self.found.append("a dialog: " + values["message"])
            self._send_only("Page.handleJavaScriptDialog", accept=True)

    def _send_only(self, method, **values):
        """Sends a command whose answer nobody waits for."""
        self.number += 1
        self.pipes.write({"id": self.number, "method": method, "params": values, "sessionId": self.session})

    def _note_errors(self):
        self._call("Runtime.evaluate", expression="0")

    def open(self, url):
        for address in ("about:blank", url):
            self.loaded = False
            answer = self._call("Page.navigate", url=address)
            if answer.get("errorText"):
                raise BrowserError(f"{address} didn't open: {answer['errorText']}")
            end = time.monotonic() + PATIENCE
            while not self.loaded and time.monotonic() < end:
                event = self.pipes.read(end)
                if event is not None:
                    self._note(event)

    def size(self, width, height, scale=1, touch=False):
        self._call("Emulation.setDeviceMetricsOverride", width=width, height=height, deviceScaleFactor=scale,
                   mobile=touch)
        self._call("Emulation.setTouchEmulationEnabled", enabled=touch, maxTouchPoints=5)

    def run(self, javascript, *values):
        text = f"({wrapped(javascript)})(...{json.dumps(values)})"
        answer = self._call("Runtime.evaluate", expression=text, awaitPromise=True, returnByValue=True)
        if "exceptionDetails" in answer:
            thrown = answer["exceptionDetails"]
            raise BrowserError(thrown.get("exception", {}).get("description") or thrown["text"])
        return unwrapped(answer["result"].get("value"))

    def press(self, x, y):
        self._call("Input.dispatchMouseEvent", type="mouseMoved", x=x, y=y)
        for kind, held in (("mousePressed", 1), ("mouseReleased", 0)):
            self._call("Input.dispatchMouseEvent", type=kind, x=x, y=y, button="left", buttons=held, clickCount=1)

    def tap(self, x, y):
        self._call("Input.dispatchTouchEvent", type="touchStart", touchPoints=[{"x": x, "y": y}])
        self._call("Input.dispatchTouchEvent", type="touchEnd", touchPoints=[])

    def key(self, name, modifiers=()):
        key, code, number, text = key_of(name)
        held = sum(MODIFIERS[modifier] for modifier in modifiers)
        if set(modifiers) & {"Control", "Alt", "Meta"}:
            text = ""
        same = {"key": key, "code": code, "windowsVirtualKeyCode": number, "modifiers": held}
        self._call("Input.dispatchKeyEvent", type="keyDown" if text else "rawKeyDown", text=text, **same)
        self._call("Input.dispatchKeyEvent", type="keyUp", **same)

    def drop_file(self, css, path):
        x, y = self.place(css)
        held = {"items": [], "files": [os.path.abspath(path)], "dragOperationsMask": 1}
        for kind in ("dragEnter", "dragOver", "drop"):
            self._call("Input.dispatchDragEvent", type=kind, x=x, y=y, data=held)

    def files(self, css, path):
        found = self._call("Runtime.evaluate", expression=f"document.querySelector({json.dumps(css)})")["result"]
        if "objectId" not in found:
            raise BrowserError(f"{css} is not in the page")
        self._call("DOM.setFileInputFiles", files=[os.path.abspath(path)], objectId=found["objectId"])

    def picture(self):
        return base64.b64decode(self._call("Page.captureScreenshot", format="png")["data"])

    def reduced_motion(self, wanted):
        value = "reduce" if wanted else "no-preference"
        self._call("Emulation.setEmulatedMedia", features=[{"name": "prefers-reduced-motion", "value": value}])

    def _leave(self):
        self.session = None
        self._call("Browser.close")

    def close(self):
        super().close()
        self.pipes.close()


def shown(value):
    """A value that the page gave to its console, as text."""
    return str(value.get("description", value.get("value", value.get("type"))))
