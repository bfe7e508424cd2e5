"""Firefox by Marionette: messages `LENGTH:[..]` over TCP, on a port of 127.0.0.1 that Firefox chooses.

A command is `[0, number, name, values]`, its answer `[1, number, error, result]`. What WebDriver has no command for,
such as a window narrower than a browser's, is done by scripts in the browser's own window (`chrome` below).
"""

import base64, json, os, socket, time

from browser import NOWHERE, Browser, BrowserError, unwrapped, wrapped

PATIENCE = 120  # the seconds that any answer may take
ELEMENT = "element-6066-11e4-a52e-4f735466cecf"  # the key of an element in WebDriver's answers

HOST, PORT = NOWHERE.split(":")
SETTINGS = {
    "marionette.port": 0, "network.proxy.type": 1, "network.proxy.no_proxies_on": "127.0.0.1",
    "network.proxy.http": HOST, "network.proxy.http_port": int(PORT), "network.proxy.ssl": HOST,
    "network.proxy.ssl_port": int(PORT), "network.proxy.socks": HOST, "network.proxy.socks_port": int(PORT),
    "network.captive-portal-service.enabled": False, "network.connectivity-service.enabled": False,
    "app.update.auto": False, "app.update.enabled": False, "app.normandy.enabled": False,
    "browser.aboutwelcome.enabled": False, "browser.shell.checkDefaultBrowser": False, "browser.startup.page": 0,
    "browser.safebrowsing.malware.enabled": False, "browser.safebrowsing.phishing.enabled": False,
    "browser.newtabpage.enabled": False, "browser.download.folderList": 2, "browser.download.useDownloadDir": True,
    "browser.download.alwaysOpenPanel": False, "browser.download.manager.addToRecentDocs": False,
    "browser.helperApps.neverAsk.saveToDisk": "text/csv,text/plain,image/svg+xml,application/octet-stream",
    "datareporting.policy.dataSubmissionEnabled": False, "toolkit.telemetry.reportingpolicy.firstRun": False,
    "extensions.update.enabled": False, "extensions.getAddons.cache.enabled": False,
    "devtools.console.stdout.content": True, "devtools.console.stdout.chrome": False,
    "dom.disable_beforeunload": True, "dom.file.createInChild": True, "privacy.reduceTimerPrecision": False,
    "toolkit.startup.max_resumed_crashes": -1, "dom.max_script_run_time": 0, "ui.systemUsesDarkTheme": 0,
}

# Keys that don't type their own name, by WebDriver's letters for them.
KEYS = {
    "Enter": "\ue006", "Tab": "\ue004", "Space": " ", "Escape": "\ue00c", "Backspace": "\ue003", "Delete": "\ue017",
    "Home": "\ue011", "End": "\ue010", "ArrowLeft": "\ue012", "ArrowUp": "\ue013", "ArrowRight": "\ue014",
    "ArrowDown": "\ue015", "PageUp": "\ue00e", "PageDown": "\ue00f", "Shift": "\ue008", "Control": "\ue009",
    "Alt": "\ue00a", "Meta": "\ue03d",
}

# Lines of Firefox's own among those of the page's console: it misses its settings on the network.
OWN_LINES = ("console.error: RSLoader:",)

# Takes the bars around the page away, so that Tab leads from the page's end to its beginning.
BARE = 'document.getElementById("navigator-toolbox").style.display = "none"'

# Gives the shown page a size of its own within the browser's window.
RESIZE = """
const [width, height, scale, touch] = arguments, page = gBrowser.selectedBrowser;
window.resizeTo(Math.max(width, 500) + 200, height + 400);
page.style.cssText = `flex: none; width: ${width}px; height: ${height}px; min-width: 0; min-height: 0;` +
    `max-width: ${width}px; max-height: ${height}px`;
page.browsingContext.overrideDPPX = scale;
page.browsingContext.touchEventsOverride = touch ? "enabled" : "none";
"""

# What pages reported since the last call: their uncaught errors, and failed loads.
REPORTED = """
const messages = Services.console.getMessageArray() || [];
Services.console.reset();
return messages.filter(message => message instanceof Ci.nsIScriptError
        && !(message.flags & Ci.nsIScriptError.warningFlag) && /content/.test(message.category))
    .map(message => message.errorMessage + " " + message.sourceName.slice(0, 100) + ":" + message.lineNumber);
"""


class Firefox(Browser):
    name = "Firefox"

    def __init__(self):
        super().__init__()
        self.number, self.pending, self.read_of_log = 0, b"", 0
        profile = self._folder("profile")
        self._write_settings(profile)
        self.process.start(["firefox-esr", "--headless", "--no-remote", "--marionette", "--remote-allow-system-access",
                            "--profile", profile, "about:blank"])
        self.line = self._connect(os.path.join(profile, "MarionetteActivePort"))
        self._read()
        self._call("WebDriver:NewSession", {"unhandledPromptBehavior": "accept"})
        self._call("WebDriver:SetTimeouts", {"script": PATIENCE * 1000, "pageLoad": PATIENCE * 1000})
        self._chrome(BARE)
        self._chrome(REPORTED)

    def _write_settings(self, profile):
        settings = SETTINGS | {"browser.download.dir": self.downloads}
        with open(os.path.join(profile, "user.js"), "w", encoding="utf-8") as file:
            for name, value in settings.items():
                file.write(f"user_pref({json.dumps(name)}, {json.dumps(value)});\n")

    def _connect(self, port_file):
        """A connection to Firefox, once it has written the port that it has chosen."""
        end = time.monotonic() + PATIENCE
        while time.monotonic() < end and not self.process.ended():
            try:
                with open(port_file, encoding="ascii") as file:
                    return socket.create_connection(("127.0.0.1", int(file.read())), PATIENCE)
            except (OSError, ValueError):
                time.sleep(0.05)
        raise BrowserError("Firefox didn't begin: " + self.process.printed()[-300:])

    def _read(self):
        """The next message."""
        while b":" not in self.pending:
            self._receive()
        length, self.pending = self.pending.split(b":", 1)
        while len(self.pending) < int(length):
            self._receive()
        message, self.pending = self.pending[:int(length)], self.pending[int(length):]
        return json.loads(message)

    def _receive(self):
        more = self.line.recv(1 << 20)
        if not more:
            raise BrowserError("Firefox ended")
        self.pending += more

    def _call(self, name, values=None):
        """Sends a command, and gives its answer's value."""
        self.number += 1
        message = json.dumps([0, self.number, name, values or {}]).encode()
        self.line.sendall(b"%d:%s" % (len(message), message))
        while True:
            _, number, error, result = self._read()
            if number == self.number:
                break
        if error:
            raise BrowserError(f"{name}: {error.get('message') or error.get('error')}")
        return result.get("value") if isinstance(result, dict) and "value" in result else result

    def _chrome(self, javascript, *values):
        """Runs the body of a function in the browser's own window."""
        self._call("Marionette:SetContext", {"value": "chrome"})
        try:
            return self._call("WebDriver:ExecuteScript", {"script": javascript, "args": list(values)})
        finally:
            self._call("Marionette:SetContext", {"value": "content"})

    def _note_errors(self):
        self.found += self._chrome(REPORTED)
        printed = self.process.printed()
        lines = printed[self.read_of_log:].splitlines()
        self.read_of_log = len(printed)
        self.found += [line for line in lines if line.startswith(("console.error:", "console.assert:"))
                       and not line.startswith(OWN_LINES)]

    def open(self, url):
        for address in ("about:blank", url):
            self._call("WebDriver:Navigate", {"url": address})

    def size(self, width, height, scale=1, touch=False):
        self._chrome(RESIZE, width, height, scale, touch)
        self.wait("return innerWidth === values[0] && innerHeight === values[1]", 5, width, height)

    def run(self, javascript, *values):
        script = f"return ({wrapped(javascript)})(...JSON.parse(arguments[0]))"
        return unwrapped(self._call("WebDriver:ExecuteScript", {"script": script, "args": [json.dumps(values)]}))

    def _act(self, kind, steps, **values):
        self._call("WebDriver:PerformActions", {"actions": [{"type": kind, "id": kind, "actions": steps} | values]})

    def _point(self, x, y, pointer):
        move = {"type": "pointerMove", "x": round(x), "y": round(y), "origin": "viewport"}
        self._act("pointer", [move, {"type": "pointerDown", "button": 0}, {"type": "pointerUp", "button": 0}],
                  id=pointer, parameters={"pointerType": pointer})

    def press(self, x, y):
        self._point(x, y, "mouse")

    def tap(self, x, y):
        self._point(x, y, "touch")

    def key(self, name, modifiers=()):
        held = [KEYS[modifier] for modifier in modifiers]
        keys = [*held, KEYS.get(name, name)]
        down = [{"type": "keyDown", "value": key} for key in keys]
        self._act("key", down + [{"type": "keyUp", "value": key} for key in reversed(keys)])

    def files(self, css, path):
        found = self._call("WebDriver:FindElement", {"using": "css selector", "value": css})
        self._call("WebDriver:ElementSendKeys", {"id": found[ELEMENT], "text": os.path.abspath(path)})

    def picture(self):
        return base64.b64decode(self._call("WebDriver:TakeScreenshot", {"full": False}))

    def reduced_motion(self, wanted):
        self._chrome('Services.prefs.setIntPref("ui.prefersReducedMotion", arguments[0])', int(wanted))

    def _leave(self):
        self._call("Marionette:Quit", {"flags": ["eForceQuit"]})

    def close(self):
        super().close()
        self.line.close()
