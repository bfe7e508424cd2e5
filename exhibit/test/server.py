"""exhibit/serve, if it's wanted: it is started on a free port, and ends with the test."""

import os, socket, sys, time, urllib.request

from browser import BrowserError, Process

SERVE = os.path.join(os.path.dirname(os.path.dirname(os.path.realpath(__file__))), "serve")


def free_port():
    with socket.socket() as place:
        place.bind(("127.0.0.1", 0))
        return place.getsockname()[1]


def words_for(program):
    """The words that name the program to the server, which finds the one of bin/build itself: bin/crossbar5 first looks
    whether a source has changed, and so takes longer for each call."""
    path = os.path.abspath(program)
    return [] if path == os.path.join(os.path.dirname(os.path.dirname(SERVE)), "bin", "crossbar5") else ["--program", path]


class Server:
    """With --serve, the server and the address of its page; otherwise nothing, and no address."""

    def __init__(self, given):
        self.address = self.process = None
        if given.serve:
            port = free_port()
            self.address = f"http://127.0.0.1:{port}/"
            self.process = Process()
            self.process.start([sys.executable, SERVE, "--port", str(port), *words_for(given.program)])
            self._wait()

    def _wait(self):
        """Waits until the server gives its page."""
        straight = urllib.request.build_opener(urllib.request.ProxyHandler({}))
        end = time.monotonic() + 60
        while time.monotonic() < end and not self.process.ended():
            try:
                straight.open(self.address, timeout=10).read()
                return
            except OSError:
                time.sleep(0.1)
        printed = self.process.printed()[-400:]
        self.process.end()
        raise BrowserError("exhibit/serve gave no page: " + printed)

    def __enter__(self):
        return self

    def __exit__(self, *_):
        if self.process:
            self.process.end()
