"""A terminal for a test: a pseudo-terminal, at whose other end the test types and reads."""

import os
import pty
import select
import time

END_OF_INPUT = b"\x04"  # Ctrl-D


class Terminal:
    """What the program gets is `end`; close it here once the program has it."""

    def __init__(self):
        self.mine, self.end = pty.openpty()
        self.shown = b""

    def type(self, text):
        os.write(self.mine, text)

    def has_more(self, seconds):
        """Takes what the terminal shows within these seconds, or says that there is no more."""
        if not select.select([self.mine], [], [], seconds)[0]:
            return False
        try:
            more = os.read(self.mine, 1 << 16)
        except OSError:
            return False
        self.shown += more
        return bool(more)

    def wait_for(self, text, seconds):
        """Reads until the terminal shows this text, and says whether it did within these seconds."""
        deadline = time.monotonic() + seconds
        while text not in self.shown and time.monotonic() < deadline:
            self.has_more(0.05)
        return text in self.shown

    def rest(self):
        """All that it shows, once the program has ended."""
        while self.has_more(0.1):
            pass
        return self.shown

    def close(self):
        for descriptor in (self.mine, self.end):
            try:
                os.close(descriptor)
            except OSError:
                pass
