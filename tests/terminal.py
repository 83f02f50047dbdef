"""A terminal for the tests, with what a program puts there."""
import os, pty, threading

CLEARED = "\r\x1b[K"  # how a line that was rewritten ends: it is gone


class Terminal:
    """A terminal, and what was put there."""

    def __init__(self):
        self.ours, self.theirs = pty.openpty()
        self.put = b""
        self.reader = threading.Thread(target=self.read, daemon=True)
        self.reader.start()

    def read(self):
        try:
            while True:
                self.put += os.read(self.ours, 1 << 16)
        except OSError:  # nobody has the other end any more
            pass

    def text(self):
        """All that was put, once nobody has the other end."""
        os.close(self.theirs)
        self.reader.join(20)
        os.close(self.ours)
        return self.put.decode()
