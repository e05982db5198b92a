"""A line about long work, where a person watches: on a terminal, and nowhere else."""

import os
import sys
import time


class Progress:
    """Shows one line that the next one overwrites, and takes it away at the end."""

    def __init__(self, of=0, what=""):
        self.of, self.what, self.done = of, what, 0
        self.shown, self.last = False, time.monotonic()
        self.watched = sys.stderr is not None and sys.stderr.isatty()

    def __enter__(self):
        return self

    def __exit__(self, *_):
        self.clear()

    def step(self, count=1):
        """So many more of the whole are done. Of many short steps a line comes after half a second, and then twice a second."""
        self.done += count
        if time.monotonic() - self.last >= 0.5:
            self.last = time.monotonic()
            self.show_done()

    def show_done(self):
        self.show(f"{self.what} {self.done} of {self.of}")

    def show(self, line):
        if self.watched:
            width = os.get_terminal_size(sys.stderr.fileno()).columns or 80
            self._write(f"\r\x1b[K{('palikudyom: ' + line)[:width - 1]}")
            self.shown = True

    def clear(self):
        if self.shown:
            self._write("\r\x1b[K")
            self.shown = False

    def _write(self, line):
        try:
            os.write(sys.stderr.fileno(), line.encode())
        except OSError:  # the terminal is gone
            self.watched = False
