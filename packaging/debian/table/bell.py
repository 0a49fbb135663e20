"""Wakes a thread that waits in `select`, and says what happens."""
import contextlib
import os
import sys


def say(what):
    print(f"gmd-table: {''.join(sign if sign.isprintable() else repr(sign)[1:-1] for sign in what)}", file=sys.stderr, flush=True)


class Bell:
    """What another thread rings. It can be waited for as a file."""

    def __init__(self):
        self.reader, self.writer = os.pipe()
        os.set_blocking(self.reader, False)
        os.set_blocking(self.writer, False)
        self.has_rung = False

    def fileno(self):
        return self.reader

    def ring(self):
        """Wakes the other thread, now or when it next waits."""
        if not self.has_rung:
            self.has_rung = True
            with contextlib.suppress(BlockingIOError):
                os.write(self.writer, b"!")

    def answer(self):
        """Is called by the thread that was woken, before it looks for what there is to do."""
        with contextlib.suppress(BlockingIOError):
            os.read(self.reader, 4096)
        self.has_rung = False
