"""How far a tool is that takes its time, for a person at a terminal."""
import os
import sys
import time

AFTER, APART = 2, 0.25  # seconds until the line is shown, and between two of them
CLEAR = "\r\033[K"


class Progress:
    """A line on the standard error that says how far a tool is, where that is a terminal and the tool takes longer than two seconds. It
    is gone at the end, so that what is said then has the line. Nothing is written into a pipe or a file."""

    is_shown = False  # whether a line is there: that of a tool that another one calls is the same

    def __init__(self, tool):
        self.tool, self.next = tool, time.monotonic() + AFTER
        self.person = sys.stderr is not None and sys.stderr.isatty() and os.environ.get("TERM", "dumb") != "dumb"

    def __enter__(self):
        return self

    def __exit__(self, *_):
        clear()

    def tell(self, text):
        """Shows how far it is, unless that has just been shown."""
        if self.person and time.monotonic() >= self.next:
            line = f"{self.tool}: {text}"[: columns() - 1]
            sys.stderr.write(CLEAR + "".join(c if c.isprintable() else "?" for c in line))
            sys.stderr.flush()
            self.next, Progress.is_shown = time.monotonic() + APART, True


def clear():
    """Takes the line away, before something else is said."""
    if Progress.is_shown:
        Progress.is_shown = False
        sys.stderr.write(CLEAR)
        sys.stderr.flush()


def columns():
    try:
        return os.get_terminal_size(sys.stderr.fileno()).columns or 80
    except (OSError, ValueError):
        return 80
