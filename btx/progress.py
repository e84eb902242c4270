"""How far an archive is: a line on a terminal, and lists that are written anew now and then."""
import io
import math
import os
import sys
import time
from collections.abc import Callable
from typing import TextIO

from btx import making
from btx.statuses import READ, Status

# In seconds.
EVERY, SELDOM = 0.2, 30
# Lists are written anew after so many times the time that writing takes.
PART = 20
USUAL_WIDTH = 80


def duration(seconds: float) -> str:
    """A time in hours and minutes."""
    hours, minutes = divmod(max(1, math.ceil(seconds / 60)), 60)
    return f"{hours:,} h {minutes:02} min" if hours else f"{minutes} min"


def fitting(width: int, *texts: str) -> str:
    """The first of some texts that fits into the width, or the front of the last."""
    return next((text for text in texts if len(text) < width), texts[-1][: max(0, width - 1)])


def width_of(stream: TextIO) -> int:
    """How many columns a terminal has; one that doesn't know has the usual ones."""
    return os.get_terminal_size(stream.fileno()).columns or USUAL_WIDTH


class Progress:
    """A line that tells how far it is, on a terminal alone."""

    def __init__(self, total: int, stream: TextIO | None = None, clock: Callable[[], float] = time.monotonic) -> None:
        self.total, self.done, self.refused, self.unread = total, 0, 0, 0
        self.stream, self.clock = stream or sys.stderr or io.StringIO(), clock
        self.begun = self.said = clock()
        self.shown = self.stream.isatty()

    def step(self, facts: making.Facts) -> None:
        self.done += 1
        self.refused += facts.status == Status.REFUSALS
        self.unread += facts.status not in (*READ, Status.NO_ROOM)
        now = self.clock()
        if self.shown and (now - self.said > EVERY or self.done == self.total):
            self.said = now
            self.stream.write(f"\r\x1b[K{self.line(now)}" + ("\n" if self.done == self.total else ""))
            self.stream.flush()

    def line(self, now: float) -> str:
        """As much as the terminal has room for."""
        far = f"{self.done:,} of {self.total:,} pages"
        counts = f"{far}, {self.refused:,} with refused items, {self.unread:,} not read"
        if self.done == self.total:
            return fitting(width_of(self.stream), counts, far)
        left = f"about {duration((now - self.begun) / self.done * (self.total - self.done))} more"
        return fitting(width_of(self.stream), f"{counts}, {left}", f"{far}, {left}", far)


class NowAndThen:
    """Does something again and again, seldom, and the more seldom the longer it takes."""

    def __init__(self, act: Callable[[], None], clock: Callable[[], float] = time.monotonic) -> None:
        self.act, self.clock = act, clock
        self.do()

    def do(self) -> None:
        begun = self.clock()
        self.act()
        now = self.clock()
        self.next = now + max(SELDOM, PART * (now - begun))

    def step(self) -> None:
        if self.clock() >= self.next:
            self.do()
