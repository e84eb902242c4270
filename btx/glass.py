"""The terminal while a line is shown in it: a screen of its own, keys as they are struck, and all as it was at the end, whatever that is.
What is written to it is made of looks alone."""
from __future__ import annotations

import contextlib
import errno
import os
import select
import signal
import termios
import tty
from collections.abc import Callable, Iterator
from typing import Any, TextIO

from btx import ending, looks, terminal

OWN_SCREEN, FORMER_SCREEN = "\x1b[?1049h", "\x1b[?1049l"
# What ends a run from outside, and what only has something to be done.
ENDING = (signal.SIGHUP, signal.SIGINT, signal.SIGQUIT, signal.SIGTERM)
TELLING = (signal.SIGCONT, signal.SIGTSTP, signal.SIGWINCH)


class Signals:
    """Signals that end the run, which raise once; and those that tell something, whose numbers come over a pipe."""

    def __init__(self) -> None:
        self.kept: dict[int, Any] = {}
        self.raised = False

    def ends(self, number: int, _: object) -> None:
        if not self.raised:
            self.raised = True
            raise ending.Signalled(number)

    def __enter__(self) -> Signals:
        self.reading, writing = os.pipe()
        os.set_blocking(self.reading, False)
        os.set_blocking(writing, False)
        self.woken = writing, signal.set_wakeup_fd(writing, warn_on_full_buffer=False)
        for number in ENDING:
            # What was ignored when the run began stays so.
            if signal.getsignal(number) != signal.SIG_IGN:
                self.kept[number] = signal.signal(number, self.ends)
        for number in TELLING:
            self.kept[number] = signal.signal(number, lambda *_: None)
        return self

    def __exit__(self, *_: object) -> None:
        for number, handler in self.kept.items():
            signal.signal(number, handler)
        signal.set_wakeup_fd(self.woken[1])
        os.close(self.woken[0])
        os.close(self.reading)

    def told(self) -> set[int]:
        """The numbers of the signals that came."""
        try:
            return {*os.read(self.reading, 256)}
        except BlockingIOError:
            return set()


@contextlib.contextmanager
def undisturbed() -> Iterator[None]:
    """Has signals wait."""
    kept = signal.pthread_sigmask(signal.SIG_BLOCK, ENDING)
    try:
        yield
    finally:
        signal.pthread_sigmask(signal.SIG_SETMASK, kept)


def whole(call: Callable[..., Any], *things: Any) -> Any:
    """What a call for a terminal answers, which is made again where a signal ended it, as of a job that comes to the foreground."""
    while True:
        try:
            return call(*things)
        except termios.error as fault:
            if fault.args[0] != errno.EINTR:
                raise OSError(*fault.args) from None


def takes(file: int) -> bool:
    """Whether a terminal takes something within a second."""
    watch = select.poll()
    watch.register(file, select.POLLOUT)
    return any(event & select.POLLOUT for _, event in watch.poll(1000))


class Glass:
    """Paints looks in the terminal of a stream, and has the keys of another, where there is one, come as they are struck."""

    def __init__(self, painter: terminal.Screen, stream: TextIO, keys: int | None) -> None:
        self.painter, self.stream = painter, stream
        self.keys = keys if keys is not None and os.isatty(keys) else None
        self.is_terminal = stream.isatty()
        self.size: terminal.Size | None = None
        self.kept: list[Any] | None = None
        self.begun = False

    def has_keys(self) -> bool:
        """Whether somebody is there who strikes keys."""
        return self.keys is not None

    def put(self, text: str) -> None:
        self.stream.write(text)
        self.stream.flush()

    def begin(self, cells: looks.Cells) -> None:
        """Takes the terminal, and shows looks on a screen that is blank without them."""
        self.take()
        self.show(cells)

    def take(self) -> None:
        with undisturbed():
            self.begun = True
            if self.keys is not None:
                self.kept = self.kept or whole(termios.tcgetattr, self.keys)
                whole(tty.setraw, self.keys, termios.TCSANOW)
        if self.is_terminal:
            self.put(OWN_SCREEN)

    def show(self, cells: looks.Cells) -> None:
        """Shows all anew, as far as the terminal has room."""
        self.size = terminal.size_of(self.stream)
        self.put(self.painter.begun())
        self.paint(cells)

    def again(self, cells: looks.Cells, position: looks.Place) -> None:
        """Takes the terminal once more, which others had meanwhile, or which has another size."""
        self.take()
        self.show(cells)
        self.paint({}, position)

    def fits(self, place: looks.Place) -> bool:
        return self.size is None or place[0] <= self.size[0] and place[1] <= self.size[1]

    def paint(self, changed: looks.Cells, position: looks.Place | None = None) -> None:
        """Repaints cells, and puts the cursor at a position."""
        here = {place: look for place, look in changed.items() if self.fits(place)}
        text = self.painter.changed(here) if here else ""
        if position:
            text = f"{terminal.HIDE}{text}\x1b[{position[0]};{position[1]}H{terminal.SHOW}"
        if text:
            self.put(text)

    def end(self) -> None:
        """Leaves the terminal as it was."""
        if not self.begun:
            return
        with undisturbed():
            self.begun = False
            # A terminal that is gone or stands still takes nothing.
            if self.is_terminal and takes(self.stream.fileno()):
                with contextlib.suppress(OSError):
                    self.put(terminal.PLAIN + terminal.SHOW + FORMER_SCREEN)
            if self.keys is not None and self.kept is not None:
                with contextlib.suppress(OSError):
                    whole(termios.tcsetattr, self.keys, termios.TCSANOW, self.kept)

    def leave_page(self, cells: looks.Cells, rows: int) -> None:
        """Puts a page into the terminal as it was, to stay there."""
        if self.is_terminal:
            self.put("".join(self.painter.still(cells, rows)))
