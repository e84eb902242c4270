"""Ends a run by a signal as a program without a handler would, so that a shell sees the usual status; what the run changed, as of a
terminal, is put back before."""
import contextlib
import os
import signal
from collections.abc import Iterator

# What ends a run from outside, without an exception of Python's own.
OUTSIDE = (signal.SIGHUP, signal.SIGTERM)


class Signalled(BaseException):
    """A signal ends the run."""

    def __init__(self, number: int) -> None:
        super().__init__(number)
        self.number = number


def end_by(number: int) -> None:
    signal.signal(number, signal.SIG_DFL)
    os.kill(os.getpid(), number)


def raised(number: int, _: object) -> None:
    """Raises a signal once; the next one ends the run at once."""
    signal.signal(number, signal.SIG_DFL)
    raise Signalled(number)


@contextlib.contextmanager
def heeded() -> Iterator[None]:
    """Has signals from outside raise; one that is ignored stays so."""
    heard = [number for number in OUTSIDE if signal.getsignal(number) == signal.SIG_DFL]
    for number in heard:
        signal.signal(number, raised)
    try:
        yield
    finally:
        for number in heard:
            signal.signal(number, signal.SIG_DFL)
