"""What can't be done, each as an exception of its own."""
from __future__ import annotations


class TooLong(ValueError):
    """The page has more than 2^24 bytes, or the script, the drawing or the line more than 2^20."""


class BadScript(ValueError):
    """A line of the script or the drawing can't be read: which, counted from 1, and the number and name of the reason."""

    def __init__(self, line: int, reason: int, name: str) -> None:
        super().__init__(f"line {line}: {name}")
        self.line, self.reason, self.name = line, reason, name

    def __reduce__(self) -> tuple[type[BadScript], tuple[int, int, str]]:
        # So that one process can hand it to another.
        return type(self), (self.line, self.reason, self.name)


class NotSeven(ValueError):
    """The page isn't in seven bits."""


class Closed(ValueError):
    """The decoder is closed, its page has ended, or, of a line, it has not ended yet."""


class NoSnapshot(ValueError):
    """These bytes are no snapshot of a decoder."""
