"""Recordings of a line: the bytes as they came, which are a stored page, and beside them when they came, in a file with .times after the
name. That has a line for each piece: the milliseconds since the line was opened, and how many bytes came; none came where a key was
sent."""
import argparse
import bisect
import os
import re
import time
from io import FileIO
from typing import Protocol

from btx import files, typed

TIMES = ".times"
BITS_OF_A_BYTE = 10
LINE = re.compile(r"(\d{1,15}) (\d{1,8})")


class Clock(Protocol):
    """When bytes come."""

    def when(self, count: int) -> float:
        """By how many seconds so many bytes have come."""


def put(file: FileIO, data: bytes) -> None:
    """Writes bytes to a file, whole; why that fails is raised with its name."""
    try:
        files.put_all(file.fileno(), data)
    except OSError as fault:
        raise OSError(fault.errno, fault.strerror, file.name) from None


class Recorder:
    """Writes a recording as it comes; what came stays, whatever ends the run."""

    def __init__(self, path: str) -> None:
        for one in (path, path + TIMES):
            if os.path.lexists(one):
                raise OSError(0, "it is there already, and a recording is never written over", one)
        self.page = open(path, "xb", buffering=0)
        try:
            self.times = open(path + TIMES, "xb", buffering=0)
        except OSError:
            self.page.close()
            os.unlink(path)
            raise
        self.begun = time.monotonic()

    def note(self, count: int) -> None:
        put(self.times, b"%d %d\n" % ((time.monotonic() - self.begun) * 1000, count))

    def came(self, data: bytes) -> None:
        put(self.page, data)
        self.note(len(data))

    def key(self) -> None:
        """Notes that a key was sent, and not which."""
        self.note(0)

    def close(self) -> None:
        self.page.close()
        self.times.close()


class Times:
    """When the bytes of a recording came: milliseconds, and how many bytes had come by then; and when keys were sent."""

    def __init__(self, text: str, path: str) -> None:
        self.milliseconds: list[int] = []
        self.ends: list[int] = []
        self.keys: list[tuple[int, int]] = []
        end = 0
        for number, line in enumerate(text.splitlines(), 1):
            found = LINE.fullmatch(line)
            when, count = map(int, found.groups()) if found else (0, 0)
            if not found or self.milliseconds and when < self.milliseconds[-1]:
                raise OSError(0, f"line {number} isn't a time, no earlier than the one before, and a length", path)
            if count:
                end += count
                self.milliseconds.append(when)
                self.ends.append(end)
            else:
                self.keys.append((when, end))

    def piece(self, place: int) -> int:
        """The number of the piece that has the byte at a place; bytes of which no time is known come with the last."""
        return min(bisect.bisect_right(self.ends, place), len(self.ends) - 1)

    def when(self, count: int) -> float:
        """By how many seconds so many bytes had come."""
        return self.milliseconds[self.piece(count - 1)] / 1000 if count and self.ends else 0

    def pieces(self) -> list[list[int]]:
        """The milliseconds and the length of each piece."""
        return [[when, end - start] for when, start, end in zip(self.milliseconds, [0, *self.ends], self.ends)]


class Speed:
    """When bytes come over a line of so many bits a second: a byte takes ten."""

    def __init__(self, bits: int) -> None:
        self.bits = bits

    def when(self, count: int) -> float:
        return count * BITS_OF_A_BYTE / self.bits


def times_of(page: str) -> Times:
    """When the bytes of a recording came."""
    path = page + TIMES
    with open(path, encoding="ascii", errors="replace") as file:
        return Times(file.read(), path)


def seconds(text: str) -> float:
    """A number of seconds, as argparse takes it."""
    try:
        value = float(text)
    except ValueError:
        value = -1
    if not 0 <= value < float("inf"):
        raise argparse.ArgumentTypeError(f"a time is a number of seconds, or 0, and not {typed.shown(text)}")
    return value


def add_times(parser: argparse.ArgumentParser | argparse._ArgumentGroup) -> None:
    parser.add_argument("--times", action="store_true", help="play a recording in its own time, by the file PAGE.times beside it")


def clock_of(options: argparse.Namespace) -> Clock:
    """When the bytes of a page come: in their own time where that is asked for, else at a speed."""
    if options.times:
        return times_of(options.page)
    return Speed(options.replay)
