"""Makes pages of a recording of a line, one for each clear of the screen that comes after a pause or a key. Each has before it what the
decoder writes of the state in which it begins, as far as that isn't the one of a decoder that was just opened, so that it stands alone.
btx archive takes the folder."""
import argparse
import contextlib
import itertools
import os
import re
import sys
from collections.abc import Iterator, Sequence
from typing import IO, NamedTuple

from btx import collection, files, live, looks, recording, say
from btx.statuses import Status

SUMMARY = "the pages of a recording of a line"
PAUSE = 1
# A recording has no more bytes than a decoder takes, and is read in pieces.
MOST_RECORDED, PIECE = 2**32, 2**20
# The clear of the screen, and full defaults, which clear it too.
CLEARS = re.compile(rb"\x0c|\x1f\x2f[\x41\x42]")
# The sets G0 to G3 and the shifts at the start, with what designates a set and locks a shift; the sets are numbered P, S, M, N, D.
SETS, LEFT, RIGHT = (0, 2, 1, 3), 0, 2
DESIGNATED = (b"\x40", b"\x62", b"\x63", b"\x64", b"\x20\x40")
LEFT_TAKES = (b"\x0f", b"\x0e", b"\x1b\x6e", b"\x1b\x6f")
RIGHT_TAKES = (b"", b"\x1b\x7e", b"\x1b\x7d", b"\x1b\x7c")
# What is known of where a decoder stands.
Kept = tuple[bytes, live.State]
SINGLE = {0: b"", 2: b"\x19", 3: b"\x1d"}


def arguments(parser: argparse.ArgumentParser) -> None:
    parser.add_argument("recording", metavar="RECORDING")
    parser.add_argument("-o", "--output", metavar="FOLDER", required=True, help="where the pages go; it is made where it isn't there")
    parser.add_argument("--pause", type=recording.seconds, default=PAUSE, metavar="SECONDS",
                        help=f"how long a pause is, after which a clear begins a page; 0 is none, and without it {PAUSE}")
    parser.add_argument("--no-keys", action="store_true", help="keys don't count: only a clear after a pause begins a page")
    parser.add_argument("--all", action="store_true", help="each clear begins a page, and no times are read")


class Arms:
    """The places after which the next clear begins a page: where a pause ended or a key was sent. None says that each clear does."""

    def __init__(self, options: argparse.Namespace) -> None:
        self.number = 0
        self.places: list[int] | None = None
        if not options.all:
            times = recording.times_of(options.recording)
            pairs = zip(times.milliseconds, times.milliseconds[1:], times.ends)
            pauses = [end for before, after, end in pairs if options.pause and after - before >= 1000 * options.pause]
            self.places = sorted(pauses + [end for _, end in times.keys if not options.no_keys])

    def begins(self, place: int) -> bool:
        """Whether the clear at a place begins a page."""
        if self.places is None:
            return True
        armed = self.number
        while self.number < len(self.places) and self.places[self.number] <= place:
            self.number += 1
        return self.number > armed


def control(state: live.State) -> bytes:
    """The bytes that bring back what a decoder keeps beside its page, once the screen was cleared."""
    data = b"\x1f\x2f" + (b"\x44" if state.c1 else b"\x43")
    data += b"".join(b"\x1b" + bytes([0x28 + at]) + DESIGNATED[one] for at, one in enumerate(state.g) if one != SETS[at])
    data += LEFT_TAKES[state.left] if state.left != LEFT else b""
    data += RIGHT_TAKES[state.right] if state.right != RIGHT else b""
    data += b"\x9b%d\x40" % state.table if state.table else b""
    return data + (b"\x9b\x31\x50" if state.protect else b"") + SINGLE[state.single]


def kept(decoder: live.Live) -> Kept:
    """All that is known of where a decoder stands, but for how many bytes it took: the page as bytes, and the rest."""
    return decoder.write(), decoder.state()._replace(fed=0)


def after(*pieces: bytes) -> Kept:
    """What a decoder keeps that was fed some bytes."""
    with live.Live() as decoder:
        for piece in pieces:
            decoder.feed(piece)
        return kept(decoder)


class Page(NamedTuple):
    """A page that is cut: what it has before it, and where in the recording the rest begins and ends."""

    front: bytes
    start: int
    end: int

    def of(self, data: bytes) -> bytes:
        """The bytes of the page, of those of the recording."""
        return self.front + data[self.start : self.end]

    def is_too_long(self) -> bool:
        return len(self.front) + self.end - self.start > files.MOST_PAGE


class Part:
    """A part of a recording that becomes a page: where it begins and ends, what it needs before it, or None where no bytes bring that back,
    and the cells at its end."""

    def __init__(self, start: int, front: bytes | None) -> None:
        self.start, self.front, self.end = start, front, start
        self.cells: looks.Cells = {}

    def page(self, data: bytes) -> Page:
        """The page. One that wouldn't show the same by itself has all of the recording before it."""
        page = None if self.front is None else Page(self.front, self.start, self.end)
        return page if page is not None and shown(page.of(data)) == self.cells else Page(b"", 0, self.end)


class Cutter:
    """Reads a recording up to each clear at which a page begins."""

    def __init__(self, data: bytes, decoder: live.Live, arms: Arms) -> None:
        self.data, self.decoder, self.arms, self.at = data, decoder, arms, 0

    def feed(self, end: int) -> None:
        self.decoder.feed(self.data[self.at : end])
        self.at = end

    def front(self, clear: bytes) -> bytes | None:
        """What a page has before a clear that the decoder has just read: None where no bytes bring that back."""
        here = kept(self.decoder)
        fronts = (b"", control(here[1]), here[0] + control(here[1]))
        return next((front for front in fronts if after(front, clear) == here), None)

    def parts(self) -> Iterator[Part]:
        """The parts in order. Every byte 0C is a clear, and every 1F begins a unit, since no longer unit has them inside."""
        part = Part(0, b"")
        for clear in CLEARS.finditer(self.data):
            place = clear.start()
            if self.arms.begins(place):
                self.feed(place)
                part.end, part.cells = place, cells_at_end(live.Live.restored(self.decoder.snapshot()))
                yield part
                self.feed(clear.end())
                part = Part(place, self.front(clear[0]))
        self.feed(len(self.data))
        part.end, part.cells = len(self.data), cells_at_end(self.decoder)
        yield part


def cells_at_end(decoder: live.Live) -> looks.Cells:
    """The cells where a decoder's page ends."""
    with decoder:
        decoder.finish()
        return decoder.cells()


def shown(data: bytes) -> looks.Cells:
    """The cells at the end of a page."""
    decoder = live.Live()
    decoder.feed(data)
    return cells_at_end(decoder)


def recorded(name: str) -> bytes:
    """The bytes of a recording, which may be far more than those of a page."""
    if files.is_plain(name) and os.path.getsize(name) > MOST_RECORDED:
        raise live.Full
    with contextlib.ExitStack() as stack, files.patience(name):
        file: IO[bytes] = sys.stdin.buffer if name == files.STANDARD else stack.enter_context(open(name, "rb"))
        pieces = iter(lambda: file.read(PIECE), b"")
        data = b"".join(itertools.islice(pieces, MOST_RECORDED // PIECE + 1))
    if len(data) > MOST_RECORDED:
        raise live.Full
    return data


def made(options: argparse.Namespace, data: bytes) -> list[Page]:
    """The pages of a recording; what came before the first clear is one, where something came."""
    parts = Cutter(data, live.Live(), Arms(options)).parts()
    return [part.page(data) for part in parts if part.end > part.start]


def write(pages: Sequence[Page], data: bytes, options: argparse.Namespace) -> int:
    """Writes the pages, each by its number, and answers the status. Of those that are too long for a page it says so."""
    folder, digits, count = options.output, len(str(len(pages))), 0
    hint = "" if options.all else "; --all begins a page at each clear"
    for number, page in enumerate(pages, 1):
        name = f"{number:0{digits}}.btx"
        if page.is_too_long():
            say(f"cut: {name} would have more than {files.MOST_PAGE:,} bytes, and is left out{hint}")
            continue
        with files.output(os.path.join(folder, name)) as file:
            file.write(page.of(data))
        count += 1
    say(f"cut: {collection.several(count, 'page')} in {folder}")
    return Status.DONE if count == len(pages) else Status.TOO_LONG


def run(_: object, options: argparse.Namespace) -> int:
    live.library()
    name, folder = options.recording, options.output
    if os.path.isdir(name):
        raise OSError(0, "it is a folder, and a recording is a file", name)
    if name.endswith(recording.TIMES) and os.path.isfile(name.removesuffix(recording.TIMES)):
        raise OSError(0, f"these are the times of a recording, which is {os.path.basename(name).removesuffix(recording.TIMES)}", name)
    if not options.all and name == files.STANDARD:
        raise OSError(0, "it has no times beside it; --all does without", "standard input")
    if not options.all and not os.path.exists(name + recording.TIMES) and os.path.exists(name):
        raise OSError(0, f"it has no times beside it, {os.path.basename(name)}{recording.TIMES}; --all does without", name)
    if os.path.isdir(folder) and any(one.endswith(".btx") for one in os.listdir(folder)):
        raise OSError(0, "there are pages in it already", folder)
    try:
        data = recorded(name)
        pages = made(options, data)
    except live.Full:
        say(f"cut: {name}: the recording has more than {MOST_RECORDED:,} bytes; head -c {MOST_RECORDED} makes a front of it that can be cut")
        return Status.TOO_LONG
    except MemoryError:
        say(f"cut: {name}: there is not enough memory for so long a recording; head -c makes a front of it")
        return Status.NO_MEMORY
    os.makedirs(folder, exist_ok=True)
    return write(pages, data, options)
