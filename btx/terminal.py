"""Shows a page in colour in a terminal, as a picture where it says that it has them. Without, mosaics are shown by signs of six blocks that
Unicode has for old computers, where the terminal is known to draw these or where they are asked for, else by the quarters that most fonts
have; a letter of double size stands in its first cell. Colours are of 24 bits where COLORTERM says so, else of the 256 of the terminal;
with NO_COLOR there are none, and no pictures."""
import argparse
import math
import os
import sys
import time
from collections.abc import Iterable, Iterator, Mapping, Sequence
from typing import Protocol, TextIO

from btx import at_end, canvas, ending, files, looks, messages, numbers, program, recording, say, screens, signs

SUMMARY = "the page in colour in the terminal"
# So many looks are kept with what shows them: a line may bring any number of patterns.
MOST_KNOWN = 2**14
STEPS = (0, 95, 135, 175, 215, 255)
FORE, BACK = 38, 48
ALL_COLOURS = 2**24
# The rows and the columns of a terminal.
Size = tuple[int, int]
UNDERLINED, BLINKING = "4", "5"
PLAIN, HIDE, SHOW, CLEAR, HOME = "\x1b[0m", "\x1b[?25l", "\x1b[?25h", "\x1b[2J", "\x1b[1;1H"
AUTO = "auto"
KINDS = (AUTO, signs.SEXTANTS, signs.BLOCKS, signs.ASCII, screens.KITTY, screens.SIXEL)

# How many bits a second.
speed = numbers.whole("a speed", 1)


def add_signs(parser: argparse.ArgumentParser, kinds: Sequence[str], usual: str) -> None:
    what = f"what shows mosaics: {', '.join(kinds)}; without it {usual}"
    parser.add_argument("--signs", choices=kinds, default=usual, metavar="SIGNS", help=what)


def arguments(parser: argparse.ArgumentParser) -> None:
    parser.add_argument("page", metavar="PAGE")
    parser.add_argument("--reveal", action="store_true", help="show what is concealed")
    played = parser.add_mutually_exclusive_group()
    played.add_argument("--replay", type=speed, metavar="BITS", help="play it as over a line of so many bits a second, such as 1200")
    recording.add_times(played)
    add_signs(parser, KINDS, AUTO)


def signs_known(environment: Mapping[str, str]) -> str:
    """The signs that a terminal is known to show."""
    return signs.SEXTANTS if screens.draws_sextants(environment) else signs.BLOCKS


def kind_of(asked: str, environment: Mapping[str, str]) -> str:
    """What shows mosaics: what is asked for, or what the terminal is known to have."""
    if asked != AUTO:
        return asked
    pictured = sys.stdout.isatty() and not environment.get("NO_COLOR")
    return (pictured and screens.protocol()) or signs_known(environment)


def depth_of(environment: Mapping[str, str]) -> int:
    """How many colours there are: 0, 256 or 2^24."""
    if environment.get("NO_COLOR"):
        return 0
    return ALL_COLOURS if environment.get("COLORTERM") in ("truecolor", "24bit") else 256


def distance(one: Sequence[int], other: Sequence[int]) -> int:
    return sum((a - b) ** 2 for a, b in zip(one, other))


def of_256(parts: Sequence[int]) -> int:
    """The nearest of the terminal's 256 colours: of its cube, or of its greys."""
    cube = [min(range(6), key=lambda index: abs(STEPS[index] - part)) for part in parts]
    grey = min(range(24), key=lambda index: distance(parts, [8 + 10 * index] * 3))
    if distance(parts, [8 + 10 * grey] * 3) < distance(parts, [STEPS[index] for index in cube]):
        return 232 + grey
    return 16 + 36 * cube[0] + 6 * cube[1] + cube[2]


def colour_of(paint: str, layer: int, depth: int) -> str:
    """The words for a colour; the picture behind the screen is the terminal's own."""
    if paint == looks.VIDEO:
        return str(layer + 1)
    parts = [17 * int(digit, 16) for digit in paint]
    if depth == 256:
        return f"{layer};5;{of_256(parts)}"
    return f"{layer};2;{parts[0]};{parts[1]};{parts[2]}"


class Screen(Protocol):
    """Makes what a terminal is told of looks."""

    def still(self, cells: looks.Cells, rows: int) -> Iterator[str]:
        """What shows a whole page and leaves it there."""

    def begun(self) -> str:
        """What makes the screen blank."""

    def changed(self, changed: looks.Cells, is_passed: bool = False) -> str:
        """What repaints some cells; of a picture nothing where it is passed by, as what comes next has come already."""


class Painter:
    """Makes a terminal's text of looks."""

    def __init__(self, depth: int, revealed: bool, kind: str = signs.SEXTANTS) -> None:
        self.depth, self.revealed, self.kind = depth, revealed, kind
        self.known: dict[looks.Look, tuple[str, str]] = {}

    def style(self, look: looks.Look, fore: str, back: str) -> str:
        words = [colour_of(fore, FORE, self.depth), colour_of(back, BACK, self.depth)] if self.depth else []
        is_hidden = look.concealed and not self.revealed
        words += [UNDERLINED] * (look.lined and not is_hidden) + [BLINKING] * (look.flash != "S")
        return "\x1b[" + ";".join(["0", *words]) + "m"

    def cell(self, look: looks.Look) -> tuple[str, str]:
        """The style and the sign of a cell."""
        if len(self.known) == MOST_KNOWN:
            self.known.clear()
        if look not in self.known:
            sign, fore, back = signs.shown(look, self.revealed, self.kind)
            self.known[look] = self.style(look, fore, back), sign
        return self.known[look]

    def row(self, row_looks: Iterable[looks.Look]) -> str:
        """The text of neighbours: a style stands where it changes."""
        text, last = "", None
        for look in row_looks:
            style, sign = self.cell(look)
            text += (style if style != last else "") + sign
            last = style
        return text + PLAIN

    def still(self, cells: looks.Cells, rows: int) -> Iterator[str]:
        """The whole page, a line for each row."""
        for row in range(1, rows + 1):
            yield self.row([cells.get((row, column), looks.BLANK) for column in range(1, looks.COLUMNS + 1)]) + "\n"

    def begun(self) -> str:
        """What makes the screen blank."""
        return HIDE + CLEAR + repaint(self, blank_screen())

    def changed(self, changed: looks.Cells, is_passed: bool = False) -> str:
        """What repaints some cells."""
        return repaint(self, changed)


class PicturePainter:
    """Shows the screen as a picture, anew at each change."""

    def __init__(self, revealed: bool, protocol: str) -> None:
        self.board, self.protocol = canvas.Canvas(revealed), protocol
        self.cells: looks.Cells = {}

    def picture(self) -> str:
        return screens.picture(self.protocol, self.board, self.cells)

    def still(self, cells: looks.Cells, rows: int) -> Iterator[str]:
        self.cells = cells
        yield self.picture()
        # The picture of kitty leaves the cursor where it is, that of sixel moves it below itself.
        yield "\n" * (looks.ROWS if self.protocol == screens.KITTY else 1)

    def begun(self) -> str:
        return HIDE + CLEAR + HOME + self.picture()

    def changed(self, changed: looks.Cells, is_passed: bool = False) -> str:
        self.cells |= changed
        return "" if is_passed else HOME + self.picture()


def painter_of(options: argparse.Namespace, environment: Mapping[str, str]) -> Screen:
    kind = kind_of(options.signs, environment)
    if kind in screens.PROTOCOLS:
        return PicturePainter(options.reveal, kind)
    return Painter(depth_of(environment), options.reveal, kind)


def blank_screen() -> looks.Cells:
    return {(row, column): looks.BLANK for row in range(1, looks.ROWS + 1) for column in range(1, looks.COLUMNS + 1)}


def repaint(painter: Painter, changed: looks.Cells) -> str:
    """What repaints some cells, each at its place: neighbours without a new position, and a style where it changes."""
    text = ""
    after: looks.Place | None = None
    last: str | None = None
    for row, column in sorted(changed):
        style, sign = painter.cell(changed[row, column])
        text += ("" if (row, column) == after else f"\x1b[{row};{column}H") + (style if style != last else "") + sign
        after, last = (row, column + 1), style
    return text + PLAIN


def size_of(stream: TextIO) -> Size | None:
    """The rows and columns of the terminal, or None where there is none, or one that doesn't know them."""
    try:
        size = os.get_terminal_size(stream.fileno())
    except OSError:
        return None
    return (size.lines, size.columns) if size.lines and size.columns else None


def too_small(size: Size | None) -> str | None:
    """What is said of a terminal that is too small for a page, or None."""
    if size is None or size[0] >= looks.ROWS and size[1] >= looks.COLUMNS:
        return None
    return f"the terminal has {size[0]} rows of {size[1]}, and a page {looks.ROWS} of {looks.COLUMNS}"


def lines_of(stream: TextIO) -> int:
    """How many rows the terminal has, or more than enough where there is none."""
    size = size_of(stream)
    small = too_small(size)
    if small:
        raise OSError(0, small)
    return size[0] if size else looks.ROWS + 1


def wait(until: float) -> None:
    time.sleep(max(0, until - time.monotonic()))


def play(painter: Screen, moments: looks.Moments, length: int, clock: recording.Clock, stream: TextIO) -> None:
    """Shows each change when the byte at its place has come."""
    last = min(lines_of(stream), looks.ROWS + 1)
    with ending.heeded():
        try:
            stream.write(painter.begun())
            stream.flush()
            begun = time.monotonic()
            dues = [begun + clock.when(place + 1) for place, _ in moments]
            for (_, changed), due, following in zip(moments, dues, [*dues[1:], math.inf]):
                wait(due)
                stream.write(painter.changed(changed, following < time.monotonic()))
                stream.flush()
            wait(begun + clock.when(length))
        finally:
            stream.write(f"{PLAIN}\x1b[{last};1H{SHOW}" + ("\n" if last == looks.ROWS else ""))
            stream.flush()


def show(path: program.Runner, page: str, options: argparse.Namespace) -> int:
    """Shows a page that can be read again, and answers the program's status."""
    painter = painter_of(options, os.environ)
    if options.replay or options.times:
        clock, moments = recording.clock_of(options), looks.moments_of(program.text_put(path, "changes", page))
        play(painter, moments, os.path.getsize(page), clock, sys.stdout)
    else:
        # A picture shows the rows below the format too.
        is_picture = isinstance(painter, PicturePainter)
        cells = at_end.cells(path, page) if is_picture else looks.cells_of(program.text_put(path, "cells", page))
        rows = program.text_put(path, "show", page).count("\n")
        sys.stdout.writelines(painter.still(cells, rows))
        sys.stdout.flush()
        if too_small(size_of(sys.stdout)):
            say(f"terminal: {too_small(size_of(sys.stdout))}")
    return program.put(path, "check", page)[1]


def run(path: program.Runner, options: argparse.Namespace) -> int:
    files.write_utf8(newline="\n")
    with files.read_again(options.page) as page:
        status = show(path, page, options)
    if status:
        say(messages.sentence(messages.Run(path, "show", [options.page]), status))
    return status
