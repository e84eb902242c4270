"""Looks, as the program's texts name them. The man page says what each field is."""
import re
from collections.abc import Iterator
from typing import NamedTuple

ROWS, COLUMNS = 24, 40
VIDEO = "---"
# The letters of the sets and of the kinds of flashing, each in the order of its numbers in library/tamligub.h.
SETS, FLASHES = "PSMND", "SFIR123"
CHANGE = re.compile(rb"^\d+ (\d+ \d+) (.*)$", re.MULTILINE)
# Of a long text of changes so many bytes are read at once, from its end, and so many at most.
PIECE, MOST = 2**16, 2**20


class Look(NamedTuple):
    """How a cell looks."""

    shape: str
    high: int
    wide: int
    down: int
    right: int
    fore: str
    back: str
    flash: str
    concealed: bool
    lined: bool
    boxed: bool


class Pattern(NamedTuple):
    """A downloaded pattern: its size, its inks where it names them, and the number of each pixel's ink."""

    width: int
    height: int
    inks: list[str] | None
    numbers: list[int]


# Looks by their places, each a row and a column, and as they are written; and, one after the other, the places of bytes with the cells that
# change there.
Place = tuple[int, int]
Cells = dict[Place, Look]
Texts = dict[Place, str]
Moments = list[tuple[int, Cells]]


def look_of(text: str) -> Look:
    shape, part, fore, back, kinds = text.split(" ")
    high, wide, down, right = (int(part[at]) for at in (0, 1, 3, 4))
    return Look(shape, high, wide, down, right, fore, back, kinds[0], kinds[1] == "c", kinds[2] == "l", kinds[3] == "b")


BLANK_TEXT = "- 11.00 FFF 000 S---"
BLANK = look_of(BLANK_TEXT)


def texts_of(cells: str) -> Texts:
    """The looks of a text of cells by their places, as they are written; the others are blank."""
    lines = (line.split(" ", 2) for line in cells.splitlines())
    return {(int(row), int(column)): look for row, column, look in lines}


def cells_of(text: str) -> Cells:
    """The same as looks."""
    return {place: look_of(look) for place, look in texts_of(text).items()}


def text_of(texts: Texts) -> str:
    """A text of cells."""
    return "".join(f"{row} {column} {texts[row, column]}\n" for row, column in sorted(texts))


def changes_in(text: str) -> Iterator[str]:
    """The change lines of a text of changes."""
    return (line for line in text.splitlines() if not line.startswith("!"))


def change_of(line: str) -> tuple[int, Place, str]:
    """What a line of changes or of flash tells: the place of a byte or the turn, and a cell with its look."""
    at, row, column, look = line.split(" ", 3)
    return int(at), (int(row), int(column)), look


def moments_of(text: str) -> Moments:
    """Of a text of changes, for each byte at which cells change: the byte's place, and the looks by their places."""
    moments: Moments = []
    for at, place, look in map(change_of, changes_in(text)):
        if not moments or moments[-1][0] != at:
            moments.append((at, {}))
        moments[-1][1][place] = look_of(look)
    return moments


def last_cells(changes: bytes) -> str | None:
    """The text of cells at the end of a text of changes, which is read from its end until each cell has its last look; None where that
    would take too long, as where some cell of a long text never changes."""
    last: dict[bytes, bytes] = {}
    end = len(changes)
    while end and len(last) < ROWS * COLUMNS:
        if len(changes) - end > MOST:
            return None
        start = changes.rfind(b"\n", 0, max(0, end - PIECE)) + 1
        last, end = dict(CHANGE.findall(changes, start, end)) | last, start
    lines = {tuple(map(int, place.split())): b"%b %b\n" % (place, look) for place, look in last.items() if look != BLANK_TEXT.encode()}
    return b"".join(lines[place] for place in sorted(lines)).decode("ascii")


def inks_of(shape: str) -> list[str]:
    """The inks that a pattern names; of one plane it names none."""
    return re.findall("...", "".join(shape.split("/")[2:]))


def pattern_of(shape: str) -> Pattern:
    """A downloaded pattern: the number of each pixel's ink, line after line, and the inks where it names them."""
    form, words = shape[1:].split("/")[:2]
    width, height, planes = map(int, form.split("x"))
    bits = sum(int(words[at : at + 16], 16) << (4 * at) for at in range(0, len(words), 16))
    size = width * height
    numbers = [sum((bits >> (plane * size + pixel) & 1) << plane for plane in range(planes)) for pixel in range(size)]
    return Pattern(width, height, inks_of(shape) or None, numbers)
