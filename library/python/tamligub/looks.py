"""What a decoder tells, as values: looks of places, changes, refusals, and where the decoder stands."""
from __future__ import annotations

import functools
import struct
from dataclasses import dataclass
from typing import Final

from . import binding

ROWS: Final = 24
COLUMNS: Final = 40
SETS: Final = "PSMND"
FLASHES: Final = "SFIR123"
REASONS: Final = ("UnassignedControl", "UnknownEscape", "UnknownCsi", "UnknownUnit", "BadParameter", "Interrupted", "Truncated")
LINE_REASONS: Final = ("UnknownWord", "WrongCount", "BadNumber", "BadText", "BadHex", "BadBytes")
CHANGE: Final = 1
NOTHING, SIGN, PATTERN = range(3)
UNSET: Final = 255
# What has the next byte be of each set, on a page that begins; what has an accent be the next one's.
WRITES: Final = {"P": b"", "S": b"\x19", "M": b"\x0e", "N": b"\x1d", "D": b"\x1b\x28\x20\x40"}
ACCENTS: Final = b"\x19"


@dataclass(frozen=True, slots=True)
class Colour:
    """A colour: red, green and blue, 0 to 15 each, or what lies behind the screen.

    >>> str(Colour(15, 8, 0)), Colour(15, 8, 0).rgb()
    ('F80', (255, 136, 0))
    """

    red: int
    green: int
    blue: int
    behind: bool = False

    def rgb(self) -> tuple[int, int, int]:
        """The three parts, 0 to 255 each."""
        return 17 * self.red, 17 * self.green, 17 * self.blue

    def __str__(self) -> str:
        return "---" if self.behind else f"{self.red:X}{self.green:X}{self.blue:X}"


@functools.lru_cache(2**11)
def text_of(of_set: str, code: int, accent: int) -> str:
    """What the word `show` has for a sign at the first place of a page."""
    page = WRITES[of_set] + (ACCENTS + bytes([accent]) if accent else b"") + bytes([code])
    status, text = binding.run("show", page)
    if status not in (binding.DONE, binding.REFUSALS):
        raise MemoryError("there is no memory for the text")
    return text.decode().partition("\n")[0].rstrip() or " "


@dataclass(frozen=True, slots=True)
class Sign:
    """A sign: the letter of its set (P primary, S supplementary, M and N mosaics, D downloaded), its code, 0x20 to 0x7F, and the code of
    its accent, or 0."""

    set: str
    code: int
    accent: int = 0

    @property
    def text(self) -> str:
        """The character in Unicode, as the word `show` has it, with the mark of its accent behind it; the first time it is asked for, the
        library runs that word.

        >>> [Sign("P", 0x41).text, Sign("S", 0x7B).text, len(Sign("P", 0x6F, 0x48).text), Sign("M", 0x21).text]
        ['A', 'ß', 2, '▒']
        """
        return text_of(self.set, self.code, self.accent)

    def __str__(self) -> str:
        return f"{self.set}{self.code:02X}" + (f"+{self.accent:02X}" if self.accent else "")


@dataclass(frozen=True, slots=True)
class Pattern:
    """A downloaded pattern of so many pixels in 1, 2 or 4 planes. `words` are its bits, 64 in each word; with one plane it has no inks, and
    a pixel is the foreground."""

    width: int
    height: int
    planes: int
    words: tuple[int, ...]
    inks: tuple[Colour, ...] = ()

    def value(self, x: int, y: int) -> int:
        """The value of a pixel, x from the left and y from the top, each from 0: the number of its ink, or 1 for the foreground.

        >>> Pattern(6, 5, 1, (0b100001,)).value(5, 0)
        1
        """
        if not (0 <= x < self.width and 0 <= y < self.height):
            raise IndexError(f"the pattern has no pixel {x}, {y}")
        places = ((plane * self.height + y) * self.width + x for plane in range(self.planes))
        return sum((self.words[at // 64] >> at % 64 & 1) << plane for plane, at in enumerate(places))

    def __str__(self) -> str:
        inks = "/" + "".join(map(str, self.inks)) if self.inks else ""
        return f"%{self.width}x{self.height}x{self.planes}/" + "".join(f"{word:016X}" for word in self.words) + inks


@dataclass(frozen=True, slots=True)
class Look:
    """What is seen at a place: a sign, a pattern or nothing (`shape`); the place is `down` rows and `right` columns from the origin of its
    sign, of `high` by `wide` places. `flash` is S steady, F plain, I inverted, R reduced, or 1 to 3 for the fast ones, which go through six
    phases (`Decoder.flash_turn`). Of a concealed sign the background alone is shown until it is revealed, which is for the host to do. A
    lined sign has a line at its foot, or, where it is a block mosaic, gaps between its blocks; a boxed one has a dotted frame. Its text is
    that of the word `cells`."""

    shape: Sign | Pattern | None
    high: int
    wide: int
    down: int
    right: int
    fore: Colour
    back: Colour
    flash: str
    concealed: bool
    lined: bool
    boxed: bool

    def __str__(self) -> str:
        kinds = self.flash + ("c" if self.concealed else "-") + ("l" if self.lined else "-") + ("b" if self.boxed else "-")
        return f"{self.shape or '-'} {self.high}{self.wide}.{self.down}{self.right} {self.fore} {self.back} {kinds}"


@dataclass(frozen=True, slots=True)
class Change:
    """A place looks otherwise now: so many bytes stand before the item that changes it; rows count from 1 to 24, columns from 1 to 40.
    Its text is a line of the word `changes`."""

    at: int
    row: int
    column: int
    look: Look

    def __str__(self) -> str:
        return f"{self.at} {self.row} {self.column} {self.look}"


@dataclass(frozen=True, slots=True)
class Refusal:
    """Bytes are refused: so many bytes stand before them, so many they are, and why, 1 to 7. Its text is a line of the word `check`.

    >>> print(Refusal(0, 2, 6))
    ! 0 2 6 Interrupted
    """

    at: int
    length: int
    reason: int

    @property
    def name(self) -> str:
        """The name of the reason."""
        return REASONS[self.reason - 1]

    def __str__(self) -> str:
        return f"! {self.at} {self.length} {self.reason} {self.name}"


@dataclass(frozen=True, slots=True)
class Pen:
    """Attributes that the codes of the parallel C1 set have set for the next signs; None stands for one that isn't set. Colours are entries
    of the colour table, 0 to 31; `flash` is that of a look; the size is 0 normal, 1 twice as high, 2 twice as wide, 3 both."""

    fore: int | None
    back: int | None
    flash: str | None
    concealed: bool | None
    lined: bool | None
    boxed: bool | None
    size: int | None
    inverted: bool | None


@dataclass(frozen=True, slots=True)
class State:
    """Where a decoder stands: how many bytes it took (`fed`), how many of the last ones are no item yet (`pending`), whether the page has
    ended; the active position; how many rows the format has, whether lines wrap; the first and last row of the scrolling area (0 and 0 where
    there is none), whether it scrolls at its edges; the revision of the rules; whether the C1 set is the parallel one; the letters of the
    sets G0 to G3; which of these left and right bytes take, which the next byte alone takes (or 0), the accent that waits (or 0); the colour
    table; whether what is written is protected; and the pen. Whether the cursor is on is for the host to keep: each byte 0x11 that is fed
    puts it on and each byte 0x14 off, wherever they stand."""

    fed: int
    pending: int
    ended: bool
    row: int
    column: int
    rows: int
    wrap: bool
    first: int
    last: int
    implicit: bool
    revision: int
    parallel: bool
    sets: str
    left: int
    right: int
    single: int
    accent: int
    table: int
    protects: bool
    pen: Pen


@dataclass(frozen=True, slots=True)
class Colours:
    """The colours in force: those of the 32 entries of the colour table, and the entries that the four of the DCLUT name."""

    entries: tuple[Colour, ...]
    dclut: tuple[int, ...]


# The fields of a record before its look; those of the look up to its pattern; those of the pattern.
HEAD: Final = struct.Struct("<QBBBBB")
LOOK: Final = struct.Struct("<4B4B4s4s4B7x9Q4B64s4x")
STATE: Final = struct.Struct("<Q11B4B6B8B3x")


@functools.lru_cache(2**13)
def colour_of(record: bytes) -> Colour:
    """A colour of its four bytes."""
    return Colour(record[0], record[1], record[2], record[3] == 1)


def pattern_of(words: tuple[int, ...], form: tuple[int, ...], colours: bytes) -> Pattern:
    width, height, planes, inks = form
    used = (width * height * planes + 63) // 64
    return Pattern(width, height, planes, words[:used], tuple(colour_of(colours[at : at + 4]) for at in range(0, 4 * inks, 4)))


@functools.lru_cache(2**13)
def look_of(record: bytes) -> Look:
    """A look of its bytes, which stand in a record behind the place."""
    kind, of_set, code, accent, down, right, wide, high, fore, back, flash, conceal, lined, boxed, *rest = LOOK.unpack(record)
    shape: Sign | Pattern | None = None
    if kind == SIGN:
        shape = Sign(SETS[of_set], code, accent)
    elif kind == PATTERN:
        shape = pattern_of(tuple(rest[:9]), tuple(rest[9:13]), rest[13])
    flags = conceal == 1, lined == 1, boxed == 1
    return Look(shape, high, wide, down, right, colour_of(fore), colour_of(back), FLASHES[flash], *flags)


def notice_of(record: bytes) -> Change | Refusal:
    """What a record says."""
    at, kind, length, reason, row, column = HEAD.unpack_from(record)
    if kind == CHANGE:
        return Change(at, row, column, look_of(record[HEAD.size :]))
    return Refusal(at, length, reason)


def flag_of(field: int) -> bool | None:
    return None if field == UNSET else field == 1


def number_of(field: int) -> int | None:
    return None if field == UNSET else field


def pen_of(fields: tuple[int, ...]) -> Pen:
    fore, back, flash, conceal, lined, boxed, size, invert = fields
    kind = None if flash == UNSET else FLASHES[flash]
    flags = flag_of(conceal), flag_of(lined), flag_of(boxed)
    return Pen(number_of(fore), number_of(back), kind, *flags, number_of(size), flag_of(invert))


def state_of(record: bytes) -> State:
    """What a record says of where a decoder stands."""
    fed, pending, ended, row, column, rows, wrap, first, last, implicit, revision, c1, *rest = STATE.unpack(record)
    left, right, single, accent, table, protect = rest[4:10]
    sets = "".join(SETS[number] for number in rest[:4])
    return State(
        fed, pending, ended == 1, row, column, rows, wrap == 1, first, last, implicit == 1, revision, c1 == 1, sets, left, right, single, accent,
        table, protect == 1, pen_of(tuple(rest[10:])),
    )


def colours_of(record: bytes) -> Colours:
    """The colours in force of their record."""
    return Colours(tuple(colour_of(record[at : at + 4]) for at in range(0, 128, 4)), tuple(record[128:132]))
