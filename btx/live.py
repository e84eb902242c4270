"""The decoder that is fed bytes as they come, of the shared library. What it says is what the program would say of all the bytes."""
from __future__ import annotations

import ctypes
import functools
import os
from collections.abc import Callable
from typing import Any, NamedTuple

from btx import library as shared
from btx import looks, program

ROOM_FOR_A_BYTE = 1920
ROOM = 4 * ROOM_FOR_A_BYTE
GOOD, NO_ROOM, NO_MEMORY = 0, 5, 6
# The records of the header: their sizes, and where in a notice its place, its look and its pattern stand.
SIZE_OF_NOTICE, SIZE_OF_STATE = 184, 40
ROW, COLUMN, LOOK, PATTERN, FORM, COLOURS = 11, 12, slice(13, 33), 40, 112, 116
IS_PATTERN = 2
NO_PLACE = (0, 0)
# Beside what the library is looked for, in a checkout and under a prefix.
BESIDE = os.path.join(program.ROOT, "bin"), os.path.normpath(os.path.join(program.ROOT, "..", "..", "bin"))


class State(NamedTuple):
    """Where a decoder stands, as the record of the header has it."""

    fed: int
    pending: int
    ended: int
    row: int
    column: int
    rows: int
    wrap: int
    first: int
    last: int
    implicit: int
    revision: int
    c1: int
    g: tuple[int, ...]
    left: int
    right: int
    single: int
    accent: int
    table: int
    protect: int
    pen: tuple[int, ...]


class Full(Exception):
    """The decoder takes no more bytes."""

    def __init__(self) -> None:
        super().__init__("more than 2^32 bytes came, and no more are taken")


def place() -> str | None:
    """Where the library stands, or None."""
    named = os.environ.get(shared.VARIABLE)
    if named:
        return os.path.abspath(named) if os.path.isfile(named) else named
    return next(filter(None, map(shared.standing, BESIDE)), None)


def missing() -> program.Missing:
    """What is said where there is no library."""
    named = os.environ.get(shared.VARIABLE)
    if named:
        return program.Missing(f"{shared.VARIABLE} is {named}, and no library is there")
    if not os.path.exists(program.BUILD):
        ways = f"the package libtamligub1 has it, and so has ./install of a checkout that is built; {shared.VARIABLE} can name it"
        return program.Missing(f"the decoder's library isn't installed: {ways}")
    ways = f"{program.PROVES}{program.build_needs('rt')}; {shared.VARIABLE} can name one"
    return program.Missing(f"the decoder's library isn't built: {ways}")


@functools.lru_cache(None)
def library() -> ctypes.CDLL:
    """The calls of the library, as the package for Python has them. Of one that isn't named the system says why it can't be loaded."""
    path, binding = place(), shared.binding()
    if path is None or binding is None:
        raise missing()
    try:
        calls: ctypes.CDLL = binding.at(path)
    except (OSError, AttributeError) as fault:
        if isinstance(fault, OSError) and not os.environ.get(shared.VARIABLE):
            raise
        raise missing() from None
    return calls


def colour_at(record: bytes, at: int) -> str:
    red, green, blue, behind = record[at : at + 4]
    return looks.VIDEO if behind else f"{red:X}{green:X}{blue:X}"


def pattern_of(record: bytes) -> str:
    """The text of a downloaded pattern."""
    width, height, planes, inks = record[FORM : FORM + 4]
    count = (width * height * planes + 63) // 64
    words = (int.from_bytes(record[at : at + 8], "little") for at in range(PATTERN, PATTERN + 8 * count, 8))
    colours = "".join(colour_at(record, COLOURS + 4 * ink) for ink in range(inks))
    return f"%{width}x{height}x{planes}/" + "".join(f"{word:016X}" for word in words) + (f"/{colours}" if inks else "")


def shape_of(record: bytes) -> str:
    kind, group, code, accent = record[13:17]
    if kind == IS_PATTERN:
        return pattern_of(record)
    return f"{looks.SETS[group]}{code:02X}" + (f"+{accent:02X}" if accent else "") if kind else "-"


@functools.lru_cache(2**12)
def look_in(told: bytes, pattern: bytes) -> looks.Look:
    """The look that a notice tells, by those of its bytes that say how a place looks."""
    record = bytes(LOOK.start) + told + bytes(PATTERN - LOOK.stop) + pattern
    down, right, wide, high = record[17:21]
    flash, *flags = record[29:33]
    return looks.Look(
        shape_of(record), high, wide, down, right, colour_at(record, 21), colour_at(record, 25), looks.FLASHES[flash], *map(bool, flags)
    )


def look_of(record: bytes) -> looks.Look:
    """The look of a notice."""
    return look_in(record[LOOK], record[PATTERN:] if record[LOOK.start] == IS_PATTERN else b"")


def handle() -> Any:
    """A decoder that isn't open yet, as C keeps it."""
    binding = shared.binding()
    if binding is None:
        raise missing()
    return binding.Handle()


class Live:
    """A decoder. What its calls tell are the looks of the places that change, by row and column."""

    def __init__(self) -> None:
        self.calls, self.handle = library(), handle()
        self.list = bytearray(ROOM * SIZE_OF_NOTICE)
        self.number = ctypes.c_uint64(0)
        self.at = (ctypes.c_char * len(self.list)).from_buffer(self.list)
        if self.calls.tamligub_open(self.handle) != GOOD:
            raise MemoryError("there is no memory for a decoder")

    @classmethod
    def restored(cls, snapshot: bytes) -> Live:
        """A decoder in the state that a snapshot has."""
        one = cls()
        status = one.calls.tamligub_restore(one.handle, snapshot, len(snapshot))
        if status != GOOD:
            raise MemoryError("there is no memory for a decoder") if status == NO_MEMORY else ValueError("this is no snapshot")
        return one

    def told(self) -> looks.Cells:
        """The places that the last call has told, each with its last look."""
        end = self.number.value * SIZE_OF_NOTICE
        rows, columns = (bytes(memoryview(self.list)[at:end:SIZE_OF_NOTICE]) for at in (ROW, COLUMN))
        last = dict(zip(zip(rows, columns), range(0, end, SIZE_OF_NOTICE)))
        last.pop(NO_PLACE, None)
        return {spot: look_of(bytes(self.list[at : at + SIZE_OF_NOTICE])) for spot, at in last.items()}

    def listed(self, call: Callable[..., int], fault: str) -> looks.Cells:
        """What a call tells that takes no bytes."""
        if call(self.handle, self.at, ROOM, ctypes.byref(self.number)) != GOOD:
            raise ValueError(fault)
        return self.told()

    def feed(self, data: bytes) -> looks.Cells:
        """Feeds bytes, and answers which places look otherwise, and how."""
        changed: looks.Cells = {}
        taken = 0
        while taken < len(data):
            piece = data[taken : taken + ROOM]
            count = self.calls.tamligub_feed(self.handle, piece, len(piece), self.at, ROOM, ctypes.byref(self.number))
            if count == 0:
                raise Full
            changed |= self.told()
            taken += count
        return changed

    def finish(self) -> looks.Cells:
        """Ends the page."""
        return self.listed(self.calls.tamligub_finish, "the page has ended")

    def turn(self) -> looks.Cells:
        """Begins the next phase of flashing."""
        return self.listed(self.calls.tamligub_flash_turn, "no decoder is open")

    def look(self, row: int, column: int) -> looks.Look:
        """The look at a place as it was fed."""
        if self.calls.tamligub_look(self.handle, row, column, self.at) != GOOD:
            raise ValueError("there is no such place")
        return look_of(bytes(self.list[:SIZE_OF_NOTICE]))

    def cells(self) -> looks.Cells:
        """The looks that aren't blank, as the word `cells` lists them."""
        places = ((row, column) for row in range(1, self.state().rows + 1) for column in range(1, looks.COLUMNS + 1))
        found = ((place, self.look(*place)) for place in places)
        return {place: look for place, look in found if look != looks.BLANK}

    def state(self) -> State:
        """Where the decoder stands."""
        self.calls.tamligub_state(self.handle, self.at)
        record = bytes(self.list[:SIZE_OF_STATE])
        fed = int.from_bytes(record[:8], "little")
        return State._make([fed, *record[8:19], tuple(record[19:23]), *record[23:29], tuple(record[29:37])])

    def text(self, call: Callable[..., int], fault: str) -> bytes:
        """The bytes that a call writes, with as much room as they need."""
        room = 2**16
        while True:
            out = (ctypes.c_char * room)()
            status = call(self.handle, out, room, ctypes.byref(self.number))
            if status == GOOD:
                return out.raw[: self.number.value]
            if status != NO_ROOM:
                raise MemoryError("there is no memory for the bytes") if status == NO_MEMORY else ValueError(fault)
            room *= 4

    def write(self) -> bytes:
        """The page as bytes, which bring it back on a reset decoder."""
        return self.text(self.calls.tamligub_write, "no decoder is open")

    def snapshot(self) -> bytes:
        """All of the state as bytes."""
        return self.text(self.calls.tamligub_snapshot, "the page has ended")

    def close(self) -> None:
        self.calls.tamligub_close(self.handle)

    def __enter__(self) -> Live:
        return self

    def __exit__(self, *_: object) -> None:
        self.close()
