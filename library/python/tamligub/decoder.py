"""A decoder that is fed bytes as they come, and then edited line by line."""
from __future__ import annotations

import ctypes
import threading
from operator import index
from types import TracebackType
from typing import Final, NoReturn, SupportsIndex, TypeVar

from . import binding, words
from .faults import BadScript, Closed, NoSnapshot, TooLong
from .looks import COLUMNS, HEAD, LINE_REASONS, ROWS, Colours, Look, State, colours_of, look_of, state_of
from .records import Notices

# So many notices there is room for in one call.
ROOM: Final = 2 * binding.ROOM_FOR_A_BYTE


# A decoder, of the class that is asked for.
Own = TypeVar("Own", bound="Decoder")


class Room:
    """Room for what a call writes, notices and numbers. It is given back where what was written is copied."""

    def __init__(self) -> None:
        self.list = ctypes.create_string_buffer(ROOM * binding.SIZE_OF_NOTICE)
        self.count = ctypes.c_uint64()
        self.reason = ctypes.c_uint32()

    def __enter__(self) -> Room:
        return self

    def __exit__(self, kind: type[BaseException] | None, fault: BaseException | None, trace: TracebackType | None) -> None:
        free.rooms.append(self)

    def records(self) -> bytes:
        """The records that the last call wrote."""
        return ctypes.string_at(self.list, self.count.value * binding.SIZE_OF_NOTICE)


class Free(threading.local):
    """The rooms that the decoders of a thread share. A call that begins while another is made, as in a handler of signals, has its own."""

    def __init__(self) -> None:
        self.rooms: list[Room] = []


free: Final = Free()


def room() -> Room:
    """A room that no other call has."""
    try:
        return free.rooms.pop()
    except IndexError:
        return Room()


class Here(threading.local):
    """What tells a thread from all others: its number may be given out again once it has ended."""

    def __init__(self) -> None:
        self.token = object()


here: Final = Here()


class Decoder:
    """A decoder of one page, before its first byte. It takes 247 KB of memory, from its first edit on 2.3 MB more, gives them back when it
    is closed, or forgotten by the thread that made it, and may be used in a `with` block; one that another thread forgets, or that lies in
    a `threading.local` or a context variable when its thread ends, keeps its memory, so close it. It stays on its thread, whose decoders
    share 707 KB for notices: calls from another one raise RuntimeError. A call needs up to 280 KB of the stack, `text` 650 KB. `Closed` is
    raised by calls on one that is closed, by what a page that has ended can't do any more, and by lines on one that hasn't; MemoryError
    where there is no memory. It isn't copied: `restored` makes another of a `snapshot`.

    >>> with Decoder() as decoder:
    ...     for notice in decoder.feed(b"A\\x1fBCB"):
    ...         print(notice)
    0 1 1 P41 11.00 FFF 000 S---
    4 2 3 P42 11.00 FFF 000 S---
    """

    __slots__ = ("_calls", "_handle", "_thread", "__weakref__")

    def __init__(self) -> None:
        self._calls = binding.library()
        self._handle, self._thread = binding.Handle(), here.token
        if self._calls.tamligub_open(self._handle) != binding.DONE:
            raise MemoryError("there is no memory for a decoder")

    def __enter__(self: Own) -> Own:
        self._own()
        return self

    def __exit__(self, kind: type[BaseException] | None, fault: BaseException | None, trace: TracebackType | None) -> None:
        self.close()

    def __del__(self) -> None:
        # Only the thread that opened it may close it; where that is another one the memory stays taken.
        if getattr(self, "_thread", None) is here.token and self._handle.is_open:
            self._calls.tamligub_close(self._handle)

    def __reduce_ex__(self, protocol: SupportsIndex) -> NoReturn:
        raise TypeError("a decoder isn't copied: Decoder.restored(decoder.snapshot()) makes another")

    def _own(self) -> binding.Handle:
        """The decoder as C knows it."""
        if here.token is not self._thread:
            raise RuntimeError("a decoder stays on the thread that made it")
        if not self._handle.is_open:
            raise Closed("the decoder is closed")
        return self._handle

    def close(self) -> None:
        """Gives the memory back; on a closed decoder nothing is done."""
        if self._handle.is_open:
            self._calls.tamligub_close(self._own())

    def feed(self, data: bytes | bytearray | memoryview) -> Notices:
        """Feeds bytes, in pieces of any size, and answers what their items change or refuse, in order. All bytes are taken before it
        answers. `Closed` where there are bytes and the page has ended, OverflowError where it would have more than 2^32 bytes.

        >>> [str(one) for one in Decoder().feed(b"\\x8f\\x9b\\x9b")]
        ['! 1 1 6 Interrupted']
        """
        handle, held = self._own(), binding.held(data)
        said, start, done = [], binding.address(held), 0
        with room() as own:
            while done < len(held):
                taken = self._calls.tamligub_feed(handle, start + done, len(held) - done, own.list, ROOM, own.count)
                if not taken:
                    raise Closed("the page has ended") if self.state().ended else OverflowError("no page has more than 2^32 bytes")
                said.append(own.records())
                done += taken
        return Notices(b"".join(said))

    def finish(self) -> Notices:
        """Ends the page, and answers what its end says. `Closed` where it had ended before."""
        return self._noticed("tamligub_finish", "the page has ended")

    def line(self, line: str | bytes | bytearray | memoryview) -> Notices | None:
        """Makes a line of a script, such as "at 1 2" or "undo", after the page has ended. Answers each place that it changes, once, with its
        look after it, or None where there is nothing to make: of an empty line, of a comment, and of an undo and a redo that find no edit.
        `BadScript` where the line is outside the grammar, `Closed` before the end of the page.

        >>> decoder = Decoder()
        >>> _ = decoder.finish()
        >>> [str(one) for one in decoder.line("text A")]
        ['0 1 1 P41 11.00 FFF 000 S---']
        >>> len(decoder.line("undo")), decoder.line("undo"), decoder.kept(), decoder.undone()
        (1, None, 0, 1)
        """
        handle, held = self._own(), binding.held_text(line)
        with room() as own:
            answer = self._calls.tamligub_line(handle, binding.address(held), len(held), own.list, ROOM, own.count, own.reason)
            reason, records = own.reason.value, own.records() if answer == binding.DONE else b""
        if answer == binding.BAD_LINE:
            raise BadScript(1, reason, LINE_REASONS[reason - 1])
        if answer == binding.NO_MEMORY:
            raise MemoryError("there is no memory for an edit")
        if answer == binding.TOO_LONG:
            raise TooLong("the line is too long")
        if answer == binding.EARLY:
            raise Closed("the page has not ended")
        return None if answer == binding.NO_LINE else Notices(records)

    def kept(self) -> int:
        """How many edits can be undone, 0 to 64."""
        kept: int = self._calls.tamligub_kept(self._own())
        return kept

    def undone(self) -> int:
        """How many edits were undone and can be redone, 0 to 64."""
        undone: int = self._calls.tamligub_undone(self._own())
        return undone

    def colours(self) -> Colours:
        """The colours in force.

        >>> colours = Decoder().colours()
        >>> str(colours.entries[1]), colours.dclut
        ('F00', (0, 1, 2, 3))
        """
        with room() as own:
            self._calls.tamligub_colours(self._own(), own.list)
            return colours_of(ctypes.string_at(own.list, binding.SIZE_OF_COLOURS))

    def flash_start(self) -> Notices:
        """Begins the first of six phases of flashing over a blank display: a change for each place that isn't blank. Looks
        are steady ones here and in `flash_turn`, as they are seen in the phase."""
        return self._noticed("tamligub_flash_start", "the decoder is closed")

    def flash_turn(self) -> Notices:
        """Goes on to the next phase, after the last one to the first: a change for each place that is shown otherwise. Six a second are
        what a terminal of the service shows."""
        return self._noticed("tamligub_flash_turn", "the decoder is closed")

    def _noticed(self, name: str, fault: str) -> Notices:
        """What a call says that takes no bytes."""
        with room() as own:
            if getattr(self._calls, name)(self._own(), own.list, ROOM, own.count) != binding.DONE:
                raise Closed(fault)
            return Notices(own.records())

    def look(self, row: int, column: int) -> Look:
        """How a place looks: row 1 to 24 from the top, column 1 to 40 from the left. IndexError where there is no such place, TypeError
        where these are no whole numbers.

        >>> str(Decoder().look(24, 40))
        '- 11.00 FFF 000 S---'
        """
        handle, row, column = self._own(), index(row), index(column)
        if not (1 <= row <= ROWS and 1 <= column <= COLUMNS):
            raise IndexError(f"there is no row {row}, column {column}")
        with room() as own:
            self._calls.tamligub_look(handle, row, column, own.list)
            return look_of(ctypes.string_at(ctypes.addressof(own.list) + HEAD.size, binding.SIZE_OF_NOTICE - HEAD.size))

    def screen(self) -> tuple[tuple[Look, ...], ...]:
        """The looks of all places: 24 rows of 40, also of those below a format of 20 rows.

        >>> screen = Decoder().screen()
        >>> len(screen), len(screen[0])
        (24, 40)
        """
        return tuple(tuple(self.look(row, column) for column in range(1, COLUMNS + 1)) for row in range(1, ROWS + 1))

    def text(self) -> str:
        """The screen as text, as the word `show` writes it: a line of 40 signs for each row of the format, each with its accent behind it.

        >>> decoder = Decoder()
        >>> _ = decoder.feed(b"Seite 0a")
        >>> decoder.text().splitlines()[0].rstrip()
        'Seite 0a'
        """
        return words.show(self.write())

    def state(self) -> State:
        """Where the decoder stands.

        >>> state = Decoder().state()
        >>> state.row, state.column, state.rows, state.sets
        (1, 1, 24, 'PMSN')
        """
        with room() as own:
            self._calls.tamligub_state(self._own(), own.list)
            return state_of(ctypes.string_at(own.list, binding.SIZE_OF_STATE))

    def write(self) -> bytes:
        """The page as bytes, which bring it back: what the word `write` writes."""
        return self._written("tamligub_write")

    def snapshot(self) -> bytes:
        """All of the state as bytes, also those that are no item yet and the phase of flashing. A front of a snapshot, or a changed one, may
        be that of another state: keep its length and a checksum beside it. `Closed` where the page has ended."""
        return self._written("tamligub_snapshot")

    def _written(self, name: str) -> bytes:
        """The bytes of a call that writes them, with as much room as they need."""
        handle, most, count = self._own(), ROOM * binding.SIZE_OF_NOTICE, ctypes.c_uint64()
        while True:
            out = ctypes.create_string_buffer(most)
            status = getattr(self._calls, name)(handle, out, most, count)
            if status == binding.DONE:
                return ctypes.string_at(out, count.value)
            if status == binding.NO_MEMORY:
                raise MemoryError("there is no memory for the bytes")
            if status != binding.NO_ROOM:
                raise Closed("the page has ended")
            most *= 4

    @classmethod
    def restored(cls: type[Own], snapshot: bytes | bytearray | memoryview) -> Own:
        """A decoder in the state that a snapshot has. What is shown already is told by `look` and `screen` where flashing hadn't begun; where
        it had, `flash_start` tells it over a blank display, from the first phase on. `NoSnapshot` where the bytes are none.

        >>> first = Decoder()
        >>> _ = first.feed(b"\\x1b")
        >>> Decoder.restored(first.snapshot()).state().pending
        1
        """
        held, decoder = binding.held(snapshot), cls()
        status = decoder._calls.tamligub_restore(decoder._handle, binding.address(held), len(held))
        if status == binding.NO_MEMORY:
            raise MemoryError("there is no memory for a decoder")
        if status != binding.DONE:
            raise NoSnapshot("these bytes are no snapshot")
        return decoder
