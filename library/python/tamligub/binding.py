"""The calls of the shared library, by ctypes: what C hands over, and nothing else. The other modules make values of it.

The library is looked for where TAMLIGUB_LIBRARY says, beside this package (as in a wheel), in `library/out` of a checkout, under the
prefix of an install, and last where the system finds libraries by their names."""
from __future__ import annotations

import ctypes
import functools
import mmap
import os
from typing import Final, NamedTuple

NAME: Final = "libtamligub.so.1"
VARIABLE: Final = "TAMLIGUB_LIBRARY"
HERE: Final = os.path.dirname(os.path.realpath(__file__))
# What is given after a word.
NOTHING, PAGE, PAGE_AND_SCRIPT, NUMBER, PAGE_AND_NUMBER = range(5)
# How a call ends.
DONE, REFUSALS, USAGE, BAD_SCRIPT, UNREAD, NO_ROOM, NO_MEMORY, TOO_LONG, NOT_SEVEN = range(9)
ROOM_FOR_A_BYTE: Final = 1920
ROOM_FOR_A_PHASE: Final = 960
ROOM_FOR_A_LINE: Final = 960
# What a line answers beside 0, 6 and 7: it can't be made now, there is nothing to make, or it is outside the grammar.
EARLY, NO_LINE, BAD_LINE = 1, 2, 3
SIZE_OF_NOTICE: Final = 184
SIZE_OF_STATE: Final = 40
SIZE_OF_COLOURS: Final = 132
# In bytes: the room that a text is first given, for each byte of the page too, and the most that a call uses.
LEAST_ROOM, ROOM_FOR_EACH, MOST_FIRST, MOST_ROOM = 2**18, 192, 2**26, 2**32 - 1


class Handle(ctypes.Structure):
    """A decoder, as C keeps it: all of it zero where none is open."""

    _fields_ = [("at", ctypes.c_void_p), ("is_open", ctypes.c_bool)]


class Answer(NamedTuple):
    """How a call ended, and the text that it wrote."""

    status: int
    text: bytes


class Missing(OSError):
    """The shared library isn't on this machine, or can't be loaded; the text says where it was looked for."""


BYTES, SIZE, WORD, COUNT = ctypes.c_void_p, ctypes.c_size_t, ctypes.c_uint32, ctypes.POINTER(ctypes.c_uint64)
HANDLE: Final = ctypes.POINTER(Handle)
# Each function of the header: what it answers, and what it takes.
FUNCTIONS: Final = {
    "tamligub_run": (WORD, BYTES, SIZE, WORD, WORD, BYTES, SIZE, BYTES, SIZE, BYTES, SIZE, COUNT),
    "tamligub_open": (WORD, HANDLE),
    "tamligub_feed": (ctypes.c_uint64, HANDLE, BYTES, SIZE, BYTES, SIZE, COUNT),
    "tamligub_finish": (WORD, HANDLE, BYTES, SIZE, COUNT),
    "tamligub_look": (WORD, HANDLE, ctypes.c_uint8, ctypes.c_uint8, BYTES),
    "tamligub_state": (WORD, HANDLE, BYTES),
    "tamligub_colours": (WORD, HANDLE, BYTES),
    "tamligub_line": (WORD, HANDLE, BYTES, SIZE, BYTES, SIZE, COUNT, ctypes.POINTER(WORD)),
    "tamligub_kept": (WORD, HANDLE),
    "tamligub_undone": (WORD, HANDLE),
    "tamligub_write": (WORD, HANDLE, BYTES, SIZE, COUNT),
    "tamligub_snapshot": (WORD, HANDLE, BYTES, SIZE, COUNT),
    "tamligub_restore": (WORD, HANDLE, BYTES, SIZE),
    "tamligub_flash_start": (WORD, HANDLE, BYTES, SIZE, COUNT),
    "tamligub_flash_turn": (WORD, HANDLE, BYTES, SIZE, COUNT),
    "tamligub_close": (None, HANDLE),
}


def places() -> list[str]:
    """Where the library may be, the likeliest place first; the last is its name alone."""
    named = os.environ.get(VARIABLE)
    if named:
        return [os.path.abspath(named) if os.path.isfile(named) else named]
    beside = ("", "../../out", "../../../../../lib")
    return [*(os.path.normpath(os.path.join(HERE, place, NAME)) for place in beside), NAME]


def joined(library: ctypes.CDLL) -> ctypes.CDLL:
    """The library, with what each of its functions answers and takes."""
    for name, (answers, *takes) in FUNCTIONS.items():
        function = getattr(library, name)
        function.restype, function.argtypes = answers, takes
    return library


def at(path: str) -> ctypes.CDLL:
    """The library of a file."""
    return joined(ctypes.CDLL(path))


@functools.lru_cache(1)
def library() -> ctypes.CDLL:
    """The library of this process; `Missing` where there is none."""
    looked = places()
    for place in looked:
        if place == looked[-1] or os.path.exists(place):
            try:
                return at(place)
            except (OSError, AttributeError) as fault:
                told = f"looked for as {', '.join(looked)}; ./build of a checkout makes it, and {VARIABLE} can name it"
                raise Missing(f"the shared library {NAME} can't be loaded: {told} ({fault})") from None
    raise AssertionError("the last place is always tried")


def held(data: bytes | bytearray | memoryview, takes: str = "bytes, a bytearray or a memoryview") -> bytes:
    """What is handed in, as bytes; TypeError where it is no buffer, with what the call takes.

    >>> held(memoryview(b"A"))
    b'A'
    >>> held("A")
    Traceback (most recent call last):
    TypeError: it takes bytes, a bytearray or a memoryview, and not str
    """
    try:
        return data if isinstance(data, bytes) else bytes(memoryview(data))
    except TypeError:
        raise TypeError(f"it takes {takes}, and not {type(data).__name__}") from None


def held_text(text: str | bytes | bytearray | memoryview) -> bytes:
    """A script, a drawing or a line, as bytes. Half a surrogate pair, which UTF-8 has no bytes for, becomes bytes that no line takes.

    >>> held_text("text AB")
    b'text AB'
    """
    return text.encode("utf-8", "surrogatepass") if isinstance(text, str) else held(text, "a str, bytes, a bytearray or a memoryview")


def address(data: bytes) -> int:
    """Where bytes stand, as long as they are kept."""
    found = ctypes.cast(ctypes.c_char_p(data), ctypes.c_void_p).value
    assert found is not None
    return found


def given_of(page: bytes | None, script: bytes | None, number: int | None) -> int:
    """The number that says what is given."""
    if page is None:
        return NOTHING if number is None else NUMBER
    if script is not None:
        return PAGE_AND_SCRIPT
    return PAGE if number is None else PAGE_AND_NUMBER


def room_for(page: bytes | None) -> int:
    """How much room a text is first given."""
    return min(MOST_FIRST, LEAST_ROOM + ROOM_FOR_EACH * len(page or b""))


def mapped(room: int) -> mmap.mmap:
    """Room for a text. Only what is written of it takes memory."""
    try:
        return mmap.mmap(-1, room, flags=mmap.MAP_PRIVATE | mmap.MAP_ANONYMOUS)
    except OSError as fault:
        raise MemoryError("there is no memory for the text") from fault


def run(
    word: str, page: bytes | None = None, script: bytes | None = None, number: int | None = None, calls: ctypes.CDLL | None = None
) -> Answer:
    """A call of the program: a word and what is given after it. A text that is longer than its room is asked for again with more.

    >>> run("show", b"Guten Tag").text.decode()[:9]
    'Guten Tag'
    """
    called, room, put = (calls or library()).tamligub_run, room_for(page), ctypes.c_uint64()
    name, first, second = word.encode(), page or b"", script or b""
    given = given_of(page, script, number)
    while True:
        with mapped(room) as kept:
            out = (ctypes.c_char * room).from_buffer(kept)
            try:
                status = called(
                    address(name), len(name), given, number or 0, address(first), len(first), address(second), len(second),
                    ctypes.addressof(out), room, ctypes.byref(put),
                )
            finally:
                # The room can be given back only once nothing leads into it, after an interrupt too.
                del out
            if status != NO_ROOM or room == MOST_ROOM:
                return Answer(status, kept[: put.value])
        room = min(MOST_ROOM, 4 * room)
