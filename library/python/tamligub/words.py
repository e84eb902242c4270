"""The words of the program, as functions over the bytes of a page. Each reads the page as a whole; pages have at most 2^24 bytes, scripts
and drawings 2^20, and `TooLong` is raised by longer ones. MemoryError comes where there is no memory. A call needs up to 650 KB of the stack
of its thread."""
from __future__ import annotations

from dataclasses import dataclass
from operator import index

from . import binding
from .faults import BadScript, NotSeven, TooLong
from .looks import Refusal
from .records import Notices

MOST_TURNS = 600
MOST_NUMBER = 2**32 - 1


@dataclass(frozen=True, slots=True)
class Check:
    """How many items a page has, and those that are refused."""

    items: int
    refused: tuple[Refusal, ...]


def text_of(word: str, page: bytes | None = None, script: bytes | None = None, number: int | None = None) -> bytes:
    """What the program writes; what keeps it from writing all of it is raised."""
    status, text = binding.run(word, page, script, number)
    if status in (binding.DONE, binding.REFUSALS):
        return text
    if status == binding.NO_MEMORY or status == binding.NO_ROOM:
        raise MemoryError("there is no memory for the text")
    if status == binding.BAD_SCRIPT:
        # "script line 3: 3 BadNumber"
        _, _, line, reason, name = text.decode().split()
        raise BadScript(int(line.rstrip(":")), int(reason), name)
    if status == binding.NOT_SEVEN:
        raise NotSeven("the page isn't in seven bits")
    if status == binding.TOO_LONG:
        other = "" if script is None else f", or the {'drawing' if word == 'plot' else 'script'} more than 2^20"
        raise TooLong(f"the page has more than 2^24 bytes{other}")
    raise ValueError(f"{word} doesn't take what it was given")


def check(page: bytes | bytearray | memoryview) -> Check:
    """Which items of a page are refused, and how many items there are. No screen is made.

    >>> check(b"A\\x9b\\x9b")
    Check(items=3, refused=(Refusal(at=1, length=1, reason=6), Refusal(at=2, length=1, reason=7)))
    """
    *lines, last = text_of("check", binding.held(page)).decode().splitlines()
    fields = (line.split(" ") for line in lines)
    return Check(int(last.split(" ")[1]), tuple(Refusal(int(at), int(length), int(reason)) for _, at, length, reason, _ in fields))


def changes(page: bytes | bytearray | memoryview) -> Notices:
    """For each item of a page the places that it changes, or its refusal, to its end.

    >>> [str(one) for one in changes(b"AB")]
    ['0 1 1 P41 11.00 FFF 000 S---', '1 1 2 P42 11.00 FFF 000 S---']
    """
    from .decoder import Decoder

    held = binding.held(page)
    if len(held) > 2**24:
        raise TooLong("the page has more than 2^24 bytes")
    with Decoder() as decoder:
        return Notices(decoder.feed(held).buffer + decoder.finish().buffer)


def show(page: bytes | bytearray | memoryview) -> str:
    """The screen at the end of a page as text: a line of 40 signs for each of its 20 or 24 rows.

    >>> show(b"Guten Tag").splitlines()[0].rstrip()
    'Guten Tag'
    """
    return text_of("show", binding.held(page)).decode("utf-8")


def write(page: bytes | bytearray | memoryview) -> bytes:
    """The page at its end as bytes, which bring it back: nothing in them is refused, and written again they are the same."""
    return text_of("write", binding.held(page))


def edit(page: bytes | bytearray | memoryview, script: str | bytes | bytearray | memoryview) -> bytes:
    """The page after the edits of a script, as bytes like those of `write`. `BadScript` names a line that can't be read.

    >>> show(edit(b"", "at 1 3\\ntext Hallo\\n")).splitlines()[0].rstrip()
    '  Hallo'
    >>> edit(b"", b"at 1 2\\nat 300 1\\n")
    Traceback (most recent call last):
    tamligub.faults.BadScript: line 2: BadNumber
    """
    return text_of("edit", binding.held(page), binding.held_text(script))


def plot(page: bytes | bytearray | memoryview, drawing: str | bytes | bytearray | memoryview) -> bytes:
    """The page with a drawing on its field of 80 by 72 points, as bytes like those of `write`. `BadScript` names a line that can't be read.

    >>> show(plot(b"", "plot 0 0\\n"))[0] == " "
    False
    """
    return text_of("plot", binding.held(page), binding.held_text(drawing))


def seven(page: bytes | bytearray | memoryview) -> bytes:
    """The bytes of a page in seven bits, at most three for each.

    >>> seven(b"A\\xe1")
    b'A\\x0ea\\x0f'
    """
    return text_of("seven", binding.held(page))


def eight(page: bytes | bytearray | memoryview) -> bytes:
    """Bytes in seven bits back in eight. `NotSeven` where they aren't in seven."""
    return text_of("eight", binding.held(page))


def generated(number: int) -> bytes:
    """The generated page of a number, 0 to 4294967295: for measures and tests. ValueError where it is another, TypeError where it is no
    whole number.

    >>> len(generated(0)) > 20000
    True
    """
    if not 0 <= index(number) <= MOST_NUMBER:
        raise ValueError(f"{number} is no number from 0 to {MOST_NUMBER}")
    return text_of("gen", number=number)
