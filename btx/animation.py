"""A GIF of frames, each of which has only what differs from the one before: Pillow packs the dots of each, and what was packed is all that is
kept, so that a film takes no more memory than its file."""
import io
import itertools
import struct
from collections.abc import Iterator
from types import ModuleType
from typing import IO, Any, NamedTuple

from btx import canvas

# How long a frame can be seen, in hundredths of a second.
LONGEST = 2**16 - 1
COLOUR_TABLE, EXTENSION, END = 0x80, 0x21, b"\x3b"
# A table of 256 colours for all frames, of eight bits a part; and how the time and the place of a frame begin.
ALL_COLOURS, CONTROL, PLACE = COLOUR_TABLE | 0x77, 0xF9, 0x2C
# A frame stays below the next; and the film begins anew for ever.
STAYS = 1 << 2
AGAIN = b"\x21\xff\x0bNETSCAPE2.0\x03\x01\x00\x00\x00"
SIZE = canvas.WIDTH, canvas.HEIGHT
# A part of a screen: the first column and row, and those after the last.
Box = tuple[int, int, int, int]
WHOLE: Box = (0, 0, *SIZE)


class Frame(NamedTuple):
    """Dots, and for how many hundredths of a second they are seen."""

    dots: bytes
    time: int


def after_blocks(data: bytes, at: int) -> int:
    """The place after a row of blocks, each with its length before it, of which the last is empty."""
    while data[at]:
        at += data[at] + 1
    return at + 1


def packed(picture: Any) -> bytes:
    """The dots of a picture of Pillow, as a GIF of it alone has them: after its head, extensions and place, and before its end."""
    file = io.BytesIO()
    picture.save(file, "GIF", optimize=False, interlace=0)
    data = file.getvalue()
    flags = data[10]
    at = 13 + (3 << (flags & 7) + 1 if flags & COLOUR_TABLE else 0)
    while data[at] == EXTENSION:
        at = after_blocks(data, at + 2)
    at += 10 + (3 << (data[at + 9] & 7) + 1 if data[at + 9] & COLOUR_TABLE else 0)
    return data[at : after_blocks(data, at + 1)]


def times_of(time: int) -> Iterator[int]:
    """A time as frames can have it."""
    return itertools.chain(itertools.repeat(LONGEST, (time - 1) // LONGEST), [(time - 1) % LONGEST + 1])


class Animation:
    """A film that frames are added to."""

    def __init__(self, image: ModuleType, board: canvas.Canvas, scale: int) -> None:
        self.image, self.board = image, board
        self.across, self.down = (part * scale for part in canvas.DOT)
        self.last: bytes | None = None
        self.parts: list[bytes] = []
        self.frames = 0

    def differing(self, dots: bytes) -> Box:
        """Where dots differ from those of the frame before; one dot at least."""
        if self.last is None:
            return WHOLE
        differ = int.from_bytes(dots, "big") ^ int.from_bytes(self.last, "big")
        box: Box | None = self.image.frombytes("L", SIZE, differ.to_bytes(len(dots), "big")).getbbox()
        return box or (0, 0, 1, 1)

    def add(self, frame: Frame) -> None:
        """Adds a frame; one that is seen longer than a frame can be goes on as another."""
        self.frames += 1
        for time in times_of(frame.time):
            self.parts.append(self.part(frame.dots, self.differing(frame.dots), time))
            self.last = frame.dots

    def part(self, dots: bytes, box: Box, time: int) -> bytes:
        """A part of some dots as a frame: its time, its place and its dots."""
        left, top, right, bottom = box
        size = (right - left) * self.across, (bottom - top) * self.down
        picture = self.board.small(self.image, dots).crop(box).resize(size, self.image.NEAREST)
        control = struct.pack("<BBBBHBB", EXTENSION, CONTROL, 4, STAYS, time, 0, 0)
        return control + struct.pack("<BHHHHB", PLACE, left * self.across, top * self.down, *size, 0) + packed(picture)

    def write(self, file: IO[bytes]) -> None:
        """Writes the film, with all colours that any frame has; one of a single frame is a picture that stays."""
        width, height = canvas.WIDTH * self.across, canvas.HEIGHT * self.down
        colours = self.board.palette.colours().ljust(3 * canvas.MOST_COLOURS, b"\0")
        file.write(struct.pack("<6sHHBBB", b"GIF89a", width, height, ALL_COLOURS, 0, 0) + colours)
        file.write(AGAIN if self.frames > 1 else b"")
        file.writelines(self.parts if self.frames > 1 else self.parts[:1])
        file.write(END)
