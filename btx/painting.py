"""The painter's rule: which colour each of a cell's twelve by ten dots has. `view/dots.js` has the same rule; shapes/README.md says it."""
import functools
import itertools
from collections.abc import Sequence
from typing import NamedTuple

from btx import looks, shapes

WIDTH, HEIGHT = shapes.WIDTH, shapes.HEIGHT
# In which phases of the six a sign is seen that flashes; of reduced intensity it is halved in the others.
SEEN = {"S": range(6), "F": range(3), "I": range(3, 6), "R": range(6), "1": range(2), "2": range(2, 4), "3": range(4, 6)}
FIRST_HALF = range(3)
# The numbers of inks: the background, the foreground, and those of a pattern of several planes.
BACK, FORE, OF_PATTERN = 0, 1, 2
# Lines of dots, each the number of an ink; and those of a cell with the paints of the inks.
Dots = Sequence[Sequence[int]]
Cell = tuple[bytes, tuple[str, ...]]


def fore_of(look: looks.Look, phase: int) -> str:
    """The foreground in a phase: under reduced intensity each part is halved in three of the six."""
    if look.flash != "R" or phase in FIRST_HALF or look.fore == looks.VIDEO:
        return look.fore
    return "".join(f"{int(digit, 16) >> 1:X}" for digit in look.fore)


def is_seen(look: looks.Look, phase: int, revealed: bool) -> bool:
    """Whether a cell shows more than its background."""
    return (revealed or not look.concealed) and phase in SEEN[look.flash]


def phase_of(look: looks.Look) -> int:
    """The phase in which a still shows a look: the first in which it is seen."""
    return SEEN[look.flash][0]


class Part(NamedTuple):
    """Which part of a sign a cell shows."""

    high: int
    wide: int
    down: int
    right: int

    def columns(self) -> list[int]:
        """For each column of the cell the one of the whole sign: a wide sign has each twice."""
        return [(self.right * WIDTH + x) // self.wide for x in range(WIDTH)]

    def rows(self) -> list[int]:
        return [(self.down * HEIGHT + y) // self.high for y in range(HEIGHT)]


def nearest(first: int, count: int, dots: int, parts: int) -> list[int]:
    """Which of the parts of a length each dot shows: that in which its middle is, between two the one that is nearer to an end."""
    middles = [divmod((2 * (first + at) + 1) * parts, 2 * dots) for at in range(count)]
    return [part - (between == 0 and 2 * part <= parts) for part, between in middles]


def pattern_dots(shape: str, part: Part) -> Dots:
    """The inks of a pattern: its pixels repeated, or left out where it has more than the cell has dots."""
    pattern = looks.pattern_of(shape)
    first = OF_PATTERN if pattern.inks else 0
    columns = nearest(part.right * WIDTH, WIDTH, part.wide * WIDTH, pattern.width)
    lines = nearest(part.down * HEIGHT, HEIGHT, part.high * HEIGHT, pattern.height)
    return [[first + pattern.numbers[line * pattern.width + column] for column in columns] for line in lines]


def sign_dots(shape: str, part: Part, lined: bool) -> Dots:
    lines, columns = shapes.lines_of(shape, lined), part.columns()
    return [[int(lines[row][column]) for column in columns] for row in part.rows()]


def with_line(dots: Dots, part: Part) -> Dots:
    """The same with a line along the lower end of the whole sign."""
    return [[FORE] * WIDTH if row == HEIGHT - 1 else line for row, line in zip(part.rows(), dots)]


def framed(dots: Dots, part: Part) -> Dots:
    """The same with a dotted frame at the edge of the whole sign."""
    columns, done = part.columns(), []
    for row, line in zip(part.rows(), dots):
        edge = [(row in (0, HEIGHT - 1) or column in (0, WIDTH - 1)) and (column + row) % 2 == 0 for column in columns]
        done.append([FORE if there else dot for there, dot in zip(edge, line)])
    return done


def shape_dots(shape: str, part: Part, lined: bool) -> Dots:
    if shape[0] != "%":
        return sign_dots(shape, part, lined)
    dots = pattern_dots(shape, part)
    return with_line(dots, part) if lined else dots


@functools.lru_cache(2**14)
def dots_of(shape: str, part: Part, lined: bool, boxed: bool) -> bytes:
    """The number of each dot's ink, line after line; of a cell in which only the background is seen the shape is None."""
    dots = shape_dots(shape, part, lined) if shape else [[BACK] * WIDTH] * HEIGHT
    return bytes(itertools.chain.from_iterable(framed(dots, part) if boxed else dots))


@functools.lru_cache(2**12)
def cell_of(look: looks.Look, phase: int, revealed: bool) -> Cell:
    """What a cell shows: the number of each dot's ink, and the paints of the inks."""
    seen = is_seen(look, phase, revealed)
    part = Part(look.high, look.wide, look.down, look.right)
    dots = dots_of(look.shape if seen else None, part, look.lined and seen, look.boxed)
    inks = looks.inks_of(look.shape) if look.shape[0] == "%" else ()
    return dots, (look.back, fore_of(look, phase), *inks)


def shade(dot: int) -> bool:
    """Which of the two shades of the picture behind the screen a dot of a cell has: they stand in quarters of it."""
    return (dot % WIDTH < WIDTH // 2) != (dot // WIDTH < HEIGHT // 2)


def colour_of(paint: str, dot: int) -> str:
    """The colour of a dot in six digits."""
    if paint == looks.VIDEO:
        return shapes.facts()["picture"][shade(dot)]
    return "".join(digit * 2 for digit in paint)


def colours_of(look: looks.Look, phase: int, revealed: bool) -> list[str]:
    """The colour of each dot of a cell."""
    dots, paints = cell_of(look, phase, revealed)
    return [colour_of(paints[number], dot) for dot, number in enumerate(dots)]
