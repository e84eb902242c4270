"""The dots of a whole screen: 480 by 240, each the number of a colour."""
from types import ModuleType
from typing import Any

from btx import looks, painting

WIDTH, HEIGHT = looks.COLUMNS * painting.WIDTH, looks.ROWS * painting.HEIGHT
# A dot is two pixels wide and three high, so that a screen is 4 to 3.
DOT = (2, 3)
MOST_COLOURS = 256
# So many looks are kept with their dots: a line may bring any number of patterns.
MOST_KNOWN = 2**14


def distance(one: str, other: str) -> int:
    """How far two colours of six digits are apart."""
    return sum((int(one[at : at + 2], 16) - int(other[at : at + 2], 16)) ** 2 for at in (0, 2, 4))


class Palette:
    """Colours by their numbers. A screen has far fewer than there is room for; a long film may have more, and then takes the nearest."""

    def __init__(self) -> None:
        self.numbers: dict[str, int] = {}

    def number(self, colour: str) -> int:
        if colour not in self.numbers:
            full = len(self.numbers) == MOST_COLOURS
            known = self.numbers[min(self.numbers, key=lambda one: distance(one, colour))] if full else len(self.numbers)
            if full:
                return known
            self.numbers[colour] = known
        return self.numbers[colour]

    def colours(self) -> bytes:
        """The parts of all colours, from 0 to 255."""
        return bytes.fromhex("".join(self.numbers))


class Canvas:
    """Paints looks as a page has them. Without a phase each flashing look is painted as it is seen."""

    def __init__(self, revealed: bool, phase: int | None = None) -> None:
        self.revealed, self.phase = revealed, phase
        self.palette = Palette()
        self.known: dict[tuple[looks.Look, int], list[bytes]] = {}

    def numbers(self, look: looks.Look, phase: int) -> bytes:
        """The number of each dot's colour."""
        dots, paints = painting.cell_of(look, phase, self.revealed)
        if looks.VIDEO in paints:
            return bytes(self.palette.number(painting.colour_of(paints[number], dot)) for dot, number in enumerate(dots))
        used = [self.palette.number(painting.colour_of(paint, 0)) if number in dots else 0 for number, paint in enumerate(paints)]
        return dots.translate(bytes(used) + bytes(256 - len(used)))

    def lines(self, look: looks.Look) -> list[bytes]:
        """The lines of a cell."""
        phase = painting.phase_of(look) if self.phase is None else self.phase
        if len(self.known) == MOST_KNOWN:
            self.known.clear()
        if (look, phase) not in self.known:
            numbers = self.numbers(look, phase)
            self.known[look, phase] = [numbers[at : at + painting.WIDTH] for at in range(0, len(numbers), painting.WIDTH)]
        return self.known[look, phase]

    def screen(self, cells: looks.Cells) -> bytes:
        """The dots of a screen, whose looks are given by their places."""
        columns = range(1, looks.COLUMNS + 1)
        dots: list[bytes] = []
        for row in range(1, looks.ROWS + 1):
            dots += map(b"".join, zip(*(self.lines(cells.get((row, column), looks.BLANK)) for column in columns)))
        return b"".join(dots)

    def small(self, image: ModuleType, dots: bytes) -> Any:
        """Dots as a picture of Pillow, each a pixel."""
        picture = image.frombytes("P", (WIDTH, HEIGHT), dots)
        picture.putpalette(self.palette.colours())
        return picture

    def picture(self, image: ModuleType, dots: bytes, scale: int) -> Any:
        """The same, each dot of two by three pixels and so many times that."""
        return self.small(image, dots).resize((WIDTH * DOT[0] * scale, HEIGHT * DOT[1] * scale), image.NEAREST)
