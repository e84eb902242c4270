"""The picture of all signs: the sets below each other, and the primary set under each accent."""
from PIL import Image

import geometry

# Palette numbers: what is between cells, the background of these, and their dots.
PAPER, GROUND, INK = 0, 1, 2
COLOURS = (0x20, 0x28, 0x38, 0, 0, 0, 0xFF, 0xFF, 0xFF)
# Cells in a row, and the dots between them.
ACROSS, BETWEEN = 32, 2
# The pixels of a dot.
DOT = (2, 3)


def rows_of(sets):
    """The rows of the sheet: signs of a set, as many as fit. The downloaded set has no shapes of its own."""
    for name, codes in sets.items():
        signs = list(codes.values()) if name != "D" else []
        yield from (signs[at : at + ACROSS] for at in range(0, len(signs), ACROSS))


def cell(shape):
    """The dots of a sign as a picture."""
    dots = (line >> (geometry.WIDTH - 1 - x) & 1 for line in shape for x in range(geometry.WIDTH))
    return Image.frombytes("P", (geometry.WIDTH, geometry.HEIGHT), bytes(INK if dot else GROUND for dot in dots))


def picture(sets, scale=1):
    """The sheet, each dot of two by three pixels and so many times that."""
    rows = list(rows_of(sets))
    step, high = geometry.WIDTH + BETWEEN, geometry.HEIGHT + BETWEEN
    image = Image.new("P", (ACROSS * step + BETWEEN, len(rows) * high + BETWEEN), PAPER)
    image.putpalette(COLOURS)
    for line, row in enumerate(rows):
        for column, shape in enumerate(row):
            image.paste(cell(shape), (BETWEEN + column * step, BETWEEN + line * high))
    return image.resize((image.width * DOT[0] * scale, image.height * DOT[1] * scale), Image.NEAREST)
