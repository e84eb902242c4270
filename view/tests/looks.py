"""What a cell of a look has to show: colours at points of the cell. Written from the profile's texts, apart from the viewer."""
import re

PICTURE = ("3A4A5E", "62788F")
MIDDLES = ((0.5, 0.5), (0.2, 0.2), (0.8, 0.2), (0.2, 0.8), (0.8, 0.8))
# Points of the triangles: inside, and outside.
TRIANGLES = {
    "M45": ((0.2, 0.8), (0.8, 0.2)), "M55": ((0.8, 0.8), (0.2, 0.2)),
    "N75": ((0.2, 0.2), (0.8, 0.8)), "N65": ((0.8, 0.2), (0.2, 0.8)),
}

FULL = ("M5F", "N3F", "P7F")


def colours_of(paint):
    return PICTURE if paint == "---" else ("".join(digit * 2 for digit in paint),)


def halved(paint):
    return paint if paint == "---" else "".join("%X" % (int(digit, 16) // 2) for digit in paint)


def is_on(flash, phase):
    """Whether the sign is seen: six phases, plain in the first three, inverted in the others, the fast ones two each."""
    return {"F": phase < 3, "I": phase > 2, "1": phase in (0, 1), "2": phase in (2, 3), "3": phase in (4, 5)}.get(flash, True)


def pixels_of(shape):
    """Of a downloaded pattern: width, height, the number of each pixel's ink, and the inks."""
    form, words, *inks = shape[1:].split("/")
    width, height, planes = map(int, form.split("x"))
    bits = sum(int(words[16 * k : 16 * k + 16], 16) << (64 * k) for k in range(len(words) // 16))
    size = width * height
    numbers = [sum((bits >> (plane * size + n) & 1) << plane for plane in range(planes)) for n in range(size)]
    return width, height, numbers, re.findall("...", inks[0]) if inks else None


def dots_over(width, height, parts):
    """The middles of the sign's dots, twelve by ten in each cell, each with the number of the pixel below it; none that is between two."""
    across, down = 12 * parts[1], 10 * parts[0]
    for y in range(down):
        for x in range(across):
            if (2 * y + 1) * height % (2 * down):
                pixel = (2 * y + 1) * height // (2 * down) * width + (2 * x + 1) * width // (2 * across)
                yield (x + 0.5) / across, (y + 0.5) / down, pixel


class Want:
    """Points with the colours that are right there, and whether some pixel must differ from the background."""

    def __init__(self):
        self.points = []
        self.inked = False

    def at(self, points, paint):
        self.points += [(x, y, colours_of(paint)) for x, y in points]

    def within(self, parts, x, y, paint):
        """A point of the whole sign, where it lies in this cell."""
        high, wide, down, right = parts
        x, y = x * wide - right, y * high - down
        if 0 < x < 1 and 0 < y < 1:
            self.at([(x, y)], paint)


def block_centres():
    return [((column + 0.5) / 2, (row + 0.5) / 3) for row in range(3) for column in range(2)]


def want_of(look, phase, revealed):
    """What a cell with this look shows in a phase."""
    shape, part, fore, back, kinds = look.split(" ")
    parts = tuple(int(part[k]) for k in (0, 1, 3, 4))
    want = Want()
    seen = is_on(kinds[0], phase) and (kinds[1] == "-" or revealed)
    fore = halved(fore) if kinds[0] == "R" and phase > 2 else fore
    if not seen or shape == "-":
        want.at(MIDDLES, back)
    elif shape[0] == "%":
        width, height, numbers, inks = pixels_of(shape)
        for x, y, n in dots_over(width, height, parts):
            paint = inks[numbers[n]] if inks else fore if numbers[n] else back
            want.within(parts, x, y, paint)
    elif shape[0] == "M" and shape[1] in "2367":
        code = int(shape[1:3], 16)
        bits = code & 0x1F | (code & 0x40) >> 1
        for n, (x, y) in enumerate(block_centres()):
            want.within(parts, x, y, fore if bits >> n & 1 else back)
    elif shape in FULL:
        want.at(MIDDLES, fore)
    elif shape in TRIANGLES:
        (x, y), (u, v) = TRIANGLES[shape]
        want.within(parts, x, y, fore)
        want.within(parts, u, v, back)
    else:
        want.inked = parts == (1, 1, 0, 0) and fore != back and shape != "N5F"
    if kinds[3] == "b":
        # Of a dotted frame the seventh dot.
        want.within(parts, 0.55, 0.005, fore)
    parted = shape[0] == "M" and shape[1] in "2367"
    if seen and kinds[2] == "l" and not parted:
        want.within(parts, 0.5, 0.985, fore)
    return want
