"""Bytes of the profile by their names, for the descriptions of the pages.

Codes are those of docs/PROFILE.md. Nothing here is run by the program or by the viewer.
"""

BLACK, RED, GREEN, YELLOW, BLUE, MAGENTA, CYAN, WHITE = range(8)

FULL_DEFAULTS_SERIAL = b"\x1f\x2f\x41"
FULL_DEFAULTS_PARALLEL = b"\x1f\x2f\x42"
SECOND_REVISION = b"\x1f\x2f\x45"
RETURN, DOWN, ERASE = b"\x0d", b"\x0a", b"\x18"

FLASH, STEADY = b"\x88", b"\x89"
UNBOXED, BOXED = b"\x8a", b"\x8b"
SINGLE, HIGH, WIDE, BOTH = b"\x8c", b"\x8d", b"\x8e", b"\x8f"
CONCEALED = b"\x98"
UNLINED, LINED = b"\x99", b"\x9a"
UPRIGHT, INVERTED = b"\x9c", b"\x9d"
HOLD, RELEASE = b"\x9e", b"\x9f"

PROTECT, UNPROTECT = b"\x9b\x31\x50", b"\x9b\x31\x51"
IMPLICIT, EXPLICIT = b"\x9b\x32\x60", b"\x9b\x33\x60"

TWENTY_ROWS = b"\x1f\x2d\x42\x70"
SERVICE_END = b"\x1f\x2f\x4f"

# Signs that are not of the primary set: an accent and a letter, or a sign of the supplementary set, both as right bytes.
OTHER_SIGNS = {
    "ä": b"\xc8a", "ö": b"\xc8o", "ü": b"\xc8u", "Ä": b"\xc8A", "Ö": b"\xc8O", "Ü": b"\xc8U", "ß": b"\xfb",
    "é": b"\xc2e", "à": b"\xc1a", "ñ": b"\xc4n", "ç": b"\xcbc", "Š": b"\xcfS",
    "·": b"\xb7", "°": b"\xb0", "½": b"\xbd", "×": b"\xb4", "«": b"\xab", "»": b"\xbb", "→": b"\xae", "©": b"\xd3", "♪": b"\xd5",
}

# A block mosaic by the blocks that it has: upper left, upper right, middle left, middle right, lower left, lower right.
BLOCKS = {
    ".": (),
    "#": (0, 1, 2, 3, 4, 5),
    "/": (1, 3, 4, 5),
    "\\": (0, 2, 4, 5),
    "L": (0, 1, 3, 5),
    "J": (0, 1, 2, 4),
    "_": (4, 5),
    "^": (0, 1),
    "=": (0, 1, 4, 5),
    "[": (0, 2, 4),
    "]": (1, 3, 5),
    "x": (0, 3, 4),
}
BLOCK_WORTH = (0x01, 0x02, 0x04, 0x08, 0x10, 0x40)

# The triangles of the smoothed mosaics: the first two are of the set M, the others of N.
LOWER_LEFT, LOWER_RIGHT = b"\x45", b"\x55"
UPPER_LEFT, UPPER_RIGHT = b"\x75", b"\x65"

# The lines of the set N, by the signs of Unicode that look like them.
LINES = {
    "│": 0x50, "─": 0x51, "┌": 0x52, "┐": 0x53, "└": 0x54, "┘": 0x55, "├": 0x56, "┤": 0x57, "┬": 0x58, "┴": 0x59, "┼": 0x5A,
}


def at(row, column):
    """The position; it unsets the pen."""
    return bytes([0x1F, 0x40 + row, 0x40 + column])


def fore(colour):
    return bytes([0x80 + colour])


def back(colour):
    return bytes([0x90 + colour])


def mosaic_colour(colour):
    """The marker of the serial set that begins a mosaic run."""
    return bytes([0x90 + colour])


def table(number):
    return bytes([0x9B, 0x30 + number, 0x40])


def flash_mode(number):
    """0 inverted, 1 reduced, 2 to 4 fast, 5 the next fast one."""
    return bytes([0x9B, 0x30 + number, 0x41])


def of_row(code):
    """The attribute of a code of the parallel set, for the row of the position."""
    return b"\x1b\x23\x21" + bytes([code[0] - 0x40])


def of_screen(code):
    return b"\x1b\x23\x20" + bytes([code[0] - 0x40])


def words(text):
    return b"".join(OTHER_SIGNS.get(sign) or sign.encode("ascii") for sign in text)


def repeat(times):
    """So many further copies of the sign before."""
    return bytes([0x12, 0x40 + times])


def block_codes(picture):
    """The codes of block mosaics, one for each letter of the picture."""
    return bytes(0x20 + sum(BLOCK_WORTH[block] for block in BLOCKS[letter]) for letter in picture)


def blocks(picture):
    """Block mosaics under any C1 set: left bytes take the set M for them."""
    return b"\x0e" + block_codes(picture) + b"\x0f"


def smooth_low(codes):
    """Smoothed mosaics of the set M."""
    return b"\x0e" + codes + b"\x0f"


def smooth_high(codes):
    """Smoothed mosaics of the set N."""
    return b"\x1b\x6f" + codes + b"\x0f"


def lines(picture):
    """Lines of the set N; every other sign stands for itself."""
    return b"".join(bytes([0x1D, LINES[sign]]) if sign in LINES else words(sign) for sign in picture)


def area(first, last):
    return b"\x9b" + b"%02d\x3b%02d\x55" % (first, last)


def service_break(row):
    return bytes([0x1F, 0x2F, 0x40, 0x40 + row])


def entries(first, colours):
    """Colour entries from a number on, each three digits of red, green and blue."""
    unit = b"\x1f\x26\x20\x20\x1f\x26" + b"%02d" % first
    for colour in colours:
        red, green, blue = (int(digit, 16) for digit in colour)
        for high, low in ((3, 2), (1, 0)):
            bits = [parts >> shift & 1 for shift in (high, low) for parts in (red, green, blue)]
            unit += bytes([0x40 + int("".join(map(str, bits)), 2)])
    return unit + b"\x0f"


def dclut(values):
    """The four values of the DCLUT."""
    return b"\x1f\x26\x20\x22\x1f\x26\x30\x30" + bytes(0x40 + value for value in values) + b"\x0f"


SIZES = {(12, 12): 0x36, (12, 10): 0x37, (6, 12): 0x3A, (6, 10): 0x3B, (6, 5): 0x3C, (6, 6): 0x3F}
PLANES = {1: 0x41, 2: 0x42, 4: 0x44}


def plane_lines(drawing, plane):
    """The lines of one plane as bytes of six pixels."""
    packed = b""
    for line in drawing:
        bits = "".join(str(int(digit, 16) >> plane & 1) for digit in line)
        packed += bytes(0x40 + int(bits[start : start + 6], 2) for start in range(0, len(bits), 6))
    return packed


def download(code, planes, drawing):
    """A pattern for a code of the downloaded set, drawn line by line, each pixel the number of its ink."""
    size = SIZES[len(drawing[0]), len(drawing)]
    unit = bytes([0x1F, 0x23, 0x20, 0x20, 0x40, size, PLANES[planes], 0x1F, 0x23, code])
    for plane in range(planes):
        unit += bytes([0x30 + plane]) + plane_lines(drawing, plane)
    return unit + b"\x0f"


def downloaded(codes):
    """Signs of the downloaded set: it is designated to G0, and the primary set after it."""
    return b"\x1b\x28\x20\x40" + codes + b"\x1b\x28\x40"
