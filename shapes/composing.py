"""All shapes by set and code: those that are drawn, those of geometry, signs with accents by rule, and of a code that has no sign a
frame with its two digits."""
import geometry
import reading

CODES = range(0x20, 0x80)
BLOCKS = (*range(0x20, 0x40), *range(0x60, 0x80))
# What is above small letters; the last line of it parts an accent from them.
ROOM = 3
# The line at which what is higher begins under an accent.
UNDER = 2
# The lines of each hexadecimal digit, of three dots each.
DIGITS = {
    "0": "75557", "1": "26227", "2": "71747", "3": "71717", "4": "55711", "5": "74717", "6": "74757", "7": "71222",
    "8": "75757", "9": "75717", "A": "25755", "B": "65656", "C": "34443", "D": "65556", "E": "74647", "F": "74644",
}


def with_code(code):
    """The shape of a code that has no sign: its two digits in a frame."""
    high, low = (DIGITS[digit] for digit in f"{code:02X}")
    edge = 1 << 11 | 1
    inside = [edge] * 8
    for line in range(5):
        inside[line + 1] |= int(high[line]) << 7 | int(low[line]) << 2
    return (geometry.FULL, *inside, geometry.FULL)


def top_of(shape):
    """The first line with dots; where there are none, that under all lines."""
    return next((line for line, dots in enumerate(shape) if dots), geometry.HEIGHT)


def lost_line(shape):
    """A line that a shape can lose: one that is like the one before it, as near the upper end as there is; else its second."""
    top = top_of(shape)
    alike = [line for line in range(top + 1, 8) if shape[line] == shape[line - 1] and shape[line]]
    return alike[0] if alike else top + 1


def lowered(shape, top):
    """A shape that begins at a line or below it: it stands where it stood, and loses lines."""
    while top_of(shape) < top:
        lost = lost_line(shape)
        shape = (0, *shape[:lost], *shape[lost + 1 :])
    return shape


def is_above(accent):
    return top_of(accent) < ROOM


def under(shape, accent):
    """What a sign is under an accent, and where the accent then is: over small letters as drawn, over higher signs at the first line."""
    if not is_above(accent) or top_of(shape) >= ROOM:
        return shape, accent
    raised = accent[top_of(accent) :] + (0,) * top_of(accent)
    return lowered(shape, UNDER), raised


def accented(shape, accent):
    """A sign with an accent, by rule."""
    return geometry.united(under(shape, accent))


class Shapes:
    """The shapes of signs.txt by set and code, as an int for each line; a code with an accent has `+` and the accent's code in its set."""

    def __init__(self, sections):
        self.sections = sections
        self.sets = {
            "P": self.drawn("primary"), "S": self.drawn("supplementary"), "M": self.mosaics_l(), "N": self.mosaics_g3(),
            "D": {code: with_code(code) for code in CODES},
        }
        for name in sections["accents"]:
            self.sets[f"P+{name}"] = self.under_accent(name)
        self.lined = {name: self.lined_mosaics(name) for name in "MN"}

    def drawn(self, name):
        """A set of drawings."""
        drawings = {int(code, 16): shape for code, shape in self.sections[name].items()}
        return {code: drawings.get(code) or with_code(code) for code in CODES}

    def smoothed(self):
        """The smoothed mosaics by their codes in G3 from 2/0 on."""
        return {int(code, 16): geometry.drawn(words) for code, words in self.sections["smoothed"].items()}

    def mosaics_l(self):
        """Blocks by the bits of their code, and the smoothed mosaics two columns higher."""
        blocks = {code: geometry.blocks(code & 0x1F | (code & 0x40) >> 1) for code in BLOCKS}
        return blocks | {code + 0x20: shape for code, shape in self.smoothed().items()}

    def mosaics_g3(self):
        smoothed = self.smoothed()
        rest = {code + 0x40: geometry.rest_of(shape) for code, shape in smoothed.items() if code & 0x0F < 0x0E}
        lines = {int(code, 16): geometry.drawn(words) for code, words in self.sections["lines"].items()}
        arrows = {int(code, 16): shape for code, shape in self.sections["arrows"].items()}
        known = smoothed | rest | lines | arrows
        return {code: known.get(code) or with_code(code) for code in CODES}

    def lined_mosaics(self, name):
        """Mosaics that are lined: blocks are parted, any other has a line along its lower end."""
        whole = {geometry.blocks(bits): geometry.parted(bits) for bits in range(64)}
        blocks = {"M": BLOCKS, "N": ()}[name]
        return {
            code: whole[shape] if code in blocks or shape == geometry.blocks(63) else (*shape[:-1], geometry.FULL)
            for code, shape in self.sets[name].items()
        }

    def under_accent(self, name):
        """The primary set with an accent. 7/15 has none."""
        accent, found = self.sections["accents"][name], {}
        for code, shape in self.sets["P"].items():
            below = self.sections["under"].get(f"{code:02X}", shape) if is_above(accent) else shape
            found[code] = self.sections["exceptions"].get(f"{code:02X}+{name}") or (accented(below, accent) if code < 0x7F else shape)
        return found


def shapes():
    return Shapes(reading.read())
