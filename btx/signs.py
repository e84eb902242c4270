"""The sign in Unicode that stands for a look in a terminal: letters as `show` has them, mosaics and patterns by signs for which a cell is
parted in six or in four blocks, or by signs of ASCII."""
import collections
import unicodedata
from collections.abc import Sequence
from typing import NamedTuple

from btx import letters, looks, painting

NO_SIGN, SOME_MOSAIC, SOME_PATTERN, FULL = "\ufffd", "\u2592", "\u25a1", "\u2588"
# What stands for mosaics and patterns: signs of six blocks, which were made for old computers; signs of four; or those of ASCII.
SEXTANTS, BLOCKS, ASCII = "sextants", "blocks", "ascii"
QUADRANTS = " ▘▝▀▖▌▞▛▗▚▐▜▄▙▟█"
# The least and the most of a cell that is seen, with three steps between.
SHADES = " .:oO#"
# The signs of the supplementary set that have no sign of ASCII in them.
NEAREST = dict(zip(
    "¡¢£¥§¤‘“«←↑→↓°±²³×µ¶·÷’”»¼½¾¿―¹®©™♪ΩÆĐªĦĲĿŁØŒºÞŦŊŉĸæđðħıĳŀłøœßþŧŋ■",
    "!cLYS*'\"<<^>vo+23xuP./'\">113?-1RCTnOADaHILLOOoPTNnkaddhiilloosptn#", strict=True,
))
LINES_OF_ASCII = "++++<>v^/\\\\/+.Oo|-+++++++++><^v"


def row_of(first: int, *last: str) -> list[str]:
    """Six signs: five that follow each other, and one more."""
    return [chr(first + index) for index in range(6 - len(last))] + list(last)


# The sixteen codes of a column of smoothed mosaics: slopes, quarters, a bar, a checker board or a full block.
LOW = (
    [*row_of(0x1FB3C, "\u25e3"), *row_of(0x1FB41), "\U0001fb68", "\U0001fb69", "\U0001fb70", "\U0001fb95"]
    + [*row_of(0x1FB47, "\u25e2"), *row_of(0x1FB4C), "\U0001fb6a", "\U0001fb6b", "\U0001fb75", FULL]
)
HIGH = (
    [*row_of(0x1FB52, "\u25e5"), *row_of(0x1FB57), "\U0001fb6c", "\U0001fb6d", SOME_MOSAIC, SOME_MOSAIC]
    + [*row_of(0x1FB5D, "\u25e4"), *row_of(0x1FB62), "\U0001fb6e", "\U0001fb6f", SOME_MOSAIC, SOME_MOSAIC]
)
LINES: list[str] = [
    *"┷┯┝┥", *map(chr, (0x1FBA4, 0x1FBA5, 0x1FBA6, 0x1FBA7, 0x1FBA0, 0x1FBA1, 0x1FBA2, 0x1FBA3)), *"┿•●○",
    *"│─┌┐└┘├┤┬┴┼→←↑↓", SOME_MOSAIC,
]


def sextant(blocks: int) -> str:
    """The sign with the blocks of a number's six bits: upper left, upper right, middle left, and so on."""
    halves = {0: " ", 0b010101: "\u258c", 0b101010: "\u2590", 0b111111: FULL}
    return halves.get(blocks) or chr(0x1FB00 + blocks - 1 - int(blocks > 0b010101) - int(blocks > 0b101010))


def mosaic(letter: str, code: int) -> str:
    if letter == "M" and not 0x40 <= code < 0x60:
        return sextant(code & 0x1F | (code & 0x40) >> 1)
    smooth = code - 0x20 if letter == "M" else code
    if smooth < 0x40:
        return LOW[smooth - 0x20]
    return LINES[smooth - 0x40] if smooth < 0x60 else HIGH[smooth - 0x60]


def sign_of(shape: str) -> str:
    """The sign of a shape that is no pattern."""
    if shape == "-":
        return " "
    letter, code = shape[0], int(shape[1:3], 16)
    if letter in "MN":
        return mosaic(letter, code)
    if letter == "S":
        return letters.SUPPLEMENTARY.get(code, NO_SIGN)
    if letter == "D":
        return SOME_PATTERN
    mark = letters.MARKS.get(int(shape[4:], 16), "") if "+" in shape else ""
    return letters.PRIMARY.get(code) or letters.composed(chr(code) + mark)


def paints_of(look: looks.Look, pattern: looks.Pattern) -> list[str]:
    """The paint of each pixel of a pattern."""
    inks = pattern.inks or (look.back, look.fore)
    return [inks[number] for number in pattern.numbers]


def share(paints: Sequence[str], fore: str, back: str) -> float:
    """Which part of the paints that are one of two is the first."""
    count = paints.count(fore)
    return count / ((count + paints.count(back)) or 1)


class Blocks(NamedTuple):
    """Blocks of a sign: a bit for each, the two paints, and the share of the first."""

    bits: int
    fore: str
    back: str
    share: float


# A sign with its foreground and its background.
Shown = tuple[str, str, str]


def blocks_of(look: looks.Look, paints: Sequence[str], width: int, down: int) -> Blocks:
    """Paints in lines of a width as two blocks across and some down: a bit for each, the two paints that there are most of, and the share
    of the first. A block is seen where it has at least the share of the foreground that the whole has, so that thin lines are seen too."""
    often = [paint for paint, _ in collections.Counter(paints).most_common(2)]
    back = look.back if look.back in often or len(often) == 1 else often[0]
    fore = next((paint for paint in often if paint != back), look.fore)
    half, height, bits = width // 2, len(paints) // width, 0
    for block in range(2 * down):
        lines = range(block // 2 * height // down, (block // 2 + 1) * height // down)
        columns = range(block % 2 * half, block % 2 * half + half)
        here = [paints[line * width + column] for line in lines for column in columns]
        bits |= (fore in here and share(here, fore, back) >= share(paints, fore, back)) << block
    return Blocks(bits, fore, back, share(paints, fore, back))


def dots_of(look: looks.Look) -> list[str]:
    """The paint of each dot that a cell shows of its sign, without lines between blocks and frames."""
    dots, paints = painting.cell_of(look._replace(flash="S", concealed=False, lined=False, boxed=False), 0, True)
    return [paints[number] for number in dots]


def pattern_sign(look: looks.Look) -> Shown:
    """A pattern in six blocks: the sign, and the two paints that it has most of."""
    pattern = looks.pattern_of(look.shape)
    found = blocks_of(look, paints_of(look, pattern), pattern.width, 3)
    return sextant(found.bits), found.fore, found.back


def is_large(look: looks.Look) -> bool:
    return look.high > 1 or look.wide > 1


def is_drawn(look: looks.Look) -> bool:
    """Whether a look shows a mosaic or a pattern: of a large one each cell has its part."""
    return look.shape[0] in "MN%"


def by_dots(look: looks.Look, kind: str) -> Shown:
    """The sign that is nearest to a cell's dots."""
    found = blocks_of(look, dots_of(look), painting.WIDTH, 3 if kind == SEXTANTS else 2)
    if kind == ASCII:
        step = 0 if found.share == 0 else 1 + int(found.share * (len(SHADES) - 2))
        return SHADES[step], found.fore, found.back
    return (sextant if kind == SEXTANTS else QUADRANTS.__getitem__)(found.bits), found.fore, found.back


def line_of(shape: str) -> int | None:
    """The code among the line mosaics from 4/0 on, or None for another shape."""
    code = int(shape[1:3], 16) - 0x40 if shape[0] == "N" else -1
    return code if 0 <= code < len(LINES_OF_ASCII) else None


def drawn_sign(look: looks.Look, kind: str) -> Shown:
    """The sign of a mosaic or a pattern."""
    line = line_of(look.shape)
    if kind == SEXTANTS and not is_large(look):
        return pattern_sign(look) if look.shape[0] == "%" else (sign_of(look.shape), look.fore, look.back)
    # Lines, discs and arrows are in most fonts, but not the slanted lines.
    if line is not None and not is_large(look) and (kind == ASCII or not 4 <= line < 12):
        return (LINES_OF_ASCII if kind == ASCII else LINES)[line], look.fore, look.back
    return by_dots(look, kind)


def as_ascii(sign: str) -> str:
    """A sign as one of ASCII."""
    plain = unicodedata.normalize("NFD", sign)[0]
    return plain if plain.isascii() else NEAREST.get(sign) or "?"


def shown(look: looks.Look, revealed: bool, kind: str = SEXTANTS) -> Shown:
    """The sign, the foreground and the background that a cell shows: a large letter stands in its first cell alone."""
    if look.shape == "-" or (look.concealed and not revealed):
        return " ", look.fore, look.back
    if is_drawn(look):
        return drawn_sign(look, kind)
    if look.down or look.right:
        return " ", look.fore, look.back
    sign = sign_of(look.shape)
    return as_ascii(sign) if kind == ASCII else sign, look.fore, look.back
