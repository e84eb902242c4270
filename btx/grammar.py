"""The words of scripts and drawings, and what stands after each, as the man page of cept_tool has them. Which line is outside the grammar
the program says; what here stands says why."""
from typing import NamedTuple


class Number(NamedTuple):
    """A number after a word: its name, the least and the most that are taken, and those between that aren't."""

    name: str
    least: int
    most: int
    without: tuple[int, ...] = ()


TEXT, DIGITS = "SIGNS", "DIGITS"
# What a word takes: numbers, signs or digits.
Wanted = list[Number] | str
CODE = Number("N", 0, 31, (27,))
SCREEN = Number("N", 0, 31, (12, 13, 14, 15, 27))
AREA = [Number("A", 1, 24), Number("B", 1, 24)]
POINT = [Number("X", 0, 79), Number("Y", 0, 71)]
ALONE = (
    "serial parallel erase clear home return back forward down up protect unprotect scrollup scrolldown implicit explicit undo redo".split()
)
SCRIPT: dict[str, Wanted] = {
    "at": [Number("ROW", 1, 24), Number("COLUMN", 1, 40)],
    "text": TEXT,
    "c1": [CODE],
    "row": [CODE],
    "screen": [SCREEN],
    "table": [Number("N", 0, 3)],
    "colour": [Number("N", 0, 31), *(Number(name, 0, 15) for name in "RGB")],
    "repeat": [Number("N", 0, 63)],
    "area": AREA,
    "noarea": AREA,
    "revision": [Number("N", 1, 2)],
    "raw": DIGITS,
    **{word: [] for word in ALONE},
}
DRAWING: dict[str, Wanted] = {"plot": POINT, "unplot": POINT, "line": POINT * 2, "box": POINT * 2, "wipe": POINT * 2}
WORDS = {"script": SCRIPT, "drawing": DRAWING}
# The reasons for which a line is refused, and the word of the program that takes such lines.
UNKNOWN_WORD, WRONG_COUNT, BAD_NUMBER, BAD_TEXT, BAD_HEX, BAD_BYTES = range(1, 7)
TAKEN_BY = {"script": "edit", "drawing": "plot"}


def names_after(word: str, kind: str) -> str:
    """What stands after a word, by its names."""
    wanted = WORDS[kind][word]
    return wanted if isinstance(wanted, str) else " ".join(number.name for number in wanted)


def range_of(number: Number) -> str:
    """Which numbers are taken, as a sentence ends."""
    least, most = number.least, number.most
    text = f"{least} or {most}" if most == least + 1 else f"{least} to {most}"
    if not number.without:
        return text
    first, *more = number.without
    # The numbers that are missing are one, or several that follow each other and one more.
    return f"{text}, but not {first}" if not more else f"{text}, but not {first} to {more[-2]} and not {more[-1]}"
