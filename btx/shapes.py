"""The shape of each sign, in a cell of twelve by ten dots, as `shapes/make` puts it into `view/shapes.js` for the viewer, the page editor
and btx alike."""
import functools
from typing import TypedDict

from btx import tables

WIDTH, HEIGHT = 12, 10
FIRST, DIGITS = 0x20, WIDTH * HEIGHT // 4
EMPTY, FULL = "0" * WIDTH, "1" * WIDTH


class Facts(TypedDict):
    """The tables: each set as one text, those of lined mosaics too, and the two shades of the picture behind the screen."""

    sets: dict[str, str]
    lined: dict[str, str]
    picture: list[str]


@functools.cache
def facts() -> Facts:
    """The tables of `view/shapes.js`, each set as one text."""
    found = tables.table_of("shapes.js", "SHAPES")
    sets, lined = ({key: "".join(rows) for key, rows in found[name].items()} for name in ("sets", "lined"))
    return {"sets": sets, "lined": lined, "picture": found["picture"]}


def lines_in(signs: str, code: int) -> list[str]:
    """The lines of a sign of a set, each a text of twelve digits 0 or 1."""
    at = (code - FIRST) * DIGITS
    bits = f"{int(signs[at : at + DIGITS], 16):0{WIDTH * HEIGHT}b}"
    return [bits[start : start + WIDTH] for start in range(0, WIDTH * HEIGHT, WIDTH)]


def lines_of(shape: str, lined: bool) -> list[str]:
    """The lines of a shape that is no pattern, as it stands in a look; `-` is a space."""
    if shape == "-":
        return [EMPTY] * (HEIGHT - 1) + [FULL if lined else EMPTY]
    name, code = shape[0], int(shape[1:3], 16)
    own = facts()["lined"].get(name)
    if lined and own:
        return lines_in(own, code)
    accented = name + shape[3:]
    sets = facts()["sets"]
    lines = lines_in(sets[accented if accented in sets else name], code)
    return lines[:-1] + [FULL] if lined else lines
