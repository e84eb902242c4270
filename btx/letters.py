"""The signs that people type, and the bytes that write each: of the primary and the supplementary set, and with an accent. Which sign a
code is stands in `view/signs.js`, for the viewer, the page editor and btx alike."""
import unicodedata

from btx import tables

# The first sign of what follows is of the supplementary set, or is its accent; and the primary set is locked.
SHIFT, LOCK = 0x19, 0x0F
LETTERS = range(0x20, 0x7F)


def facts() -> dict[str, dict[int, str]]:
    """The three tables of the facts by their names, each by the number of the code."""
    found = tables.table_of("signs.js", "FACTS")
    return {name: {int(code, 16): sign for code, sign in table.items()} for name, table in found.items()}


KNOWN = facts()
MARKS, PRIMARY = KNOWN["marks"], KNOWN["primary"]
SUPPLEMENTARY = {first + index: sign for first, signs in KNOWN["supplementary"].items() for index, sign in enumerate(signs)}


def composed(sign: str) -> str:
    return unicodedata.normalize("NFC", sign)


def table() -> dict[str, bytes]:
    """By each sign, composed as far as Unicode has that, the bytes that write it once the primary set is locked."""
    signs = [(chr(code), [code]) for code in LETTERS] + [(sign, [code]) for code, sign in PRIMARY.items()]
    signs += [(sign, [SHIFT, code]) for code, sign in SUPPLEMENTARY.items()]
    signs += [(chr(code) + mark, [SHIFT, accent, code]) for accent, mark in MARKS.items() for code in LETTERS]
    found: dict[str, bytes] = {}
    for sign, written in signs:
        found.setdefault(composed(sign), bytes(written))
    return found


SIGNS = table()


def signs_in(text: str) -> list[str]:
    """The signs of a text, each with the marks that follow it."""
    found: list[str] = []
    for point in text:
        if found and unicodedata.category(point).startswith("M"):
            found[-1] += point
        else:
            found.append(point)
    return found


def bytes_of(sign: str) -> bytes | None:
    """The bytes that write a sign, or None where no set has it."""
    return SIGNS.get(composed(sign))


def unknown_in(text: str) -> list[tuple[int, str]]:
    """The places, counted in code points from 1, and the signs of a text that no set has."""
    place, found = 1, []
    for sign in signs_in(text):
        if bytes_of(sign) is None:
            found.append((place, sign))
        place += len(sign)
    return found
