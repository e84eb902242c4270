"""The nearest of some words to one that isn't among them."""
from collections.abc import Iterable


def distance(one: str, other: str) -> int:
    """How many letters are put in, left out, changed or swapped with their neighbour to come from one word to the other."""
    rows = [list(range(len(other) + 1))]
    for at, letter in enumerate(one, 1):
        row = [at]
        for to, wanted in enumerate(other, 1):
            least = min(rows[-1][to] + 1, row[-1] + 1, rows[-1][to - 1] + (letter != wanted))
            if at > 1 and to > 1 and one[at - 2 : at] == wanted + other[to - 2] and letter != wanted:
                least = min(least, rows[-2][to - 2] + 1)
            row.append(least)
        rows.append(row)
    return rows[-1][-1]


def nearest(word: str, known: Iterable[str]) -> str | None:
    """The known word whose letters are nearest, or None where more than half of them would be others. A word's beginning stands for it."""
    word = word.casefold()
    begun = [one for one in known if len(word) > 1 and one.startswith(word)]
    if begun:
        return min(begun, key=len)
    found = min(known, key=lambda one: distance(word, one))
    return found if 2 * distance(word, found) <= len(found) and distance(word, found) < len(word) else None
