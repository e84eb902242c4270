"""The numbers and the names that options take."""
import argparse
from collections.abc import Callable

from btx import typed

# No option takes a longer one.
MOST_DIGITS = 18


def whole(what: str, least: int, most: int | None = None) -> Callable[[str], int]:
    """What reads a whole number from one on, or between two, in decimal digits."""
    taken = f"a whole number from {least} {'on' if most is None else f'to {most}'}"

    def read(text: str) -> int:
        is_number, is_long = text.isascii() and text.isdigit(), len(text) > MOST_DIGITS
        if is_number and is_long and most is None:
            raise argparse.ArgumentTypeError(f"{what} has at most {MOST_DIGITS} digits, and not {len(text)}")
        if not is_number or is_long or int(text) < least or (most is not None and int(text) > most):
            raise argparse.ArgumentTypeError(f"{what} is {taken}, and not {typed.shown(text)}")
        return int(text)
    return read


def named(what: str) -> Callable[[str], str]:
    """What reads a name that isn't empty."""
    def read(text: str) -> str:
        if not text:
            raise argparse.ArgumentTypeError(f"{what} is empty")
        return text
    return read
