"""Pillow, the library of Python by which pictures are written."""
from collections.abc import Callable
from types import ModuleType

from btx import debian, say
from btx.statuses import NOT_THERE


def image() -> ModuleType:
    """Pillow's module of images."""
    return debian.module("PIL.Image", "Pillow", "python3-pil")


def guarded(word: str, act: Callable[..., int], *things: object) -> int:
    """Does what needs Pillow, or says that it isn't there."""
    try:
        return act(image(), *things)
    except debian.Missing as fault:
        say(f"{word}: {fault}")
        return NOT_THERE
