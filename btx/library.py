"""The program in this process: the shared library runs its words over the bytes of files that are read here. What they write, and how they
end, is what a run of the program writes, and how it ends. Where there is no library the program runs."""
import contextlib
import ctypes
import os
import re
import sys
from collections.abc import Callable, Sequence
from types import ModuleType

from btx import files, program, typed
from btx.statuses import READ, Status

NAME = "libtamligub.so.1"
# Names another library; where it is empty the program is taken.
VARIABLE = "TAMLIGUB_LIBRARY"
MADE = os.path.join(program.ROOT, "library", "out", NAME)
# Python's package over the library, whose calls are taken.
PACKAGE = os.path.join(program.ROOT, "library", "python")
# The folder of this machine's kind in which Debian has libraries.
KIND = getattr(sys.implementation, "_multiarch", "")
DIGITS = re.compile("[0-9]{1,10}")
MOST = {"flash": 600, "gen": 2**32 - 1, "load": 2**32 - 1}


def binding() -> ModuleType | None:
    """The calls of the library, as the package for Python has them; None where this Python can't take it."""
    if os.path.isdir(PACKAGE) and PACKAGE not in sys.path:
        sys.path.insert(0, PACKAGE)
    try:
        from tamligub import binding as found
    except (ImportError, TypeError):
        return None
    return found


def is_number(word: str, text: program.Word) -> bool:
    """Whether the program takes a number after a word."""
    return isinstance(text, str) and DIGITS.fullmatch(text) is not None and int(text) <= MOST[word]


def is_request(word: str, words: Sequence[program.Word]) -> bool:
    """Whether these words after it are a request."""
    wanted = program.WORDS[word][0].split(" ")
    if len(words) != len(wanted) or "" in words:
        return False
    return is_number(word, words[-1]) if wanted[-1] == "NUMBER" else len(set(words)) == len(words)


def bytes_of(name: program.Word, most: int) -> bytes:
    """The bytes of a file, no more than one above the most; those that are given in the place of its name."""
    return name if isinstance(name, bytes) else files.read(name, most)


class Library:
    """The words of the program by the library, as runs of the program are; a page may be given as its bytes in the place of its name."""

    def __init__(self, calls: ctypes.CDLL, run: Callable[..., tuple[int, bytes]]) -> None:
        self.calls, self.run = calls, run

    def put(self, word: str, *words: program.Word) -> program.Ending:
        """The output of a word, and its status."""
        if not is_request(word, words):
            return b"", Status.USAGE
        number = int(words[-1]) if word in MOST else None
        if word in ("gen", "load"):
            return self.answer(word, None, None, number)
        try:
            script = bytes_of(words[1], typed.MOST) if word in program.SCRIPTED else None
        except OSError:
            return b"", Status.UNREAD
        try:
            page = bytes_of(words[0], files.MOST_PAGE)
        except OSError:
            return self.without_a_page(word, script)
        return self.answer(word, page, script, number)

    def without_a_page(self, word: str, script: bytes | None) -> program.Ending:
        """A page that can't be read: what is wrong with a script is said before it is read."""
        text, status = self.answer(word, b"", script, None) if script is not None else (b"", Status.UNREAD)
        return (b"", Status.UNREAD) if status in READ else (text, status)

    def answer(self, word: str, page: bytes | None, script: bytes | None, number: int | None) -> program.Ending:
        try:
            status, text = self.run(word, page, script, number, self.calls)
        except MemoryError:
            return b"", Status.NO_MEMORY
        return text, status


def is_current(path: str, beside: str) -> bool:
    """Whether a library isn't older than the program that would run in its place, such as one that was proved or compiled since."""
    other = program.standing(beside) or (program.QUICK if program.is_there(program.QUICK) else None)
    return other is None or os.path.getmtime(path) >= os.path.getmtime(other)


def standing(beside: str) -> str | None:
    """The path of a library that is beside this command, in the package for Python or in the checkout, or None."""
    own = binding()
    installed = [os.path.normpath(os.path.join(beside, "..", folder, NAME)) for folder in ("lib", os.path.join("lib", KIND))]
    in_package = os.path.join(own.HERE, NAME) if own else ""
    return next((path for path in (*installed, in_package, MADE) if os.path.isfile(path)), None)


def place(beside: str) -> str | None:
    """The path of the library: the one that is named, or that is there; None where the program is to be taken."""
    named = os.environ.get(VARIABLE)
    if named is not None:
        return os.path.abspath(named) if os.path.isfile(named) else named or None
    if os.environ.get("BTX_PROGRAM"):
        return None
    there = standing(beside)
    return there if there != MADE or is_current(MADE, beside) else None


def at(path: str) -> Library | None:
    """The library of a file; None where it can't be taken."""
    calls = binding()
    if calls is not None:
        with contextlib.suppress(OSError, AttributeError):
            return Library(calls.at(path), calls.run)
    return None


def found(beside: str) -> program.Runner:
    """What runs words: the library, or the path of the program."""
    path = place(beside)
    taken = at(path) if path else None
    if path and not taken and os.environ.get(VARIABLE):
        raise program.Missing(f"{VARIABLE} is {path}, and no library is there")
    return taken or program.found(beside)
