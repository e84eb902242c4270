"""The program: where it is, its words, and running it."""
import os
import re
import shlex
import shutil
import subprocess
import sys
from collections.abc import Sequence
from typing import Protocol

from btx.statuses import READ

ROOT = os.path.dirname(os.path.dirname(os.path.abspath(__file__)))
CRATE = os.path.join(ROOT, "crates", "cept_tool")
NAME = "cept_tool"
# The last line of a text of check.
COUNTS = re.compile(r"^items (\d+) refused (\d+)$", re.MULTILINE)
BUILD = os.path.join(ROOT, "build")
# Where `./build --quick` keeps the program as `rt try` compiles it: unproved.
QUICK = os.path.join(ROOT, "out", "quick", NAME)
PROOF = "about 40 minutes on four processors"
PROVES = f"{shlex.quote(BUILD)} proves and builds it, in {PROOF}"
KEEPS = f"{shlex.quote(BUILD)} --quick keeps an unproved one, in about a minute"
NEEDED = {"rt": "the Rattle kit with its command rt", "wasm-opt": "wasm-opt (Debian: apt-get install binaryen)"}

# Each word of the program: what stands after it, and what it writes.
WORDS = {
    "changes": ("PAGE", "for each item a line for each cell that it changes, or the line of its refusal"),
    "check": ("PAGE", "the line of each refused item, then how many items there are and how many are refused"),
    "list": ("PAGE", "a line for each item: its place, its length, its name and its parameters"),
    "show": ("PAGE", "the screen at the end of the page as text"),
    "cells": ("PAGE", "a line for each cell whose look isn't the blank look, at the end of the page"),
    "write": ("PAGE", "the page at its end as bytes, which bring it back"),
    "seven": ("PAGE", "the bytes of the page in seven bits, for a path that carries no more"),
    "eight": ("PAGE", "bytes that seven wrote, back in eight bits"),
    "trace": ("PAGE SCRIPT", "for each edit of a script a line for each cell that it changes"),
    "edit": ("PAGE SCRIPT", "the page after the edits of a script, as bytes"),
    "plot": ("PAGE DRAWING", "the page with a drawing on its field of 80 by 72 points, as bytes"),
    "flash": ("PAGE NUMBER", "what each turn of flashing changes, for a number of turns up to 600"),
    "gen": ("NUMBER", "the generated page of a number, 0 to 4294967295, as bytes"),
    "load": ("NUMBER", "how many bytes, items and paints the generated page of a number has"),
}
# The words that write a page as bytes, which are no text.
WRITING = ("write", "seven", "eight", "edit", "plot", "gen")
# The words whose second file has lines: a script or a drawing.
SCRIPTED = ("trace", "edit", "plot")
# What stands after a word: a name or a number; the library takes the bytes of a page too.
Word = str | bytes
Ending = tuple[bytes, int]


class Caller(Protocol):
    """What runs the program's words in this process."""

    def put(self, word: str, *words: Word) -> Ending:
        """The output of a word, and its status."""


# What runs the words: the program by its path, or the library.
Runner = str | Caller


class Missing(Exception):
    """The program isn't where it was looked for; the text says what helps."""


class Ended(Exception):
    """A run that people asked for by another word ended without what is needed."""

    def __init__(self, word: str, words: list[str], status: int) -> None:
        super().__init__(f"{word} ended with status {status}")
        self.word, self.words, self.status = word, words, status


def is_there(path: str) -> bool:
    return os.access(path, os.X_OK) and os.path.isfile(path)


def build_needs(*tools: str) -> str:
    """What a build needs that isn't on this machine, as a sentence ends."""
    absent = [NEEDED[tool] for tool in tools if not shutil.which(tool)]
    return f"; that needs {' and '.join(absent)}, which this machine doesn't have" if absent else ""


def manual(name: str) -> str:
    """The command that shows a man page: of the checkout that btx is in, of its prefix, or of the system, whose man looks beside each bin of
    the PATH."""
    prefix = os.path.dirname(os.path.dirname(ROOT))
    is_found = os.path.join(prefix, "bin") in os.environ.get("PATH", "").split(os.pathsep)
    installed = [] if is_found else [os.path.join(prefix, "share", "man", "man1", f"{name}.1.gz")]
    path = next(filter(os.path.exists, [os.path.join(ROOT, "docs", f"{name}.1"), *installed]), None)
    return f"man -l {shlex.quote(path)}" if path else f"man {name}"


def command() -> str:
    """This command as a shell takes it again."""
    path, known = sys.argv[0], shutil.which("btx")
    if os.path.basename(path) == "__main__.py":
        return "python3 -m tamligub"
    return "btx" if known and os.path.realpath(known) == os.path.realpath(path) else shlex.quote(path)


def standing(beside: str) -> str | None:
    """The path of the proved program, or None: BTX_PROGRAM, or beside this command, or in the checkout."""
    named = os.environ.get("BTX_PROGRAM")
    if named:
        path = shutil.which(named)
        if path:
            return os.path.abspath(path)
        raise Missing(f"BTX_PROGRAM is {named}, and no program is there")
    return next((path for path in (os.path.join(beside, NAME), os.path.join(CRATE, "out", NAME)) if is_there(path)), None)


def missing(beside: str, *ways: str) -> Missing:
    """Why no program was found, and the ways in which it can be built."""
    if not os.path.exists(BUILD):
        return Missing(f"the proved program isn't beside this command, in {beside}; BTX_PROGRAM can name it")
    return Missing(f"the program isn't built: {', and '.join(ways)}{build_needs('rt')}")


def proved(beside: str) -> str:
    """The path of the proved program."""
    path = standing(beside)
    if path is None:
        raise missing(beside, PROVES)
    return path


def found(beside: str) -> str:
    """The path of the proved program, or else of the unproved one that `./build --quick` keeps."""
    path = standing(beside) or (QUICK if is_there(QUICK) else None)
    if path is None:
        raise missing(beside, PROVES, KEEPS)
    return path


def ending_with_us(signal: str) -> list[str]:
    """The words before a command by which the system sends it a signal when the one that runs it ends, whatever ends that."""
    setter = shutil.which("setpriv")
    return [setter, "--pdeathsig", signal, "--"] if setter else []


def put(program: Runner, word: str, *words: Word, before: Sequence[str] = ()) -> Ending:
    """The output of the program, and its status; words may stand before it that start it. The library runs in this process."""
    if not isinstance(program, str):
        return program.put(word, *words)
    done = subprocess.run([*before, program, word, *words], stdin=subprocess.DEVNULL, stdout=subprocess.PIPE, close_fds=False)
    return done.stdout, done.returncode


def bytes_put(program: Runner, word: str, page: Word, *after: Word, before: Sequence[str] = ()) -> bytes:
    """The output of the program for a page that is read to its end; else the run's end is raised."""
    output, status = put(program, word, page, *after, before=before)
    if status not in READ:
        raise Ended(word, [str(one) for one in (page, *after)], status)
    return output


def text_put(program: Runner, word: str, page: Word, *after: Word, before: Sequence[str] = ()) -> str:
    """The same as text."""
    return bytes_put(program, word, page, *after, before=before).decode("utf-8")


def counts_in(text: str) -> tuple[int, int]:
    """How many items there are and how many are refused, of a text of check."""
    found = COUNTS.search(text)
    if not found:
        raise Missing(f"what stands in the place of {NAME} has written no text of check")
    return int(found[1]), int(found[2])
