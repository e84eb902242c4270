"""What an archive needs of one page, made by runs of the program: facts for its lists, and parts for its files."""
import base64
import contextlib
import dataclasses
import hashlib
import os
import re
import stat
import zlib
from collections.abc import Iterator, Mapping, Sequence

from btx import at_end, files, listing, looks, messages, program, signs
from btx.statuses import READ, Status

# Parts are packed quickly: the text of changes is long, and much of it the same.
LEVEL = 1
# A page of more bytes than this is kept as its bytes alone, where the website has the decoder's module: the browser decodes it. Its text of
# changes is a hundred times as long.
LONG = 2**14
# A program that a signal ended has the number of the signal and this, as in a shell.
SIGNALS = 128
# A word of double width, whose signs have a blank after each.
WIDE = re.compile(r"(?<!\S)\S(?: \S){2,}(?!\S)")
# What a status says of a stored page.
MEANINGS: dict[int, str] = {
    Status.DONE: "read to its end, nothing refused",
    Status.REFUSALS: "read to its end, with refused items",
    Status.UNREAD: "can't be read",
    Status.NO_MEMORY: "not enough memory",
    Status.TOO_LONG: f"too long: more than {messages.MOST_PAGE:,} bytes",
}


@dataclasses.dataclass(frozen=True)
class Facts:
    """What the lists of an archive say of a page; what isn't known is None. The screen is told by its SHA-256."""

    bytes: int | None
    status: int
    meaning: str
    sha256: str | None = None
    items: int | None = None
    refused: int | None = None
    passed_over: int | None = None
    title: str = ""
    screen: str | None = None
    words: str = ""

    def is_read(self) -> bool:
        return self.status in READ


# What the files of a page have in them, by their names; and the facts and the parts of a page, none of one that isn't read to its end.
Parts = dict[str, str]
Made = tuple[Facts, Parts | None]


class Unread(Exception):
    """The bytes of a page can't be had; its facts say why."""

    def __init__(self, facts: Facts) -> None:
        super().__init__(facts.meaning)
        self.facts = facts


def unreadable(why: str) -> Facts:
    return Facts(None, Status.UNREAD, f"can't be read: {why}")


def unreadable_folder(why: str) -> Facts:
    """The facts of a folder of pages that can't be read."""
    return Facts(None, Status.UNREAD, f"this folder can't be read: {why}")


def ended(size: int, status: int) -> Facts:
    """The facts of a page at which the program ended with another status."""
    return Facts(size, status, MEANINGS.get(status, f"the program ended with status {status}"))


def stored(source: str) -> bytes:
    """The bytes of a page, read once."""
    try:
        about = os.stat(source)
        if not stat.S_ISREG(about.st_mode):
            raise Unread(unreadable("it is no plain file"))
        if about.st_size > messages.MOST_PAGE:
            raise Unread(ended(about.st_size, Status.TOO_LONG))
        with open(source, "rb") as file:
            return file.read(messages.MOST_PAGE + 1)
    except FileNotFoundError as fault:
        raise Unread(unreadable("no such file")) from fault
    except OSError as fault:
        raise Unread(unreadable(messages.why(fault))) from fault


def sum_of(page: bytes) -> str:
    return hashlib.sha256(page).hexdigest()


def packed(data: bytes) -> str:
    return base64.b64encode(zlib.compress(data, LEVEL)).decode("ascii")


def shown_signs(cells: looks.Cells) -> dict[looks.Place, str]:
    """The signs of text by their places: of all looks of a screen those that aren't concealed."""
    return {place: signs.shown(look, False)[0] for place, look in cells.items() if look.shape[0] in "PS"}


def words_of(cells: looks.Cells) -> str:
    """The text of a screen as it is searched: signs of text alone, words of double width joined, and single spaces."""
    shown = shown_signs(cells)
    rows = ("".join(shown.get((row, column), " ") for column in range(1, looks.COLUMNS + 1)) for row in range(1, looks.ROWS + 1))
    return " ".join(WIDE.sub(lambda found: found[0].replace(" ", ""), "\n".join(rows)).split())


def line_of(shown: Mapping[looks.Place, str], cells: looks.Cells, row: int) -> str:
    """The text of some signs in a row; the cells that a sign of double width covers besides its first have none."""
    places = [(row, column) for column in range(1, looks.COLUMNS + 1)]
    return " ".join("".join(shown.get(place, " ") for place in places if not cells.get(place, looks.BLANK).right).split())


def is_most_of(part: str, line: str) -> bool:
    """Whether a part of a line has more of its signs than the rest of it; blanks are none."""
    return 2 * len(part.replace(" ", "")) > len(line.replace(" ", ""))


def title_of(cells: looks.Cells) -> str:
    """What is of double size in the first line in which most signs are, else the first line; empty where there is no text."""
    shown = shown_signs(cells)
    large = {place: sign for place, sign in shown.items() if cells[place].high > 1 or cells[place].wide > 1}
    lines = [(line_of(large, cells, row), line_of(shown, cells, row)) for row in range(1, looks.ROWS + 1)]
    headings = [heading for heading, line in lines if is_most_of(heading, line)]
    return next(filter(None, [*headings, *(line for _, line in lines)]), "")


@contextlib.contextmanager
def handed(path: program.Runner, page: bytes) -> Iterator[program.Word]:
    """What is handed to a run of a page: the library takes the bytes, and the program the name of a copy."""
    if not isinstance(path, str):
        yield page
        return
    with files.copy_of(page) as name:
        yield name


def shown_of(path: program.Runner, source: program.Word, page: bytes, has_module: bool, before: Sequence[str]) -> Parts:
    """The parts that show a page: its screen, and of a page whose changes the browser doesn't decode these too. The screen at the end
    follows from the changes, unless it takes too long to find there."""
    if has_module and len(page) > LONG:
        return {"cells": looks.text_of(at_end.texts(path, source, before))}
    changes = program.bytes_put(path, "changes", source, before=before)
    cells = looks.last_cells(changes)
    if cells is None:
        cells = looks.text_of(at_end.texts(path, source, before))
    return {"deflated": packed(changes), "cells": cells}


def parts_of(path: program.Runner, source: program.Word, page: bytes, has_module: bool) -> tuple[listing.Listing, Parts]:
    """The parts of a page that is read to its end, and what its items are, which only `list` says: an item may change nothing."""
    before = program.ending_with_us("KILL")
    items = listing.read(program.text_put(path, "list", source, before=before))
    shown = shown_of(path, source, page, has_module, before)
    return items, shown | {"check": items.check(), "page": base64.b64encode(page).decode("ascii")}


def made_of_bytes(path: program.Runner, page: bytes, has_module: bool = False) -> Made:
    """The facts of a page whose bytes are given, and its parts, for a website with or without the decoder's module; None for these where
    it isn't read to its end."""
    size = len(page)
    try:
        with handed(path, page) as source:
            items, parts = parts_of(path, source, page, has_module)
    except program.Ended as end:
        return ended(size, end.status if end.status >= 0 else SIGNALS - end.status), None
    except MemoryError:
        return ended(size, Status.NO_MEMORY), None
    status = Status.REFUSALS if items.refused else Status.DONE
    cells = looks.cells_of(parts["cells"])
    screen = sum_of(parts["cells"].encode("ascii"))
    counts = (items.items, len(items.refused), items.passed_over)
    return Facts(size, status, MEANINGS[status], sum_of(page), *counts, title_of(cells), screen, words_of(cells)), parts


def made(path: program.Runner, source: str, has_module: bool = False) -> Made:
    """The same of a page in a file."""
    try:
        return made_of_bytes(path, stored(source), has_module)
    except Unread as unread:
        return unread.facts, None
