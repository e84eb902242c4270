"""The looks at the end of a page, of all 24 rows."""
from collections.abc import Sequence

from btx import looks, program

# Each phase of the flash once.
TURNS = "5"


def texts(path: program.Runner, page: program.Word, before: Sequence[str] = ()) -> looks.Texts:
    """The looks as they are written, by their places. Those of the rows below the format aren't in cells: where flash shows something there,
    changes has them."""
    found = looks.texts_of(program.text_put(path, "cells", page, before=before))
    flash = program.text_put(path, "flash", page, TURNS, before=before)
    below = {place for _, place, _ in map(looks.change_of, flash.splitlines())} - found.keys()
    if not below:
        return found
    changes = map(looks.change_of, looks.changes_in(program.text_put(path, "changes", page, before=before)))
    return found | {place: look for _, place, look in changes if place in below}


def cells(path: program.Runner, page: program.Word) -> looks.Cells:
    """The same as looks."""
    return {place: looks.look_of(text) for place, text in texts(path, page).items()}
