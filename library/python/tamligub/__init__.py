"""A decoder and page editor for Bildschirmtext (videotex, CEPT profile 1), over the shared library `libtamligub.so.1`.

A page is a stored page as bytes, as it came over the line. `show`, `check`, `changes`, `write`, `edit` and `plot` take a page as a whole;
a `Decoder` is fed bytes as they come. Times are counted in bytes: `at` is how many of them stand before an item. Rows count from 1 to 24
and columns from 1 to 40.

`TooLong` is raised where a whole page has more than 2^24 bytes, or a script, a drawing or a line more than 2^20; `BadScript` where one of
these can't be read; `NotSeven` by `eight`; `Closed` and `NoSnapshot` by a `Decoder`; `Missing` where the shared library isn't there; and
MemoryError by any call for which there is no memory.

>>> from tamligub import Decoder, show
>>> print(show(b"Guten Tag")[:9])
Guten Tag
>>> decoder = Decoder()
>>> for notice in decoder.feed(b"A"):
...     print(notice.row, notice.column, notice.look.shape)
1 1 P41

The functions of the library are proved to say what the program says; this binding is only tested. It takes no locks: calls of several
threads run at once, and a decoder stays on its thread.
"""
import sys

if sys.version_info < (3, 10):
    TOO_OLD = "tamligub needs Python 3.10 or a later one, and this is %d.%d" % sys.version_info[:2]
    # This is the first word while Python looks for what -m is to run: there a person asks, and reads the sentence alone, as of btx.
    if sys.argv[:1] == ["-m"]:
        sys.stderr.write(TOO_OLD + "\n")
        sys.exit(127)
    raise ImportError(TOO_OLD)

from .binding import Missing
from .decoder import Decoder
from .faults import BadScript, Closed, NoSnapshot, NotSeven, TooLong
from .looks import COLUMNS, LINE_REASONS, REASONS, ROWS, Change, Colour, Colours, Look, Pattern, Pen, Refusal, Sign, State
from .records import LAYOUT, Notices
from .words import Check, changes, check, edit, eight, generated, plot, seven, show, write

__version__ = "0.1"
__all__ = [
    "COLUMNS", "LAYOUT", "LINE_REASONS", "REASONS", "ROWS", "BadScript", "Change", "Check", "Closed", "Colour", "Colours", "Decoder", "Look",
    "Missing", "NoSnapshot", "NotSeven", "Notices", "Pattern", "Pen", "Refusal", "Sign", "State", "TooLong", "changes", "check", "edit",
    "eight", "generated", "plot", "seven", "show", "write",
]
