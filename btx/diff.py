"""Shows in which cells the screens at the end of two pages differ: first both screens beside each other in colour, then a line for each
such cell with the look of the first page and that of the second. It ends with 0 where there is none, and with 1 where there are some."""
import argparse
import os
import shutil
import sys
from collections.abc import Iterator, Sequence

from btx import at_end, files, looks, program, say, terminal
from btx.statuses import Status

SUMMARY = "the cells in which the screens of two pages differ"
SAME, DIFFERENT = 0, 1


def arguments(parser: argparse.ArgumentParser) -> None:
    parser.add_argument("first", metavar="A")
    parser.add_argument("second", metavar="B")
    parser.add_argument("--reveal", action="store_true", help="show what is concealed")
    parser.add_argument("--quiet", action="store_true", help="show neither, and only list the cells")


def differing(one: looks.Texts, other: looks.Texts) -> Iterator[tuple[looks.Place, str, str]]:
    """The places at which two screens differ, with both looks."""
    for place in sorted(one.keys() | other.keys()):
        pair = one.get(place, looks.BLANK_TEXT), other.get(place, looks.BLANK_TEXT)
        if pair[0] != pair[1]:
            yield place, *pair


def beside(painter: terminal.Painter, screens: Sequence[looks.Texts]) -> Iterator[str]:
    """Two screens beside each other, a line for each row, with a gap where the terminal has room for one."""
    gap = " " * int(shutil.get_terminal_size().columns > 2 * looks.COLUMNS)
    for rows in zip(*(painter.still({place: looks.look_of(text) for place, text in one.items()}, looks.ROWS) for one in screens)):
        yield gap.join(row.rstrip("\n") for row in rows) + "\n"


def screen_of(path: program.Runner, page: str) -> looks.Texts:
    with files.read_again(page) as again:
        return at_end.texts(path, again)


def run(path: program.Runner, options: argparse.Namespace) -> int:
    if options.first == options.second == files.STANDARD:
        say("diff: standard input is one page, and - stands more than once")
        return Status.USAGE
    files.write_utf8(newline="\n")
    screens = [screen_of(path, page) for page in (options.first, options.second)]
    different = list(differing(*screens))
    if different and not options.quiet:
        painter = terminal.Painter(terminal.depth_of(os.environ), options.reveal, terminal.signs_known(os.environ))
        sys.stdout.writelines(beside(painter, screens))
    sys.stdout.writelines(f"{row} {column} {one} | {other}\n" for (row, column), one, other in different)
    return DIFFERENT if different else SAME
