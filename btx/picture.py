"""Writes PNGs of the screens at the end of pages, each dot of two by three pixels: 960 by 720. Of several pages each has a file of its own
in a folder. What flashes is shown as it is seen."""
import argparse
import os
import sys
from collections.abc import Sequence
from types import ModuleType

from btx import at_end, canvas, files, html_file, looks, numbers, pillow, program, say, telling

SUMMARY = "a picture of the screen at the end of each page, as PNG"
MOST_SCALE, PHASES = 8, 6
ENDING = ".png"


def add_scale(parser: argparse.ArgumentParser) -> None:
    """The option of the size, which every picture has."""
    scale, what = numbers.whole("a scale", 1, MOST_SCALE), "how many times two by three pixels a dot has, 1 to 8; without it 1"
    parser.add_argument("--scale", type=scale, default=1, metavar="TIMES", help=what)


def add_reveal(parser: argparse.ArgumentParser) -> None:
    parser.add_argument("--reveal", action="store_true", help="show what is concealed")


def add_phase(parser: argparse.ArgumentParser) -> None:
    phase, what = numbers.whole("a phase", 0, PHASES - 1), "which of the six phases of flashing, 0 to 5; without it each sign as it is seen"
    parser.add_argument("--phase", type=phase, metavar="PHASE", help=what)


def arguments(parser: argparse.ArgumentParser) -> None:
    parser.add_argument("pages", metavar="PAGE", nargs="+")
    where = "where to write it, of several pages the folder; without this to standard output"
    parser.add_argument("-o", "--output", metavar="FILE", help=where)
    add_scale(parser)
    add_reveal(parser)
    add_phase(parser)


def refused(word: str, options: argparse.Namespace) -> str | None:
    """Why a call can't be done, or None."""
    if options.output is None and sys.stdout.isatty():
        return f"a terminal shows no {word.upper()}; -o FILE writes it into a file"
    if len(options.pages) > 1 and options.output in (None, files.STANDARD):
        return "several pages take a folder, by -o FOLDER"
    if len(options.pages) > 1 and os.path.exists(options.output) and not os.path.isdir(options.output):
        return f"several pages take a folder, by -o FOLDER, and {options.output} is none"
    if options.pages.count(files.STANDARD) > 1:
        return "standard input is one page, and - stands more than once"
    names = names_of(options.pages)
    same = next((name for name in names if names.count(name) > 1), None)
    return f"two pages would have the same picture, {same}; each alone has one by -o FILE" if same else None


def names_of(pages: Sequence[str]) -> list[str]:
    """The names of pictures in a folder, of the pages' own."""
    return [name.replace(os.sep, "_") + ENDING for name in html_file.names_of(pages)]


def targets_of(options: argparse.Namespace) -> list[str]:
    """Where each picture is written: into a folder by the page's name, or where the option says."""
    if len(options.pages) == 1 and not os.path.isdir(options.output or ""):
        return [options.output]
    os.makedirs(options.output, exist_ok=True)
    return [os.path.join(options.output, name) for name in names_of(options.pages)]


def cells_of(path: program.Runner, page: str) -> looks.Cells:
    """The looks at the end of a page that may be read once alone."""
    with files.read_again(page) as again:
        return at_end.cells(path, again)


def write(image: ModuleType, path: program.Runner, options: argparse.Namespace) -> int:
    """Writes the picture of each page that can be read."""
    pages = telling.Pages(path, "png")
    for page, target in zip(options.pages, targets_of(options)):
        cells = pages.read(cells_of, page)
        if cells is None:
            continue
        board = canvas.Canvas(options.reveal, options.phase)
        picture = board.picture(image, board.screen(cells), options.scale)
        with files.output(target) as file:
            picture.save(file, "PNG")
    return pages.status


def run(path: program.Runner, options: argparse.Namespace) -> int:
    why = refused("png", options)
    if why:
        say(f"png: {why}")
        return 2
    return pillow.guarded("png", write, path, options)
