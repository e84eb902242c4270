"""Writes an SVG of the screen at the end of a page: runs of dots as one path for each colour, sharp at any size, and the text beside it,
to be searched, selected and read aloud."""
import argparse
from collections.abc import Iterable, Iterator
from html import escape

from btx import at_end, canvas, files, html_file, letters, looks, picture, program

SUMMARY = "a drawing of the screen at the end of a page, as SVG"
WIDTH, HEIGHT = canvas.WIDTH, canvas.HEIGHT
HEAD = """<svg xmlns="http://www.w3.org/2000/svg" width="{width}" height="{height}" viewBox="0 0 {width} {height}">
<title>{title}</title>
<rect width="{width}" height="{height}" fill="#{ground}"/>
<g transform="scale({across} {down})" shape-rendering="crispEdges">
"""
TEXT = """</g>
<g font-family="monospace" font-size="{size}" fill-opacity="0" xml:space="preserve">
"""
# A number in a line of dots, with the first column and that after the last; and a rectangle: top, start, end and bottom.
Run = tuple[int, int, int]
Block = tuple[int, int, int, int]


def arguments(parser: argparse.ArgumentParser) -> None:
    parser.add_argument("page", metavar="PAGE")
    parser.add_argument("-o", "--output", metavar="FILE", help="where to write it; without this to standard output")
    picture.add_reveal(parser)
    picture.add_phase(parser)


def runs_of(line: bytes) -> Iterator[Run]:
    """The runs of a line of dots: a number, the first column and that after the last."""
    start = 0
    for column in range(1, WIDTH + 1):
        if column == WIDTH or line[column] != line[start]:
            yield line[start], start, column
            start = column


def blocks_of(dots: bytes) -> dict[int, list[Block]]:
    """The dots as rectangles by the numbers of their colours: a run that is alike in lines below each other is one."""
    found: dict[int, list[Block]] = {}
    open_blocks: dict[Run, int] = {}
    for row in range(HEIGHT + 1):
        line = dots[row * WIDTH : row * WIDTH + WIDTH]
        runs = set(runs_of(line)) if row < HEIGHT else set()
        for run in [run for run in open_blocks if run not in runs]:
            number, start, end = run
            top = open_blocks.pop(run)
            found.setdefault(number, []).append((top, start, end, row))
        for run in runs:
            open_blocks.setdefault(run, row)
    return found


def path_of(colour: str, blocks: Iterable[Block]) -> str:
    """The path of a colour."""
    data = "".join(f"M{start} {top}h{end - start}v{bottom - top}h{start - end}z" for top, start, end, bottom in sorted(blocks))
    return f'<path fill="#{colour}" d="{data}"/>\n'


def lines_of(text: str, size: int) -> Iterator[str]:
    """The text, each row where it is seen and as wide."""
    across, down = canvas.DOT[0] * 12, canvas.DOT[1] * 10
    for row, line in enumerate(text.splitlines()):
        if line.strip():
            shown = line.rstrip()
            width = len(letters.signs_in(shown)) * across
            yield f'<text x="0" y="{row * down + size}" textLength="{width}" lengthAdjust="spacingAndGlyphs">{escape(shown)}</text>\n'


def document(board: canvas.Canvas, cells: looks.Cells, text: str, title: str) -> str:
    """The drawing of a screen: the colour that most dots have is behind all others."""
    dots = board.screen(cells)
    blocks, colours = blocks_of(dots), list(board.palette.numbers)
    ground = max(blocks, key=dots.count)
    across, down = canvas.DOT
    parts = {"width": WIDTH * across, "height": HEIGHT * down, "across": across, "down": down, "title": escape(title)}
    parts["ground"] = colours[ground]
    paths = "".join(path_of(colours[number], blocks[number]) for number in sorted(blocks) if number != ground)
    size = 8 * down
    return HEAD.format(**parts) + paths + TEXT.format(size=size) + "".join(lines_of(text, size)) + "</g>\n</svg>\n"


def run(path: program.Runner, options: argparse.Namespace) -> int:
    with files.read_again(options.page) as page:
        cells = at_end.cells(path, page)
        text = program.text_put(path, "show", page)
    board = canvas.Canvas(options.reveal, options.phase)
    with files.output(options.output) as file:
        file.write(document(board, cells, text, html_file.names_of([options.page])[0]).encode("utf-8"))
    return 0
