"""Writes a GIF of a page being built at the speed of a line, and then as it flashes, again and again. A frame stands for each time at
which something changes, at most fifty in a second."""
import argparse
import os
import sys
from collections.abc import Iterator
from types import ModuleType

from btx import animation, at_end, canvas, files, looks, picture, pillow, program, recording, say, terminal
from btx.animation import Frame

SUMMARY = "a film of a page being built and flashing, as GIF"
# Browsers show no frame for less than two hundredths of a second.
STEPS, STEP = 50, 2
PHASES = 6
# How long the end is seen, in seconds; in each all phases of the flash turn once.
REST = 3


def arguments(parser: argparse.ArgumentParser) -> None:
    parser.add_argument("page", metavar="PAGE")
    parser.add_argument("-o", "--output", metavar="FILE", help="where to write it; without this to standard output")
    parser.add_argument("--replay", type=terminal.speed, default=1200, metavar="BITS", help="at how many bits a second; without this 1200")
    parser.add_argument("--end", action="store_true", help="show the end of the page alone, as it flashes")
    picture.add_scale(parser)
    picture.add_reveal(parser)


def steps_of_phases(until: int) -> Iterator[tuple[int, int]]:
    """The steps at which a phase begins, before some step."""
    turn = 0
    while round(turn * STEPS / PHASES) < until:
        yield round(turn * STEPS / PHASES), turn % PHASES
        turn += 1


def flashes(cells: looks.Cells) -> bool:
    return any(look.flash != "S" for look in cells.values())


def frames_of(board: canvas.Canvas, moments: looks.Moments, until: int) -> Iterator[Frame]:
    """The frames of moments, each the step at which cells change and their looks. A phase makes a frame where something flashes."""
    cells: looks.Cells = {}
    changes: dict[int, looks.Cells] = {}
    last: tuple[int, bytes] | None = None
    for step, changed in moments:
        changes.setdefault(step, {}).update(changed)
    phases = dict(steps_of_phases(until))
    for step in sorted({0, *changes, *phases}):
        cells.update(changes.get(step, {}))
        board.phase = phases.get(step, board.phase)
        if last and step not in changes and not flashes(cells):
            continue
        dots = board.screen(cells)
        if last and dots != last[1]:
            yield Frame(last[1], STEP * (step - last[0]))
        if not last or dots != last[1]:
            last = step, dots
    if last:
        yield Frame(last[1], STEP * (until - last[0]))


def moments_of(path: program.Runner, page: str, bits: int) -> tuple[looks.Moments, int]:
    """The steps at which cells change, and how many there are until the page has come."""
    seconds = recording.BITS_OF_A_BYTE / bits
    moments = looks.moments_of(program.text_put(path, "changes", page))
    steps = [(int((place + 1) * seconds * STEPS), changed) for place, changed in moments]
    return steps, max([int(os.path.getsize(page) * seconds * STEPS), *(step for step, _ in steps)])


def film_of(board: canvas.Canvas, path: program.Runner, options: argparse.Namespace) -> Iterator[Frame]:
    """The frames of a page."""
    with files.read_again(options.page) as page:
        if options.end:
            return frames_of(board, [(0, at_end.cells(path, page))], STEPS)
        moments, length = moments_of(path, page, options.replay)
    return frames_of(board, moments, length + REST * STEPS)


def write(image: ModuleType, path: program.Runner, options: argparse.Namespace) -> int:
    board = canvas.Canvas(options.reveal, 0)
    film = animation.Animation(image, board, options.scale)
    for frame in film_of(board, path, options):
        film.add(frame)
    with files.output(options.output) as file:
        film.write(file)
    return 0


def run(path: program.Runner, options: argparse.Namespace) -> int:
    if options.output is None and sys.stdout.isatty():
        say("gif: a terminal shows no GIF; -o FILE writes it into a file")
        return 2
    return pillow.guarded("gif", write, path, options)
