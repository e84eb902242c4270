"""Writes the replay of a page as asciinema takes it: what a terminal is told, and when. asciinema play and its players on websites show
it."""
import argparse
import json
import os
from collections.abc import Iterator

from btx import files, html_file, looks, program, recording, signs, terminal

SUMMARY = "the replay of a page in a terminal, as asciinema takes it"
VERSION = 2
# How long the end is seen, in seconds.
REST = 3


def arguments(parser: argparse.ArgumentParser) -> None:
    parser.add_argument("page", metavar="PAGE")
    parser.add_argument("-o", "--output", metavar="FILE", help="where to write it; without this to standard output")
    played = parser.add_mutually_exclusive_group()
    played.add_argument("--replay", type=terminal.speed, default=1200, metavar="BITS", help="at how many bits a second; without this 1200")
    recording.add_times(played)
    parser.add_argument("--reveal", action="store_true", help="show what is concealed")
    terminal.add_signs(parser, (signs.SEXTANTS, signs.BLOCKS, signs.ASCII), signs.BLOCKS)


def line_of(value: object) -> str:
    return json.dumps(value, ensure_ascii=False) + "\n"


def events_of(painter: terminal.Painter, moments: looks.Moments, length: int, clock: recording.Clock) -> Iterator[tuple[float, str]]:
    """What the terminal is told: when, in seconds, and what."""
    yield 0, painter.begun()
    for place, changed in moments:
        yield clock.when(place + 1), painter.changed(changed)
    yield clock.when(length) + REST, terminal.PLAIN


def lines(painter: terminal.Painter, moments: looks.Moments, length: int, clock: recording.Clock, title: str) -> Iterator[str]:
    """The lines of the file: a head, and an event in each."""
    yield line_of({"version": VERSION, "width": looks.COLUMNS, "height": looks.ROWS, "title": title})
    for time, text in events_of(painter, moments, length, clock):
        yield line_of([round(time, 4), "o", text])


def run(path: program.Runner, options: argparse.Namespace) -> int:
    painter, clock = terminal.Painter(terminal.ALL_COLOURS, options.reveal, options.signs), recording.clock_of(options)
    with files.read_again(options.page) as page:
        moments, length = looks.moments_of(program.text_put(path, "changes", page)), os.path.getsize(page)
    with files.output(options.output) as file:
        for line in lines(painter, moments, length, clock, html_file.names_of([options.page])[0]):
            file.write(line.encode("utf-8"))
    return 0
