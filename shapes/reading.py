"""Reads signs.txt: drawings of ten lines of twelve dots, and the words of mosaics that geometry draws."""
import pathlib
import re
from typing import Any

FILE = pathlib.Path(__file__).resolve().parent / "signs.txt"
WIDTH, HEIGHT = 12, 10
# Drawings stand beside each other, each with its name above it.
APART = WIDTH + 2
SECTION = re.compile(r"^== (\w+)")
WORDS = re.compile(r"^[0-9A-F]{2} [a-z]+ ?[\w. ]*$")


class Fault(Exception):
    """What is wrong in the file, and where."""


def names_in(header):
    """The names above drawings, each at the left edge of its own."""
    return [header[at : at + APART].split()[0] for at in range(0, len(header.rstrip()), APART)]


def dots_of(text):
    """A line of a drawing: its left dot is the highest bit."""
    return int(text.replace(".", "0").replace("#", "1"), 2)


def drawings_of(lines, number):
    """The drawings of a row, by their names: a header and ten lines, of which the first has this number."""
    names, drawn = names_in(lines[0]), [line.split() for line in lines[1:]]
    wrong = [number + 1 + index for index, line in enumerate(drawn) if [len(one) for one in line] != [WIDTH] * len(names)]
    if len(drawn) != HEIGHT or wrong or any(set(one) - set(".#") for line in drawn for one in line):
        raise Fault(f"signs.txt: a row of drawings isn't {HEIGHT} lines of {WIDTH} dots each: lines {wrong or [number]}")
    return {name: tuple(map(dots_of, column)) for name, column in zip(names, zip(*drawn))}


def rows_in(lines):
    """The blocks of lines between empty ones, without comments, each with the number of its first line."""
    block: list[str] = []
    first = 0
    for number, line in enumerate([*lines, ""], 1):
        if line == "#" or line.startswith("# "):
            continue
        if line.strip():
            first = first if block else number
            block.append(line)
        elif block:
            yield first, block
            block = []


def read(path=FILE):
    """The sections by their names: of drawings by their names, or of words by the code before them."""
    sections: dict[str, dict[str, Any]] = {}
    name = None
    for number, lines in rows_in(path.read_text("utf-8").splitlines()):
        found = SECTION.match(lines[0])
        if found:
            name, lines, number = found[1], lines[1:], number + 1
            sections.setdefault(name, {})
        if not lines:
            continue
        words = all(map(WORDS.match, lines))
        new = dict(line.split(" ", 1) for line in lines) if words else drawings_of(lines, number)
        twice = sections[name].keys() & new.keys()
        if twice:
            raise Fault(f"signs.txt: {name} has {' '.join(sorted(twice))} twice")
        sections[name] |= new
    return sections
