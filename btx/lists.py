"""The lists of an archive: its index, its order, and its report as a table and as JSON."""
import contextlib
import csv
import dataclasses
import json
import os
from collections.abc import Iterable, Iterator, Mapping, Sequence
from typing import Any

from btx import collection, html_file, making, search, website

ENTRIES = '<script type="application/json" id="entries">[]</script>'
# So many pages a part of the index tells of.
PART = 250
SEPARATORS = {"english": ",", "german": ";"}
# The facts of pages by their names.
AllFacts = Mapping[str, making.Facts]
# What a spreadsheet would take as the beginning of a formula.
FORMULAS = ("=", "+", "-", "@", "\t", "\r")


@dataclasses.dataclass
class Row:
    """A page as the report has it; alike is the first page with the same screen, where there are several."""

    path: str
    title: str
    bytes: int | None
    status: int
    items: int | None
    refused: int | None
    passed_over: int | None
    meaning: str
    sha256: str | None
    alike: str


COLUMNS = [field.name for field in dataclasses.fields(Row)]


def alike(facts: AllFacts) -> dict[str, str]:
    """For each page whose screen is that of another: the name of the first of these."""
    groups: dict[str, list[str]] = {}
    for name in sorted(facts, key=os.fsencode):
        screen = facts[name].screen
        if screen:
            groups.setdefault(screen, []).append(name)
    return {name: names[0] for names in groups.values() if len(names) > 1 for name in names}


def rows_of(facts: AllFacts) -> Iterator[Row]:
    first = alike(facts)
    for name in sorted(facts, key=os.fsencode):
        one = facts[name]
        same = html_file.shown_name(first[name]) if name in first else ""
        counts = (one.bytes, one.status, one.items, one.refused, one.passed_over)
        yield Row(html_file.shown_name(name), one.title, *counts, one.meaning, one.sha256, same)


def plain(value: object) -> object:
    """A value that no spreadsheet takes as a formula."""
    return f"'{value}" if isinstance(value, str) and value.startswith(FORMULAS) else value


def write_table(path: str, rows: Iterable[Row], separator: str) -> None:
    """The report as a table; the mark at its front tells spreadsheets that it is UTF-8."""
    with open(path + ".part", "w", encoding="utf-8-sig", newline="") as file:
        table = csv.writer(file, delimiter=separator)
        table.writerow(COLUMNS)
        table.writerows([plain(value) for value in dataclasses.astuple(row)] for row in rows)
    os.replace(path + ".part", path)


def folders_of(names: Sequence[str]) -> list[list[Any]]:
    """For each folder the numbers of the first page in it and of the one after its last: what is in a folder stands together."""
    folders: dict[str, list[int]] = {}
    for number, name in enumerate(names):
        for at in (at for at, sign in enumerate(name) if sign == "/"):
            folders[name[: at + 1]] = [folders.get(name[: at + 1], [number])[0], number + 1]
    return [[html_file.shown_name(folder), *ends] for folder, ends in folders.items()]


def columns_of(facts: AllFacts, names: Sequence[str]) -> dict[str, Any]:
    """What the index has of all pages: numbers for its filters and its order, which of them are folders that can't be read, folders, and
    letters with which a word begins."""
    first, places = alike(facts), {name: number for number, name in enumerate(names, 1)}
    return {
        "count": len(names), "part": PART, "folders": folders_of(names),
        "status": [facts[name].status for name in names], "bytes": [facts[name].bytes or 0 for name in names],
        "refused": [facts[name].refused or 0 for name in names], "alike": [places.get(first.get(name, ""), 0) for name in names],
        "unread": [number for number, name in enumerate(names) if collection.is_folder(name)],
    }


def write_index(out: str, facts: AllFacts, rows: Sequence[Row]) -> None:
    """The index, and in parts what it shows of a page and the words by which one is found."""
    names = sorted(facts, key=os.fsencode)
    entries = [[row.path, website.address(name), row.bytes, row.status, row.items, row.refused, row.meaning, row.title, row.alike]
               for name, row in zip(names, rows)]
    parts = ((at // PART, html_file.data_of(entries[at : at + PART])) for at in range(0, len(entries), PART))
    write_parts(os.path.join(out, "entries"), ((f"{number}.js", f"Tamligub.entries({number}, {part});\n") for number, part in parts))
    found = search.Words()
    for number, (name, row) in enumerate(zip(names, rows)):
        found.add(number, f"{row.path} {row.title} {facts[name].words}")
    letters = found.letters()
    write_parts(os.path.join(out, "words"), ((search.file_of(one), found.script(one)) for one in letters))
    top = html_file.data_of({**columns_of(facts, names), "letters": {one: search.file_of(one) for one in letters}})
    document = html_file.text_of("archive.html").replace(ENTRIES, f'<script type="application/json" id="entries">{top}</script>')
    website.write(os.path.join(out, website.INDEX), document)


def write_parts(folder: str, texts: Iterable[tuple[str, str]]) -> None:
    """The files of a folder of parts, of their names and texts; other files go, where they can."""
    written: set[str] = set()
    for file, text in texts:
        website.write(os.path.join(folder, file), text)
        written.add(file)
    for file in set(os.listdir(folder) if os.path.isdir(folder) else ()) - written:
        with contextlib.suppress(OSError):
            os.remove(os.path.join(folder, file))


def step_to(name: str, facts: AllFacts) -> list[str] | None:
    return [website.address(name), facts[name].title or html_file.shown_name(name)] if name else None


def write_walk(out: str, facts: AllFacts) -> None:
    """For each page those before and after it, in parts by its name."""
    names = sorted((name for name in facts if facts[name].is_read()), key=os.fsencode)
    parts: dict[str, dict[str, list[Any]]] = {}
    for before, name, after in zip(["", *names], names, [*names[1:], ""]):
        parts.setdefault(website.part_of(name) + ".js", {})[website.address(name)] = [step_to(before, facts), step_to(after, facts)]
    write_parts(os.path.join(out, "walk"), ((file, f"Tamligub.walk({html_file.data_of(steps)});\n") for file, steps in parts.items()))


def write(out: str, facts: AllFacts, separator: str) -> None:
    """All lists of an archive, of the facts of its pages by their names."""
    rows = list(rows_of(facts))
    write_walk(out, facts)
    write_index(out, facts, rows)
    write_table(os.path.join(out, website.TABLE), rows, separator)
    report = json.dumps([dataclasses.asdict(row) for row in rows], ensure_ascii=False, indent=1) + "\n"
    website.write(os.path.join(out, website.REPORT), report)
