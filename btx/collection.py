"""What stands in a folder of stored pages: the pages, the folders that can't be read, and what is left aside."""
import collections
import dataclasses
import fnmatch
import os
from collections.abc import Sequence

from btx import html_file, messages

# Without a pattern of one's own: which files are pages, in either case.
PATTERNS = ("*.btx", "*.cept", "*.vtx", "*.bin")
MOST_SUFFIXES = 8


@dataclasses.dataclass
class Collection:
    """Names are paths from the folder, in the order of their bytes; those of folders that can't be read end in /. Of what is left aside it
    is told how many have which suffix."""

    folder: str
    names: list[str] = dataclasses.field(default_factory=list)
    unread: dict[str, str] = dataclasses.field(default_factory=dict)
    aside: collections.Counter[str] = dataclasses.field(default_factory=collections.Counter)
    links: int = 0

    def path(self, name: str) -> str:
        return os.path.join(self.folder, name)

    def is_behind(self, name: str) -> bool:
        """Whether a page is in a folder that can't be read, so that nobody knows whether it is there."""
        return any(name.startswith(folder) for folder in self.unread)


def is_folder(name: str) -> bool:
    """Whether a name is that of a folder that can't be read."""
    return name.endswith("/")


def is_page(name: str, patterns: Sequence[str]) -> bool:
    """Whether a file is taken as a page by its name."""
    if patterns:
        return any(fnmatch.fnmatchcase(name, pattern) for pattern in patterns)
    return any(fnmatch.fnmatchcase(name.lower(), pattern) for pattern in PATTERNS)


def found(folder: str, patterns: Sequence[str]) -> Collection:
    """The collection in a folder and all folders in it. That the folder itself can't be read is raised."""
    here = Collection(folder)

    def unread(fault: OSError) -> None:
        if fault.filename == folder:
            raise fault
        here.unread[os.path.join(os.path.relpath(fault.filename, folder), "")] = messages.why(fault)

    for place, folders, files in os.walk(folder, onerror=unread):
        here.links += sum(os.path.islink(os.path.join(place, one)) for one in folders)
        for name in files:
            if is_page(name, patterns):
                here.names.append(os.path.relpath(os.path.join(place, name), folder))
            else:
                here.aside[os.path.splitext(name)[1]] += 1
    here.names.sort(key=os.fsencode)
    return here


def several(number: int, one: str, more: str | None = None) -> str:
    return f"{number:,} {one if number == 1 else more or one + 's'}"


def left_aside(here: Collection) -> str:
    """A sentence on the files that aren't taken and by which suffixes, and on links to folders; empty where all was taken."""
    often = here.aside.most_common()
    parts = [f"{count:,} {html_file.shown_name(suffix) or 'without a suffix'}" for suffix, count in often[:MOST_SUFFIXES]]
    rest = sum(count for _, count in often[MOST_SUFFIXES:])
    parts += [f"{rest:,} with other suffixes"] if rest else []
    total = sum(here.aside.values())
    said = [f"{several(total, 'file')} ({', '.join(parts)})"] if total else []
    said += [several(here.links, "link to a folder", "links to folders")] if here.links else []
    return f"left aside: {' and '.join(said)}" if said else ""
