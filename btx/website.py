"""The files of an archive: viewer, picture and facts of each page."""
import contextlib
import dataclasses
import errno
import hashlib
import io
import json
import os
import re
import threading
import urllib.parse
from collections.abc import Iterator
from html import escape
from types import ModuleType

from btx import canvas, html_file, looks, making, modules, viewer
from btx.statuses import Status

# What all pages say, and the scripts of an archive, each made of a module and of all that it needs besides.
WORDS = "language.js"
SCRIPTS = ("viewer.js", "archive.js", "walk.js")
STYLES = ("style.css", "archive.css")
# What is made of a page, each kind in a folder of its own; the facts, by which it counts as made, come last and go first.
KINDS = {"pages": ".html", "pictures": ".png", "made": ".json"}
# All folders of a website, and the file of the viewer that is written first: by it a website is known, be it only begun.
FOLDERS = (*KINDS, "viewer", "entries", "words", "walk")
SITE = "site.js"
# What is written last, of all pages; by these a whole website is known that has lost that file.
LISTS = INDEX, TABLE, REPORT = "index.html", "report.csv", "report.json"
# Of a file's 255 bytes the endings take some.
LONGEST = 255 - len(".json.part")
# A page may have a name under which no file of an archive can stand.
NO_NAMES = {
    errno.ENAMETOOLONG: "its name is too long for a file of an archive",
    **dict.fromkeys((errno.EINVAL, errno.EILSEQ), "its name is none for the file system of the website"),
    **dict.fromkeys((errno.EISDIR, errno.ENOTDIR, errno.EEXIST), "another page has its place"),
}
# Pages are made by several threads: none takes an empty folder away in which another begins a file.
BEGINNING = threading.Lock()
# The places in the viewer's document for what is each page's own.
PLACE = re.compile(r"\{(up|part|address|name|title)\}")
# What the index says where the viewer's folder isn't there, whose style has it away; each page says it too.
LOST = re.compile(r'<p class="lost">.*?</p>\n', re.DOTALL)
# The sizes of a page's files by their kinds.
Sizes = dict[str, int]
POLICY = "default-src 'none'; img-src blob: data:; style-src 'self'; script-src 'self'"
# The decoder's module, for pages that are decoded in the browser; no other page asks for it.
MODULE, COMPILES = "module.js", f" 'wasm-unsafe-eval'; {viewer.WORKER}"


def address(name: str) -> str:
    """The address of a page in the website, whatever the bytes of its name are."""
    return urllib.parse.quote(os.fsencode(name))


def part_of(name: str) -> str:
    """In which part of the archive's order a page is told of: a page asks for its own alone."""
    return hashlib.sha256(os.fsencode(name)).hexdigest()[:2]


def size_of(path: str) -> int | None:
    """How many bytes a file has; None where there is none."""
    return os.path.getsize(path) if os.path.isfile(path) else None


def is_foreign(out: str) -> bool:
    """Whether there is something in a folder, and it is no website of an archive, be it only begun or without its viewer."""
    own = os.path.join(out, "viewer")
    if not os.path.isdir(out) or size_of(os.path.join(own, SITE)):
        return False
    here = os.listdir(out)
    if {"pages", "made"} <= set(here) and (set(LISTS) <= set(here) or set(here) <= {*LISTS, *FOLDERS}):
        return False
    begun = os.listdir(own) if here == ["viewer"] and os.path.isdir(own) else here
    return not set(begun) <= {f"{SITE}.part"}


def write_bytes(path: str, data: bytes) -> int:
    """A file, whole or not at all; answers its size. Why it can't be written, as on a full disk, is raised with its name."""
    with BEGINNING:
        os.makedirs(os.path.dirname(path), exist_ok=True)
        part = open(path + ".part", "wb")
    try:
        with part as file:
            file.write(data)
        os.replace(path + ".part", path)
    except OSError as fault:
        os.unlink(path + ".part")
        raise OSError(fault.errno, fault.strerror, path) from None
    return len(data)


def write(path: str, text: str) -> int:
    return write_bytes(path, text.encode("utf-8"))


def picture_of(image: ModuleType, cells: str) -> bytes:
    """The screen of a text of cells as a PNG, by Pillow: a pixel for each dot."""
    board, file = canvas.Canvas(False), io.BytesIO()
    board.small(image, board.screen(looks.cells_of(cells))).save(file, "PNG")
    return file.getvalue()


def halves(decodes: bool) -> tuple[str, str]:
    """The viewer's document before and after a page's data, with places for what is each page's own; of pages that it decodes, or whose
    texts it has."""
    scripts = (*([MODULE] if decodes else []), "words.js", "viewer.js", SITE, "walk.js")
    lost = "".join(LOST.findall(html_file.text_of("archive.html")))
    changed = {
        'href="style.css"': 'href="{up}viewer/style.css"',
        "<h1>Tamligub</h1>": '<h1><a href="{up}index.html">Archive</a></h1>',
        '<title data-word="viewer">Tamligub</title>': "<title>{title}</title>",
        "</header>": f"</header>\n{lost}"
        '<nav id="walk" data-up="{up}" data-part="{part}" data-address="{address}" data-path="{name}">'
        "</nav>",
        html_file.MODULE: "".join(f'<script src="{{up}}viewer/{name}"></script>\n' for name in scripts),
    }
    document = html_file.with_policy(html_file.text_of("index.html"), POLICY + (COMPILES if decodes else ""))
    for old, new in changed.items():
        document = document.replace(old, new)
    head, tail = document.split(html_file.DATA)
    return head, tail


def scripts_of() -> dict[str, list[str]]:
    """The scripts of an archive, by their files: the words, which the index has too, and what is made of each entry."""
    words = [one.name for one in modules.modules_of(html_file.VIEW, WORDS)]
    made = {name: modules.scripts_of(html_file.VIEW, name, without=words) for name in SCRIPTS}
    return {"words.js": modules.scripts_of(html_file.VIEW, WORDS), **made}


class Website:
    """The files of an archive in a folder. Without Pillow's module of images pages have no pictures, and without the decoder's module, as a
    script, all have their texts of changes."""

    def __init__(self, out: str, image: ModuleType | None = None, module: str | None = None) -> None:
        self.out, self.image, self.module = out, image, module
        self.has_module = module is not None
        self.halves = {decodes: halves(decodes) for decodes in (False, True)}

    def begin(self, title: str) -> None:
        """What all pages have in common: the title of the archive, by which pages don't change, scripts and styles."""
        site = html_file.data_of({"title": title})
        write(os.path.join(self.out, "viewer", SITE), f"(window.Tamligub = window.Tamligub || {{}}).site = {site};\n")
        for name in STYLES:
            write(os.path.join(self.out, "viewer", name), html_file.text_of(name))
        for name, scripts in scripts_of().items():
            write(os.path.join(self.out, "viewer", name), "".join(scripts))
        if self.module is not None:
            write(os.path.join(self.out, "viewer", MODULE), self.module)

    def path(self, kind: str, name: str) -> str:
        return os.path.join(self.out, kind, name + KINDS[kind])

    def names(self) -> set[str]:
        """The names of all pages of which something was made, be it not to its end."""
        return {name for kind in KINDS for name in self.names_of(kind)}

    def names_of(self, kind: str) -> Iterator[str]:
        top = os.path.join(self.out, kind)
        for place, _, files in os.walk(top):
            for file in files:
                name, ending = os.path.splitext(os.path.relpath(os.path.join(place, file), top))
                if ending == KINDS[kind]:
                    yield name

    def noted(self, name: str) -> tuple[making.Facts | None, Sizes]:
        """The facts of a page that is made with all that is told of it, or None; and the sizes that its other files were made with."""
        try:
            with open(self.path("made", name), encoding="utf-8") as file:
                noted = dict(json.load(file))
            sizes = dict(noted.pop("sizes", {}))
            facts = making.Facts(**noted)
        except (OSError, ValueError, TypeError):
            return None, {}
        return facts if facts.passed_over is not None or not facts.is_read() else None, sizes

    def facts(self, name: str) -> making.Facts | None:
        """The facts of a page alone."""
        return self.noted(name)[0]

    def whole(self, name: str) -> making.Facts | None:
        """The facts of a page whose files are as they were made, by their sizes; the picture only where one could be made. Else None."""
        facts, sizes = self.noted(name)
        kinds = ("pages",) if self.image is None else ("pages", "pictures")
        is_whole = all(kind in sizes and sizes[kind] == size_of(self.path(kind, name)) for kind in kinds)
        return facts if is_whole else None

    def remove_kind(self, kind: str, name: str) -> None:
        """Takes away one of the files of a page, and folders that are empty without it."""
        path = self.path(kind, name)
        with contextlib.suppress(FileNotFoundError, NotADirectoryError, IsADirectoryError):
            os.remove(path)
        with BEGINNING, contextlib.suppress(OSError):
            os.removedirs(os.path.dirname(path))

    def remove(self, name: str) -> None:
        """Takes away what was made of a page."""
        for kind in reversed(KINDS):
            self.remove_kind(kind, name)

    def document(self, name: str, facts: making.Facts, parts: making.Parts) -> str:
        """The viewer with a page; its style and scripts are those of the whole archive."""
        shown = html_file.shown_name(name)
        up = "../" * (name.count("/") + 1)
        values = {"up": up, "part": part_of(name), "address": address(name), "name": shown, "title": facts.title or shown}
        head, tail = (PLACE.sub(lambda found: escape(values[found[1]]), text) for text in self.halves["deflated" not in parts])
        data = {"name": shown, **{part: parts[part] for part in ("deflated", "check", "page") if part in parts}}
        return f'{head}<script type="application/json" id="pages">{html_file.data_of([data])}</script>{tail}'

    def write_page(self, name: str, facts: making.Facts, parts: making.Parts) -> None:
        """Writes what was made of a page, last the facts."""
        with contextlib.suppress(FileNotFoundError):
            os.remove(self.path("made", name))
        sizes = {"pages": write(self.path("pages", name), self.document(name, facts, parts))}
        if self.image:
            sizes["pictures"] = write_bytes(self.path("pictures", name), picture_of(self.image, parts["cells"]))
        else:
            self.remove_kind("pictures", name)
        write(self.path("made", name), html_file.data_of({**dataclasses.asdict(facts), "sizes": sizes}))

    def add(self, name: str, facts: making.Facts, parts: making.Parts | None) -> making.Facts:
        """Writes what was made of a page. Of one that can't be read now stays what was made before, and of another nothing."""
        try:
            if any(len(os.fsencode(part)) > LONGEST for part in name.split("/")):
                raise OSError(errno.ENAMETOOLONG, "too long")
            if parts:
                self.write_page(name, facts, parts)
            elif facts.status != Status.UNREAD:
                self.remove(name)
        except OSError as fault:
            if fault.errno not in NO_NAMES:
                raise
            return making.Facts(facts.bytes, Status.NO_ROOM, NO_NAMES[fault.errno])
        return facts
