"""Writes one file that shows stored pages being built, with viewer and data in it, to open or to send. With several pages it has an
index with small pictures. Nothing in it is fetched from elsewhere, and no script runs in it but the viewer's own."""
import argparse
import base64
import hashlib
import json
import os
import re
from collections.abc import Sequence
from typing import Any

from btx import files, modules, program, recording, say, telling

SUMMARY = "a file that shows pages being built, in a browser"
VIEW = os.path.join(program.ROOT, "view")
# The first of the viewer's modules, as the document names it.
ENTRY = "viewer.js"
MODULE = f'<script type="module" src="{ENTRY}"></script>\n'
DATA = '<script type="application/json" id="pages">[]</script>'
# Each phase of the flash once, and back to the first; and the beginning of a line of one of these turns.
TURNS = "6"
# What a page that has no file is called.
INPUT = "standard input"
TURNED = re.compile("^[1-9]", re.MULTILINE)
# In a name: control characters, bytes that are no UTF-8, and a backslash that would be read as the first sign of an escape.
UNSHOWN = re.compile(r"[\x00-\x1f\x7f-\x9f\udc80-\udcff]|\\(?=x[0-9a-fA-F]{2})")
# What the viewer needs of a page.
Page = dict[str, Any]


def arguments(parser: argparse.ArgumentParser) -> None:
    parser.add_argument("pages", metavar="PAGE", nargs="*", help="without one the viewer alone, which takes what is opened there")
    parser.add_argument("-o", "--output", metavar="FILE", help="where to write it; without this to standard output")
    recording.add_times(parser)


def names_of(paths: Sequence[str]) -> list[str]:
    """A name for each page: its file's, or its path where two files have the same."""
    names = [INPUT if path == files.STANDARD else os.path.basename(path).removesuffix(".btx") for path in paths]
    return [shown_name(name if names.count(name) == 1 else path) for name, path in zip(names, paths)]


def escaped(found: re.Match[str]) -> str:
    return "".join(f"\\x{byte:02x}" for byte in found[0].encode("utf-8", "surrogateescape"))


def shown_name(name: str) -> str:
    """A file's name as text that can be written, another for each name: bytes that are no UTF-8 and control characters are escaped by their
    numbers, and so is a backslash that would be read as an escape."""
    return UNSHOWN.sub(escaped, os.fsencode(name).decode("utf-8", "surrogateescape"))


def page_of(path: program.Runner, name: str, page: str, timed: bool = False) -> Page:
    """What the viewer needs of a page: of one that flashes also what each turn changes, of a recording when its bytes came."""
    times = {"times": recording.times_of(page).pieces()} if timed else {}
    with files.read_again(page) as again:
        changes, check = (program.text_put(path, word, again) for word in ("changes", "check"))
        flash = program.text_put(path, "flash", again, TURNS)
        with open(again, "rb") as file:
            stored = base64.b64encode(file.read()).decode("ascii")
    turned = {"flash": flash} if TURNED.search(flash) else {}
    return {"name": name, "changes": changes, "check": check, **turned, **times, "page": stored}


def text_of(name: str) -> str:
    with open(os.path.join(VIEW, name), encoding="utf-8") as file:
        return file.read()


def sum_of(text: str) -> str:
    return "'sha256-" + base64.b64encode(hashlib.sha256(text.encode("utf-8")).digest()).decode("ascii") + "'"


def data_of(value: object) -> str:
    """A value as JSON that may stand in a script of a document."""
    return json.dumps(value, ensure_ascii=True, separators=(",", ":")).replace("<", "\\u003c")


def with_policy(html: str, policy: str) -> str:
    meta = f'<meta charset="utf-8">\n<meta http-equiv="Content-Security-Policy" content="{policy}">'
    return html.replace('<meta charset="utf-8">', meta, 1)


def html_of(pages: Sequence[Page]) -> str:
    """The viewer's document with its style, scripts and pages inside. Its policy lets no other style or script in."""
    html, style = text_of("index.html"), text_of("style.css")
    scripts = modules.scripts_of(VIEW, ENTRY)
    policy = f"default-src 'none'; img-src blob: data:; style-src {sum_of(style)}; script-src " + " ".join(map(sum_of, scripts))
    head, tail = with_policy(html, policy).replace(MODULE, "").split(DATA)
    head = head.replace('<link rel="stylesheet" href="style.css">', f"<style>{style}</style>")
    inside = "\n".join(f"<script>{script}</script>" for script in scripts)
    return f'{head}<script type="application/json" id="pages">{data_of(pages)}</script>\n{inside}\n{tail.lstrip()}'


def run(path: program.Runner, options: argparse.Namespace) -> int:
    if options.pages.count(files.STANDARD) > 1:
        say("html: standard input is one page, and - stands more than once")
        return 2
    reading = telling.Pages(path, "html")
    read = [reading.read(page_of, name, page, options.times) for name, page in zip(names_of(options.pages), options.pages)]
    pages = [page for page in read if page is not None]
    if pages or not read:
        with files.output(options.output) as file:
            file.write(html_of(pages).encode("utf-8"))
    return reading.status
