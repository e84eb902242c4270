"""Writes one file with the viewer and the decoder in it, to open in a browser: stored pages that are dropped on it, opened or pasted are
decoded there, several and whole folders too; until then it says how, and has pages to look at. A line is watched over a WebSocket that is
named there. Nothing in it is fetched from elsewhere, no page leaves the machine, and no script runs in it but the viewer's own."""
import argparse
import base64
import glob
import os
from collections.abc import Callable, Sequence

from btx import files, html_file, modules, program, say
from btx.statuses import NOT_THERE

SUMMARY = "a file that shows stored pages that are dropped on it, in a browser"
LIBRARY = os.path.join(program.ROOT, "library")
MODULE = os.path.join(LIBRARY, "out", "tamligub.wasm")
# How each module of WebAssembly begins.
FRONT = b"\0asm"
# The page that says how one is opened, and those to look at.
WELCOME = os.path.join(html_file.VIEW, "welcome.btx")
PAGES = os.path.join(program.ROOT, "pages")
# The modules that stand over that of the decoder, and what the policy lets out: a line that is named in the viewer, and the Worker.
OWN = ("decoder.js", "line.js")
LINES = "connect-src ws: wss:; "
WORKER = "worker-src blob:; "


def arguments(parser: argparse.ArgumentParser) -> None:
    parser.add_argument("-o", "--output", metavar="FILE", help="where to write it; without this to standard output")
    parser.add_argument("--module", metavar="MODULE", help="a tamligub.wasm that library/build has made; without this that of library/out")


def caller() -> str:
    """The script that calls the module, as a function too, whose text a Worker takes."""
    with open(os.path.join(LIBRARY, "tamligub.js"), encoding="utf-8") as file:
        own = f"tamligub.calling = function () {{\n{file.read()}return {{ run, Decoder }};\n}};\nObject.assign(tamligub, tamligub.calling());\n"
    return "(function (tamligub) {\n" + own + "})((window.Tamligub = window.Tamligub || {}));\n"


def module_script() -> str | None:
    """A script with the module of library/out, and what calls it; None where it isn't made."""
    if not os.path.exists(MODULE):
        return None
    with open(MODULE, "rb") as file:
        return f'{caller()}Tamligub.module = "{base64.b64encode(file.read()).decode()}";\n'


def policy_of(style: str, scripts: Sequence[str], more: str = "") -> str:
    """A policy that lets no other style or script in, and lets these compile the module, and more where that is said."""
    policy = f"default-src 'none'; {more}img-src blob: data:; style-src {html_file.sum_of(style)}; script-src 'wasm-unsafe-eval' "
    return policy + " ".join(map(html_file.sum_of, scripts))


def data_of(module: bytes) -> str:
    return f'<script type="application/wasm-base64" id="module">{base64.b64encode(module).decode()}</script>'


def examples() -> str:
    """What a viewer shows until a page is opened, each page with its name and its bytes."""
    stored = []
    for path in (WELCOME, *sorted(glob.glob(os.path.join(glob.escape(PAGES), "*.btx")))):
        with open(path, "rb") as file:
            stored.append({"name": html_file.names_of([path])[0], "page": base64.b64encode(file.read()).decode()})
    return f'<script type="application/json" id="examples">{html_file.data_of(stored)}</script>'


def inside(scripts: Sequence[str]) -> str:
    return "\n".join(f"<script>{script}</script>" for script in scripts)


def html_with(module: bytes) -> str:
    """The viewer's document with its style, its scripts, examples and the module inside."""
    document, style = html_file.text_of("index.html"), html_file.text_of("style.css")
    scripts = [caller(), *modules.scripts_of(html_file.VIEW, html_file.ENTRY, *OWN)]
    bare = html_file.with_policy(document, policy_of(style, scripts, LINES + WORKER)).replace(html_file.MODULE, "")
    head, tail = bare.split(html_file.DATA)
    head = head.replace('<link rel="stylesheet" href="style.css">', f"<style>{style}</style>")
    return f"{head}{html_file.DATA}\n{examples()}\n{data_of(module)}\n{inside(scripts)}\n{tail.lstrip()}"


def missing() -> str:
    """What is said where the module isn't there."""
    if not os.path.exists(program.BUILD):
        brings = "./install of a checkout that is built brings it, where wasm-opt was there (Debian: apt-get install binaryen)"
        return f"the decoder's module isn't installed, in {MODULE}: {brings}"
    return f"the decoder's module isn't built: {program.PROVES}{program.build_needs('rt', 'wasm-opt')}"


def write(options: argparse.Namespace, document_with: Callable[[bytes], str]) -> int:
    """Writes the document that stands over the module."""
    path = options.module or MODULE
    if not options.module and not os.path.exists(path):
        say(f"{options.word}: {missing()}; --module can name one")
        return NOT_THERE
    with open(path, "rb") as file:
        module = file.read()
    if not module.startswith(FRONT):
        raise OSError(0, "this is no module of WebAssembly", path)
    document = document_with(module)
    with files.output(options.output) as file:
        file.write(document.encode("utf-8"))
    return 0


def run(_: object, options: argparse.Namespace) -> int:
    return write(options, html_with)
