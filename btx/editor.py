"""Writes one file with the page editor and the decoder in it, to open in a browser: pages are written and drawn there, and all that it
shows is what the decoder says of page and script. Nothing in it is fetched from elsewhere, nothing leaves the machine, and no script runs
in it but the editor's own."""
import argparse
import os
import re

from btx import html_file, modules, program, viewer

SUMMARY = "a file with the page editor, in a browser"
EDIT = os.path.join(program.ROOT, "edit")
# What the editor takes of the viewer's modules, and the first of its own.
TAKEN = re.compile(r'from "\.\./view/([\w.]+)";')
MODULE = re.compile(r'<script type="module" src="([\w.]+)"></script>\n?')
DATA = html_file.DATA


def arguments(parser: argparse.ArgumentParser) -> None:
    viewer.arguments(parser)


def text_of(name: str) -> str:
    with open(os.path.join(EDIT, name), encoding="utf-8") as file:
        return file.read()


def template() -> str:
    """The viewer's document without pages, in the two parts before and after them: the editor puts a page between."""
    return html_file.data_of(html_file.html_of([]).split("[]", 1))


def html_with(module: bytes) -> str:
    """The editor's document with its style, its scripts, the module, and the viewer's document inside."""
    document, style = text_of("index.html"), text_of("edit.css")
    shown = modules.scripts_of(html_file.VIEW, *TAKEN.findall(text_of(modules.SHARED)))
    first = MODULE.findall(document)
    scripts = [viewer.caller(), *shown, *modules.scripts_of(EDIT, *first)]
    bare = MODULE.sub("", html_file.with_policy(document, viewer.policy_of(style, scripts)))
    head, tail = bare.split(DATA)
    head = head.replace('<link rel="stylesheet" href="edit.css">', f"<style>{style}</style>")
    data = f'<script type="application/json" id="viewer">{template()}</script>\n{viewer.data_of(module)}'
    return f"{head}{data}\n{viewer.inside(scripts)}\n{tail.lstrip()}"


def run(_: object, options: argparse.Namespace) -> int:
    return viewer.write(options, html_with)
