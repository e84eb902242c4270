"""What stands beside `btx` wherever it is installed: under a prefix, in a package of Debian, in a wheel."""
import os

from building import ROOT

FOLDERS = ("btx", "view", "edit", "pages")
ENDINGS = (".py", ".js", ".css", ".html", ".btx", ".drawing")
# Of the pages only what makes them is left out.
UNSHIPPED = ("codes.py", "drawn.py")
PACKAGE = "library/python/tamligub"
SCRIPT = "library/tamligub.js"
MODULE = "library/out/tamligub.wasm"
MANUALS = ("docs/btx.1", "docs/cept_tool.1")


def in_folder(folder):
    """The files of a folder that are shipped, by their places in the checkout."""
    names = sorted(os.listdir(os.path.join(ROOT, folder)))
    return [f"{folder}/{name}" for name in names if name.endswith(ENDINGS) and name not in UNSHIPPED]


def package():
    """The files of the package for Python."""
    return [*in_folder(PACKAGE), f"{PACKAGE}/py.typed"]


def for_people():
    """All that btx reads, but for the package and the module."""
    return [place for folder in FOLDERS for place in in_folder(folder)] + [SCRIPT]
