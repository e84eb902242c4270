"""The parts of an install, each put under a prefix by itself: program and btx with what they read, the shared library, and what programs
in C are built with."""
import gzip
import os
import re

from btx import VERSION, command, completion, program
from building import ROOT, shared, shipped

NAME = "tamligub"
OUT = os.path.join(ROOT, "library", "out")
MODULE = os.path.join(OUT, "tamligub.wasm")
DOCUMENTS = f"share/doc/{NAME}"
# Files that a document names: other documents, pictures, and programs in C with the header.
NAMED = re.compile(r"[\w./-]+\.(?:md|png|c|h)\b")
SHELLS = {"bash": "share/bash-completion/completions/btx", "fish": "share/fish/vendor_completions.d/btx.fish"}
# Where Debian's zsh looks, and any other.
ZSH = {True: "share/zsh/vendor-completions/_btx", False: "share/zsh/site-functions/_btx"}
DESKTOP = {
    "tamligub.desktop": "share/applications", "tamligub.thumbnailer": "share/thumbnailers", "tamligub.xml": "share/mime/packages",
}
HEADERS = {"tamligub.h": os.path.join(ROOT, "library", "tamligub.h"), "tamligub_signs.h": os.path.join(OUT, "tamligub_signs.h")}
EXAMPLES = ("example.c", "example_feed.c", "example_live.c", "example_dots.c")


def source(place):
    return os.path.join(ROOT, place)


def text_of(place):
    with open(source(place), encoding="utf-8") as file:
        return file.read()


def documents():
    """README and the documents and pictures that it names, and those that these name: their places in the checkout."""
    found, left = [], ["README.md"]
    while left:
        place = left.pop()
        if place in found:
            continue
        found.append(place)
        names = NAMED.findall(text_of(place)) if place.endswith(".md") else []
        places = [os.path.normpath(os.path.join(at, name)) for name in names for at in ("", os.path.dirname(place))]
        left += [one for one in places if not one.startswith((".", "/")) and os.path.isfile(source(one))]
    return sorted(found)


def put_files(tree):
    """What is installed as it is in this checkout."""
    for place in [*shipped.for_people(), *shipped.package()]:
        tree.copy(f"share/{NAME}/{place}", source(place))
    for place in shipped.in_folder("pages"):
        tree.copy(f"{DOCUMENTS}/examples/{os.path.basename(place)}", source(place))
    for place in documents():
        tree.copy(f"{DOCUMENTS}/{place}", source(place))


def put_manual(tree):
    for name in ("btx.1", "cept_tool.1"):
        tree.write(f"share/man/man1/{name}.gz", gzip.compress(text_of(f"docs/{name}").encode(), 9, mtime=0))


def put_completion(tree):
    parser = command.parsers()
    for shell, place in {**SHELLS, "zsh": ZSH[tree.known_as == "/usr"]}.items():
        tree.write(place, completion.text_of(shell, parser).encode())


def put_desktop(tree):
    """The type of the files that are pages, what opens them, and what paints their small pictures."""
    prefix = tree.known_as
    # As an entry's Exec quotes a program's path, up to its end. GLib looks for a program before it reads %% as %, and nice takes any name.
    way = 'nice -n 0 "' if "%" in prefix else '"'
    quoted = way + re.sub(r'(["`$\\])', r"\\\1", prefix).replace("\\", "\\\\").replace("%", "%%")
    for name, place in DESKTOP.items():
        text = text_of(f"desktop/{name}").replace("@prefix@", prefix.replace("\\", "\\\\")).replace("@quoted@", quoted)
        tree.write(f"{place}/{name}", text.encode())
    tree.copy(f"share/{NAME}/open_page", source("desktop/open_page"), 0o755)


def put_program(tree, binary):
    """The program, and btx with all that it reads."""
    put_files(tree)
    tree.copy("bin/btx", source("bin/btx"), 0o755)
    tree.copy(f"bin/{program.NAME}", binary, 0o755)
    put_manual(tree)
    put_completion(tree)
    put_desktop(tree)


def has_module():
    """Whether the module for the web was made."""
    return os.path.exists(MODULE)


def put_module(tree):
    """Puts the module for the web, where it was made, where `btx viewer` and `btx editor` look for it."""
    if has_module():
        tree.copy(f"share/{NAME}/{shipped.MODULE}", MODULE)


def is_built():
    """Whether the libraries were built."""
    return all(os.path.exists(os.path.join(OUT, name)) for name in ("libtamligub.a", shared.NAME, "tamligub_signs.h"))


def put_shared(tree):
    """The shared library."""
    tree.copy(f"{tree.libraries}/{shared.NAME}", os.path.join(OUT, shared.NAME))


def pkg_config(tree):
    """What pkg-config reads. The system searches its own folders for libraries."""
    libraries = "${prefix}/" + tree.libraries
    return shared.pkg_config(tree.known_as, libraries, "${prefix}/include", VERSION, is_searched=tree.known_as == "/usr")


def put_development(tree):
    """What programs in C are built with."""
    tree.copy(f"{tree.libraries}/libtamligub.a", os.path.join(OUT, "libtamligub.a"))
    tree.link(f"{tree.libraries}/{shared.LINK}", shared.NAME)
    for name, path in HEADERS.items():
        tree.copy(f"include/{name}", path)
    tree.write(f"{tree.libraries}/pkgconfig/{NAME}.pc", pkg_config(tree).encode())
