"""The packages of Debian: program and btx, the shared library, what programs in C are built with, and the package for Python."""
import gzip
import hashlib
import os
import shutil
import subprocess
import sys
import tempfile

from btx import VERSION
from building import ROOT, module, parts, shared, shipped, tree

MAINTAINER = "Tamligub maintainers <maintainers@users.noreply.tamligub.example>"
CONTROL = """Package: {name}
Source: tamligub
Version: {version}
Architecture: {architecture}
Maintainer: {maintainer}
Installed-Size: {size}
{relations}
Section: {section}
Priority: optional
{more}Description: {description}
"""
ABOUT = """ Bildschirmtext was the German videotex service (CEPT profile 1). This decoder
 of stored pages is proved to meet its contracts.
"""
PYTHON = "python3 (>= 3.10)"
FIRST = b"#!/usr/bin/python3\n"


class Failed(Exception):
    """A package can't be made; the text says why."""


def stripped(place, name):
    """Takes from a file the names that only a debugger reads, as Debian has its own, where this machine can."""
    if shutil.which("strip"):
        with tempfile.TemporaryDirectory(prefix="btx-deb-") as work:
            path = os.path.join(work, os.path.basename(name))
            tree.put(path, place.files[name].make)
            asked("strip", "--strip-unneeded", path)
            place.copy(name, path, place.files[name].mode)


def of_system(place, name):
    """Has a command run by the Python of the system, whichever is the first on a PATH."""
    _, _, rest = place.files[name].data.partition(b"\n")
    place.write(name, FIRST + rest, place.files[name].mode)


def program(place, binary):
    parts.put_program(place, binary)
    parts.put_module(place)
    stripped(place, "bin/cept_tool")
    of_system(place, "bin/btx")


def shared_library(place, _):
    parts.put_shared(place)
    stripped(place, f"{place.libraries}/{shared.NAME}")


def development(place, _):
    parts.put_development(place)
    for name in parts.EXAMPLES:
        place.copy(f"share/doc/libtamligub-dev/examples/{name}", os.path.join(ROOT, "library", name))


def for_python(place, _):
    for one in shipped.package():
        place.copy(f"lib/python3/dist-packages/tamligub/{os.path.basename(one)}", os.path.join(ROOT, one))


# Each package: what puts its files, its architecture (None is this machine's), its section, relations and what it is.
PACKAGES = {
    "tamligub": (program, None, "utils", {
        "Depends": f"libc6 (>= {{libc}}), {PYTHON}", "Recommends": "chromium, libtamligub1 (= {version}), man-db, python3-pil",
        "Suggests": "bash-completion, desktop-file-utils, parallel, python3-websockets, shared-mime-info, xdg-utils",
    }, """decoder and page editor for Bildschirmtext pages
 Shows stored pages in a terminal, in a browser and as pictures, makes a website
 of a collection, checks pages and edits them. It needs a processor of the
 level x86-64-v2 or a later one.
 .
""" + ABOUT),
    "libtamligub1": (shared_library, None, "libs", {"Depends": "libc6 (>= 2.14)"}, """decoder for Bildschirmtext pages - shared library
 The program as one function, and a decoder that is fed bytes as they come. It
 needs a processor of the level x86-64-v2 or a later one.
 .
""" + ABOUT),
    "libtamligub-dev": (development, None, "libdevel", {"Depends": "libtamligub1 (= {version}), libc6-dev"},
                        """decoder for Bildschirmtext pages - development files
 Headers, the static library, what pkg-config reads, and examples in C.
 .
""" + ABOUT),
    "python3-tamligub": (for_python, "all", "python", {"Depends": f"libtamligub1 (>= {{version}}), {PYTHON}", "Recommends": "tamligub"},
                         """decoder for Bildschirmtext pages - Python 3 package
 A decoder with types over the shared library: changes, looks, texts, edits.
 .
""" + ABOUT),
}
# What dpkg reads of the shared library: the name by which packages depend on it, and since when it has its functions.
SHLIBS = "libtamligub 1 libtamligub1 (>= {version})\n"
TRIGGERS = "activate-noawait ldconfig\n"
# The packages that have Python, each with the folder of its own in which that is, where it is in none that Python itself searches. Debian
# compiles it when a package is configured, and takes away what was compiled before the package goes.
COMPILED = {"tamligub": " /usr/share/tamligub", "python3-tamligub": ""}
SCRIPTS = {"postinst": "py3compile", "prerm": "py3clean"}
SCRIPT = """#!/bin/sh
set -e
if command -v {command} >/dev/null 2>&1; then
    {command} -p {name}{folder}
fi
"""


def symbols():
    lines = [f" {shared.VERSION}@{shared.VERSION} {VERSION}", *(f" {name}@{shared.VERSION} {VERSION}" for name in sorted(module.exports()))]
    return f"{shared.NAME} libtamligub1 #MINVER#\n" + "".join(line + "\n" for line in lines)


def asked(*words):
    """What another program prints; where it fails, what it says of that."""
    done = subprocess.run(words, capture_output=True, text=True, errors="surrogateescape")
    if done.returncode:
        raise Failed(f"{words[0]} failed: {done.stderr.strip()}")
    return done.stdout.strip()


def size_of(folder):
    """The size of what is in a folder, in units of 1,024 bytes."""
    return sum(os.lstat(os.path.join(at, name)).st_size for at, _, names in os.walk(folder) for name in names) // 1024 + 1


def multiarch():
    """The folder of this machine's kind in which Debian has libraries."""
    return getattr(sys.implementation, "_multiarch", None) or "x86_64-linux-gnu"


def put_about(place, name):
    """What each package says of itself."""
    for one in ("copyright", "changelog"):
        text = tree.bytes_of(os.path.join(ROOT, "debian", one))
        ending = ".gz" if one == "changelog" else ""
        place.write(f"share/doc/{name}/{one}{ending}", gzip.compress(text, 9, mtime=0) if ending else text)


def control_of(name, folder, known):
    """The text of a package's control file."""
    _, architecture, section, relations, description = PACKAGES[name]
    related = "\n".join(f"{key}: {value.format(**known)}" for key, value in relations.items())
    more = "Multi-Arch: same\n" if name == "libtamligub1" else ""
    return CONTROL.format(
        name=name, version=VERSION, architecture=architecture or known["architecture"], maintainer=MAINTAINER, size=size_of(folder),
        relations=related, section=section, more=more, description=description.rstrip("\n"),
    )


def sums(place):
    """The sum of each file, by which dpkg tells one that has changed."""
    files = sorted((name, file) for name, file in place.files.items() if isinstance(file, tree.File))
    return "".join(f"{hashlib.md5(file.data, usedforsecurity=False).hexdigest()}  usr/{name}\n" for name, file in files)


def told(name, place, known):
    """What dpkg is told of a package: the files of its folder DEBIAN."""
    told = tree.Tree(os.path.join(os.path.dirname(place.prefix), "DEBIAN"), None)
    texts = {"control": control_of(name, place.prefix, known), "md5sums": sums(place)}
    if name == "libtamligub1":
        texts |= {"shlibs": SHLIBS.format(version=VERSION), "symbols": symbols(), "triggers": TRIGGERS}
    for one, text in texts.items():
        told.write(one, text.encode())
    for one, command in SCRIPTS.items() if name in COMPILED else ():
        told.write(one, SCRIPT.format(command=command, name=name, folder=COMPILED[name]).encode(), 0o755)
    return told


def make_one(name, folder, binary, known):
    """Makes a package in a folder, and answers its path."""
    put, architecture, *_ = PACKAGES[name]
    path = os.path.join(folder, f"{name}_{VERSION}_{architecture or known['architecture']}.deb")
    with tempfile.TemporaryDirectory(prefix="btx-deb-") as top:
        os.chmod(top, 0o755)
        place = tree.Tree(os.path.join(top, "usr"), "/usr", f"lib/{multiarch()}")
        put(place, binary)
        put_about(place, name)
        place.lay()
        told(name, place, known).lay()
        tree.put(path, lambda new: asked("dpkg-deb", "--root-owner-group", "--build", top, new))
    return path


def make(folder, binary):
    """Makes the packages in a folder, those of the libraries where these were built, and answers their paths."""
    if not shutil.which("dpkg-deb"):
        raise Failed("--deb needs dpkg-deb, which isn't on this machine")
    above = folder
    while above and not os.path.lexists(above):
        above = os.path.dirname(above.rstrip("/"))
    if above and not os.path.isdir(above):
        raise Failed(f"{above} is no folder, and one is needed in its place")
    os.makedirs(folder, exist_ok=True)
    if not os.access(folder, os.W_OK | os.X_OK):
        raise Failed(f"{folder}: no package can be made there, since you may not write in it")
    _, libc = (os.confstr("CS_GNU_LIBC_VERSION") or "glibc 0").split(" ")
    known = {"version": VERSION, "architecture": asked("dpkg", "--print-architecture"), "libc": libc}
    names = PACKAGES if parts.is_built() else ("tamligub",)
    return [make_one(name, folder, binary, known) for name in names]
