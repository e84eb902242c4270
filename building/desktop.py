"""What a desktop makes of the types and entries under a prefix: by which commands, and what an uninstall leaves of it."""
import glob
import os
import shlex
import shutil
from typing import NamedTuple

from building import tree


class Notes(NamedTuple):
    """What a command makes in a folder, of files that many programs put there."""

    does: str
    command: str
    package: str
    folder: str
    sources: str
    made: tuple[str, ...]

    def line(self, prefix):
        """The command as it is typed."""
        return f"{self.command} {shlex.quote(os.path.join(prefix, self.folder))}"


LISTS = (
    "XMLnamespaces", "aliases", "generic-icons", "globs", "globs2", "icons", "magic", "mime.cache", "subclasses", "treemagic", "types",
    "version",
)
TYPE = "application/x-bildschirmtext.xml"
# Where a desktop looks if nothing says otherwise.
SHARED = "/usr/local/share:/usr/share"
ALL = (
    Notes("knows .btx files", "update-mime-database", "shared-mime-info", "share/mime", "packages/*.xml", (*LISTS, TYPE)),
    Notes("opens them", "update-desktop-database", "desktop-file-utils", "share/applications", "**/*.desktop", ("mimeinfo.cache",)),
)


def searched():
    """The folders in which a desktop looks, as its login has them or else by the standard of the XDG base directories."""
    own = os.environ.get("XDG_DATA_HOME") or os.path.expanduser("~/.local/share")
    return [own, *(os.environ.get("XDG_DATA_DIRS") or SHARED).split(os.pathsep)]


def made_known(prefix):
    """What makes a desktop take notice of what was put under a prefix, and which package has a command that isn't there."""
    for notes in ALL:
        yield f"a desktop {notes.does} after: {notes.line(prefix)}"
        if not shutil.which(notes.command):
            yield f"{notes.command} isn't on this machine (Debian: apt-get install {notes.package})"
    share = os.path.join(prefix, "share")
    if os.pathsep in share:
        yield f"it looks in no folder with {os.pathsep} in its name, which XDG_DATA_DIRS can't name"
    elif share not in [os.path.normpath(one) for one in searched()]:
        yield f"it looks there only where its login has: XDG_DATA_DIRS={shlex.quote(share)}:${{XDG_DATA_DIRS:-{SHARED}}}"
    if not f"{prefix}/".startswith("/usr/"):
        yield "GNOME makes small pictures by programs within /usr alone: they take a prefix there, such as /usr/local"


def forget(prefix):
    """Once all was taken away under a prefix, takes away what was made of it where nothing else is there to be made something of. Answers
    the commands that make it again of the rest."""
    left = []
    for notes in ALL:
        at = os.path.join(prefix, notes.folder)
        if not any(os.path.exists(os.path.join(at, place)) for place in notes.made):
            continue
        if glob.glob(os.path.join(glob.escape(at), notes.sources), recursive=True):
            left.append(notes.line(os.path.abspath(prefix)))
        else:
            tree.take_away(at, notes.made, [os.path.dirname(place) for place in notes.made if "/" in place])
    return left
