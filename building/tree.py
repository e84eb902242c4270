"""A tree of files under a prefix, with a list of what was put there, by which it is taken away."""
import contextlib
import hashlib
import itertools
import os
import shutil
import time
from typing import NamedTuple

# What is installed under a prefix: a line for each file, with a tab and its mark, and for each folder that was made.
LIST = "share/tamligub/installed"
# For each file the marks that it may have; without any it is ours whatever it is, as one that is being written.
Marks = dict[str, set[str]]
# What a file that is being written ends with.
NEW = ".tamligub-new"
# The folder in which Python keeps what it compiles of the files beside it.
COMPILED = "__pycache__"
# So many files of others are named.
NAMED = 3


class Refused(Exception):
    """Nothing was put under a prefix; the text says what stands there."""


class File(NamedTuple):
    """A file of bytes."""

    data: bytes
    mode: int

    def make(self, path):
        with open(path, "wb") as file:
            file.write(self.data)
        os.chmod(path, self.mode)

    def mark(self):
        return mark_of(self.data)


class Link(NamedTuple):
    """A link to a file beside it."""

    target: str

    def make(self, path):
        os.symlink(self.target, path)

    def mark(self):
        return f"-> {self.target}"


class Tree:
    """What is to be installed under a prefix, which is known as `known_as` once it is in use; `libraries` is where it has libraries."""

    def __init__(self, prefix, known_as, libraries="lib"):
        self.prefix, self.known_as, self.libraries = prefix, known_as, libraries
        self.files: dict[str, File | Link] = {}
        # The time of all its files, in pairs of seconds, as each file system keeps them.
        self.moment = int(time.time()) // 2 * 2

    def write(self, place, data, mode=0o644):
        """A file of bytes."""
        self.files[place] = File(data, mode)

    def copy(self, place, source, mode=0o644):
        self.write(place, bytes_of(source), mode)

    def link(self, place, target):
        self.files[place] = Link(target)

    def path(self, place):
        """The path of a place; the prefix itself is the one without a name."""
        return path_of(self.prefix, place)

    def folders(self):
        """The folders that are needed, outer ones first."""
        return dict.fromkeys(folder for place in (*self.files, LIST) for folder in above(place))

    def missing(self):
        """The folders that are needed and aren't there, outer ones first; those in which the prefix is to be too."""
        around = ("/".join([".."] * count) for count in itertools.count(1))
        outer = list(itertools.takewhile(lambda place: not os.path.isdir(self.path(place)), around))
        return [*reversed(outer), *(folder for folder in self.folders() if not os.path.isdir(self.path(folder)))]

    def check(self, known, replaces):
        """Refuses a prefix where a folder stands in the place of a file, or a file in that of a folder. Unless these are to be replaced,
        it refuses files too that aren't among those that are known to be installed there."""
        for folder in self.missing():
            if os.path.lexists(self.path(folder)):
                raise Refused(f"{self.path(folder)} is no folder, and one is needed in its place")
        for place in (*self.files, LIST):
            if os.path.isdir(self.path(place)) and not os.path.islink(self.path(place)):
                raise Refused(f"{self.path(place)} is a folder, in the place of a file")
        strange = [] if replaces else [self.path(place) for place in self.files if place not in known and self.is_strange(place)]
        if strange:
            raise Refused(f"files that no install has put there are in the way: {named(strange)}; --replace replaces them")

    def is_strange(self, place):
        """Whether something else is in the place of a file."""
        return os.path.lexists(self.path(place)) and not self.stands(place)

    def stands(self, place):
        """Whether the very file is in its place."""
        return mark_at(self.path(place)) == self.files[place].mark()

    def lay(self, left=()):
        """Writes the files, but for some that are left as they are, and makes their folders."""
        for place, file in self.files.items():
            if place not in left:
                os.makedirs(os.path.dirname(self.path(place)), exist_ok=True)
                put(self.path(place), file.make, self.moment)

    def put_list(self, files, folders):
        """Writes a list of what is under the prefix. Folders that it needs come with it at once, so that none stands without a list."""
        marked = (f"{place}\t{mark}" if mark else place for place, marks in files.items() for mark in sorted(marks) or [""])
        lines = [*marked, LIST, *(folder + "/" for folder in folders)]
        file = File("".join(line + "\n" for line in dict.fromkeys(lines)).encode(), 0o644)
        outer, place = begun(self.prefix)
        if place:
            put_folder(outer, place, file)
        else:
            put(outer, file.make)

    def put_first_list(self, earlier, files, folders):
        """Writes a list of what may be under the prefix until all is written: that of an earlier install too, and files that are being
        written."""
        marks = {place: earlier[place] and earlier[place] | files.get(place, set()) for place in earlier}
        self.put_list({**files, **marks, **{place + NEW: set() for place in (*files, LIST)}}, folders)

    def install(self, replaces):
        """Writes all but what stands there and isn't known to be ours, takes away what an earlier install left and this one didn't, and
        writes the list of what is there. Answers the paths of what was taken away."""
        earlier, folders = listed(self.prefix)
        earlier = {place: marks for place, marks in earlier.items() if is_ours(self.prefix, place, marks)}
        self.check(set(earlier), replaces)
        left = {place for place in self.files if place not in earlier and self.stands(place)}
        files = {place: {timed(file.mark(), self.moment)} for place, file in self.files.items() if place not in left}
        made = self.missing()
        self.put_first_list(earlier, files, [*folders, *made])
        self.lay(left)
        gone = [place for place in earlier if place not in self.files and os.path.lexists(self.path(place))]
        take_away(self.prefix, gone, [*folders, *made])
        self.put_list(files, [folder for folder in (*folders, *made) if os.path.isdir(self.path(folder))])
        return [self.path(place) for place in gone if not place.endswith(NEW)]


def path_of(prefix, place):
    """The path of a place, which is the prefix, below it, or as .. above it."""
    return os.path.normpath(os.path.join(prefix, place))


def above(place):
    """The folders that a place is in, outer ones first; the prefix is the one without a name."""
    names = place.split("/")[:-1]
    return ["/".join(names[:count]) for count in range(len(names) + 1)]


def bytes_of(path):
    with open(path, "rb") as file:
        return file.read()


def mark_of(data):
    """The mark of a file with these bytes, by which a list tells it from others."""
    return hashlib.sha256(data).hexdigest()


def mark_at(path):
    """The mark of the file or the link at a path; None where there is neither."""
    if os.path.islink(path):
        return Link(os.readlink(path)).mark()
    return mark_of(bytes_of(path)) if os.path.isfile(path) else None


def timed(mark, moment):
    """A mark with the time of the file: a package that came over an install may have the same bytes, and has times of its own."""
    return f"{mark} {moment}"


def is_ours(prefix, place, marks):
    """Whether what stands at a place of the list is what an install has put there."""
    path = path_of(prefix, place)
    mark = mark_at(path)
    return not marks or mark is not None and timed(mark, int(os.lstat(path).st_mtime)) in marks


def named(paths):
    """The first of some paths, and how many more there are."""
    return ", ".join(paths[:NAMED]) + (f" and {len(paths) - NAMED} more" if len(paths) > NAMED else "")


def put(path, make, moment=None):
    """What `make` makes at a path, by another name first, so that a program that runs is replaced and not written over; with some time,
    where one is given. Where it fails nothing of it stays, and the fault names the path."""
    with contextlib.suppress(FileNotFoundError):
        os.remove(path + NEW)
    try:
        make(path + NEW)
        if moment is not None:
            os.utime(path + NEW, (moment, moment), follow_symlinks=False)
        os.replace(path + NEW, path)
    except BaseException as fault:
        with contextlib.suppress(FileNotFoundError):
            os.remove(path + NEW)
        if isinstance(fault, OSError):
            fault.filename = path
        raise


def put_folder(path, place, file):
    """A folder with a file at a place in it, at once: by another name first. Where it fails nothing of it stays, and the fault names the
    path."""
    take_away(path + NEW, [place], above(place))
    try:
        os.makedirs(os.path.dirname(os.path.join(path + NEW, place)))
        file.make(os.path.join(path + NEW, place))
        os.rename(path + NEW, path)
    except BaseException as fault:
        take_away(path + NEW, [place], above(place))
        if isinstance(fault, OSError):
            fault.filename = path
        raise


def begun(prefix):
    """What an install puts first: the outermost folder above its list that isn't there, and the list's place in that; the list itself and
    no place where it has its folder."""
    path = os.path.abspath(path_of(prefix, LIST))
    names: list[str] = []
    while not os.path.isdir(os.path.dirname(path)):
        path, name = os.path.split(path)
        names.insert(0, name)
    return path, "/".join(names)


def listed(prefix):
    """The files that are installed under a prefix with their marks, the list aside, and the folders that were made, outer ones first."""
    path = os.path.join(prefix, LIST)
    files: Marks = {}
    folders = []
    for place, _, mark in (line.partition("\t") for line in (bytes_of(path).decode().splitlines() if os.path.isfile(path) else [])):
        if place.endswith("/"):
            folders.append(place[:-1])
        elif place != LIST:
            files.setdefault(place, set()).update([mark] if mark else [])
    return files, folders


def others(prefix, files):
    """Which files of the list are no longer what an install has put there: what others have written in their place stays."""
    return [place for place, marks in files.items() if os.path.lexists(path_of(prefix, place)) and not is_ours(prefix, place, marks)]


def take_away(prefix, files, folders):
    """Takes files away, and the folders in which nothing is left."""
    for place in files:
        with contextlib.suppress(FileNotFoundError):
            os.remove(path_of(prefix, place))
    for place in reversed(folders):
        path = path_of(prefix, place)
        if os.path.isdir(path) and not os.listdir(path):
            os.rmdir(path)


def take_begun(prefix):
    """Takes away the list of an install that ended before it was written, with the folders that came with it or have nothing else."""
    outer, place = begun(prefix)
    if place:
        take_away(outer + NEW, [place], above(place))
    elif os.path.isfile(outer + NEW):
        take_away(prefix, [LIST + NEW], [os.path.dirname(LIST)])


def take_compiled(prefix, folders):
    """Takes away what Python has compiled of files in the folders of btx that were made."""
    own = os.path.dirname(LIST)
    for place in (folder for folder in folders if f"{folder}/".startswith(f"{own}/")):
        path = os.path.join(prefix, place, COMPILED)
        if os.path.isdir(path) and not os.path.islink(path):
            shutil.rmtree(path)
