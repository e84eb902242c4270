"""Makes a website of a collection of stored pages: the viewer for each, an index with small pictures, and a report. It may be
stopped and started again, and then goes on."""
import argparse
import contextlib
import dataclasses
import fcntl
import os
from collections.abc import Iterable, Iterator, Sequence
from types import ModuleType

from btx import collection, debian, files, html_file, jobs, lists, making, numbers, pillow, program, progress, say, viewer, website
from btx.statuses import NOT_THERE, Status

SUMMARY = "a website of a folder of pages, with an index and a report"
# A status, and the sentence that says why.
Fault = tuple[int, str]


def arguments(parser: argparse.ArgumentParser) -> None:
    usual = " ".join(collection.PATTERNS)
    parser.add_argument("folder", metavar="FOLDER")
    parser.add_argument("-o", "--output", metavar="OUT", required=True, help="the folder of the website")
    parser.add_argument(
        "--pattern", metavar="GLOB", action="append", default=[],
        help=f"which files are pages; may stand several times; without this {usual} in either case",
    )
    parser.add_argument("--title", metavar="TEXT", default="", help="the title of the website")
    parser.add_argument("--keep", action="store_true", help="keep and list pages that are no longer in the collection")
    separator = "german has semicolons in report.csv; without this english"
    parser.add_argument("--csv", choices=lists.SEPARATORS, default="english", help=separator)
    parser.add_argument("--jobs", metavar="N", type=numbers.whole("their number", 1),
                        help="how many pages are made at once; without this as many as processors")
    parser.add_argument("--again", action="store_true", help="make all pages again")
    parser.add_argument("--jobs-by", choices=("btx", "parallel"), default="btx", help="what runs the jobs; parallel is GNU parallel")
    parser.add_argument("--sshlogin", metavar="LOGIN", action="append", default=[], help="a machine for parallel; may stand several times")
    parser.add_argument("--remote", metavar="COMMAND", help="what btx is called on the machines of parallel")


def is_inside(path: str, folder: str) -> bool:
    path, folder = os.path.realpath(path), os.path.realpath(folder)
    return os.path.commonpath([path, folder]) == folder


def fault_of(options: argparse.Namespace) -> Fault | None:
    """Why an archive can't be begun with these words, and the status of that; None where it can."""
    out, folder = options.output, options.folder
    if "" in options.pattern:
        return Status.USAGE, "a pattern is empty, and no file has such a name; --pattern '*.btx' takes those that end in .btx"
    of_folders = next((pattern for pattern in options.pattern if "/" in pattern), None)
    if of_folders:
        return Status.USAGE, f"{of_folders}: a pattern is of names without their folders, as --pattern '{os.path.basename(of_folders)}'"
    if os.path.exists(out) and not os.path.isdir(out):
        return Status.USAGE, f"{html_file.shown_name(out)} is no folder, and the website needs one"
    if options.jobs_by != "parallel" and (options.sshlogin or options.remote):
        return Status.USAGE, f"{'--sshlogin' if options.sshlogin else '--remote'} is for --jobs-by parallel"
    if is_inside(out, folder):
        return Status.USAGE, f"{html_file.shown_name(out)} is in the collection; the website needs a folder outside of it"
    if any(is_inside(folder, os.path.join(out, kind)) for kind in website.FOLDERS):
        return Status.USAGE, f"{html_file.shown_name(folder)} is a folder that the website takes for itself"
    if website.is_foreign(out):
        said = "has other files in it, which stay; the website needs a new or empty folder, or one that archive has made"
        return Status.UNREAD, f"{html_file.shown_name(out)} {said}"
    if options.jobs_by == "parallel" and not jobs.has_parallel():
        return NOT_THERE, "GNU parallel isn't on this machine (Debian: apt-get install parallel)"
    return None


@contextlib.contextmanager
def alone(out: str) -> Iterator[None]:
    """Holds the folder of a website, as far as its file system can: two runs would take each other's files away."""
    os.makedirs(out, exist_ok=True)
    folder = os.open(out, os.O_RDONLY)
    try:
        fcntl.flock(folder, fcntl.LOCK_EX | fcntl.LOCK_NB)
    except BlockingIOError:
        raise OSError(0, "another run of archive makes this website now", html_file.shown_name(out)) from None
    except OSError:
        pass
    try:
        yield
    finally:
        os.close(folder)


def known(site: website.Website, here: collection.Collection, name: str) -> making.Facts | None:
    """The facts of a page that is made already of the very bytes that it has, or None."""
    facts = site.whole(name)
    try:
        return facts if facts and making.sum_of(making.stored(here.path(name))) == facts.sha256 else None
    except making.Unread:
        return None


def painter() -> ModuleType | None:
    """Pillow's module of images. Where there is none it says so, and no pictures are made."""
    try:
        return pillow.image()
    except debian.Missing as fault:
        say(f"archive: no small pictures are made: {fault}")
        return None


def no_longer(facts: making.Facts, why: str) -> making.Facts:
    return dataclasses.replace(facts, meaning=f"{facts.meaning}; {why}")


class Archive:
    """An archive that is being made: facts of its pages by their names."""

    def __init__(self, options: argparse.Namespace, here: collection.Collection) -> None:
        self.options, self.here = options, here
        self.site = website.Website(options.output, painter(), viewer.module_script())
        unread = {folder: making.unreadable_folder(why) for folder, why in here.unread.items()}
        there = {} if options.again else {name: known(self.site, here, name) for name in here.names}
        self.facts = {**unread, **{name: old for name, old in there.items() if old}}
        self.wanted = [name for name in here.names if name not in self.facts]
        self.there = len(here.names) - len(self.wanted)
        self.gone = 0

    def sort_out(self) -> None:
        """Removes what was made of pages that left the collection, or lists it. What is behind a folder that can't be read stays."""
        names = set(self.here.names)
        for name in self.site.names() - names:
            behind = self.here.is_behind(name)
            if not behind:
                self.gone += 1
            if behind or self.options.keep:
                facts = self.site.facts(name)
                if facts:
                    self.facts[name] = no_longer(facts, "its folder can't be read now" if behind else "no longer in the collection")
            else:
                self.site.remove(name)

    def results(self, path: program.Runner) -> Iterable[jobs.Result]:
        """The name and facts of each page as it is made."""
        if self.options.jobs_by == "parallel":
            return jobs.by_parallel(self.site, self.here, self.wanted, jobs.parallel_words(self.options)) if self.wanted else ()
        return jobs.by_threads(path, self.site, self.here, self.wanted, self.options.jobs or len(os.sched_getaffinity(0)))

    def write_lists(self) -> None:
        lists.write(self.options.output, self.facts, lists.SEPARATORS[self.options.csv])

    def make(self, path: program.Runner) -> int:
        """Makes what isn't there; the lists are there from the first, and are written anew while it goes."""
        self.site.begin(self.options.title)
        self.sort_out()
        seldom = progress.NowAndThen(self.write_lists)
        line = progress.Progress(len(self.wanted))
        for name, made in self.results(path):
            self.facts[name] = made
            line.step(made)
            seldom.step()
        lacking = [name for name in self.wanted if name not in self.facts]
        self.facts.update({name: making.Facts(None, Status.NO_ROOM, "not made") for name in lacking})
        self.write_lists()
        return len(lacking)

    def told(self) -> None:
        """Says what was made, and what wasn't taken."""
        pages = [facts for name, facts in self.facts.items() if name not in self.here.unread]
        refused = sum(facts.status == Status.REFUSALS for facts in pages)
        unmade = sum(facts.status == Status.NO_ROOM for facts in pages)
        unread = sum(not facts.is_read() for facts in pages) - unmade
        index = html_file.shown_name(os.path.join(self.options.output, "index.html"))
        counts = f"{refused:,} with refused items, {unread:,} not read" + (f", {unmade:,} not made" if unmade else "")
        there = f"{self.there:,} {'was' if self.there == 1 else 'were'} there"
        print(f"{collection.several(len(pages), 'page')}, {counts}; {there}: {index}")
        folders, same = len(self.here.unread), len(lists.alike(self.facts))
        kept = "kept" if self.options.keep else "removed"
        notes = [
            folders and f"{closed(self.here)}; the report names {'it' if folders == 1 else 'them'}",
            self.gone and f"{collection.several(self.gone, 'page')} no longer in the collection: {kept}",
            same and f"{same:,} pages with a screen that another has too; the report names them", collection.left_aside(self.here),
        ]
        for note in filter(None, notes):
            print(note)


def closed(here: collection.Collection) -> str:
    """A sentence on the folders that can't be read; empty where there are none."""
    return f"{collection.several(len(here.unread), 'folder')} can't be read" if here.unread else ""


def nothing_in(here: collection.Collection, patterns: Sequence[str]) -> tuple[str, str, str]:
    """Why a collection has no page."""
    return f"there is no page in it, named {' '.join(patterns or collection.PATTERNS)}", closed(here), collection.left_aside(here)


def run(path: program.Runner, options: argparse.Namespace) -> int:
    fault = fault_of(options)
    here = collection.Collection(options.folder) if fault else collection.found(options.folder, options.pattern)
    if not fault and not here.names:
        fault = Status.UNREAD, f"{html_file.shown_name(options.folder)}: {'; '.join(filter(None, nothing_in(here, options.pattern)))}"
    if fault:
        say(f"archive: {fault[1]}")
        return fault[0]
    files.write_utf8()
    with alone(options.output):
        archive = Archive(options, here)
        lacking = archive.make(path)
    archive.told()
    if lacking:
        unmade = f"{collection.several(lacking, 'page was', 'pages were')} not made{jobs.needs(options)}"
        say(f"archive: {unmade}; the same command goes on with {'it' if lacking == 1 else 'them'}")
    return Status.NO_ROOM if lacking else 0
