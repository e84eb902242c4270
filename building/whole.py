"""Program, library and module of one proof."""
import os
import shutil
import sys
import tempfile

from building import ROOT, archive, crates, module, npm, plan, proving, running, shared, tell, tree

PROGRAM = "cept_tool"
PLACE = os.path.join(ROOT, "crates", PROGRAM, "out", PROGRAM)
LIBRARY = os.path.join(ROOT, "library", "out")
SIGNS, CONFIG = "tamligub_signs.h", "tamligub.pc"
MADE = ("libtamligub.a", shared.NAME, "tamligub.h", SIGNS, "tamligub64.wasm", "tamligub.wasm")


def put(source, path, mode):
    """Puts a file in its place at once, also where another that runs stands there."""
    def copy(new):
        shutil.copyfile(source, new)
        os.chmod(new, mode)

    os.makedirs(os.path.dirname(path), exist_ok=True)
    tree.put(path, copy)
    return path


def linked(target, path):
    """A link in its place at once."""
    tree.put(path, lambda new: os.symlink(target, new))
    return path


def beside(out):
    """What stands beside the libraries: what pkg-config reads, and the name by which a linker finds the shared one. Answers the paths."""
    here = "${pcfiledir}"
    path = os.path.join(out, CONFIG)
    with open(path, "w", encoding="utf-8") as file:
        file.write(shared.pkg_config(here, here, here, shared.version(), is_searched=False))
    return [linked(shared.NAME, os.path.join(out, shared.LINK)), path]


def put_library(paths, out):
    """Puts what was made of the library into a folder, and takes away what an earlier build left there of the rest. Answers the paths."""
    for name in MADE:
        path = os.path.join(out, name)
        if os.path.exists(path) and name not in [os.path.basename(one) for one in paths]:
            os.remove(path)
    kept = [put(path, os.path.join(out, os.path.basename(path)), 0o644) for path in paths]
    wasm = os.path.join(out, "tamligub.wasm")
    shutil.rmtree(os.path.join(out, npm.FOLDER), ignore_errors=True)
    return kept + beside(out) + ([npm.make(wasm, out)] if wasm in kept else [])


def signs_for_c(work):
    """The header that says how signs look. Answers its path."""
    path = os.path.join(work, SIGNS)
    running.do(sys.executable, os.path.join(ROOT, "shapes", "make"), "--header", path, cwd=work)
    return path


def begin(names):
    """The plan of these crates; says how long they take."""
    lacking, course = module.lacking(), plan.Plan(names, len(os.sched_getaffinity(0)))
    tell(course.beginning())
    if lacking:
        tell(lacking)
    return course


def make(out, with_program):
    """Proves the library, and the program where it is asked for, and puts what is made in its place. Answers the paths."""
    npm.check(out)
    programs = [PROGRAM] if with_program else []
    below = crates.below(*programs, archive.NAME) + programs
    course = begin([*below, archive.NAME])
    os.makedirs(out, exist_ok=True)
    with tempfile.TemporaryDirectory(prefix="tamligub-build-") as work:
        proved = crates.repository(below, os.path.join(work, "proved"))
        source = crates.copied(archive.NAME, os.path.join(work, archive.NAME))
        proving.prove(proved, course)
        paths = [put(os.path.join(proved, "crates", name, "out", name), PLACE, 0o755) for name in programs]
        built, bitcode = archive.make(source, proved, work)
        tell(course.done(archive.NAME))
        headers = [shutil.copy(module.HEADER, work), signs_for_c(work)]
        return paths + put_library([built, shared.make(built, work), *headers, *module.make(bitcode, work)], out)
