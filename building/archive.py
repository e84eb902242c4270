"""The static library of the crate `tamligub`, and the bitcode of the same build: the kit proves this one crate over libraries that are
proved, and compiles it."""
import os
import re
import shlex

from building import Stop, crates, kit, running

NAME = "tamligub"
# A compiler that keeps the bitcode that it is handed.
KEEPS = '[ ! -f module.bc ] || cp module.bc KEPT || exit\nexec TOOL "$@"\n'
JOBS, EACH = 4, 2_000_000_000
PROVED = re.compile(r"^logic=proved .*", re.MULTILINE)


def jobs():
    """How many processes share the proof: as many as processors, but no more than gain by it and than have memory."""
    with open("/proc/meminfo", encoding="ascii") as file:
        free = re.search(r"MemAvailable:\s+(\d+)", file.read())
    places = 1024 * int(free[1]) // EACH if free else 1
    return max(1, min(JOBS, len(os.sched_getaffinity(0)), places))


def words_of(folder, libraries):
    """The words that name the crate's libraries: those of the kit and those of the repository, which were built in a folder."""
    built = {name: os.path.join(libraries, "crates", name, "out", "rlib") for name in crates.below(NAME)}
    words = []
    for name in ["std", *crates.of_kit(NAME)]:
        words += ["--extern", f"{name}={folder}/rlibs/{name}.rlib"]
    for name in crates.uses()[NAME]:
        words += ["--extern", f"{name}={built[name]}/{name}.rlib"]
    for place in [f"{folder}/rlibs", *built.values()]:
        words += ["-L", f"dependency={place}"]
    return words


def make(source, libraries, work):
    """Proves and builds the crate of a folder over the libraries of another. Answers the paths of the archive and of the bitcode."""
    folder, archive, bitcode = kit.found(), os.path.join(work, "libtamligub.a"), os.path.join(work, "module.bc")
    tools = kit.toolchain(folder, work, "clang", KEEPS.replace("KEPT", shlex.quote(bitcode)))
    words = [f"{folder}/bin/rattle", "build", "--crate-name", NAME, "src/lib.rt", *words_of(folder, libraries)]
    words += ["--antt-project", f"{folder}/rattle/logic/antt-project.json", "--logic-built", f"{folder}/logic_built"]
    words += ["--links", f"{NAME}=", "--crate-type", "staticlib", "--toolchain", tools, "--backend", "llvm", "--jobs", str(jobs())]
    words += ["-o", archive]
    status, said = running.put(words, cwd=source)
    if status != 0 or not PROVED.search(said) or not os.path.exists(bitcode):
        raise Stop(f"the library isn't proved and built, rattle ended with status {status}:\n{said}".rstrip())
    with_heap(folder, archive)
    return archive, bitcode


def with_heap(folder, archive):
    """Puts the kit's heap, which is malloc, realloc and free, into the archive: with it inside nothing else has to be linked."""
    for words in (["x", f"{folder}/c/liblibc_c.a", "heap.pic.o"], ["--format=gnu", "r", archive, "heap.pic.o"]):
        running.do(f"{folder}/toolchain/bin/llvm-ar", *words, cwd=os.path.dirname(archive))
