"""Files that words read and write. A page or a script that is named - is standard input, and what -o names is written whole or not at
all."""
import contextlib
import io
import os
import stat
import sys
import tempfile
import threading
from collections.abc import Iterator
from typing import IO

from btx import ERRORS, program, say

STANDARD = "-"
# How the names begin of what this process has open; another has something else by them.
OWN = ("/dev/stdin", "/dev/fd/", "/proc/self/")
INPUT, OUTPUT = 0, 1
MOST_PAGE = 2**24
# After so many seconds it is said that a pipe is waited for.
PATIENCE = 1


class Dropped(Exception):
    """What was written isn't whole, and isn't kept."""


def hold_streams() -> None:
    """Has no other file take the number of a standard stream that is closed: one is there in its place that can't be read or written, and for
    messages one that keeps nothing."""
    for number, mode in enumerate((os.O_WRONLY, os.O_RDONLY, os.O_WRONLY)):
        try:
            os.fstat(number)
        except OSError:
            os.dup2(os.open(os.devnull, mode), number)
            os.set_inheritable(number, True)
    sys.stdin = sys.stdin or open(INPUT, encoding="utf-8", closefd=False)
    sys.stdout = sys.stdout or open(OUTPUT, "w", encoding="utf-8", closefd=False)
    sys.stderr = sys.stderr or open(ERRORS, "w", encoding="utf-8", errors="backslashreplace", closefd=False)


def mode_of(name: str) -> int:
    """The kind of a file, or of standard input; 0 where there is none."""
    try:
        return (os.fstat(INPUT) if name == STANDARD else os.stat(name)).st_mode
    except (OSError, ValueError):
        return 0


def comes_slowly(name: str) -> bool:
    """Whether it is a pipe or a terminal, which can be read once, and has its end only when what writes it ends."""
    return stat.S_ISFIFO(mode_of(name)) or name == STANDARD and os.isatty(INPUT)


def is_plain(name: str) -> bool:
    """Whether a name is that of a file that can be read twice, and by another process."""
    return name != STANDARD and not name.startswith(OWN) and stat.S_ISREG(mode_of(name))


@contextlib.contextmanager
def patience(*names: str) -> Iterator[None]:
    """Says on a terminal, after a second, which pipe among the names is waited for."""
    slow = next(filter(comes_slowly, names), None)
    shown = "standard input" if slow == STANDARD else slow
    ends = "Ctrl D ends it" if slow == STANDARD and os.isatty(INPUT) else "this waits for what writes it"
    timer = threading.Timer(PATIENCE, say, [f"{shown} is a {'terminal' if ends[0] == 'C' else 'pipe'}; {ends}"])
    timer.daemon = True
    if slow and sys.stderr and sys.stderr.isatty():
        timer.start()
    try:
        yield
    finally:
        timer.cancel()


def read(name: str, most: int) -> bytes:
    """The bytes of a file, no more than one above the most."""
    if name == STANDARD:
        return sys.stdin.buffer.read(most + 1)
    with open(name, "rb") as file:
        return file.read(most + 1)


@contextlib.contextmanager
def copy_of(data: bytes) -> Iterator[str]:
    """The name of a file with these bytes, which goes away. Why it can't be written, as on a full disk, is raised with its name."""
    with tempfile.NamedTemporaryFile(prefix="btx-", buffering=0) as file:
        try:
            put_all(file.fileno(), data)
        except OSError as fault:
            raise OSError(fault.errno, fault.strerror, file.name) from None
        yield file.name


@contextlib.contextmanager
def readable(name: str) -> Iterator[str]:
    """A name by which the program can read a page: of standard input that of its pipe, or else of a copy."""
    if name != STANDARD:
        yield name
    elif comes_slowly(name):
        yield "/dev/stdin"
    else:
        with copy_of(read(name, MOST_PAGE)) as copy:
            yield copy


@contextlib.contextmanager
def read_again(name: str) -> Iterator[str]:
    """A name by which a page can be read several times: of what can be read once, as a pipe, that of a copy."""
    if name != STANDARD and (is_plain(name) or not os.path.exists(name) or os.path.isdir(name)):
        yield name
        return
    with patience(name):
        data = read(name, MOST_PAGE)
    with copy_of(data) as copy:
        try:
            yield copy
        except program.Ended as end:
            end.words = [name if word == copy else word for word in end.words]
            raise


def write_utf8(newline: str | None = None) -> None:
    """Has standard output write UTF-8, with some end of lines."""
    if isinstance(sys.stdout, io.TextIOWrapper):
        sys.stdout.reconfigure(encoding="utf-8", newline=newline)


def put_all(output: int, data: bytes) -> None:
    """Writes bytes to an open file, by its number, whole."""
    left = memoryview(data)
    while left:
        left = left[os.write(output, left) :]


def mode_for(path: str) -> int:
    """The mode of a file that is written anew: that of the one in its place, or that of any new file."""
    if os.path.exists(path):
        return stat.S_IMODE(os.stat(path).st_mode)
    mask = os.umask(0)
    os.umask(mask)
    return 0o666 & ~mask


def written_over(output: str | None, *names: str) -> str | None:
    """Which of some files that are read is the one that an output replaces, or None."""
    return next((name for name in names if output and is_plain(name) and is_plain(output) and os.path.samefile(name, output)), None)


@contextlib.contextmanager
def replacing(path: str) -> Iterator[IO[bytes]]:
    """A new file that takes the place of one once all is written. A name that ends in / is that of a folder."""
    if path.endswith(os.sep):
        raise OSError(0, "no such folder", path)
    target = os.path.realpath(path)
    try:
        file = tempfile.NamedTemporaryFile(prefix=".btx-", dir=os.path.dirname(target), delete=False)
    except OSError as fault:
        raise OSError(fault.errno, fault.strerror, path) from None
    try:
        with file:
            yield file
        try:
            os.chmod(file.name, mode_for(target))
            os.replace(file.name, target)
        except OSError as fault:
            raise OSError(fault.errno, fault.strerror, path) from None
    except BaseException:
        os.unlink(file.name)
        raise


@contextlib.contextmanager
def output(path: str) -> Iterator[IO[bytes]]:
    """The file of a path, as a stream of bytes, or standard output. A device or a pipe is written as it comes."""
    if path in (None, STANDARD):
        yield sys.stdout.buffer
        sys.stdout.buffer.flush()
    elif os.path.exists(path) and not os.path.isfile(path):
        with open(path, "wb") as file:
            yield file
    else:
        with replacing(path) as file:
            yield file
