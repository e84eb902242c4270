"""What a status of the program means where it came, in a sentence."""
import os
import select
import shlex
from collections.abc import Callable, Sequence
from typing import NamedTuple

from btx import faults, files, library, program, typed
from btx.statuses import Status

MOST_PAGE, MOST_SCRIPT = files.MOST_PAGE, typed.MOST
OUTPUT = 1
COUNTS = {1: "one", 2: "two"}
EMPTY = "a name is empty"
FOLDERS = "; btx archive takes a folder and makes its pages a website"
is_file = files.is_plain


class Given(NamedTuple):
    """What the program is given: its words, the bytes of a script or a drawing among them as they were typed, and the file of its
    output."""

    words: Sequence[str] = ()
    typed: bytes | None = None
    out: str | None = None


class Run(NamedTuple):
    """A run that has ended: what ran the word, the words after it as people gave them, and what the program was given of them."""

    path: program.Runner
    word: str
    words: Sequence[str]
    given: Given = Given()


def usage(word: str) -> str:
    return f"usage: btx {word} {program.WORDS[word][0]} [-o FILE]"


def files_of(word: str, words: Sequence[str]) -> Sequence[str]:
    """The words that name files: all but a number."""
    return words[:1] if word == "flash" else words


def kind_of(word: str) -> str:
    """What the second word after it names: a script or a drawing."""
    return program.WORDS[word][0].split(" ")[-1].lower()


def why(fault: OSError) -> str:
    """Why a call of the system failed, as a sentence ends."""
    text = fault.strerror or str(fault)
    return text[:1].lower() + text[1:]


def fault_of(path: str) -> str | None:
    """Why a file can't be opened or read, or None where it can."""
    if path == files.STANDARD:
        return None
    try:
        # A pipe that was read waits for another who writes it.
        with open(path, "rb", opener=lambda name, mode: os.open(name, mode | os.O_NONBLOCK)) as file:
            file.read(0 if files.comes_slowly(path) else 1)
    except FileNotFoundError:
        return "no such file"
    except OSError as fault:
        return why(fault)
    return None


def refused(run: Run) -> str:
    """How many items are refused, where the page can be read once more."""
    page, counts = run.words[0], None
    if is_file(page):
        output, status = program.put(run.path, "check", page)
        counts = program.counts_in(output.decode("ascii")) if status == Status.REFUSALS else None
    if counts is None:
        return "some items of the page are refused"
    items, bad = counts
    said = f"{bad} of {items} items {'is' if bad == 1 else 'are'} refused"
    return said if run.word == "check" else f"{said}; btx check {shlex.quote(page)} names {'it' if bad == 1 else 'them'}"


def not_utf8(word: str, names: Sequence[str]) -> str:
    """That the bytes of a name aren't UTF-8, as the program takes names; empty where those of all are."""
    for name in names:
        shown = os.fsencode(name).decode("utf-8", "backslashreplace")
        if shown != name:
            return f"the name {shown} isn't UTF-8, and the program takes no other; btx {word} - reads standard input"
    return ""


def of_count(word: str, words: Sequence[str], wanted: Sequence[str]) -> str:
    """That there are too few words, or too many, of which one may be meant as an option."""
    option = next((name for name in words if len(name) > 1 and name.startswith("-")), None)
    if option:
        return f"{typed.shown(option)} is no option of {word}"
    return f"takes {COUNTS[len(wanted)]} word{'s' if len(wanted) > 1 else ''} after it, {' and '.join(wanted)}, and not {len(words)}"


def no_request(run: Run) -> str:
    """Why the words are no request."""
    word, words, wanted = run.word, run.words, program.WORDS[run.word][0].split(" ")
    if len(words) != len(wanted):
        reason = of_count(word, words, wanted)
    elif "" in words:
        reason = EMPTY
    elif wanted[-1] == "NUMBER":
        reason = f"{words[-1]} is no number from 0 to {library.MOST[word]} in one to ten digits"
    elif len(set(words)) < len(words):
        reason = f"{' and '.join(wanted)} have the same name"
    else:
        reason = not_utf8(word, words) or "the words can't be read"
    return f"{word}: {reason}\n{usage(word)}"


def no_name(word: str, words: Sequence[str]) -> str:
    """Why a page that was given to a word of btx itself has no name that the program takes."""
    reason = EMPTY if "" in words else not_utf8(word, words) or "the program takes no such name"
    return f"{word}: {reason}"


def lost(name: str) -> str:
    """That the output would replace a file that is read."""
    return f"-o names {name}, which is read here and would be lost; another name keeps it"


def bad_lines(run: Run) -> str:
    """Which lines of the script or the drawing are bad, and what is wrong in each; and whether it looks like a page or the other of these."""
    name, script, kind = run.words[1], run.given.typed or b"", kind_of(run.word)
    return "\nbtx: ".join(f"{run.word}: {one}" for one in [*faults.told(run.path, name, script, kind), *faults.hint(name, script, kind)])


def unreadable(run: Run) -> str:
    """Which file can't be read, and why."""
    names = files_of(run.word, run.words)
    for name in reversed(names):
        fault = fault_of(name)
        if fault:
            return f"{run.word}: {name}: {fault}{FOLDERS if os.path.isdir(name) else ''}"
    return f"{run.word}: {names[0]}: it could not be read to its end"


def output_failed(run: Run) -> str:
    """What stands in the output."""
    rest = "" if run.given.out else "; what stands in it is only the front of the whole"
    return f"{run.word}: the output failed, as on a full disk{rest}"


def too_long_script(name: str, data: bytes, kind: str) -> str:
    """Why a script or a drawing is too long, or nothing where it isn't."""
    if len(data) > MOST_SCRIPT:
        return f"{name}: the {kind} has more than {MOST_SCRIPT:,} bytes"
    if len(typed.of_bytes(data)) > MOST_SCRIPT:
        return f"{name}: the {kind} has more than {MOST_SCRIPT:,} bytes once its signs outside ASCII are bytes"
    return ""


def too_long(run: Run) -> str:
    """Which limit was passed."""
    word, names, script = run.word, files_of(run.word, run.words), run.given.typed
    long = too_long_script(names[1], script, kind_of(word)) if script is not None else ""
    if long:
        return f"{word}: {long}, so nothing was read of the page"
    if len(names) == 1 or is_file(names[0]) and os.path.getsize(names[0]) > MOST_PAGE:
        return f"{word}: {names[0]}: the page has more than {MOST_PAGE:,} bytes; only the items of the first {MOST_PAGE:,} were read"
    return f"{word}: the page has more than {MOST_PAGE:,} bytes, or the {kind_of(word)} more than {MOST_SCRIPT:,}"


def reader_is_gone() -> bool:
    """Whether standard output is a pipe that nobody reads any more."""
    watch = select.poll()
    watch.register(OUTPUT, 0)
    return any(event & select.POLLERR for _, event in watch.poll(0))


def not_seven(run: Run) -> str:
    rest = "" if run.given.out else "; only what stands before its first wrong byte was written"
    return f"{run.word}: {run.words[0]}: this is no page in seven bits{rest}"


# What each status means; empty where nothing is to be said.
SENTENCES: dict[int, Callable[[Run], str]] = {
    Status.DONE: lambda run: "",
    Status.REFUSALS: refused,
    Status.USAGE: no_request,
    Status.BAD_SCRIPT: bad_lines,
    Status.UNREAD: unreadable,
    Status.NO_ROOM: output_failed,
    Status.NO_MEMORY: lambda run: f"{run.word}: there is not enough memory; nothing was written",
    Status.TOO_LONG: too_long,
    Status.NOT_SEVEN: not_seven,
}


def sentence(run: Run, status: int) -> str:
    """What a status of the program means for a run."""
    if status not in SENTENCES:
        return f"{run.word}: the program ended with status {status}, which it doesn't have"
    return SENTENCES[status](run)
