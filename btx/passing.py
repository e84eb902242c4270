"""Runs a word of the program: with standard input where a file is named -, with scripts as they are typed, and into a file where -o names
one."""
import contextlib
import os
import signal
import subprocess
from collections.abc import Iterator, Sequence

from btx import ending, files, messages, program, say, typed
from btx.statuses import READ, Status

OUTPUT = ("-o", "--output")
# The end of the options.
NAMES_FOLLOW = "--"


def as_name(word: str) -> str:
    """A word after the end of the options as a name that nothing takes for an option; - is standard input there too."""
    return f"./{word}" if word.startswith("-") and word != files.STANDARD else word


def parted(words: Sequence[str]) -> tuple[list[str], str | None]:
    """The words without -o and its file, and that file: None where none is named, and empty where its name is missing. After -- all are
    names."""
    rest: list[str] = []
    out, left = None, iter(words)
    for one in left:
        if one == NAMES_FOLLOW:
            rest += map(as_name, left)
        elif one in OUTPUT:
            out = next(left, "")
        elif one.startswith("--output="):
            out = one.partition("=")[2]
        elif one.startswith("-o"):
            out = one[len("-o") :]
        else:
            rest.append(one)
    return rest, out


def are_request(word: str, words: Sequence[str]) -> bool:
    """Whether the program would read files of these words."""
    wanted = program.WORDS[word][0].split(" ")
    return wanted[0] == "PAGE" and len(set(words)) == len(words) == len(wanted) and "" not in words


def are_bytes(word: str, words: Sequence[str]) -> bool:
    """Whether the program would write a page as bytes, which are no text."""
    return word in program.WRITING and len(words) == len(program.WORDS[word][0].split(" "))


def script_of(word: str, words: Sequence[str]) -> bytes | None:
    """The bytes of the script or the drawing that the words name. One that can't be read is left to the program, which says so."""
    try:
        return files.read(words[-1], typed.MOST) if word in program.SCRIPTED else None
    except OSError:
        return None


@contextlib.contextmanager
def given(word: str, words: Sequence[str], out: str | None) -> Iterator[messages.Given]:
    """What the program is given: a script that isn't in its own grammar, or can be read only once, is a copy that is."""
    if not are_request(word, words):
        yield messages.Given(words, None, out)
        return
    with contextlib.ExitStack() as stack:
        script, own = script_of(word, words), list(words)
        if script is not None and not (files.is_plain(words[1]) and script == typed.of_bytes(script)):
            own[1] = stack.enter_context(files.copy_of(typed.of_bytes(script)))
        own[0] = stack.enter_context(files.readable(words[0]))
        yield messages.Given(own, script, out)


def into(output: int, path: program.Runner, word: str, words: Sequence[str]) -> int:
    """Runs the program, or the library, with its output in an open file, and answers its status."""
    if isinstance(path, str):
        return subprocess.run([path, word, *words], stdout=output, close_fds=False).returncode
    text, status = path.put(word, *words)
    try:
        files.put_all(output, text)
    except OSError:
        return Status.NO_ROOM
    return status


def put(path: program.Runner, word: str, words: Sequence[str], out: str | None) -> int:
    """Runs the program and answers its status. A file takes the output where that is whole."""
    if out is None:
        return into(messages.OUTPUT, path, word, words)
    with contextlib.suppress(files.Dropped), files.output(out) as file:
        status = into(file.fileno(), path, word, words)
        if status not in READ:
            raise files.Dropped
    return status


def told(word: str, text: str, status: int, out: str | None) -> None:
    """Says what a status means, and of a file that was to take the output that it doesn't."""
    if text:
        say(text)
    if out and status not in READ and (files.is_plain(out) or not os.path.exists(out)):
        say(f"{word}: {out} {'stays as it was' if os.path.exists(out) else 'is not written'}")


def run(path: program.Runner, word: str, words: Sequence[str]) -> int:
    """Runs a word with what stands after it, and answers its status."""
    words, out = parted(words)
    if out == "":
        say(f"{word}: -o takes a FILE after it\n{messages.usage(word)}")
        return 2
    if out is None and are_bytes(word, words) and os.isatty(messages.OUTPUT):
        say(f"{word}: a terminal shows no page's bytes; -o FILE writes them into a file")
        return 2
    out = None if out == files.STANDARD else out
    named = messages.files_of(word, words) if are_request(word, words) else []
    # A page may be replaced by a page.
    lost = files.written_over(out, *(named[1:] if word in program.WRITING else named))
    if lost:
        say(f"{word}: {messages.lost(lost)}")
        return Status.USAGE
    with files.patience(*named), given(word, words, out) as handed:
        status = put(path, word, handed.words, out)
        text = messages.sentence(messages.Run(path, word, words, handed), status) if status > 0 else ""
    if status < 0:
        ending.end_by(-status)
    if status == Status.NO_ROOM and not out and messages.reader_is_gone():
        ending.end_by(signal.SIGPIPE)
    told(word, text, status, out)
    return status
