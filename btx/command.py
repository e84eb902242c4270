"""The words of btx: those of the program pass through, the others stand in modules of their own."""
import argparse
import itertools
import os
import signal
import sys
import textwrap
from collections.abc import Callable, Sequence
from typing import Any, NoReturn, Protocol

from btx import VERSION, archive, cast, check_script, completion, cut, diff, editor, ending, files, film, host, html_file, jobs, library
from btx import line, messages, near, passing, picture, program, put_apart, say, svg, telling, terminal, viewer
from btx.statuses import NOT_THERE, Status


class Own(Protocol):
    """The module of a word that btx alone has."""

    SUMMARY: str

    def arguments(self, parser: argparse.ArgumentParser, /) -> None:
        """Says what the word takes."""

    def run(self, path: program.Runner, options: argparse.Namespace, /) -> int:
        """Does what it says, and answers the status."""


OWN: dict[str, Own] = {
    "terminal": terminal, "html": html_file, "viewer": viewer, "editor": editor, "png": picture, "gif": film, "svg": svg, "cast": cast,
    "archive": archive, "diff": diff, "check-script": check_script, "line": line, "cut": cut, "host": host,
    "completion": completion,
}
KNOWN = (*program.WORDS, *OWN, "help")
# The options that stand without a word.
HELP = ("-h", "--help")
ALONE = (*HELP, "--version")
# Words that do without the program, and are given an empty path.
BY_THEMSELVES = ("viewer", "editor", "line", "cut", "host", "completion")
# The options that are names of files or folders and are read by the words themselves.
NAMES = ("folder", "recording", "script")
EPILOG = """The words of the program pass through with its output and its status; what a status means is said on standard error.
btx PAGE shows a page as terminal does, btx help WORD describes a word, and a file that is named - is standard input.
{btx} and {cept_tool} say more. BTX_PROGRAM can name another program, and TAMLIGUB_LIBRARY another library."""
# What a man page explains of a word: of those with a script or a drawing that is typed, of those that write a page, and of the others.
TYPED = "How a {kind} is typed is explained by: {btx}; its lines and the statuses by: {cept_tool}"
OF_PAGES, OF_TEXTS = "Its statuses are explained by: {cept_tool}", "The lines that it writes and its statuses are explained by: {cept_tool}"


class Help(argparse.HelpFormatter):
    """Breaks no line within a path, which may have a hyphen."""

    def _fill_text(self, text: str, width: int, indent: str) -> str:
        return textwrap.fill(
            " ".join(text.split()), width, initial_indent=indent, subsequent_indent=indent, break_on_hyphens=False, break_long_words=False
        )


class Parser(argparse.ArgumentParser):
    """Tells where its help can't be written, as any other output."""

    def _print_message(self, message: str, file: Any = None) -> None:
        if file is sys.stdout:
            file.write(message)
        else:
            put_apart(message)


def explained(word: str, manuals: dict[str, str]) -> str:
    """Which man pages explain a word of the program."""
    kind = "drawing" if word == "plot" else "script"
    form = TYPED if word in program.SCRIPTED else OF_PAGES if word in program.WRITING else OF_TEXTS
    return form.format(kind=kind, **manuals)


def parsers() -> argparse.ArgumentParser:
    """The parser of all words; each word's own has its help."""
    manuals = {name: program.manual(name) for name in ("btx", program.NAME)}
    parser = Parser(
        prog="btx", description="Shows, checks and edits stored Bildschirmtext pages.", epilog=EPILOG.format(**manuals), allow_abbrev=False,
        formatter_class=Help,
    )
    parser.add_argument("--version", action="version", version=f"btx {VERSION}")
    words = parser.add_subparsers(dest="word", metavar="WORD", title="words")
    for word, module in OWN.items():
        one = words.add_parser(word, help=module.SUMMARY, description=module.__doc__, allow_abbrev=False, formatter_class=Help)
        one.set_defaults(own=one)
        module.arguments(one)
    for word, (wanted, writes) in program.WORDS.items():
        usage = messages.usage(word).partition(": ")[2]
        told = explained(word, manuals)
        one = words.add_parser(word, help=writes, description=f"Writes {writes}.", usage=usage, epilog=told, formatter_class=Help)
        for name in wanted.split(" "):
            one.add_argument(name)
        one.add_argument("-o", "--output", metavar="FILE", help="where to write it, once it is whole; without this to standard output")
    return parser


def unknown(word: str) -> int:
    if not word:
        say("a name is empty")
        return Status.USAGE
    nearest = near.nearest(word, KNOWN)
    hint = f"; the nearest word is {nearest}" if nearest else ""
    what = "no word of btx" if os.path.exists(word) else "neither a word of btx nor a file"
    say(f"{word} is {what}{hint}\nbtx --help lists the words")
    return 2


def program_for(beside: str) -> program.Runner:
    """The library, or the path of the program; of an unproved one that nobody has named it says so."""
    path = library.found(beside)
    if path == program.QUICK and not os.environ.get("BTX_PROGRAM"):
        say(f"this program is unproved and slow, as ./build --quick keeps it; {program.PROVES}")
    return path


def guarded(path: program.Runner, word: str, act: Callable[..., int], *things: object) -> int:
    """Runs a word; where files, the program or the memory fail, it says so."""
    try:
        return act(path, *things)
    except BrokenPipeError:
        raise
    except program.Ended as end:
        return telling.of_end(path, word, end)
    except OSError as fault:
        return telling.of_fault(word, fault)
    except MemoryError:
        say(f"{word}: there is not enough memory")
        return Status.NO_MEMORY


def is_page(word: str) -> bool:
    """Whether a first word is rather a page than a word that there isn't."""
    return word == files.STANDARD or os.path.exists(word) or "/" in word or word.endswith(".btx")


def spelled(words: Sequence[str]) -> Sequence[str]:
    """The words in full: a page alone is shown, also after --, and help is asked of the word itself."""
    first, rest = words[0], words[1:]
    if first == passing.NAMES_FOLLOW:
        return spelled(rest) if rest[0] in KNOWN else ["terminal", *words]
    if first == "help" and len(rest) < 2:
        return [*rest, "--help"] if rest != ["help"] else ["--help"]
    return ["terminal", *words] if first not in KNOWN and not first.startswith("--") and is_page(first) else words


def is_asked_for_help(words: Sequence[str]) -> bool:
    """Whether an option among some words asks for help."""
    options = itertools.takewhile(lambda one: one != passing.NAMES_FOLLOW, words)
    return any(one in HELP for one in options)


def bad_name(options: argparse.Namespace) -> str:
    """What is wrong with a name of a file or a folder, or nothing."""
    if "" in (getattr(options, name, None) for name in NAMES):
        return messages.EMPTY
    lost = files.written_over(getattr(options, "output", None), *getattr(options, "pages", [getattr(options, "page", "")]))
    return messages.lost(lost) if lost else ""


def run(words: Sequence[str], beside: str) -> int:
    parser = parsers()
    if not words or words == [passing.NAMES_FOLLOW]:
        parser.print_help(sys.stderr)
        return 2
    words = spelled(words)
    word, rest = words[0], words[1:]
    if word in program.WORDS and not is_asked_for_help(rest):
        return guarded(program_for(beside), word, passing.run, word, rest)
    if word == "help":
        say(f"help: takes one word after it, WORD, or none, and not {len(rest)}\nusage: btx help [WORD]")
        return 2
    if word.startswith("-") and word not in ALONE:
        said = "btx itself has --help and --version, and options of a word or a page stand behind it, as in btx PAGE --reveal"
        say(f"{word} stands first: {said}\nbtx --help lists the words")
        return 2
    if not word.startswith("-") and word not in KNOWN:
        return unknown(word)
    if words == jobs.WORKER:
        return jobs.work(library.found(beside))
    options, unknown_words = parser.parse_known_args(words)
    if unknown_words:
        getattr(options, "own", parser).error("unrecognized arguments: " + " ".join(unknown_words))
    if getattr(options, "output", None) == "":
        options.own.error("-o takes a name after it, and this one is empty")
    bad = bad_name(options)
    if bad:
        say(f"{word}: {bad}")
        return Status.USAGE
    options.beside, options.parser = beside, parser
    path = "" if options.word in BY_THEMSELVES else program_for(beside)
    return guarded(path, options.word, OWN[options.word].run, options)


def ended(words: Sequence[str], beside: str) -> int:
    """Runs the words, and writes what is left of the output. Where that can't be done it says so once: nothing of it is tried again."""
    status: int = Status.DONE
    try:
        try:
            status = run(words, beside)
        except SystemExit as end:
            status = end.code if isinstance(end.code, int) else 0
        sys.stdout.flush()
    except BrokenPipeError:
        raise
    except OSError as fault:
        os.dup2(os.open(os.devnull, os.O_WRONLY), messages.OUTPUT)
        word = next((word for word in words if word in KNOWN), "")
        return status if status == Status.UNREAD else telling.of_fault(word, fault)
    return status


def main(words: Sequence[str], beside: str) -> NoReturn:
    files.hold_streams()
    try:
        status = ended(words, beside)
    except program.Missing as fault:
        say(fault)
        status = NOT_THERE
    except BrokenPipeError:
        ending.end_by(signal.SIGPIPE)
    except KeyboardInterrupt:
        ending.end_by(signal.SIGINT)
    except ending.Signalled as signalled:
        ending.end_by(signalled.number)
    sys.exit(status)
