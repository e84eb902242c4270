"""Scripts and drawings as people type them, in UTF-8 with any ends of lines: each line becomes one line of the program's own grammar, so
that the numbers of lines and the steps of undo stay. A line that can't become one is handed on as it is, and the program refuses it."""
import re
from collections.abc import Iterable

from btx import letters

MARK = b"\xef\xbb\xbf"
ENDS = re.compile(r"\r\n|\r|\n")
BLANKS = " \t"
MOST = 2**20


def lines_of(data: bytes) -> list[str]:
    """The lines of a text, and what stands after the last end, if only nothing; bytes that are no UTF-8 stay, each as one sign that no set
    has."""
    return ENDS.split(data.removeprefix(MARK).decode("utf-8", "surrogateescape"))


def is_byte(point: str) -> bool:
    """Whether it stands for a byte that is no UTF-8."""
    return "\udc80" <= point <= "\udcff"


def escaped(point: str) -> str:
    """A sign by its number, and a byte that is no UTF-8 by its own."""
    return f"\\x{ord(point) & 0xFF:02x}" if is_byte(point) else ascii(point)[1:-1]


def shown(line: str) -> str:
    """A line as a terminal can show it."""
    return "".join(point if point.isprintable() else escaped(point) for point in line)


def text_of(line: str) -> str | None:
    """The signs that a line writes, or None where it writes none."""
    word, blank, text = line.partition(" ")
    return text if word == "text" and blank and text else None


def written(text: str) -> str:
    """The line that writes a text: with other signs than those of the program's `text`, their bytes, after the lock that `text` makes."""
    if text.isascii():
        return f"text {text}"
    wanted = letters.signs_in(text)
    signs = [written for written in map(letters.bytes_of, wanted) if written is not None]
    return f"text {text}" if len(signs) < len(wanted) else f"raw {letters.LOCK:02X}{b''.join(signs).hex().upper()}"


def spaced(line: str) -> str:
    """A line with single spaces between its words. What `text` writes, and a note, stay as they are."""
    line = line.lstrip(BLANKS)
    if line.startswith("#"):
        return line
    word, *rest = re.split(f"[{BLANKS}]", line, maxsplit=1)
    return f"text {rest[0]}" if word == "text" and rest else " ".join(re.split(f"[{BLANKS}]+", line.rstrip(BLANKS)))


def in_grammar(line: str) -> str:
    """A line of the program's own grammar that does what a typed one says."""
    line = spaced(line)
    text = text_of(line)
    return line if text is None else written(text)


def bytes_in(lines: Iterable[str]) -> bytes:
    """Lines as the program reads them."""
    return "\n".join(lines).encode("utf-8", "surrogateescape")


def of_bytes(data: bytes) -> bytes:
    """A script in the program's own grammar; of one that is too long, its bytes as they are."""
    return data if len(data) > MOST else bytes_in(map(in_grammar, lines_of(data)))
