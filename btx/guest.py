"""What a host for trying terminals says to one guest: which page answers which request, and the bytes by which a page begins and a request
is shown. It knows no sockets and no clock."""
import os
import re

from btx import letters

PAGE = re.compile(r"0*(\d+)([b-z]?)\.btx")
MOST_SIGNS = 16
# The keys that begin and end a request, and ASCII's signs for them.
BEGIN, END = b"\x13*", b"\x1c#"
# What a key of a sign sends: bytes of the primary set, and of a letter with an accent this and the accent before it.
ACCENT = 0x19
SIGN = re.compile(rb"(?:\x19[\x40-\x4f])?[\x20-\x7e]")
# What the key for it sends takes the last sign of a request back.
TAKEN_BACK = b"\x08\x7f"
# A page begins as on a decoder that was just opened, under the parallel set.
AT_FIRST = b"\x1f\x2f\x42"
# A line at the foot: a break of the service at row 24, whose end brings all back; the row is blank first.
FOOT, BACK = b"\x1f\x2f\x40\x58\x18", b"\x1f\x2f\x4f"


def written(text: str) -> bytes:
    """A text as bytes once the primary set is locked."""
    return b"".join(letters.bytes_of(sign) or b"" for sign in letters.signs_in(text))


def foot(data: bytes) -> bytes:
    """What shows bytes in the last row, and leaves all else."""
    return FOOT + data + BACK


class Pages:
    """The stored pages of a folder, by number and part; of a pipe or a device a guest would wait for ever. Where no name is a number, the
    pages have the numbers from 0 on in the order of their names."""

    def __init__(self, folder: str) -> None:
        names = sorted(name for name in os.listdir(folder) if name.endswith(".btx") and os.path.isfile(os.path.join(folder, name)))
        found = [(PAGE.fullmatch(name), name) for name in names]
        self.folder, self.names = folder, {(match[1], match[2]): name for match, name in found if match}
        if not self.names:
            self.names = {(str(number), ""): name for number, name in enumerate(names)}
        self.left = sorted(set(names) - set(self.names.values()))
        if self.first() is None:
            raise OSError(0, self.why_none(), folder)

    def why_none(self) -> str:
        """Why there is no first page."""
        if not self.names:
            return "no file in it ends in .btx"
        (number, _), name = next(iter(self.names.items()))
        return f"no page in it has its first part; {name} is a later one, after {number}.btx"

    def listed(self) -> list[str]:
        """The numbers with the names, in order, where these don't say them; else which names have no number, or that of another."""
        lines = [f"*{number}# {name}" for (number, _), name in self.names.items() if not PAGE.fullmatch(name)]
        return lines + [f"no number shows {name}" for name in self.left]

    def first(self) -> str | None:
        """The page 0, or else the one with the lowest number; None where there is no page."""
        whole = [number for number, part in self.names if not part]
        return min(whole, key=int) if whole else None

    def page(self, number: str, part: str) -> bytes:
        """The bytes of a page."""
        with open(os.path.join(self.folder, self.names[number, part]), "rb") as file:
            return file.read()


class Guest:
    """Where one guest stands: the page and the part that are shown, and what was typed of a request."""

    def __init__(self, pages: Pages) -> None:
        self.pages, self.number, self.part = pages, pages.first() or "", ""
        self.typed: bytes | None = None
        # What is left of a request that was refused is dropped, to the key that ends it.
        self.is_refused = False

    def shown(self) -> bytes:
        """The bytes of the page that is shown."""
        return AT_FIRST + self.pages.page(self.number, self.part)

    def take(self, byte: int) -> tuple[bytes, bool]:
        """Takes a byte, and answers what is sent for it, and whether that is a page."""
        sign = bytes([byte])
        if sign in END:
            was_refused, self.is_refused = self.is_refused, False
            return (b"", False) if was_refused else self.asked()
        if sign in BEGIN:
            self.typed, self.is_refused = b"", False
        elif self.typed and sign in TAKEN_BACK:
            self.typed = b"".join(SIGN.findall(self.typed)[:-1])
        elif self.typed is None or not (0x20 <= byte <= 0x7E or byte == ACCENT):
            return b"", False
        else:
            self.typed += sign
        if len(SIGN.findall(self.typed)) > MOST_SIGNS:
            self.typed, self.is_refused = None, True
            return foot(written(f"Mehr als {MOST_SIGNS} Zeichen, more than {MOST_SIGNS} signs")), False
        return foot(b"*" + self.typed), False

    def asked(self) -> tuple[bytes, bool]:
        """Answers a request that is whole: a number, or the next part of what is shown."""
        typed, self.typed = self.typed, None
        if typed is None:
            wanted = self.number, chr(ord(self.part or "a") + 1)
        else:
            number = typed.decode("ascii")
            wanted = number.lstrip("0") or number and (self.pages.first() or ""), ""
        if wanted not in self.pages.names:
            return foot((b"#" if typed is None else b"*" + typed + b"#") + written(": keine Seite, no page")), False
        self.number, self.part = wanted
        return self.shown(), True
