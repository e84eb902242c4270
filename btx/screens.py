"""Pictures in terminals: by the protocols of kitty and of sixel, from the dots of a screen, and what a terminal says of itself."""
import base64
import contextlib
import fcntl
import itertools
import os
import re
import select
import struct
import termios
import tty
import zlib
from collections.abc import Iterator, Mapping

from btx import canvas, looks

KITTY, SIXEL = "kitty", "sixel"
# A picture goes in pieces of at most so many signs.
PIECE = 4096
# Whether kitty's protocol is known, how many pixels high and wide the terminal is, and then of which kind: every terminal answers that.
ASKED = b"\x1b_Gi=31,s=1,v=1,a=q,t=d,f=24;AAAA\x1b\\\x1b[14t\x1b[c"
ATTRIBUTES = re.compile(rb"\x1b\[\?([\d;]*)c")
PIXELS = re.compile(rb"\x1b\[4;(\d{1,6});(\d{1,6})t")
HAS_SIXEL = "4"
# How long a terminal is waited for, in seconds.
PATIENCE = 1
# Terminals that draw the signs of six blocks themselves, whatever their font: by TERM, and by TERM_PROGRAM.
OWN_SIGNS = ("xterm-kitty", "xterm-ghostty", "foot", "foot-direct", "contour")
OWN_PROGRAMS = ("WezTerm", "ghostty", "kitty")
# From version 0.66 on the library of many terminals does.
VTE = 6600


def draws_sextants(environment: Mapping[str, str]) -> bool:
    """Whether the terminal is known to draw signs of six blocks. In tmux and screen that isn't known."""
    kind = environment.get("TERM", "")
    if kind.startswith(("tmux", "screen")):
        return False
    version = environment.get("VTE_VERSION", "")
    return kind in OWN_SIGNS or environment.get("TERM_PROGRAM") in OWN_PROGRAMS or version.isdigit() and int(version) >= VTE


@contextlib.contextmanager
def raw(terminal: int) -> Iterator[None]:
    """A terminal whose answers are read as they come, and aren't shown."""
    kept = termios.tcgetattr(terminal)
    try:
        tty.setcbreak(terminal, termios.TCSANOW)
        yield
    finally:
        termios.tcsetattr(terminal, termios.TCSANOW, kept)


def answer_of(terminal: int) -> bytes:
    """What a terminal answers, until it has said of which kind it is, or says nothing more."""
    answer = b""
    with raw(terminal):
        os.write(terminal, ASKED)
        while not ATTRIBUTES.search(answer) and select.select([terminal], [], [], PATIENCE)[0]:
            answer += os.read(terminal, PIECE)
    return answer


def protocol_in(answer: bytes) -> str | None:
    """The protocol of pictures that an answer tells of, or None."""
    if b"\x1b_Gi=31;OK" in answer:
        return KITTY
    found = ATTRIBUTES.search(answer)
    return SIXEL if found and HAS_SIXEL in found[1].decode().split(";")[1:] else None


def has_room(size: bytes, answer: bytes) -> bool:
    """Whether a picture by sixel fits with a row below it, to which the cursor goes, by what the system has of a terminal's size, or else
    by what the terminal answers. Where neither says how many pixels there are it doesn't."""
    rows, _, width, height = map(int, struct.unpack("HHHH", size))
    told = PIXELS.search(answer)
    if told and not (width and height):
        height, width = map(int, told.groups())
    return width >= canvas.WIDTH * canvas.DOT[0] and height - height // (rows or looks.ROWS) >= canvas.HEIGHT * canvas.DOT[1]


def protocol_of(terminal: int) -> str | None:
    """The protocol of pictures that a terminal has, and for which it has room, or None."""
    answer = answer_of(terminal)
    found = protocol_in(answer)
    return found if found != SIXEL or has_room(fcntl.ioctl(terminal, termios.TIOCGWINSZ, bytes(8)), answer) else None


def protocol() -> str | None:
    """The protocol of pictures that the terminal of this run has, or None."""
    try:
        terminal = os.open("/dev/tty", os.O_RDWR | os.O_NOCTTY)
    except OSError:
        return None
    try:
        return protocol_of(terminal)
    except (OSError, termios.error):
        return None
    finally:
        os.close(terminal)


def colours_of(board: canvas.Canvas) -> list[bytes]:
    """The parts of each colour, from 0 to 255."""
    parts = board.palette.colours()
    return [parts[at : at + 3] for at in range(0, len(parts), 3)]


def kitty(board: canvas.Canvas, dots: bytes) -> Iterator[str]:
    """A screen by the protocol of kitty, over 40 columns and 24 rows, in place of the one before."""
    colours = colours_of(board)
    data = base64.b64encode(zlib.compress(b"".join(colours[dot] for dot in dots), 1)).decode("ascii")
    head = f"a=T,q=2,f=24,o=z,i=1,p=1,C=1,s={canvas.WIDTH},v={canvas.HEIGHT},c={looks.COLUMNS},r={looks.ROWS}"
    pieces = [data[at : at + PIECE] for at in range(0, len(data), PIECE)]
    for number, piece in enumerate(pieces):
        more = int(number + 1 < len(pieces))
        yield f"\x1b_G{head + ',' if number == 0 else ''}m={more};{piece}\x1b\\"


def repeated(sign: str, count: int) -> str:
    return f"!{count}{sign}" if count > 3 else sign * count


def band_of(upper: bytes, lower: bytes, number: int) -> str:
    """The signs of a colour in six lines of pixels, which are two lines of dots: a bit for each line of pixels."""
    bits = [0b000111 * (one == number) | 0b111000 * (other == number) for one, other in zip(upper, lower)]
    runs = [(value, canvas.DOT[0] * len(list(run))) for value, run in itertools.groupby(bits)]
    if runs[-1][0] == 0:
        runs.pop()
    return "".join(repeated(chr(63 + value), count) for value, count in runs)


def sixel(board: canvas.Canvas, dots: bytes) -> Iterator[str]:
    """A screen by the protocol of sixel, each dot two pixels wide and three high."""
    yield f"\x1bP0;1q\"1;1;{canvas.WIDTH * canvas.DOT[0]};{canvas.HEIGHT * canvas.DOT[1]}"
    for number, parts in enumerate(colours_of(board)):
        yield f"#{number};2;" + ";".join(str(round(part * 100 / 255)) for part in parts)
    for line in range(0, canvas.HEIGHT, 2):
        upper, lower = (dots[at * canvas.WIDTH : (at + 1) * canvas.WIDTH] for at in (line, line + 1))
        yield "$".join(f"#{number}{band_of(upper, lower, number)}" for number in sorted({*upper, *lower})) + "-"
    yield "\x1b\\"


PROTOCOLS = {KITTY: kitty, SIXEL: sixel}


def picture(protocol_name: str, board: canvas.Canvas, cells: looks.Cells) -> str:
    """What shows the looks of a screen as a picture."""
    return "".join(PROTOCOLS[protocol_name](board, board.screen(cells)))
