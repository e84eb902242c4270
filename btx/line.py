"""Shows in colour in the terminal what comes over a line, as it comes: from a host by TCP, over a serial device, or from standard input.
Keys are sent as bytes, and Ctrl C leaves. What came can be kept as a stored page, with the times at which it came. A host can do no more
than paint: what it sends is decoded, and looks are painted."""
import argparse
import contextlib
import fcntl
import os
import select
import signal
import sys
import time
from collections.abc import Callable
from typing import NoReturn, Protocol

from btx import files, glass, keyboard, live, looks, messages, numbers, recording, say, terminal, wire

SUMMARY = "a line in the terminal: a host, a serial device or standard input"
NAMES = "HOST:PORT, serial:DEVICE:BITS, as serial:/dev/ttyS0:1200, or -"
DONE, BROKEN, STALLED = 0, 4, 5
PATIENCE = 60
# The least time between two pictures, in seconds; cells are painted at once.
PICTURES_AFTER = 0.1
PHASE = 1 / 6
# So many bytes of keys wait for a line that takes none. A pipe waits then, and what is struck in a terminal is lost, since a key may leave.
MOST_UNSENT = 2**16
# How long the rest of a key's sequence is waited for, in seconds.
REST_IN = 0.05
EVER = float("inf")
# So many milliseconds the system waits at once, at most.
MOST_WAIT = 2**31 - 1


def line_name(text: str) -> wire.Name:
    try:
        return wire.Name(text)
    except wire.OtherSpeed as fault:
        raise argparse.ArgumentTypeError(f"{fault} isn't a speed of serial lines; these are: {' '.join(map(str, wire.SPEEDS))}") from None
    except ValueError:
        raise argparse.ArgumentTypeError(f"{text} is no line: {NAMES}") from None


def arguments(parser: argparse.ArgumentParser) -> None:
    parser.add_argument("line", metavar="LINE", type=line_name, help=NAMES)
    parser.add_argument("--record", type=numbers.named("the name of the recording"), metavar="FILE",
                        help="keep what comes, as a stored page, and in FILE.times when it came")
    parser.add_argument("--keys", type=numbers.named("the name of the table"), metavar="FILE", help="a table of what keys send")
    parser.add_argument("--patience", type=recording.seconds, default=PATIENCE, metavar="SECONDS",
                        help=f"how long an answer is waited for; 0 is for ever, and without it {PATIENCE}")
    parser.add_argument("--reveal", action="store_true", help="show what is concealed")
    terminal.add_signs(parser, terminal.KINDS, terminal.AUTO)


class End(Exception):
    """The line is at its end: the sentence that is said of it, if there is one, the status, and whether the page stays in the terminal."""

    def __init__(self, status: int, text: str = "", stays: bool = True) -> None:
        super().__init__(text)
        self.status, self.stays = status, stays


class Shown:
    """The looks that a line has come to show, in the phase of flashing that is on."""

    def __init__(self, decoder: live.Live) -> None:
        self.decoder, self.count = decoder, 0
        self.cells: looks.Cells = {}
        self.flashing: set[looks.Place] = set()

    def page(self) -> looks.Cells:
        """The page in no phase: what flashes has the look with which it was fed."""
        return self.cells | {place: self.decoder.look(*place) for place in self.flashing}

    def taken(self, changed: looks.Cells) -> looks.Cells:
        """Takes what was fed; what flashes is shown as it is seen until its next phase begins."""
        self.flashing -= changed.keys()
        self.flashing |= {place for place, look in changed.items() if look.flash != "S"}
        return self.now({place: look._replace(flash="S") for place, look in changed.items()})

    def now(self, changed: looks.Cells) -> looks.Cells:
        self.cells |= changed
        return changed

    def feed(self, data: bytes) -> looks.Cells:
        self.count += len(data)
        return self.taken(self.decoder.feed(data))

    def finish(self) -> looks.Cells:
        return self.taken(self.decoder.finish())

    def turn(self) -> looks.Cells:
        """Begins the next phase."""
        return self.now({place: look._replace(flash="S") for place, look in self.decoder.turn().items()})

    def position(self) -> looks.Place:
        state = self.decoder.state()
        return state.row, state.column


class Timers:
    """What is due and when: the next phase, the end of patience, and painting that waits."""

    def __init__(self, patience: float) -> None:
        self.patience = patience or EVER
        self.phase = self.answer = self.paint = EVER

    def await_answer(self) -> None:
        """Begins to wait for an answer."""
        self.answer = time.monotonic() + self.patience

    def wait(self, now: float) -> float | None:
        """How many milliseconds there are until the first is due, as far as can be waited at once; or None where none is."""
        due = min(self.phase, self.answer, self.paint)
        return None if due == EVER else min(MOST_WAIT, max(0, 1000 * (due - now)))


class Pane(Protocol):
    """What a line is shown in: glass.Glass says what its calls do."""

    painter: terminal.Screen

    def has_keys(self) -> bool: ...

    def begin(self, cells: looks.Cells) -> None: ...

    def again(self, cells: looks.Cells, position: looks.Place) -> None: ...

    def paint(self, changed: looks.Cells, position: looks.Place | None) -> None: ...

    def end(self) -> None: ...

    def leave_page(self, cells: looks.Cells, rows: int) -> None: ...


class Session:
    """A line that is shown until it ends or is left."""

    def __init__(
        self, line: wire.Line, shown: Shown, pane: Pane, keys: int | None, table: keyboard.Table, options: argparse.Namespace
    ) -> None:
        self.line, self.shown, self.glass, self.keys, self.patience = line, shown, pane, keys, options.patience
        self.keyboard = keyboard.Keyboard(table)
        self.recorder = recording.Recorder(options.record) if options.record is not None else None
        self.timers = Timers(options.patience if line.sends else 0)
        self.unsent, self.painted, self.rest = b"", -EVER, EVER
        self.waiting: looks.Cells = {}

    def run(self, signals: glass.Signals) -> NoReturn:
        """Shows the line, and ends by raising why."""
        self.timers.await_answer()
        while True:
            events = dict(self.polled(signals.reading))
            if signals.reading in events:
                self.signalled(signals.told())
            # The line takes what waits before more keys are read.
            if self.line.fileno() in events:
                self.moved(events[self.line.fileno()])
            if self.keys in events:
                self.struck()
            self.pass_on(time.monotonic())

    def polled(self, signals: int) -> list[tuple[int, int]]:
        """What there is to do, once there is something."""
        watch = select.poll()
        watch.register(signals, select.POLLIN)
        watch.register(self.line.fileno(), select.POLLIN | (select.POLLOUT if self.unsent else 0))
        if self.keys is not None and (self.room() or self.glass.has_keys()):
            watch.register(self.keys, select.POLLIN)
        return watch.poll(self.wait(time.monotonic()))

    def wait(self, now: float) -> float | None:
        """How many milliseconds there are until something is due, or None where nothing is."""
        waits = self.timers.wait(now), None if self.rest == EVER else max(0, 1000 * (self.rest - now))
        return min((one for one in waits if one is not None), default=None)

    def room(self) -> int:
        """For how many bytes of keys there is room; where none are sent any number may come."""
        return max(0, MOST_UNSENT - len(self.unsent)) if self.line.sends else wire.PIECE

    def bytes_so_far(self) -> str:
        return f"after {self.shown.count:,} bytes"

    def moved(self, event: int) -> None:
        """Takes what has come, and sends what waits."""
        try:
            if event & select.POLLOUT:
                self.unsent = self.unsent[self.line.send(self.unsent) :]
            data = self.line.read() if event & ~select.POLLOUT else None
        except BlockingIOError:
            return
        except OSError as fault:
            raise End(BROKEN, f"{messages.why(fault)}, {self.bytes_so_far()}") from None
        if data is not None:
            self.came(data)

    def came(self, data: bytes) -> None:
        """Takes what has come over the line."""
        if not data:
            raise End(DONE, f"the line has ended, {self.bytes_so_far()}" if self.line.sends else "")
        if self.recorder:
            self.record(self.recorder.came, data)
        self.show(self.shown.feed(data))
        self.timers.answer = EVER
        if not self.glass.has_keys():
            self.timers.await_answer()

    def record(self, take: Callable[..., None], *data: bytes) -> None:
        """Has the recording take something; where it can't, the line is ended."""
        try:
            take(*data)
        except OSError as fault:
            raise End(BROKEN, f"{fault.filename}: {messages.why(fault)}, {self.bytes_so_far()}") from None

    def show(self, changed: looks.Cells) -> None:
        """Paints what has changed, or has it wait for its time."""
        self.waiting |= changed
        due = self.painted + (PICTURES_AFTER if isinstance(self.glass.painter, terminal.PicturePainter) else 0)
        if time.monotonic() < due:
            self.timers.paint = due
        else:
            self.paint()

    def paint(self) -> None:
        changed, self.waiting, self.timers.paint = self.waiting, {}, EVER
        self.glass.paint(changed, self.shown.position())
        self.painted = time.monotonic()
        if self.shown.flashing and self.timers.phase == EVER:
            self.timers.phase = self.painted + PHASE

    def pass_on(self, now: float) -> None:
        """Does what is due."""
        if now >= self.timers.answer:
            raise End(STALLED, f"nothing came for {self.patience:g} {'second' if self.patience == 1 else 'seconds'}, {self.bytes_so_far()}")
        if now >= self.timers.phase:
            self.timers.phase = now + PHASE if self.shown.flashing else EVER
            self.show(self.shown.turn())
        if now >= self.timers.paint:
            self.paint()
        if now >= self.rest:
            self.rest = EVER
            self.obey(self.keyboard.let_go())

    def struck(self) -> None:
        """Sends what the keys that were struck send."""
        try:
            data = b"" if self.keys is None else os.read(self.keys, self.room() or wire.PIECE)
        except OSError:
            data = b""
        if not data:
            self.keys = None
        self.obey(self.keyboard.sent(data))
        self.rest = time.monotonic() + REST_IN if self.keyboard.held else EVER

    def obey(self, keys: list[keyboard.Sent]) -> None:
        """Does what keys do. Where there is room for some, all of them are sent, also those that send several bytes."""
        takes = self.line.sends and self.room() > 0
        for sent in keys:
            if isinstance(sent, str):
                raise End(DONE, stays=False)
            if takes:
                self.send(sent)

    def send(self, data: bytes) -> None:
        if self.recorder:
            self.record(self.recorder.key)
        self.unsent += data
        self.timers.await_answer()

    def signalled(self, numbers: set[int]) -> None:
        """Stops and goes on as other programs do, and paints all where the terminal may be another."""
        if signal.SIGTSTP in numbers:
            self.glass.end()
            os.kill(os.getpid(), signal.SIGSTOP)
        if {signal.SIGTSTP, signal.SIGCONT} & numbers and self.timers.answer != EVER:
            self.timers.await_answer()
        if {signal.SIGTSTP, signal.SIGCONT, signal.SIGWINCH} & numbers:
            self.glass.again(self.shown.cells, self.shown.position())

    def finish(self) -> None:
        """Ends the page that came."""
        self.waiting |= self.shown.finish()
        self.paint()

    def leave_page(self) -> None:
        """Leaves the page in the terminal as it was."""
        self.glass.leave_page(self.shown.page(), self.shown.decoder.state().rows)


def keys_for(line: wire.Line) -> int | None:
    """The file from which keys come: standard input, or the terminal where that is the line; None where there is none."""
    if line.sends:
        return files.INPUT
    try:
        return os.open("/dev/tty", os.O_RDWR | os.O_NOCTTY)
    except OSError:
        return None


def keep_input(name: wire.Name) -> None:
    """Has something stand as standard input that ends at once where that can't be read, as where it is closed."""
    if fcntl.fcntl(files.INPUT, fcntl.F_GETFL) & (os.O_WRONLY | os.O_RDWR) != os.O_WRONLY:
        return
    if name.text == files.STANDARD:
        raise OSError(0, "that is standard input, and it is closed", name.text)
    os.dup2(os.open(os.devnull, os.O_RDONLY), files.INPUT)


def hold(session: Session, signals: glass.Signals) -> End:
    """Runs a session in the terminal, and answers why it ended. By then the terminal is as it was."""
    try:
        session.glass.begin(session.shown.cells)
        session.run(signals)
    except End as end:
        if end.stays:
            session.finish()
        return end
    except live.Full as fault:
        return End(BROKEN, str(fault))
    finally:
        session.glass.end()
        if session.recorder:
            session.recorder.close()


def watch(line: wire.Line, table: keyboard.Table, options: argparse.Namespace) -> End:
    """Shows a line, and answers why it ended. In too small a terminal nothing begins."""
    terminal.lines_of(sys.stdout)
    painter, keys = terminal.painter_of(options, os.environ), keys_for(line)
    with live.Live() as decoder, glass.Signals() as signals:
        pane = glass.Glass(painter, sys.stdout, keys)
        session = Session(line, Shown(decoder), pane, keys, table, options)
        end = hold(session, signals)
        if end.stays:
            session.leave_page()
    return end


def run(_: object, options: argparse.Namespace) -> int:
    live.library()
    table = keyboard.table_of(options.keys)
    if options.line.text == files.STANDARD and os.isatty(files.INPUT):
        say("line: - is standard input, and that is a terminal")
        return 2
    files.write_utf8(newline="\n")
    keep_input(options.line)
    with contextlib.closing(options.line.open()) as line:
        end = watch(line, table, options)
    if str(end):
        say(f"line: {options.line.text}: {end}")
    return end.status
