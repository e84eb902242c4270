"""What the tests of lines stand on: a host that does what a test says, the cells that a line has come to show at each stop, and a run of
btx in a terminal."""
import argparse
import contextlib
import fcntl
import os
import pty
import re
import select
import signal
import socket
import struct
import subprocess
import sys
import termios
import threading
import time

import stand

sys.path.insert(0, stand.ROOT)
from btx import glass, keyboard, line, live, looks, terminal, wire  # noqa: E402

ROWS, COLUMNS = 30, 80


def until(condition):
    """Waits for a condition, and answers whether it came to hold."""
    end = time.monotonic() + stand.LONG
    while not condition():
        if time.monotonic() > end:
            return False
        time.sleep(0.002)
    return True


class Host:
    """A host that has one guest, and does with the line what a test says; what the guest sends is kept."""

    def __init__(self, act):
        self.server = socket.create_server(("127.0.0.1", 0))
        self.name = "127.0.0.1:{}".format(self.server.getsockname()[1])
        self.act, self.came, self.sent = act, b"", 0
        self.thread = threading.Thread(target=self.run, daemon=True)
        self.thread.start()

    def run(self):
        with self.server, self.server.accept()[0] as self.guest:
            self.guest.setsockopt(socket.IPPROTO_TCP, socket.TCP_NODELAY, 1)
            # A guest may leave at any time.
            with contextlib.suppress(ConnectionError):
                self.act(self)

    def send(self, data):
        self.guest.sendall(data)
        self.sent += len(data)

    def listens(self, count):
        """Waits until so many bytes have come in all, or the guest is gone."""
        while len(self.came) < count:
            data = self.guest.recv(4096)
            if not data:
                return
            self.came += data

    def waits_for_the_end(self):
        self.listens(10**9)

    def breaks_off(self):
        """Ends the line so that the other end finds it broken."""
        self.guest.setsockopt(socket.SOL_SOCKET, socket.SO_LINGER, struct.pack("ii", 1, 0))
        self.guest.close()

    def ended(self):
        self.thread.join(stand.LONG)


class Board:
    """Stands in the place of the terminal: it keeps what is painted, and of each painting how many bytes had come by then, the cells, and
    a decoder's snapshot."""

    def __init__(self):
        self.painter: terminal.Screen = terminal.Painter(0, False)
        self.cells, self.stops = {}, []
        self.session: line.Session | None = None

    def begin(self, cells):
        self.cells |= cells

    def has_keys(self):
        return False

    def paint(self, changed, position):
        self.cells |= changed
        decoder = self.session.shown.decoder
        if not decoder.state().ended:
            self.stops.append((self.session.shown.count, self.shown(), position, decoder.snapshot()))

    def shown(self):
        return {place: look for place, look in self.cells.items() if look != looks.BLANK}

    def again(self, cells, position):
        pass

    def leave_page(self, cells, rows):
        pass

    def end(self):
        pass


def watched(name, patience=0, record=None, boards=None, begins=None):
    """What is shown of a line, in this process: its board, and why it ended. The board is put into a list before anything is read, and a
    condition may have to hold before that."""
    options, board = argparse.Namespace(patience=patience, record=record), Board()
    with contextlib.closing(wire.Name(name).open()) as one, live.Live() as decoder, glass.Signals() as signals:
        if boards is not None:
            boards.append(board)
        if begins:
            until(begins)
        board.session = line.Session(one, line.Shown(decoder), board, None, keyboard.USUAL, options)
        end = line.hold(board.session, signals)
    return board, end


def finished(snapshot):
    """The cells where the page ends at a snapshot."""
    with live.Live.restored(snapshot) as decoder:
        decoder.finish()
        return decoder.cells()


def cells_of(page):
    """The looks that the program tells of a page in a file."""
    return looks.cells_of(stand.put("cells", page).decode())


class Terminal:
    """A run of btx in a terminal of its own, with what it writes there."""

    def __init__(self, *words, rows=ROWS, columns=COLUMNS, env=None, stdin=None):
        self.master, self.slave = pty.openpty()
        self.resize(rows, columns)
        self.before = termios.tcgetattr(self.slave)
        self.text = b""

        def own():
            os.setsid()
            fcntl.ioctl(self.slave, termios.TIOCSCTTY, 0)
            stand.as_from_a_terminal()

        keys = {"stdin": self.slave if stdin is None else stdin, "stdout": self.slave, "stderr": subprocess.PIPE, "preexec_fn": own}
        self.run = subprocess.Popen([stand.BTX, *words], **keys, env=env or stand.environment(TERM="xterm-256color"), pass_fds=(self.slave,))

    def resize(self, rows, columns):
        fcntl.ioctl(self.slave, termios.TIOCSWINSZ, struct.pack("HHHH", rows, columns, 0, 0))

    def read(self):
        """Takes what was written."""
        while select.select([self.master], [], [], 0)[0]:
            self.text += os.read(self.master, 65536)

    def has(self, part):
        """Waits until some bytes were written."""
        def condition():
            self.read()
            return part in self.text

        return until(condition)

    def type(self, data):
        os.write(self.master, data)

    def attributes(self):
        return termios.tcgetattr(self.slave)

    def is_raw(self):
        return not self.attributes()[3] & (termios.ICANON | termios.ECHO)

    def signal(self, number):
        os.kill(self.run.pid, number)

    def status(self):
        """How it ends; what it has written until then is taken."""
        def condition():
            self.read()
            return self.run.poll() is not None

        until(condition)
        self.read()
        self.error = self.run.stderr.read().decode()
        return self.run.returncode

    def close(self):
        if self.run.poll() is None:
            os.kill(self.run.pid, signal.SIGCONT)
            self.run.kill()
        self.run.wait()
        self.run.stderr.close()
        os.close(self.master)
        os.close(self.slave)


class Case(stand.Case):
    """A test that needs the decoder's library, and hosts for it."""

    def setUp(self):
        super().setUp()
        if not live.place():
            self.leave_out(why=f"there is no library/out/{live.shared.NAME} (library/build library/out makes it)")

    def host(self, act):
        host = Host(act)
        self.addCleanup(host.ended)
        return host

    def terminal(self, *words, **more):
        one = Terminal(*words, **more)
        self.addCleanup(one.close)
        return one

    def cells(self, data):
        """What the program tells of some bytes."""
        return cells_of(self.written("front", data))


def keys_sent(text, table=keyboard.USUAL):
    """What a keyboard sends for what a terminal sends."""
    return keyboard.Keyboard(table).sent(text)


# What begins as a sequence of a terminal, and those that paint: places, colours and the like, a blank screen, the cursor, and the screen
# that a program has for itself.
SEQUENCE = re.compile("\x1b(?:\\[[0-?]*[ -/]*[@-~]|.)?", re.DOTALL)
PAINTS = re.compile(r"\x1b\[(?:\d+;\d+H|[\d;]*m|2J|\?25[hl]|\?1049[hl])\Z")
