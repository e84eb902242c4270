"""A line in the terminal, over real sockets: at each stop it shows what the program says of the bytes that have come, and the terminal is
as it was, however the line ends."""
import contextlib
import errno
import functools
import itertools
import os
import pty
import resource
import select
import signal
import termios
import threading
import time
import tty
from unittest import mock

import lines
import stand

from btx import glass, line, live, looks, terminal, wire

# Positions, colours, a double size, mosaics, a pattern and its sign, and a colour defined anew: units of one byte and of many.
SMALL = b"\x1f\x43\x42\x81Rot\x8dHoch\x8c \x0e\x7f\x0f\x1f\x23\x21\x30\x7f\x6a\x1b\x28\x20\x40\x21\x1b\x28\x40\x1f\x26\x30\x31\x55\x6a."
ESCAPES = b"\x1b]0;title\x07\x1b[2J\x1b[?1049h\x1bc\x1b[8;50;100t\x1b_Gi=1\x1b\\\x1bP0q\x1b\\\x9b5n\x1b[6n\x05\x0e\x1b(0"


def pieces(data, size):
    return [data[at : at + size] for at in range(0, len(data), size)]


class Cells(lines.Case):
    """What is shown, in this process."""

    @functools.lru_cache(None)
    def wanted(self, front):
        return self.cells(front)

    def plays(self, data, size, bits):
        """A page in pieces at a speed, each shown before the next is sent. Answers the board."""
        boards: list[lines.Board] = []

        def act(host):
            sent = 0
            for piece in pieces(data, size):
                time.sleep(10 * len(piece) / bits)
                host.send(piece)
                sent += len(piece)
                lines.until(lambda: boards and boards[0].stops and boards[0].stops[-1][0] == sent)

        board, end = lines.watched(self.host(act).name, boards=boards)
        self.assertEqual((end.status, str(end)), (0, f"the line has ended, after {len(data):,} bytes"))
        return board

    def is_right(self, data, size, bits):
        """Compares each stop with the cells of the bytes until then; bytes that are no item yet are one at the end of these."""
        board = self.plays(data, size, bits)
        self.assertEqual([stop[0] for stop in board.stops], [*itertools.accumulate(map(len, pieces(data, size)))])
        for count, shown, _, snapshot in board.stops:
            with live.Live.restored(snapshot) as decoder:
                pending = decoder.state().pending
            self.assertEqual(lines.finished(snapshot), self.wanted(data[:count]), (size, bits, count))
            if not pending:
                self.assertEqual(shown, self.wanted(data[:count]), (size, bits, count))
        whole = {place: look for place, look in board.session.shown.cells.items() if look != looks.BLANK}
        self.assertEqual(whole, self.wanted(data))

    def test_a_page_in_pieces_of_every_size_at_1200_bits(self):
        for size in range(1, len(SMALL) + 1):
            self.is_right(SMALL, size, 1200)

    def test_a_page_in_pieces_of_every_size_at_9600_bits(self):
        for size in range(1, len(SMALL) + 1):
            self.is_right(SMALL, size, 9600)
        with open(stand.page("title"), "rb") as file:
            title = file.read()
        for size in (1, 2, 3, 7, 16, 61, len(title)):
            self.is_right(title, size, 9600)

    def test_all_pages_at_once(self):
        for name in stand.all_pages():
            with open(stand.page(name), "rb") as file:
                data = file.read()
            host = self.host(lambda host: host.send(data))
            board, _ = lines.watched(host.name)
            steady = {place: look for place, look in board.session.shown.cells.items() if place not in board.session.shown.flashing}
            want = {place: look for place, look in self.cells(data).items() if look.flash == "S"}
            self.assertEqual({place: look for place, look in steady.items() if look != looks.BLANK}, want, name)
            self.assertEqual(board.session.shown.flashing, {place for place, look in self.cells(data).items() if look.flash != "S"}, name)

    def test_what_flashes_goes_through_the_phases_that_the_program_tells(self):
        page = stand.page("flashing")
        with open(page, "rb") as file, live.Live() as decoder:
            shown = line.Shown(decoder)
            shown.feed(file.read())
            shown.finish()
            told: looks.Cells = {}
            phases = {turn: [*group] for turn, group in itertools.groupby(
                stand.put("flash", page, "6").decode().splitlines(), lambda text: int(text.split()[0]))}
            for turn in range(7):
                shown.turn()
                told |= {place: look for text in phases.get(turn, ()) for place, look in looks.cells_of(text.split(" ", 1)[1]).items()}
                # A look is told of its phase, and seen in it as it is.
                want = {place: look._replace(flash="S") for place, look in told.items() if look != looks.BLANK}
                self.assertEqual({place: look for place, look in shown.cells.items() if look != looks.BLANK}, want, turn)

    def test_the_page_that_stays_has_what_flashes(self):
        """In whichever phase the line ended."""
        with open(stand.page("flashing"), "rb") as file, live.Live() as decoder:
            data, shown = file.read(), line.Shown(decoder)
            shown.feed(data)
            shown.finish()
            for turn in range(7):
                self.assertEqual({place: look for place, look in shown.page().items() if look != looks.BLANK}, self.wanted(data), turn)
                shown.turn()

    def test_the_cursor_stands_at_the_position(self):
        host = self.host(lambda host: host.send(b"\x1f\x45\x48AB"))
        board, _ = lines.watched(host.name)
        self.assertEqual(board.stops[-1][2], (5, 10))

    def test_ten_megabytes_at_once(self):
        data = (b"\x0c" + bytes(0x21 + at % 94 for at in range(1000))) * 10500 + b"\x1f\x43\x43The end"
        host = self.host(lambda host: host.send(data))
        board, end = lines.watched(host.name)
        self.assertEqual((end.status, board.session.shown.count), (0, len(data)))
        self.assertEqual(board.stops[-1][1], self.cells(data))

    def test_a_line_that_breaks_off(self):
        def act(host):
            host.send(b"AB")
            lines.until(lambda: boards and boards[0].stops)
            host.breaks_off()

        boards: list[lines.Board] = []
        board, end = lines.watched(self.host(act).name, boards=boards)
        self.assertEqual((end.status, str(end)), (4, "connection reset by peer, after 2 bytes"))
        self.assertEqual(board.shown(), self.cells(b"AB"))

    def test_a_line_that_stalls(self):
        def act(host):
            host.send(b"AB")
            host.waits_for_the_end()

        host = self.host(act)
        board, end = lines.watched(host.name, patience=0.2, begins=lambda: host.sent)
        self.assertEqual((end.status, str(end)), (5, "nothing came for 0.2 seconds, after 2 bytes"))
        self.assertEqual(board.stops[-1][1], self.cells(b"AB"))


class Words(lines.Case):
    """What is said, by the command itself."""

    def ends(self, words, status, *said, **more):
        done = stand.btx("line", *words, **more)
        error = done.stderr.decode()
        self.assertEqual(done.returncode, status, error)
        for part in said:
            self.assertIn(part, error)
        self.assertEqual(bool(error), bool(said), error)
        return done.stdout.decode()

    def test_a_line_that_is_refused(self):
        with lines.socket.create_server(("127.0.0.1", 0)) as server:
            name = "127.0.0.1:{}".format(server.getsockname()[1])
        self.ends([name], 4, f"btx: line: {name}: connection refused\n")
        self.ends(["serial:nowhere:1200"], 4, "btx: line: serial:nowhere:1200: no such file or directory\n", cwd=self.folder)

    def test_a_host_that_no_name_can_name(self):
        """A part of a name has a letter at least, and 63 at most."""
        for host in ("a..b", f"{64 * 'a'}.example", "."):
            self.ends([f"{host}:1"], 4, f"btx: line: {host}:1: name or service not known\n")

    def test_a_patience_that_the_system_cannot_wait_for_at_once(self):
        for patience in ("2147484", "1e300"):
            host = self.host(lambda host: host.send(b"A"))
            self.ends([host.name, "--patience", patience], 0, f"btx: line: {host.name}: the line has ended, after 1 byte")

    def test_what_is_no_line(self):
        for words in ("host", "host:", "host:70000", "serial:/dev/null", "serial:/dev/null:fast", ""):
            self.ends([words], 2, "is no line: HOST:PORT, serial:DEVICE:BITS")
        self.ends(["serial:/dev/null:1201"], 2, "1201 isn't a speed of serial lines; these are: 50 75 ")
        for device in ("/dev/null", self.written("plain", b"A")):
            said = f"{device} is no serial device, as /dev/ttyS0 is; a host is named HOST:PORT\n"
            self.ends([f"serial:{device}:1200"], 4, f"btx: line: serial:{device}:1200: {said}")

    def test_a_line_that_ends(self):
        host = self.host(lambda host: host.send(b"GutenTag!"))
        self.assertIn("GutenTag!", self.ends([host.name], 0, f"btx: line: {host.name}: the line has ended, after 9 bytes\n"))

    def test_standard_input(self):
        with open(stand.page("title"), "rb") as file:
            text = self.ends(["-"], 0, stdin=file)
        self.assertIn("Tag!", text)

    def test_pictures(self):
        """Cells are painted at once, and pictures when one is due; the last is there in any case."""
        with open(stand.page("title"), "rb") as file:
            text = self.ends(["-", "--signs", "sixel"], 0, stdin=file)
        self.assertIn("\x1bP0;1q", text)

    def test_a_recording_is_what_came_and_when(self):
        def act(host):
            host.listens(3)
            for piece in (b"\x0cA", b"B", b"CDE"):
                host.send(piece)

        host, path = self.host(act), self.path("kept")
        self.ends([host.name, "--record", path], 0, "the line has ended", input=b"x" * 3, stdin=None)
        with open(path, "rb") as file:
            self.assertEqual(file.read(), b"\x0cABCDE")
        with open(path + ".times", encoding="ascii") as kept:
            times = [[*map(int, text.split(" "))] for text in kept.read().splitlines()]
        self.assertEqual(sum(length for _, length in times), 6)
        self.assertEqual([when for when, _ in times], sorted(when for when, _ in times))
        self.assertEqual(sum(length == 0 for _, length in times), 3)

    def test_a_recording_that_cannot_be_written_ends_the_line(self):
        """As on a full disk: here no file may have more than 1,000 bytes. What came until then stays."""
        def act(host):
            host.send(b"A" * 900)
            lines.until(lambda: os.path.exists(path) and os.path.getsize(path) == 900)
            host.send(b"B" * 900)
            host.waits_for_the_end()

        host, path = self.host(act), self.path("kept")
        limit = functools.partial(resource.setrlimit, resource.RLIMIT_FSIZE, (1000, 1000))
        self.ends([host.name, "--record", path], 4, f"btx: line: {host.name}: {path}: file too large, after 900 bytes\n", preexec_fn=limit)
        with open(path, "rb") as file:
            self.assertEqual(file.read(), b"A" * 900 + b"B" * 100)

    def test_names_that_are_empty(self):
        for option, said in (("--record", "the name of the recording is empty"), ("--keys", "the name of the table is empty")):
            self.ends(["-", option, ""], 2, f"argument {option}: {said}\n")

    def test_keys_of_a_pipe_are_sent_however_many_there_are(self):
        data = b"x" * 300_000
        host = self.host(lambda host: host.listens(len(data)))
        self.ends([host.name], 0, "the line has ended, after 0 bytes\n", input=data, stdin=None)
        self.assertEqual(host.came, data)

    def test_keys_wait_for_a_line_that_takes_none(self):
        master, slave = pty.openpty()
        for one in (master, slave):
            self.addCleanup(os.close, one)
        data = b"x" * 300_000
        with open(self.written("typed", data), "rb") as file:
            run = stand.begun("line", f"serial:{os.ttyname(slave)}:38400", stdin=file)
        self.assertTrue(lines.until(lambda: not termios.tcgetattr(slave)[3] & termios.ICANON))
        time.sleep(0.5)
        found = b""
        while len(found) < len(data) and select.select([master], [], [], 60)[0]:
            found += os.read(master, 65536)
        run.terminate()
        run.communicate(timeout=stand.LONG)
        self.assertEqual(found, data)

    def test_standard_input_that_is_closed(self):
        """What the host sends is no key then."""
        host = self.host(lambda host: host.send(b"A\x03BC"))
        closed = functools.partial(os.close, 0)
        self.ends([host.name], 0, "the line has ended, after 4 bytes\n", preexec_fn=closed)
        self.ends(["-"], 4, "btx: line: -: that is standard input, and it is closed\n", preexec_fn=closed)

    def test_a_recording_is_never_written_over(self):
        path = self.written("kept", b"old")
        self.ends(["-", "--record", path], 4, f"btx: line: {path}: it is there already")
        with open(path, "rb") as file:
            self.assertEqual(file.read(), b"old")

    def test_without_the_library_it_says_what_builds_it(self):
        self.ends(["-"], 127, "TAMLIGUB_LIBRARY is nowhere, and no library is there", env=stand.environment(TAMLIGUB_LIBRARY="nowhere"))

    def test_a_serial_device(self):
        master, slave = pty.openpty()
        self.addCleanup(os.close, master)
        before = termios.tcgetattr(slave)
        run = stand.begun("line", f"serial:{os.ttyname(slave)}:1200", stdin=lines.subprocess.PIPE, bufsize=0)
        self.assertTrue(lines.until(lambda: not termios.tcgetattr(slave)[3] & termios.ICANON))
        words = termios.tcgetattr(slave)
        self.assertEqual((words[4], words[5], words[2] & termios.CSIZE), (termios.B1200, termios.B1200, termios.CS8))
        os.write(master, b"Serial")
        run.stdin.write("*1#ä\r".encode())
        found = b""
        while len(found) < 7:
            found += os.read(master, 100)
        self.assertEqual(found, b"\x131\x1c\x19\x48a\r")
        output = b""
        while b"Serial" not in output:
            output += os.read(run.stdout.fileno(), 65536)
        run.terminate()
        _, error = run.communicate(timeout=stand.LONG)
        self.assertEqual((run.returncode, error, termios.tcgetattr(slave)), (-signal.SIGTERM, b"", before))
        os.close(slave)


class Library(stand.Case):
    """The decoder's library, where what is named is none."""

    def test_what_is_no_library_is_told(self):
        """Nothing, a text, a folder, and a library of other calls, which the system finds by its name alone."""
        page = stand.page("title")
        for named in ("nowhere", self.written("text", b"text"), self.folder, "libc.so.6"):
            for words in (["line", "-"], ["cut", page, "--all", "-o", self.path("parts")]):
                done = stand.btx(*words, env=stand.environment(TAMLIGUB_LIBRARY=named))
                said = f"btx: TAMLIGUB_LIBRARY is {named}, and no library is there\n"
                self.assertEqual((done.returncode, done.stdout, done.stderr.decode()), (127, b"", said), words)

    def test_why_one_in_its_place_cannot_be_loaded(self):
        with mock.patch.dict(os.environ, {live.shared.VARIABLE: ""}), mock.patch.object(live, "place", lambda: self.written("text", b"text")):
            live.library.cache_clear()
            self.addCleanup(live.library.cache_clear)
            self.assertRaisesRegex(OSError, "text: ", live.library)

    def test_memory_that_is_not_there_is_told(self):
        """Of the bytes of a page, and of a snapshot."""
        one = live.Live.__new__(live.Live)
        one.handle, one.number = None, live.ctypes.c_uint64()
        for status, kind in ((6, MemoryError), (1, ValueError)):
            self.assertRaises(kind, one.text, lambda *_, status=status: status, "why")


class Names(stand.Case):
    """The names of keys in a table, which is read without the library."""

    def test_letters_with_control_have_names_but_for_those_that_come_as_other_keys(self):
        others = {"h": "backspace", "i": "tab", "j": "return", "m": "return"}
        for letter in "abcdefghijklmnopqrstuvwxyz":
            text, byte = f"ctrl-{letter} 41\nctrl-c leave\n", bytes([ord(letter) - 0x60])
            if letter in others:
                with self.assertRaisesRegex(OSError, f"line 1: ctrl-{letter} comes as {others[letter]}, which is its name here"):
                    lines.keyboard.table_in(text, "table")
                text = text.replace(f"ctrl-{letter}", others[letter])
            wanted = [lines.keyboard.LEAVE if letter == "c" else b"A"]
            self.assertEqual(lines.keys_sent(byte, lines.keyboard.table_in(text, "table")), wanted, letter)

    def test_a_table_whose_only_key_that_leaves_never_comes(self):
        with self.assertRaisesRegex(OSError, "line 2: ctrl-m comes as return"):
            lines.keyboard.table_in("ctrl-c nothing\nctrl-m leave\n", "table")


class Pieces(stand.Case):
    """Sequences of keys, whole and in pieces, which are read without the library."""

    TABLE = lines.keyboard.table_in("escape 1B\nctrl-c leave\n" + "".join(f"f{one} {0xF0 + one:X}\n" for one in range(1, 13)), "table")

    def test_a_key_may_come_in_pieces(self):
        """F1 to F5 of the console of Linux and of xterm, and arrows of both kinds; a sign is itself before and after each."""
        for typed, sent in (
            ("\x1b[[A", b"\xf1"), ("\x1b[[B", b"\xf2"), ("\x1b[[C", b"\xf3"), ("\x1b[[D", b"\xf4"), ("\x1b[[E", b"\xf5"),
            ("\x1bOP", b"\xf1"), ("\x1b[15~", b"\xf5"), ("\x1b[A", b"\x0b"), ("\x1bOB", b"\x0a"), ("\x1b[24~", b"\xfc"),
        ):
            whole = f"a{typed}b".encode()
            for at in range(len(whole) + 1):
                board = lines.keyboard.Keyboard(self.TABLE)
                found = board.sent(whole[:at]) + board.sent(whole[at:])
                self.assertEqual((found, board.let_go()), ([b"a", sent, b"b"], []), (typed, at))

    def test_keys_that_send_nothing(self):
        """Those of rxvt with shift, Alt with a sign, an arrow or return, a key of the keypad, and one that isn't known."""
        for typed in (
            "\x1b[7$", "\x1b[3^", "\x1b[8@", "\x1bx", "\x1bä", "\x1b#", "\x1b\r", "\x1b\x1b[A", "\x1b\x1bOA", "\x1bOj", "\x1bO5A",
            "\x1b[1;5P", "\x1b[" + "9" * 5000 + "~",
        ):
            whole = f"a{typed}b".encode()
            self.assertEqual(lines.keys_sent(whole, self.TABLE), [b"a", b"b"], typed)
            board = lines.keyboard.Keyboard(self.TABLE)
            if len(whole) < 20:
                self.assertEqual([sent for byte in whole for sent in board.sent(bytes([byte]))], [b"a", b"b"], typed)

    def test_escape_is_a_key_where_nothing_follows(self):
        escape = b"\x1b"
        for typed, at_once, later in (
            ("\x1b", [], [escape]), ("\x1b\x1b\x1b", [escape], [escape, escape]), ("a\x1b[", [b"a"], []), ("\x1bO", [], []),
        ):
            board = lines.keyboard.Keyboard(self.TABLE)
            self.assertEqual((board.sent(typed.encode()), board.let_go(), board.let_go()), (at_once, later, []), typed)
            self.assertEqual(board.sent(b"A\x03"), [b"A", lines.keyboard.LEAVE])


class Serial(stand.Case):
    """The flags of a serial device, which is opened without the library."""

    def test_bytes_come_and_go_as_they_are(self):
        """Whatever flags a program before it has left."""
        master, slave = pty.openpty()
        for file in (master, slave):
            self.addCleanup(os.close, file)
        words = termios.tcgetattr(slave)
        words[0] |= termios.IGNCR | termios.INLCR | termios.PARMRK | termios.IXOFF | termios.IGNBRK
        words[1] |= termios.OPOST | termios.ONLCR | termios.OCRNL
        termios.tcsetattr(slave, termios.TCSANOW, words)
        before = termios.tcgetattr(slave)
        with contextlib.closing(wire.Name(f"serial:{os.ttyname(slave)}:1200").open()) as one:
            self.assertEqual(termios.tcgetattr(slave)[:2], [0, 0])
            every = bytes(range(256))
            os.write(master, every)
            self.assertTrue(lines.until(lambda: select.select([one], [], [], 0)[0]))
            self.assertEqual(one.read(), every)
            self.assertEqual((one.send(every), os.read(master, 1000)), (256, every))
        self.assertEqual(termios.tcgetattr(slave), before)


class Glass(stand.Case):
    """The terminal, without the library."""

    def test_a_call_that_a_signal_ends_is_made_again(self):
        """As where the job comes to the foreground: the system ends a call for the terminal then."""
        master, slave = pty.openpty()
        for file in (master, slave):
            self.addCleanup(os.close, file)
        before, calls = termios.tcgetattr(slave), []

        def ended(call):
            def made(*things):
                calls.append(call)
                if calls.count(call) == 1:
                    raise termios.error(errno.EINTR, os.strerror(errno.EINTR))
                return call(*things)
            return made

        with open(os.devnull, "w", encoding="utf-8") as stream, contextlib.ExitStack() as stack:
            one = glass.Glass(terminal.Painter(0, False), stream, slave)
            for module, name in ((termios, "tcgetattr"), (termios, "tcsetattr"), (tty, "setraw")):
                stack.enter_context(mock.patch.object(module, name, ended(getattr(module, name))))
            one.take()
            self.assertFalse(termios.tcgetattr(slave)[3] & termios.ICANON)
            one.end()
            self.assertEqual(termios.tcgetattr(slave), before)
        self.assertEqual(len(set(calls)), 3)


class Keys(lines.Case):
    """What keys send: those of the issue by the codes of the profile and of ISO 6937."""

    def test_signs_and_keys(self):
        for typed, sent in (
            ("Az09 ?", b"Az09 ?"), ("*12#", b"\x1312\x1c"), ("\r", b"\r"), ("ä", b"\x19\x48a"), ("ß", b"\x19\x7b"), ("Å", b"\x19\x4aA"),
            ("\x1b[A", b"\x0b"), ("\x1b[B", b"\x0a"), ("\x1bOC", b"\x09"), ("\x1b[D", b"\x08"), ("\x7f", b"\x08"), ("\x1b[H", b"\x1e"),
            ("\x1b[3~\x1b[99~\x1b[1;5A\x1b\x07€", b""),
        ):
            self.assertEqual(b"".join(lines.keys_sent(typed.encode())), sent, typed)
        self.assertEqual(lines.keys_sent(b"a\x03"), [b"a", lines.keyboard.LEAVE])

    def test_a_sign_may_come_in_pieces(self):
        board = lines.keyboard.Keyboard(lines.keyboard.USUAL)
        self.assertEqual([board.sent(piece) for piece in (b"\xc3", b"\xa4")], [[], [b"\x19\x48a"]])

    def test_a_table_of_ones_own(self):
        text = "# a note\nf1 1C\nhash 23\n* 2A\nä 84\n\nctrl-x leave\nctrl-c 03\nreturn 0D 0A\nup nothing\n"
        table = lines.keyboard.table_in(text, "table")
        sent = lines.keys_sent("\x1bOP#*ä\x03\r\x1b[A".encode(), table)
        self.assertEqual((b"".join(sent), lines.keys_sent(b"\x18", table)), (b"\x1c#*\x84\x03\r\n", [lines.keyboard.LEAVE]))

    def test_what_is_wrong_with_a_table(self):
        for text, said in (
            ("retrun 0D", "line 1: retrun is no key; the nearest is return"), ("a\nb 1", "line 1: after a stand its bytes"),
            ("# note\nf1 1G", "line 2: after f1 stand its bytes"), ("ctrl-c 03", "no key leaves"),
            ("ctrl-c nothing\nctrl-m leave", "line 2: ctrl-m comes as return, which is its name here"),
        ):
            path = self.written("table", text.encode())
            done = stand.btx("line", "-", "--keys", path)
            self.assertEqual((done.returncode, done.stderr.decode()[: len(f"btx: line: {path}: {said}")]), (4, f"btx: line: {path}: {said}"))


class InTerminal(lines.Case):
    """The terminal while a line is shown in it, and when it ended."""

    def opened(self, act, *words, **more):
        """A run that shows what a host sends."""
        return self.terminal("line", self.host(act).name, "--signs", "blocks", *words, **more)

    def held(self, data):
        """What sends some bytes and then waits for the end of the line."""
        def act(host):
            host.send(data)
            host.waits_for_the_end()

        return act

    def is_as_it_was(self, one):
        """Whether the terminal is as it was: its words, its cursor, its colours, and the screen that it had before."""
        self.assertEqual(one.attributes(), one.before)
        text = one.text.decode()
        for on, off in (("\x1b[?1049h", "\x1b[?1049l"), ("\x1b[?25l", "\x1b[?25h")):
            self.assertGreater(text.rfind(off), text.rfind(on), text[-200:])
        self.assertIn("\x1b[0m\x1b[?25h\x1b[?1049l", text)

    def test_the_key_that_leaves(self):
        one = self.opened(self.held(b"GutenTag!"))
        self.assertTrue(one.has(b"GutenTag!"))
        self.assertTrue(lines.until(one.is_raw))
        one.type(b"*1\x03")
        self.assertEqual((one.status(), one.error), (0, ""))
        self.is_as_it_was(one)
        self.assertTrue(one.text.endswith(b"\x1b[?1049l"))

    def test_signals_leave_the_terminal_as_it_was(self):
        for number in (signal.SIGTERM, signal.SIGHUP, signal.SIGINT, signal.SIGQUIT):
            one = self.opened(self.held(b"GutenTag!"))
            self.assertTrue(one.has(b"GutenTag!"))
            one.signal(number)
            self.assertEqual((one.status(), one.error), (-number, ""))
            self.is_as_it_was(one)

    def test_it_stops_and_goes_on(self):
        one = self.opened(self.held(b"GutenTag!"))
        self.assertTrue(one.has(b"GutenTag!"))
        one.signal(signal.SIGTSTP)
        self.assertTrue(one.has(b"\x1b[?1049l"))
        self.assertTrue(lines.until(lambda: one.attributes() == one.before))
        one.text = b""
        lines.until(lambda: open(f"/proc/{one.run.pid}/stat", encoding="ascii").read().split()[2] == "T")
        one.signal(signal.SIGCONT)
        self.assertTrue(one.has(b"GutenTag!"))
        self.assertTrue(lines.until(one.is_raw))
        one.type(b"\x03")
        self.assertEqual(one.status(), 0)
        self.is_as_it_was(one)

    def test_patience_begins_anew_after_a_stop(self):
        """A stop that is longer than patience: what came meanwhile is read first."""
        def act(host):
            host.send(b"GutenTag!")
            host.listens(1)
            going_on.wait(stand.LONG)
            host.send(b"Antwort")
            host.waits_for_the_end()

        going_on = threading.Event()
        host = self.host(act)
        one = self.terminal("line", host.name, "--signs", "blocks", "--patience", "3")
        self.assertTrue(one.has(b"GutenTag!"))
        self.assertTrue(lines.until(one.is_raw))
        one.type(b"x")
        self.assertTrue(lines.until(lambda: host.came == b"x"))
        one.signal(signal.SIGTSTP)
        lines.until(lambda: open(f"/proc/{one.run.pid}/stat", encoding="ascii").read().split()[2] == "T")
        time.sleep(3.5)
        going_on.set()
        self.assertTrue(lines.until(lambda: host.sent == len(b"GutenTag!Antwort")))
        one.signal(signal.SIGCONT)
        self.assertTrue(lines.until(lambda: one.run.poll() is not None or self.has_read(one, b"Antwort")))
        one.type(b"\x03")
        self.assertEqual((one.status(), one.error), (0, ""))

    def has_read(self, one, part):
        """Whether a terminal has come to have some bytes."""
        one.read()
        return part in one.text

    def test_escape_is_sent_once_nothing_follows(self):
        host = self.host(self.held(b"GutenTag!"))
        one = self.terminal("line", host.name, "--signs", "blocks", "--keys", self.written("table", b"escape 1B\n"))
        self.assertTrue(one.has(b"GutenTag!"))
        self.assertTrue(lines.until(one.is_raw))
        for typed, came in ((b"\x1b", b"\x1b"), (b"\x1b[A", b"\x1b\x0b"), (b"\x1bx", b"\x1b\x0b"), (b"y", b"\x1b\x0by")):
            one.type(typed)
            self.assertTrue(lines.until(lambda: len(host.came) >= len(came)))
            self.assertEqual(host.came, came)
        one.type(b"\x03")
        self.assertEqual(one.status(), 0)

    def test_a_terminal_of_another_size(self):
        one = self.opened(self.held(b"GutenTag!\x1f\x58\x41Unten"), rows=24, columns=40)
        self.assertTrue(one.has(b"Unten"))
        for rows, seen in ((30, True), (20, False)):
            one.text = b""
            one.resize(rows, 80)
            self.assertTrue(one.has(b"GutenTag!"))
            self.assertTrue(one.has(b"\x1b[?25h"))
            self.assertEqual(b"Unten" in one.text, seen, rows)
        one.type(b"\x03")
        self.assertEqual(one.status(), 0)

    def test_too_small_a_terminal(self):
        one = self.opened(self.held(b"A"), rows=20)
        self.assertEqual(one.status(), 4)
        self.assertIn("the terminal has 20 rows of 80, and a page 24 of 40", one.error)
        self.assertEqual((one.text, one.attributes()), (b"", one.before))

    def test_too_small_a_terminal_leaves_no_recording(self):
        one = self.opened(self.held(b"A"), "--record", self.path("kept"), rows=20)
        self.assertEqual((one.status(), os.listdir(self.folder)), (4, []))

    def test_nothing_that_a_host_sends_is_a_sequence_of_the_terminal(self):
        """All bytes there are, and sequences of terminals: only sequences that paint come."""
        every = bytes(range(256)) * 3 + ESCAPES + bytes(at * 7 % 256 for at in range(4000))
        one = self.opened(lambda host: host.send(every))
        self.assertEqual(one.status(), 0)
        text = one.text.decode()
        for sequence in lines.SEQUENCE.findall(text):
            self.assertRegex(sequence, lines.PAINTS)
        self.assertNotRegex(lines.SEQUENCE.sub("", text).replace("\r\n", ""), "[\x00-\x1f\x7f-\x9f]")
        self.is_as_it_was(one)

    def test_a_page_from_standard_input_is_left_by_the_key(self):
        reading, writing = os.pipe()
        self.addCleanup(os.close, writing)
        one = self.terminal("line", "-", "--signs", "blocks", stdin=reading)
        os.close(reading)
        os.write(writing, b"GutenTag!")
        self.assertTrue(one.has(b"GutenTag!"))
        one.type(b"\x03")
        self.assertEqual((one.status(), one.error), (0, ""))
        self.is_as_it_was(one)


class InTmux(lines.Case):
    """What a person sees at the end, in tmux: the page as `show` has it, the sentence, and a terminal as it was."""

    def is_left(self, act, data, status, *options):
        """Runs a line until it ends; answers the rows of the pane after the page."""
        tmux, = self.needs("tmux")
        host = self.host(act)
        env = stand.environment(LANG="C.UTF-8", LC_ALL="C.UTF-8", TERM="xterm-256color", SHELL="/bin/sh")
        env.pop("TMUX", None)

        def ask(*words):
            keys = {"stdout": lines.subprocess.PIPE, "stderr": lines.subprocess.STDOUT, "timeout": stand.LONG, "env": env, "cwd": self.folder}
            done = lines.subprocess.run([tmux, "-f", "/dev/null", "-S", "socket", *words], **keys)
            self.assertEqual(done.returncode, 0, done.stdout.decode())
            return done.stdout.decode()

        command = f"stty -a > before; {stand.BTX} line {host.name} {' '.join(options)}; echo status $?; stty -a > after; echo ready; exec cat"
        ask("-u", "new-session", "-d", "-x", "80", "-y", "40", command)
        try:
            self.assertTrue(lines.until(lambda: "ready" in ask("capture-pane", "-p")))
            rows = ask("capture-pane", "-p").split("\n")
            flags = ask("display", "-p", "#{alternate_on} #{cursor_flag} #{insert_flag} #{origin_flag} #{wrap_flag} #{pane_title}")
            ask("send-keys", "echo", "Enter")
            self.assertTrue(lines.until(lambda: ask("capture-pane", "-p").count("echo") == 2))
        finally:
            ask("kill-server")
        with open(self.path("before"), encoding="utf-8") as before, open(self.path("after"), encoding="utf-8") as after:
            self.assertEqual(before.read(), after.read())
        self.assertEqual(flags.split()[:5], ["0", "1", "0", "0", "1"])
        self.assertNotIn("title", flags)
        self.assertIn(f"status {status}", rows)
        want = stand.put("show", self.written("page", data)).decode().split("\n")[:-1]
        self.assertEqual([row.rstrip() for row in rows[: len(want)]], [row.rstrip() for row in want])
        return rows[len(want) :]

    def test_a_host_that_closes_in_the_middle(self):
        data = b"\x0c\x1f\x43\x43GutenTag!\x1f\x45\x4312\x1f\x46"
        rest = self.is_left(lambda host: host.send(data), data, 0)
        self.assertIn(f"the line has ended, after {len(data)} bytes", rest[0])

    def test_a_host_that_stops_in_the_middle(self):
        data = b"\x0c\x1f\x43\x43GutenTag!\x1f\x45\x4312\x1f\x46"

        def act(host):
            host.send(data)
            host.waits_for_the_end()

        self.assertIn("nothing came for 5 seconds", self.is_left(act, data, 5, "--patience", "5", "<", "/dev/null")[0])

    def test_a_host_that_sends_ten_megabytes_at_once(self):
        data = (b"\x0c" + bytes(0x21 + at % 94 for at in range(1000))) * 10500 + b"\x0c\x1f\x43\x43GutenTag!"
        rest = self.is_left(lambda host: host.send(data), b"\x1f\x43\x43GutenTag!", 0)
        self.assertIn(f"after {len(data):,} bytes", rest[0])

    def test_a_host_that_sends_escapes(self):
        data = b"\x0c" + ESCAPES + b"\x0f\x1f\x50\x43GutenTag!"
        self.is_left(lambda host: host.send(data), data, 0)
