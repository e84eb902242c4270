"""The host for trying terminals, as guests find it over real sockets."""
import http.client
import os
import re
import selectors
import shlex
import signal
import socket
import struct
import time

import lines
import stand

from btx import guest as guests, web

# Full defaults with the parallel set, as docs/PROFILE.md has them: as on a decoder that was just opened.
AT_FIRST = b"\x1f\x2f\x42"
GUESTS, REQUESTS = 50, (b"*2#", b"#", b"*0#", b"\x132\x1c")


class Guest:
    """A guest, with all that came."""

    def __init__(self, port):
        self.socket = socket.create_connection(("127.0.0.1", port), timeout=stand.LONG)
        self.came = b""

    def send(self, data):
        self.socket.sendall(data)

    def has(self, data):
        """Whether exactly these bytes come next."""
        end = len(self.came) + len(data)
        while len(self.came) < end:
            piece = self.socket.recv(end - len(self.came))
            if not piece:
                return False
            self.came += piece
        return self.came.endswith(data)

    def is_dropped(self):
        """Waits for the end of the line."""
        while piece := self.socket.recv(65536):
            self.came += piece
        return True

    def close(self):
        self.socket.close()


class HostCase(stand.Case):
    def setUp(self):
        super().setUp()
        os.mkdir(self.path("pages"))
        self.pages = {}
        for number, name in (("0", "title"), ("1", "boat"), ("2", "timetable"), ("2b", "weather"), ("12", "signs")):
            with open(stand.page(name), "rb") as file:
                self.pages[number] = file.read()
            self.written(f"pages/{number}.btx", self.pages[number])

    def host(self, *options, folder=None):
        """A host that runs, and its port."""
        run = stand.begun("host", folder or self.path("pages"), "--port", "0", *options)
        self.addCleanup(self.ended, run)
        self.said = []
        for line in run.stderr:
            self.said.append(line.decode())
            found = re.search(r"127\.0\.0\.\d:(\d+)", self.said[-1])
            if found:
                return run, int(found[1])
        raise AssertionError(f"it ended: {self.said}")

    def ended(self, run):
        if run.poll() is None:
            os.killpg(run.pid, signal.SIGINT)
        run.wait(stand.LONG)
        run.stdout.close()
        run.stderr.close()

    def guest(self, port):
        guest = Guest(port)
        self.addCleanup(guest.close)
        return guest

    def page(self, number):
        return AT_FIRST + self.pages[number]

    def comes_to(self, guest, data):
        """Takes what has come, and answers whether it ends with some bytes."""
        watch = selectors.DefaultSelector()
        watch.register(guest.socket, selectors.EVENT_READ)
        while watch.select(0):
            guest.came += guest.socket.recv(65536)
        watch.close()
        return guest.came.endswith(data)

    def show(self, data):
        return stand.put("show", self.written("came", data)).decode().split("\n")[:-1]


class Requests(HostCase):
    def test_pages_by_number_and_part(self):
        _, port = self.host("--bits", "0")
        guest = self.guest(port)
        self.assertTrue(guest.has(self.page("0")))
        for request, number in ((b"*2#", "2"), (b"#", "2b"), (b"\x1312\x1c", "12"), (b"*0#", "0"), (b"*002#", "2"), (b"**1#", "1")):
            guest.send(request)
            self.assertTrue(lines.until(lambda: self.comes_to(guest, self.page(number))), request)
            self.assertEqual(lines.cells_of(self.written("came", guest.came)), lines.cells_of(self.path("pages", number + ".btx")))

    def test_what_is_typed_stands_in_the_last_row_and_leaves_the_rest(self):
        _, port = self.host("--bits", "0")
        guest = self.guest(port)
        guest.has(self.page("0"))
        before = lines.cells_of(self.path("pages", "0.btx"))
        for typed, row in (
            (b"*9", "*9"), (b"9#", "*99#: keine Seite, no page"), (b"#", "#: keine Seite, no page"), (b"*", "*"),
            (b"12345678901234567", "Mehr als 16 Zeichen, more than 16 signs"), (b"*1234567890123456", "*1234567890123456"),
            (b"*12\x083", "*13"), (b"\x7f\x08\x08", "*"),
        ):
            guest.send(typed)
            self.assertTrue(lines.until(lambda: self.comes_to(guest, b"\x1f\x2f\x4f") and self.show(guest.came)[23].rstrip() == row), row)
            cells = lines.cells_of(self.written("came", guest.came))
            self.assertEqual({place: look for place, look in cells.items() if place[0] < 24},
                             {place: look for place, look in before.items() if place[0] < 24})

    def test_signs_that_are_no_digits_ask_for_no_page(self):
        one = guests.Guest(guests.Pages(self.path("pages")))
        for typed in (b"1x2", b"2b", b" 1", b"\x19Hau", b"1\x19"):
            *_, (said, is_page) = [one.take(byte) for byte in b"*" + typed + b"#"]
            self.assertEqual((said, is_page), (guests.FOOT + b"*" + typed + b"#: keine Seite, no page" + guests.BACK, False))
        # Sixteen letters with accents are sixteen signs.
        *_, (said, is_page) = [one.take(byte) for byte in b"*" + 16 * b"\x19Ha" + b"#"]
        self.assertIn(b"keine Seite", said)

    def test_what_is_left_of_a_refused_request_is_dropped(self):
        one = guests.Guest(guests.Pages(self.path("pages")))

        def sent(typed):
            return [one.take(byte)[0] for byte in typed]

        for rest in (b"8#", b"\x1c"):
            *digits, refused = sent(b"*12345678901234567")
            self.assertIn(b"16 Zeichen", refused)
            self.assertEqual(sent(rest), [b""] * len(rest))
            self.assertIn(b"keine Seite", sent(b"#")[0])
        sent(b"*12345678901234567")
        self.assertIn(b"*99#: keine Seite", sent(b"*99#")[-1])

    def test_nothing_else_is_answered(self):
        _, port = self.host("--bits", "0")
        guest = self.guest(port)
        guest.has(self.page("0"))
        guest.send(bytes(one for one in range(256) if one not in b"*#\x13\x1c") + b"\x131#")
        self.assertTrue(lines.until(lambda: self.comes_to(guest, self.page("1"))))
        self.assertNotIn(b"\x1f\x2f\x4f", guest.came[: len(self.page("0"))])

    def test_pages_without_numbers_get_some_and_are_listed(self):
        _, port = self.host("--bits", "0", folder=stand.PAGES)
        self.assertEqual(self.said[:-1], [f"btx: host: *{number}# {name}.btx\n" for number, name in enumerate(stand.all_pages())])
        guest = self.guest(port)
        with open(stand.page(stand.all_pages()[0]), "rb") as file:
            self.assertTrue(guest.has(AT_FIRST + file.read()))

    def test_pages_that_no_number_shows_are_listed(self):
        """One whose name is none, and one whose number another has."""
        for name in ("title.btx", "02.btx"):
            self.written(f"pages/{name}", b"A")
        self.host("--bits", "0")
        self.assertEqual(self.said[:-1], [f"btx: host: no number shows {name}\n" for name in ("02.btx", "title.btx")])

    def test_what_is_no_file_is_no_page(self):
        """A pipe that nobody writes, a folder, and a link to nothing."""
        os.mkfifo(self.path("pages", "3.btx"))
        os.mkdir(self.path("pages", "4.btx"))
        os.symlink("nowhere", self.path("pages", "5.btx"))
        _, port = self.host("--bits", "0")
        guest = self.guest(port)
        for number in (b"3", b"4", b"5"):
            guest.send(b"*" + number + b"#")
            self.assertTrue(lines.until(lambda: self.comes_to(guest, b"*" + number + b"#: keine Seite, no page" + guests.BACK)), number)

    def test_who_asks_for_a_page_that_is_gone_is_dropped_and_it_is_named(self):
        run, port = self.host("--bits", "0")
        guest, page = self.guest(port), self.path("pages", "2.btx")
        self.assertTrue(guest.has(self.page("0")))
        os.remove(page)
        guest.send(b"*2#")
        self.assertTrue(guest.is_dropped())
        self.assertTrue(run.stderr.readline().decode().endswith(f" is dropped: {page}: no such file or directory\n"))

    def test_what_cannot_be_served(self):
        for name in ("empty", "parts"):
            os.mkdir(self.path(name))
        self.written("parts/012b.btx", b"A")
        with socket.create_server(("127.0.0.1", 0)) as server:
            taken = str(server.getsockname()[1])
            for words, said in (
                ((self.path("none"), "--port", "0"), "none: no such file or directory"),
                ((self.path("empty"), "--port", "0"), "empty: no file in it ends in .btx"),
                ((self.path("parts"), "--port", "0"), "parts: no page in it has its first part; 012b.btx is a later one, after 12.btx\n"),
                ((self.path("pages"), "--port", taken), "address already in use"),
            ):
                done = stand.btx("host", *words)
                self.assertEqual((done.returncode, said in done.stderr.decode()), (4, True), done.stderr)
            # Pages are listed once it listens.
            self.assertNotIn(b"*0#", stand.btx("host", stand.PAGES, "--port", taken).stderr)
        for host in ("a..b", f"{64 * 'a'}.example"):
            done = stand.btx("host", self.path("pages"), "--port", "0", "--bind", host)
            self.assertEqual((done.returncode, done.stderr), (4, b"btx: host: name or service not known\n"))
        for line in ("--port x", "--port 65536", "--port 0 --bits -1", "--port 0 --patience 0", ""):
            self.assertEqual(stand.btx("host", self.path("pages"), *line.split()).returncode, 2)
        done = stand.btx("host", self.path("pages"), "--port", "0", "--bind", "")
        self.assertEqual((done.returncode, done.stderr.endswith(b"argument --bind: the address is empty\n")), (2, True), done.stderr)


class Guests(HostCase):
    def test_bytes_come_no_faster_than_the_line(self):
        """After some time no more bytes have come than the line carries; it may be fewer on a machine that has other work."""
        _, port = self.host("--bits", "9600")
        begun = time.monotonic()
        guest, came = self.guest(port), 0
        while came < len(self.page("0")):
            came += len(guest.socket.recv(4096))
            self.assertLessEqual(came, (time.monotonic() - begun) * 960)

    def test_several_guests_at_once_lose_nothing(self):
        """Each asks for its own pages in turn, and gets all of their bytes."""
        _, port = self.host("--bits", "9600")
        guests = [self.guest(port) for _ in range(GUESTS)]
        for guest in guests:
            self.assertTrue(guest.has(self.page("0")))
        shown = ["0"] * GUESTS
        for turn in range(len(REQUESTS)):
            for number, guest in enumerate(guests):
                request = REQUESTS[(turn + number) % len(REQUESTS)]
                shown[number] = {b"#": shown[number] + "b", b"*0#": "0"}.get(request, "2")
                guest.send(request)
            for number, guest in enumerate(guests):
                echo = {b"#": b""}.get(REQUESTS[(turn + number) % len(REQUESTS)])
                want = self.page(shown[number]) if shown[number] in self.pages else None
                self.assertTrue(self.takes(guest, echo is None, want), (turn, number))
                shown[number] = shown[number] if want else shown[number][:-1]

    def takes(self, guest, is_typed, page):
        """Takes what a request is answered with: two lines at the foot where something was typed, and a page, or a line that there is none."""
        for _ in range(2 if is_typed else 0):
            self.assertTrue(self.takes_foot(guest))
        return guest.has(page) if page else self.takes_foot(guest)

    def takes_foot(self, guest):
        if not guest.has(b"\x1f\x2f\x40\x58\x18"):
            return False
        while not guest.came.endswith(b"\x1f\x2f\x4f"):
            guest.came += guest.socket.recv(1)
        return True

    def test_guests_that_ask_for_nothing_are_dropped(self):
        """Who sends nothing, who sends nonsense, and who takes nothing."""
        self.written("pages/3.btx", b"\x0c" + b"A" * 2**23)
        run, port = self.host("--bits", "0", "--patience", "4")
        before = self.sockets(run)
        silent, babbling, deaf = (self.guest(port) for _ in range(3))
        deaf.send(b"*3#")
        babbling.send(b"nonsense" * 100)
        self.assertTrue(silent.is_dropped())
        self.assertTrue(babbling.is_dropped())
        self.assertEqual(silent.came, self.page("0"))
        said = "".join(run.stderr.readline().decode() for _ in range(3))
        self.assertEqual(said.count("is dropped: it asked for no page within 4 seconds"), 2, said)
        self.assertEqual(said.count("is dropped: it took nothing for 4 seconds"), 1, said)
        # No line is left open, that of who still takes nothing neither.
        self.assertTrue(lines.until(lambda: self.sockets(run) == before))

    def sockets(self, run):
        """The sockets that a run has open."""
        folder = f"/proc/{run.pid}/fd"
        return {name for name in os.listdir(folder) if os.readlink(os.path.join(folder, name)).startswith("socket:")}

    def test_a_guest_that_takes_slowly_is_not_dropped(self):
        """One who takes some bytes again and again, for longer than patience, has all of them, and can ask for more."""
        patience = 4
        self.written("pages/3.btx", b"A" * 2**24)
        _, port = self.host("--bits", "0", "--patience", str(patience))
        guest = self.guest(port)
        guest.socket.setsockopt(socket.SOL_SOCKET, socket.SO_RCVBUF, 2**16)
        guest.send(b"*3#")
        count, begun = 0, time.monotonic()
        while count < 2**24:
            piece = guest.socket.recv(2**17)
            self.assertTrue(piece, f"dropped after {time.monotonic() - begun:.1f} seconds with {count:,} bytes")
            count += len(piece)
            time.sleep(len(piece) / 2**21)
        self.assertGreater(time.monotonic() - begun, patience)
        guest.send(b"*2#")
        self.assertTrue(lines.until(lambda: self.comes_to(guest, self.page("2"))))

    def test_a_guest_that_leaves_while_a_page_goes_out_is_no_fault(self):
        self.written("pages/3.btx", b"\x0c" + b"A" * 2**23)
        run, port = self.host("--bits", "0", "--patience", "4")
        guest, waiting = self.guest(port), self.guest(port)
        guest.send(b"*3#")
        self.assertTrue(guest.has(self.page("0")))
        guest.socket.setsockopt(socket.SOL_SOCKET, socket.SO_LINGER, struct.pack("ii", 1, 0))
        guest.close()
        self.assertTrue(waiting.is_dropped())
        self.assertIn("is dropped: it asked for no page within 4 seconds", run.stderr.readline().decode())

    def test_more_guests_than_there_may_be_are_sent_away(self):
        run, port = self.host("--bits", "0", "--guests", "2")
        first, second = self.guest(port), self.guest(port)
        self.assertTrue(first.has(self.page("0")) and second.has(self.page("0")))
        third = self.guest(port)
        self.assertTrue(third.is_dropped())
        self.assertEqual(third.came, b"")
        self.assertIn("is sent away: 2 guests are there", run.stderr.readline().decode())
        first.close()
        self.assertTrue(lines.until(lambda: self.guest(port).has(b"\x1f")))

    def test_it_listens_on_this_machine_alone_unless_told_otherwise(self):
        for options, address in (((), "0100007F"), (("--bind", "127.0.0.2"), "0200007F")):
            run = stand.begun("host", self.path("pages"), "--port", "0", *options)
            self.addCleanup(self.ended, run)
            said = next(line for line in iter(run.stderr.readline, b"") if b"test bench" in line).decode()
            port = int(re.search(r":(\d+),", said)[1])
            with open("/proc/net/tcp", encoding="ascii") as file:
                self.assertIn(f" {address}:{port:04X} ", file.read())

    def test_it_says_how_it_is_called(self):
        """The last line ends with what a guest on this machine types, by the name by which btx was run."""
        by_path = shlex.quote(os.path.join(stand.ROOT, "bin", "btx"))
        os.mkdir(self.path("bin"))
        os.symlink(os.path.join(stand.ROOT, "bin", "btx"), self.path("bin", "btx"))
        path = os.environ["PATH"]
        for address, places, typed in (("127.0.0.1", path, by_path), ("0.0.0.0", path, by_path), ("127.0.0.1", f"{self.path('bin')}:{path}", "btx")):
            env = stand.environment(PATH=places)
            run = stand.begun("host", self.path("pages"), "--port", "0", "--bind", address, env=env)
            self.addCleanup(self.ended, run)
            said = next(line for line in iter(run.stderr.readline, b"") if b"test bench" in line).decode()
            port = re.search(r":(\d+),", said)[1]
            self.assertEqual(said.partition("no service; ")[2], f"a guest: {typed} line 127.0.0.1:{port}\n")

    def test_an_interrupt_ends_it_quietly(self):
        self.written("pages/0.btx", b"A" * 2**22)
        run, port = self.host("--bits", "0")
        for _ in range(3):
            self.assertTrue(self.guest(port).has(AT_FIRST + b"A"))
        os.killpg(run.pid, signal.SIGINT)
        self.assertEqual(run.wait(stand.LONG), -signal.SIGINT)
        self.assertEqual(run.stderr.read(), b"")

    def test_a_line_to_it(self):
        """btx line as its guest: what is typed is answered."""
        if not lines.live.place():
            self.leave_out(why=f"there is no library/out/{lines.live.shared.NAME} (library/build library/out makes it)")
        _, port = self.host("--bits", "0")
        one = lines.Terminal("line", f"127.0.0.1:{port}", "--signs", "blocks")
        self.addCleanup(one.close)
        self.assertTrue(one.has(b"Fahrplan"))
        one.text = b""
        one.type(b"*2#")
        self.assertTrue(one.has(b"Abfahrt"))
        one.type(b"\x03")
        self.assertEqual(one.status(), 0)


class Web(HostCase):
    """The line as a WebSocket. That a browser shows it is tested by view/test_line."""

    def host(self, *options, **more):
        if not stand.absent.has_library("websockets"):
            self.leave_out("websockets")
        return super().host("--web", *options, **more)

    def asked(self, port, address="127.0.0.1", **headers):
        """The status and the text with which a request is answered."""
        connection = http.client.HTTPConnection(address, port, timeout=stand.LONG)
        connection.request("GET", "/", headers=headers)
        answer = connection.getresponse()
        text = answer.read() if answer.status != 101 else b""
        connection.close()
        return answer.status, text

    def test_a_browser_that_asks_for_a_page_gets_the_viewer(self):
        _, port = self.host()
        status, text = self.asked(port)
        if os.path.exists(stand.absent.MODULE):
            self.assertEqual((status, text), (200, stand.btx("viewer").stdout))
        else:
            said = stand.btx("viewer").stderr.decode().removeprefix("btx: viewer: ").removesuffix("; --module can name one\n")
            self.assertIn("isn't built: ", said)
            self.assertEqual((status, text.decode()), (404, f"This port is a WebSocket. There is no viewer for it, since {said}\n"))

    def test_it_says_where_a_browser_shows_it(self):
        _, port = self.host()
        self.assertTrue(self.said[-1].endswith(f"; a browser shows it at http://127.0.0.1:{port}/, by Watch\n"), self.said)

    def test_other_websites_may_not_open_it(self):
        _, port = self.host()
        upgrade = {"Upgrade": "websocket", "Connection": "Upgrade", "Sec-WebSocket-Key": "dGhlIHNhbXBsZSBub25jZQ==", "Sec-WebSocket-Version": "13"}
        for origin, status in (("https://example.org", 403), (f"http://example.org:{port}", 403), (f"http://127.0.0.1:{port}", 101), ("null", 101)):
            self.assertEqual(self.asked(port, Origin=origin, **upgrade)[0], status, origin)
        self.assertEqual(self.asked(port, Host=f"example.org:{port}", Origin=f"http://example.org:{port}", **upgrade)[0], 403)
        self.assertEqual(self.asked(port, **upgrade)[0], 101)

    def test_at_the_usual_port_a_browser_names_none(self):
        for origin, port, may in (
            ("http://127.0.0.1", 80, True), ("http://localhost", 80, True), ("http://[::1]", 80, True), ("http://localhost:80", 80, True),
            ("http://localhost", 8080, False), ("http://example.org", 80, False), ("http://localhost:81", 80, False),
        ):
            self.assertEqual(web.is_open_to({"Origin": origin}, "127.0.0.1", port), may, (origin, port))
        self.assertTrue(web.is_open_to({"Origin": "http://127.0.0.2"}, "127.0.0.2", 80))

    def test_an_empty_message_does_not_end_the_line(self):
        """As of an input field that has no signs."""
        _, port = self.host("--bits", "0")
        guest = self.guest(port)
        guest.send(b"GET / HTTP/1.1\r\nHost: localhost\r\nUpgrade: websocket\r\nConnection: Upgrade\r\n"
                   b"Sec-WebSocket-Key: dGhlIHNhbXBsZSBub25jZQ==\r\nSec-WebSocket-Version: 13\r\n\r\n")
        # By RFC 6455 a whole message of text is 81, of bytes 82; its length with the bit of a mask, and a mask, here of zeros.
        for kind, typed in ((b"\x82", b""), (b"\x81", b""), (b"\x82", b"*2#")):
            guest.send(kind + bytes([0x80 + len(typed)]) + bytes(4) + typed)
        while self.page("2") not in guest.came:
            piece = guest.socket.recv(65536)
            self.assertTrue(piece, guest.came[-100:])
            guest.came += piece

    def test_other_machines_may_where_it_is_bound_so(self):
        _, port = self.host("--bind", "127.0.0.2")
        upgrade = {"Upgrade": "websocket", "Connection": "Upgrade", "Sec-WebSocket-Key": "dGhlIHNhbXBsZSBub25jZQ==", "Sec-WebSocket-Version": "13"}
        for host, origin, status in (("machine:1", "http://machine:1", 101), ("machine:1", "http://other:1", 403), ("machine:1", "null", 101)):
            self.assertEqual(self.asked(port, "127.0.0.2", Host=host, Origin=origin, **upgrade)[0], status, origin)

    def test_without_the_library_it_says_so(self):
        os.makedirs(self.path("without", "websockets"))
        self.written("without/websockets/__init__.py", b"raise ImportError\n")
        done = stand.btx("host", self.path("pages"), "--port", "0", "--web", env=stand.environment(PYTHONPATH=self.path("without")))
        self.assertEqual((done.returncode, b"it takes websockets, and this Python has none (Debian: apt-get install python3-websockets)" in done.stderr),
                         (127, True), done.stderr)
