"""Recordings of a line, replayed in their own time: by the terminal, as a cast, and in the viewer; and the pages that are cut of one."""
import errno
import json
import os
import re
import resource

import lines
import stand
from test_terminal import CLOCK, FULL, Reading

from btx import cut, live, program, recording

# Colours and a double size, in pieces that end in the middle of units too.
DATA = b"\x0c\x1f\x43\x43\x81Rot\x1f\x45\x4a\x8dHoch\x8c.\x1f\x47\x41\x94Ende"
SIZES = (1, 2, 3, 1, 5, 1, 2, 4, 6, 3)


class Kept(stand.Case):
    """Recordings, and what is to be seen of them."""

    def kept(self, data, times):
        path = self.written("kept", data)
        self.written("kept.times", "".join(f"{when} {length}\n" for when, length in times).encode())
        return path

    def cells(self, data):
        return lines.cells_of(self.written("front", data))

    def shows(self, text, front):
        """Compares what a terminal holds with the cells of some bytes: the signs, and the colours of those that aren't blank."""
        reading, cells = Reading(text), self.cells(front)
        rows = stand.put("show", self.path("front")).decode().split("\n")[:-1]
        for row, want in enumerate(rows, 1):
            self.assertEqual([reading.signs.get((row, column), " ") for column in range(1, 41)], list(want), (front, row))
        for place, look in cells.items():
            colours = [f"{layer};2;" + ";".join(str(17 * int(digit, 16)) for digit in paint) for layer, paint in ((38, look.fore), (48, look.back))]
            self.assertEqual(reading.styles[place].split(";", 1)[1], ";".join(colours), place)

    def is_between_items(self, front):
        """Whether no bytes at the end of some are an item that isn't whole."""
        done = stand.put("check", self.written("front", front)).decode()
        longer = stand.put("check", self.written("front", front + b"A")).decode()
        return "Truncated" not in done and "Interrupted" not in longer and program.counts_in(longer)[0] == program.counts_in(done)[0] + 1


class Recordings(Kept):
    """Recordings that a test has written."""

    def test_a_cast_shows_at_each_stop_what_had_come(self):
        times = [(137 * (number + 1), length) for number, length in enumerate(SIZES)]
        path = self.kept(DATA[: sum(SIZES)], times)
        done = stand.btx("cast", "--times", path)
        self.assertEqual((done.returncode, done.stderr), (0, b""))
        events = [json.loads(text) for text in done.stdout.decode().splitlines()[1:]]
        count, compared = 0, 0
        for when, length in times:
            count += length
            if self.is_between_items(DATA[:count]):
                self.shows("".join(text for at, _, text in events if at <= when / 1000), DATA[:count])
                compared += 1
        self.assertGreater(compared, 4)
        self.assertEqual(events[-1][0], times[-1][0] / 1000 + 3)

    def test_a_terminal_shows_each_byte_when_it_had_come(self):
        """By a clock that goes on where btx sleeps alone, and tells then what it shows. Bytes after the last time come with the last."""
        os.mkdir(self.path("clock"))
        self.written("clock/sitecustomize.py", CLOCK.encode())
        path = self.kept(b"A" * 120, [(250, 20), (400, 0), (1500, 50), (1500, 5), (62000, 40)])
        done = stand.btx("terminal", "--times", path, env={**FULL, "PYTHONPATH": self.path("clock")})
        before, *waits = re.split("\0", done.stdout.decode())
        told = [(round(float(when), 3), after.count("A")) for when, after in zip(waits[::2], waits[1::2])]
        self.assertEqual(before.count("A"), 0)
        shown = {when: sum(count for at, count in told if at == when) for when, _ in told}
        self.assertEqual({when: count for when, count in shown.items() if count}, {0.25: 20, 1.5: 55, 62.0: 45})

    def test_a_file_of_html_has_the_times(self):
        path = self.kept(b"ABC", [(5, 1), (9, 0), (70, 2)])
        found = re.search(rb'<script type="application/json" id="pages">(.*?)</script>', stand.btx("html", "--times", path).stdout)
        self.assertEqual(json.loads(found[1])[0]["times"], [[5, 1], [70, 2]])
        found = re.search(rb'<script type="application/json" id="pages">(.*?)</script>', stand.btx("html", path).stdout)
        self.assertNotIn("times", json.loads(found[1])[0])

    def test_times_that_are_not_there_or_not_understood(self):
        path = self.written("kept", b"ABC")
        for word in ("terminal", "cast", "html"):
            done = stand.btx(word, "--times", path)
            self.assertEqual((done.returncode, done.stderr), (4, f"btx: {word}: {path}.times: no such file or directory\n".encode()))
            self.assertEqual(stand.btx(word, "--times", "--replay", "1200", path).returncode, 2)
        for text, number in ((b"1 2\nx\n", 2), (b"-1 2\n", 1), (b"5 1\n4 1\n", 2), (b"1 2 3\n", 1)):
            self.written("kept.times", text)
            done = stand.btx("cast", "--times", path)
            self.assertEqual((done.returncode, f"line {number} isn't a time" in done.stderr.decode()), (4, True), done.stderr)


class Replays(Kept, lines.Case):
    """A line that is recorded, and its recording replayed."""

    def test_a_recording_replays_what_was_shown(self):
        """At each stop of the line the cast of its recording holds what the line showed."""
        sizes = iter(SIZES * 10)

        def act(host):
            sent = 0
            while sent < len(DATA):
                piece = DATA[sent : sent + next(sizes)]
                host.send(piece)
                sent += len(piece)
                lines.until(lambda: boards and boards[0].stops and boards[0].stops[-1][0] == sent)

        boards: list[lines.Board] = []
        path = self.path("kept")
        board, _ = lines.watched(self.host(act).name, record=path, boards=boards)
        with open(path, "rb") as file:
            self.assertEqual(file.read(), DATA)
        times = recording.times_of(path)
        self.assertEqual(times.ends, [stop[0] for stop in board.stops])
        events = [json.loads(text) for text in stand.btx("cast", "--times", path).stdout.decode().splitlines()[1:]]
        for when, (count, shown, _, snapshot) in zip(times.milliseconds, board.stops):
            last = count == max(end for at, end in zip(times.milliseconds, times.ends) if at == when)
            with live.Live.restored(snapshot) as decoder:
                if last and not decoder.state().pending:
                    self.assertEqual(shown, self.cells(DATA[:count]))
                    self.shows("".join(text for at, _, text in events if at <= when / 1000), DATA[:count])


class Written(stand.Case):
    """How a recording is written."""

    def test_what_cannot_be_written_is_named(self):
        """Where no file may have more than 1,000 bytes the system takes the front of a piece, and then no more."""
        path = self.path("kept")
        recorder = recording.Recorder(path)
        self.addCleanup(recorder.close)
        limits = resource.getrlimit(resource.RLIMIT_FSIZE)
        resource.setrlimit(resource.RLIMIT_FSIZE, (1000, limits[1]))
        try:
            recorder.came(b"A" * 900)
            with self.assertRaises(OSError) as raised:
                recorder.came(b"B" * 900)
        finally:
            resource.setrlimit(resource.RLIMIT_FSIZE, limits)
        self.assertEqual((raised.exception.errno, raised.exception.filename), (errno.EFBIG, path))
        with open(path, "rb") as file:
            self.assertEqual(file.read(), b"A" * 900 + b"B" * 100)

    def test_a_name_that_is_too_long_for_the_times_leaves_no_file(self):
        """A name has at most 255 bytes."""
        for length, is_made in ((249, True), (250, False), (255, False)):
            path = self.path("k" * length)
            for _ in range(2):
                if is_made:
                    recording.Recorder(path).close()
                    break
                with self.assertRaises(OSError) as raised:
                    recording.Recorder(path)
                self.assertEqual((raised.exception.errno, raised.exception.filename), (errno.ENAMETOOLONG, path + ".times"))
            self.assertEqual(os.path.exists(path), is_made)


class Cut(lines.Case):
    """Pages of a recording."""

    # What a page leaves behind on which the next one depends: a pattern and its set in G0, a colour, a table, the serial set, protection,
    # a format of 20 rows without wrap; and nothing of it.
    STATE = (b"\x1f\x2d\x42\x71\x1f\x23\x21\x30\x7f\x6a\x5a\x1b\x28\x20\x40\x1f\x26\x30\x31\x55\x6a\x9b\x31\x40\x1b\x22\x40\x9b\x31\x50"
             b"\x1b\x7d\x0e\x1f\x41\x41First")
    PAGES = (b"\x0c\x1f\x43\x43Before", b"\x0c\x1f\x44\x44Second\x0f!\x81\xa1", b"\x0c\x1f\x45\x45\x0f!!\x9b\x30\x41Third\x1f\x2f\x42", b"\x0cLast")

    def recorded(self, *parts, keys=()):
        """A recording whose parts come two seconds after one another, or at once after a key."""
        path, when, times = self.path("kept"), 0, ""
        for number, part in enumerate(parts):
            if number in keys:
                times += f"{when} 0\n"
            else:
                when += 2000
            times += "".join(f"{when} {len(piece)}\n" for piece in (part[:1], part[1:]) if piece)
        self.written("kept", b"".join(parts))
        self.written("kept.times", times.encode())
        return path

    def made(self, path, *options):
        """The pages that are cut, by their names."""
        done = stand.btx("cut", path, "-o", self.path("pages"), *options)
        self.assertEqual(done.returncode, 0, done.stderr)
        found = {}
        for name in sorted(os.listdir(self.path("pages"))):
            with open(self.path("pages", name), "rb") as file:
                found[name] = file.read()
        stand.shutil.rmtree(self.path("pages"))
        return found

    def test_each_page_shows_by_itself_what_the_line_showed(self):
        parts = (self.STATE, *self.PAGES)
        found = self.made(self.recorded(*parts))
        self.assertEqual(list(found), ["1.btx", "2.btx", "3.btx", "4.btx", "5.btx"])
        for number, page in enumerate(found.values()):
            self.assertEqual(self.cells(page), self.cells(b"".join(parts[: number + 1])), number)
        # Each has its own bytes at its end, and none of those before it that aren't state.
        for page, part in zip(found.values(), parts):
            self.assertTrue(page.endswith(part))
            self.assertEqual(b"First" in page, part == self.STATE)
        # After full defaults nothing is needed.
        self.assertEqual(found["5.btx"], self.PAGES[-1])

    def test_stored_pages_one_after_the_other(self):
        parts = []
        for name in stand.all_pages():
            with open(stand.page(name), "rb") as file:
                parts.append(b"\x1f\x2f\x42\x0c" + file.read())
        found, whole = self.made(self.recorded(*parts)), b"".join(parts)
        # Clears within a page come at once, and begin none; full defaults are a clear, and nothing stands before them.
        ends = [sum(map(len, parts[: number + 1])) for number in range(len(parts))]
        self.assertEqual(list(found.values()), parts)
        for end, page in zip(ends, found.values()):
            self.assertEqual(self.cells(page), self.cells(whole[:end]))

    def test_pauses_keys_and_all(self):
        parts = (b"\x0cA", b"\x0cB", b"\x0cC\x0cD", b"\x0cE")
        path = self.recorded(*parts, keys=(1, 3))
        for options, count in (((), 4), (("--no-keys",), 2), (("--pause", "0"), 3), (("--pause", "0", "--no-keys"), 1), (("--all",), 5),
                               (("--pause", "3"), 3)):
            self.assertEqual(len(self.made(path, *options)), count, options)
        self.assertEqual(b"".join(self.made(path, "--all").values()), b"".join(parts))

    def test_a_clear_that_interrupts_a_unit(self):
        self.assertEqual(list(self.made(self.recorded(b"A\x1f\x0cB"), "--all").values()), [b"A\x1f", b"\x0cB"])
        # A unit that could become longer is whole at the end of its page.
        found = [*self.made(self.recorded(b"\x1f\x23\x20\x1f\x23\x21\x30\x7f\x0c\x1b\x28\x20\x40\x21"), "--all").values()]
        self.assertEqual(self.cells(found[1]), self.cells(b"\x1f\x23\x20\x1f\x23\x21\x30\x7f\x0c\x1b\x28\x20\x40\x21"))
        self.assertEqual(list(self.made(self.recorded(b"\x0c"), "--all").values()), [b"\x0c"])
        self.assertEqual(self.made(self.recorded(b""), "--all"), {})

    def test_a_recording_that_is_longer_than_a_page(self):
        """Units that move the position alone: nothing of the recording is lost, also where its pages are long."""
        parts = [b"\x1f\x2f\x42" + bytes([0x41 + number]) + b"\x1e" * 2**23 for number in range(3)]
        self.assertEqual(list(self.made(self.recorded(*parts)).values()), parts)

    def test_a_page_that_would_be_too_long_is_left_out_and_named(self):
        parts = (b"\x0cA", b"\x1f\x2f\x42" + b"\x1e" * 2**24, b"\x1f\x2f\x42B")
        path = self.recorded(*parts)
        for options, hint in (((), "; --all begins a page at each clear"), (("--all",), "")):
            folder = self.path("cut" + "".join(options))
            done = stand.btx("cut", path, "-o", folder, *options)
            said = f"btx: cut: 2.btx would have more than 16,777,216 bytes, and is left out{hint}\nbtx: cut: 2 pages in {folder}\n"
            self.assertEqual((done.returncode, done.stderr.decode()), (7, said))
            self.assertEqual(sorted(os.listdir(folder)), ["1.btx", "3.btx"])

    def test_a_recording_that_is_longer_than_any(self):
        path = self.written("kept", b"\x0cA")
        os.truncate(path, 2**32 + 1)
        done = stand.btx("cut", path, "--all", "-o", self.path("pages"))
        said = "the recording has more than 4,294,967,296 bytes; head -c 4294967296 makes a front of it that can be cut"
        self.assertEqual((done.returncode, done.stderr.decode()), (7, f"btx: cut: {path}: {said}\n"))
        self.assertFalse(os.path.exists(self.path("pages")))

    def test_ten_pages_are_numbered_by_two_digits(self):
        found = self.made(self.recorded(*[b"\x0c" + bytes([0x41 + number]) for number in range(10)]))
        self.assertEqual(list(found), [f"{number:02}.btx" for number in range(1, 11)])

    def test_a_pause_is_measured_over_keys(self):
        path = self.written("kept", b"\x0cA\x0cB\x0cC")
        # A key at once after a part, and the next part two seconds or nothing after that.
        self.written("kept.times", b"0 2\n10 0\n2010 2\n2020 0\n2020 2\n")
        self.assertEqual(list(self.made(path, "--no-keys").values()), [b"\x0cA", b"\x0cB\x0cC"])
        self.assertEqual(len(self.made(path)), 3)

    def test_an_archive_takes_the_folder(self):
        path = self.recorded(self.STATE, *self.PAGES)
        self.assertEqual(stand.btx("cut", path, "-o", self.path("pages")).returncode, 0)
        done = stand.btx("archive", self.path("pages"), "-o", self.path("website"))
        self.assertEqual(done.returncode, 0, done.stderr)
        with open(self.path("website", "report.csv"), encoding="utf-8-sig") as file:
            self.assertEqual(len(file.read().splitlines()), 1 + 5)

    def test_what_cannot_be_cut(self):
        path = self.written("kept", b"\x0cA")
        done = stand.btx("cut", path, "-o", self.path("pages"))
        self.assertEqual((done.returncode, done.stderr), (4, f"btx: cut: {path}: it has no times beside it, kept.times; --all does without\n".encode()))
        os.mkdir(self.path("folder"))
        self.written("timed", b"A")
        times = self.written("timed.times", b"0 1\n")
        for name, said in ((self.path("folder"), "it is a folder, and a recording is a file"), (times, "these are the times of a recording, which is timed")):
            done = stand.btx("cut", name, "-o", self.path("pages"))
            self.assertEqual((done.returncode, done.stderr.decode()), (4, f"btx: cut: {name}: {said}\n"))
        done = stand.btx("cut", "-", "-o", self.path("pages"))
        self.assertEqual((done.returncode, done.stderr), (4, b"btx: cut: standard input: it has no times beside it; --all does without\n"))
        self.assertEqual(stand.btx("cut", path, "--all", "-o", self.path("pages")).returncode, 0)
        done = stand.btx("cut", path, "--all", "-o", self.path("pages"))
        self.assertEqual((done.returncode, done.stderr), (4, f"btx: cut: {self.path('pages')}: there are pages in it already\n".encode()))
        done = stand.btx("cut", self.path("none"), "--all", "-o", self.path("other"))
        self.assertEqual((done.returncode, os.path.exists(self.path("other"))), (4, False))


class Read(stand.Case):
    """How a recording is read."""

    def test_all_of_it_is_read_however_long_it_is(self):
        data = bytes(range(256)) * (2**24 // 256 + 1)
        self.assertEqual(cut.recorded(self.written("kept", data)), data)

    def test_one_with_more_bytes_than_a_decoder_takes_is_not(self):
        path = self.written("kept", b"")
        os.truncate(path, 2**32 + 1)
        with self.assertRaises(live.Full):
            cut.recorded(path)
