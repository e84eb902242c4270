"""Pictures: PNG, GIF, SVG and the recording for asciinema. Dots are compared with the looks that the program puts."""
import importlib
import io
import json
import os
import re
import shutil
import unicodedata
import xml.etree.ElementTree

from pngs import rows_of
import stand

import looks

SVG = "{http://www.w3.org/2000/svg}"
# Bytes that show a full cell which is concealed, and some that flash: from docs/PROFILE.md.
CONCEALED = b"\x98\x0e\x7f"


def cells_after(name, count):
    """The looks by their places once so many bytes of a page have come, by the lines of changes."""
    cells = {}
    for line in stand.put("changes", stand.page(name)).decode().splitlines():
        if line[0] != "!" and int(line.split(" ")[0]) < count:
            _, row, column, look = line.split(" ", 3)
            cells[int(row), int(column)] = look
    return cells


def cells_at_end(name):
    return cells_of(stand.page(name))


def cells_of(path):
    lines = stand.put("cells", path).decode().splitlines()
    return {(int(row), int(column)): look for row, column, look in (line.split(" ", 2) for line in lines)}


class Case(stand.Case):
    def pillow(self):
        self.needs_pillow()
        return importlib.import_module("PIL.Image")

    def shows(self, lines, cells, phase=0, revealed=False, cell=(24, 30)):
        """That a picture, given as lines of pixels, shows looks."""
        self.assertEqual((len(lines), len(lines[0])), (24 * cell[1], 40 * cell[0]))
        for (row, column), look in cells.items():
            for x, y, colours in looks.want_of(look, phase, revealed).points:
                pixel = lines[int((row - 1 + y) * cell[1])][int((column - 1 + x) * cell[0])]
                self.assertIn(pixel, colours, (row, column, look, x, y))


class Png(Case):
    def picture(self, *words):
        self.pillow()
        path = self.path("out.png")
        done = stand.btx("png", *words, "-o", path)
        self.assertEqual((done.returncode, done.stderr), (0, b""))
        with open(path, "rb") as file:
            return rows_of(file.read())

    def test_the_picture_shows_the_cells(self):
        for name in ("title", "boat", "patterns", "signs", "weather"):
            self.shows(self.picture(stand.page(name)), cells_at_end(name))

    def test_rows_below_the_format_are_as_a_display_shows_them(self):
        page = self.written("whole", b"\x1f\x2d\x41\x70\x1b\x23\x20\x54A")
        short = self.written("short", b"\x1f\x2d\x42\x70\x1b\x23\x20\x54A")
        self.assertEqual(self.picture(page), self.picture(short))
        self.assertEqual(self.picture(short)[700][10], "0000FF")

    def test_rows_below_the_format_flash_with_the_screen(self):
        """A screen that flashes and is lined, from docs/PROFILE.md: in a phase in which nothing is seen its lines aren't either."""
        short = self.written("short", b"\x1f\x2d\x42\x70\x1b\x23\x20\x48\x1b\x23\x20\x5aA")
        seen, gone = (self.picture(short, "--phase", phase) for phase in ("0", "3"))
        for row in (19, 23):
            line = 30 * row + 29
            self.assertEqual((set(seen[line]), set(gone[line])), ({"FFFFFF"}, {"000000"}), row)

    def test_two_pages_of_one_name_are_refused(self):
        self.pillow()
        for folder in ("a/b", "a_b"):
            os.makedirs(self.path(folder))
            shutil.copy(stand.page("title"), self.path(folder, "x.btx"))
        done = stand.btx("png", "a/b/x.btx", "a_b/x.btx", "-o", "out", cwd=self.folder)
        self.assertEqual((done.returncode, os.path.exists(self.path("out"))), (2, False))
        self.assertIn(b"two pages would have the same picture, a_b_x.btx.png", done.stderr)

    def test_each_dot_has_two_by_three_pixels_times_the_scale(self):
        once, thrice = self.picture(stand.page("title")), self.picture(stand.page("title"), "--scale", "3")
        self.assertEqual((len(once[0]), len(once), len(thrice[0]), len(thrice)), (960, 720, 2880, 2160))
        dots = [line[::2] for line in once[::3]]
        for lines, scale in ((once, 1), (thrice, 3)):
            self.assertEqual(lines, [[dot for dot in line for _ in range(2 * scale)] for line in dots for _ in range(3 * scale)])

    def test_phases_of_flashing(self):
        cells = cells_at_end("flashing")
        for phase in range(6):
            self.shows(self.picture(stand.page("flashing"), "--phase", str(phase)), cells, phase)

    def test_a_still_shows_each_flashing_sign(self):
        lines = self.picture(stand.page("flashing"))
        for place, look in cells_at_end("flashing").items():
            if look.split(" ")[0] == "-":
                continue
            phase = next(phase for phase in range(6) if looks.is_on(look.split(" ")[4][0], phase))
            self.shows(lines, {place: look}, phase)

    def test_concealed_signs_are_hidden_until_revealed(self):
        page = self.written("page", CONCEALED)
        centres = [self.picture(page, *words)[15][12] for words in ((), ("--reveal",))]
        self.assertEqual(centres, ["000000", "FFFFFF"])

    def test_several_pages_go_into_a_folder(self):
        self.pillow()
        names, folder = ["title", "boat"], self.path("pictures")
        done = stand.btx("png", *map(stand.page, names), "-o", folder)
        self.assertEqual((done.returncode, done.stderr), (0, b""))
        self.assertEqual(sorted(os.listdir(folder)), ["boat.png", "title.png"])
        for name in names:
            with open(os.path.join(folder, name + ".png"), "rb") as file:
                self.assertEqual(file.read(), stand.btx("png", stand.page(name)).stdout)

    def test_pages_that_cannot_be_read_are_told_and_the_others_are_painted(self):
        self.pillow()
        lost, long, out = self.path("lost.btx"), self.path("long.btx"), self.path("out")
        with open(long, "wb") as file:
            file.truncate(2**24 + 1)
        # The status is that of the first that can't be read.
        for bad, status in (([lost, self.folder], 4), ([long, lost], 7)):
            done = stand.btx("png", bad[0], stand.page("title"), bad[1], stand.page("boat"), "-o", out)
            self.assertEqual((done.returncode, sorted(os.listdir(out))), (status, ["boat.png", "title.png"]))
            said = done.stderr.decode().splitlines()
            self.assertEqual([line.split(": ")[:3] for line in said], [["btx", "png", one] for one in bad])
            shutil.rmtree(out)

    def test_pages_of_one_name_have_a_picture_each(self):
        self.pillow()
        for folder in "ab":
            os.mkdir(self.path(folder))
            self.written(f"{folder}/page.btx", folder.encode())
        done = stand.btx("png", "a/page.btx", "b/page.btx", "-o", "out", cwd=self.folder)
        self.assertEqual((done.returncode, len(os.listdir(self.path("out")))), (0, 2))

    def test_words_that_are_none(self):
        page = stand.page("title")
        several = ((page, page), (page, page, "-o", "-"), (page, page, "-o", page))
        for words in (*several, (page, "--scale", "9"), (page, "--scale", "0"), (page, "--phase", "6")):
            self.assertEqual(stand.btx("png", *words).returncode, 2, words)

    def test_without_pillow_it_says_so(self):
        os.mkdir(self.path("PIL"))
        self.written("PIL/__init__.py", b"raise ImportError\n")
        for word in ("png", "gif"):
            done = stand.btx(word, stand.page("title"), env=stand.environment(PYTHONPATH=self.folder))
            self.assertEqual((done.returncode, done.stdout), (127, b""))
            said = f"btx: {word}: it takes Pillow, and this Python has none (Debian: apt-get install python3-pil)\n"
            self.assertEqual(done.stderr, said.encode())

    def test_no_browser_is_asked_for(self):
        self.pillow()
        folder = self.path("bin")
        os.mkdir(folder)
        for name in ("python3", "env"):
            os.symlink(os.path.realpath(stand.there(name)), os.path.join(folder, name))
        for browser in stand.absent.NAMES["chromium"]:
            self.written(f"bin/{browser}", f"#!/bin/sh\ntouch {self.path('asked')}\n".encode())
            os.chmod(self.path("bin", browser), 0o755)
        done = stand.btx("png", stand.page("title"), env=stand.environment(PATH=folder))
        self.assertEqual((done.returncode, os.path.exists(self.path("asked"))), (0, False))


class Gif(Case):
    def frames(self, *words):
        """The frames of a film, each when it begins, in milliseconds, and its dots; and how long all are seen."""
        image, frames, time = self.pillow(), [], 0
        done = stand.btx("gif", *words)
        self.assertEqual((done.returncode, done.stderr), (0, b""))
        film = image.open(io.BytesIO(done.stdout))
        self.assertEqual(film.size, (960, 720))
        for number in range(film.n_frames):
            film.seek(number)
            frames.append((time, film.convert("RGB").resize((480, 240), image.NEAREST).tobytes()))
            time += film.info.get("duration", 0)
        return frames, time

    def shows_dots(self, dots, cells, phase=0):
        digits = dots.hex().upper()
        rows = [digits[at : at + 6 * 480] for at in range(0, len(digits), 6 * 480)]
        self.shows([re.findall("......", row) for row in rows], cells, phase, cell=(12, 10))

    def test_a_frame_shows_what_has_come(self):
        frames, length = self.frames(stand.page("title"), "--replay", "1200")
        size = os.path.getsize(stand.page("title"))
        # A byte takes ten bits; frames begin at whole fiftieths of a second, and the end is seen for three.
        self.assertEqual(length, 20 * (size * 500 // 1200) + 3000)
        for time, dots in [*frames[1::25], frames[-1]]:
            self.shows_dots(dots, cells_after("title", int((time + 20) * 1200 / 10000 - 1e-9)))

    def test_no_frame_is_like_the_one_before(self):
        for words in ((stand.page("title"),), (stand.page("flashing"), "--end")):
            frames, _ = self.frames(*words)
            for (_, one), (_, other) in zip(frames, frames[1:]):
                self.assertNotEqual(one, other)

    def test_the_end_flashes_by_its_phases(self):
        frames, length = self.frames(stand.page("flashing"), "--end")
        self.assertEqual(length, 1000)
        cells = cells_at_end("flashing")
        for phase in range(6):
            middle = (phase + 0.5) * 1000 / 6
            self.shows_dots([dots for time, dots in frames if time <= middle][-1], cells, phase)

    def test_a_page_that_is_still_has_one_frame(self):
        frames, _ = self.frames(stand.page("boat"), "--end")
        self.assertEqual(len(frames), 1)
        self.shows_dots(frames[0][1], cells_at_end("boat"))

    def test_a_frame_that_lasts_too_long_for_a_gif_is_several(self):
        """At a bit a second a byte takes ten seconds: one sign comes after ten and one after 1,020, and all is seen for three more."""
        front, page = self.written("front", b"A"), self.written("page", b"A" + bytes(100) + b"B")
        frames, length = self.frames(page, "--replay", "1")
        self.assertEqual(length, 1_023_000)
        ends = [time for time, _ in frames[1:]] + [length]
        self.assertLessEqual(max(end - time for (time, _), end in zip(frames, ends)), 655_350)
        self.assertEqual([time for time, _ in frames if time in (0, 10_000, 1_020_000)], [0, 10_000, 1_020_000])
        for time, dots in frames:
            self.shows_dots(dots, {} if time < 10_000 else cells_of(front if time < 1_020_000 else page))
            self.assertEqual(dots[:3], bytes(3))

    def test_a_page_of_nothing(self):
        frames, _ = self.frames(self.written("empty", b""))
        self.assertEqual(frames, [(0, bytes(3 * 480 * 240))])


class Svg(Case):
    def drawing(self, *words):
        done = stand.btx("svg", *words)
        self.assertEqual((done.returncode, done.stderr), (0, b""))
        return xml.etree.ElementTree.fromstring(done.stdout)

    def dots_of(self, root):
        """The dots of a drawing, which are those of its paths over its ground; none is painted twice."""
        ground = root.find(f"{SVG}rect").get("fill")[1:]
        dots = [[ground] * 480 for _ in range(240)]
        painted: set[tuple[int, int]] = set()
        for path in root.iter(f"{SVG}path"):
            for left, top, width, height, back in re.findall(r"M(\d+) (\d+)h(\d+)v(\d+)h-(\d+)z", path.get("d")):
                self.assertEqual(width, back)
                places = {(x, y) for x in range(int(left), int(left) + int(width)) for y in range(int(top), int(top) + int(height))}
                self.assertFalse(places & painted)
                painted |= places
                for x, y in places:
                    dots[y][x] = path.get("fill")[1:]
        return dots

    def test_its_paths_are_the_dots(self):
        for name in ("title", "patterns", "flashing"):
            self.shows(self.dots_of(self.drawing(stand.page(name), "--phase", "0")), cells_at_end(name), cell=(12, 10))

    def test_its_text_is_that_of_the_page(self):
        for name in ("title", "refused"):
            lines = [text.text for text in self.drawing(stand.page(name)).iter(f"{SVG}text")]
            wanted = stand.put("show", stand.page(name)).decode().splitlines()
            self.assertEqual(lines, [line.rstrip() for line in wanted if line.strip()])

    def test_its_text_is_as_wide_as_its_cells(self):
        """A cell has 24 pixels; a letter with an accent stands in one, though it is two signs of Unicode."""
        page = self.written("page", b"B\x19\x48ar\x1f\x42\x41\x19\x42e\x19\x48o x\x1f\x43\x43Bar")
        found = [(unicodedata.normalize("NFC", text.text), text.get("textLength")) for text in self.drawing(page).iter(f"{SVG}text")]
        self.assertEqual(found, [("B\xe4r", "72"), ("\xe9\xf6 x", "96"), ("  Bar", "120")])

    def test_it_is_as_large_as_a_picture(self):
        root = self.drawing(stand.page("title"))
        self.assertEqual((root.get("width"), root.get("height"), root.find(f"{SVG}title").text), ("960", "720", "title"))
        self.assertEqual(root.find(f"{SVG}g").get("transform"), "scale(2 3)")


class Cast(Case):
    def recording(self, *words):
        done = stand.btx("cast", *words)
        self.assertEqual((done.returncode, done.stderr), (0, b""))
        head, *events = map(json.loads, done.stdout.decode().splitlines())
        return head, events

    def test_the_head_is_that_of_asciinema(self):
        head, events = self.recording(stand.page("title"))
        self.assertEqual((head["version"], head["width"], head["height"], head["title"]), (2, 40, 24, "title"))
        self.assertEqual({kind for _, kind, _ in events}, {"o"})

    def test_a_change_comes_with_its_byte(self):
        _, events = self.recording(stand.page("title"), "--replay", "300")
        places = sorted({int(line.split(b" ")[0]) for line in stand.put("changes", stand.page("title")).splitlines() if line[:1] != b"!"})
        times = [time for time, _, _ in events]
        self.assertEqual(times[1:-1], [round((place + 1) * 10 / 300, 4) for place in places])
        self.assertEqual((times[0], times), (0, sorted(times)))

    def test_a_terminal_shows_the_page_at_its_end(self):
        if not stand.absent.has_library("pyte"):
            self.leave_out("pyte")
        pyte = importlib.import_module("pyte")
        for name in ("title", "timetable"):
            screen = pyte.Screen(40, 24)
            stream = pyte.Stream(screen)
            for _, _, text in self.recording(stand.page(name))[1]:
                stream.feed(text)
            wanted = unicodedata.normalize("NFC", stand.put("show", stand.page(name)).decode()).splitlines()
            for line, want in zip(screen.display, wanted):
                self.assertTrue("\u2592" in want or unicodedata.normalize("NFC", line).rstrip() == want.rstrip(), (line, want))
