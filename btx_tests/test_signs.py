"""What shows mosaics in a terminal, by --signs: quarters, signs of ASCII, and pictures by the protocols of kitty and of sixel; and what a
terminal is asked, in one of the test's own. Dots are compared with the looks that the program puts, signs by their names in Unicode."""
import base64
import fcntl
import os
import pty
import re
import select
import struct
import subprocess
import termios
import unicodedata
import zlib
from typing import Any

import stand

import looks
from test_terminal import FULL, Reading

from btx import screens

KITTY = re.compile("\x1b_G([^;]*);([^\x1b]*)\x1b\\\\")
# What terminals answer to the two questions: kitty, xterm with sixel, tmux, a VT100, and one that knows neither.
ANSWERS = (
    (b"\x1b_Gi=31;OK\x1b\\\x1b[?62;c", "kitty"), (b"\x1b[?62;4;6;22c", "sixel"), (b"\x1b[?1;2c", None), (b"\x1b[?4;1c", None),
    (b"\x1b[?64;14;21c", None), (b"\x1b_Gi=31;ENOTSUPPORTED:x\x1b\\\x1b[?62;4c", "sixel"), (b"", None),
)


def cells_of(name):
    lines = stand.put("cells", stand.page(name)).decode().splitlines()
    return {(int(row), int(column)): look for row, column, look in (line.split(" ", 2) for line in lines)}


class Signs(stand.Case):
    def run_of(self, page, *words, env=FULL):
        done = stand.btx("terminal", page, *words, env=env)
        self.assertIn(done.returncode, (0, 1), done.stderr)
        return done.stdout.decode()

    def names(self, unit, *words, rows=1):
        """The names of the signs that are seen first in each row."""
        reading = Reading(self.run_of(self.written("page", unit), *words))
        return [[unicodedata.name(sign) for sign in row[:2]] for row in reading.rows(rows)]

    def test_blocks_are_quarters(self):
        # The blocks of a code are its bits 1, 2, 4, 8, 16 and 64, from the upper left.
        for code, name in (
            (0x21, "QUADRANT UPPER LEFT"), (0x22, "QUADRANT UPPER RIGHT"), (0x30, "QUADRANT LOWER LEFT"), (0x60, "QUADRANT LOWER RIGHT"),
            (0x23, "UPPER HALF BLOCK"), (0x70, "LOWER HALF BLOCK"), (0x35, "LEFT HALF BLOCK"), (0x6A, "RIGHT HALF BLOCK"),
            (0x7F, "FULL BLOCK"), (0x61, "QUADRANT UPPER LEFT AND LOWER RIGHT"),
        ):
            self.assertEqual(self.names(b"\x0e" + bytes([code]), "--signs", "blocks")[0][0], name, f"M{code:02X}")

    def test_a_large_mosaic_is_over_all_its_cells(self):
        # Double size from the second row on, and all blocks; then the left ones, of which each cell of the left column is full.
        for kind in ("blocks", "sextants"):
            self.assertEqual(self.names(b"\x0a\x8f\x0e\x7f", "--signs", kind, rows=3)[1:], [["FULL BLOCK"] * 2] * 2)
            self.assertEqual(self.names(b"\x0a\x8f\x0e\x35", "--signs", kind, rows=3)[1:], [["FULL BLOCK", "SPACE"]] * 2)

    def test_lines_are_those_of_boxes(self):
        vertical = "BOX DRAWINGS LIGHT VERTICAL"
        for code, name in ((0x50, vertical), (0x5A, vertical + " AND HORIZONTAL"), (0x5B, "RIGHTWARDS ARROW")):
            self.assertEqual(self.names(b"\x1b\x6f" + bytes([code]), "--signs", "blocks")[0][0], name)

    def test_sextants_stand_only_where_they_are_known(self):
        page = self.written("page", b"\x0e\x21")
        cases: list[tuple[dict[str, str], bool]] = [
            ({"TERM": "xterm-kitty"}, True), ({"TERM": "foot"}, True), ({"TERM_PROGRAM": "WezTerm"}, True), ({"VTE_VERSION": "7200"}, True),
            ({"VTE_VERSION": "5202"}, False), ({"TERM": "xterm-256color"}, False), ({}, False),
            ({"TERM": "tmux-256color", "VTE_VERSION": "7200"}, False),
        ]
        for environment, known in cases:
            clean = {"TERM": "", "TERM_PROGRAM": "", "VTE_VERSION": ""}
            text = self.run_of(page, env=stand.environment(**{**clean, **environment}))
            self.assertEqual("\U0001fb00" in text, known, environment)
            self.assertEqual("\u2598" in text, not known, environment)

    def test_ascii_is_ascii(self):
        for name in stand.all_pages():
            text = self.run_of(stand.page(name), "--signs", "ascii")
            self.assertTrue(text.isascii(), name)
        rows = Reading(self.run_of(stand.page("title"), "--signs", "ascii")).rows(20)
        self.assertIn("Umlaute: a o u A O U s", "".join(rows[15]))

    def test_kitty_is_told_the_dots(self):
        for name in ("title", "patterns"):
            pieces = KITTY.findall(self.run_of(stand.page(name), "--signs", "kitty"))
            self.assertTrue(all(len(data) <= 4096 for _, data in pieces))
            self.assertEqual([keys[-3:] for keys, _ in pieces], ["m=1"] * (len(pieces) - 1) + ["m=0"])
            keys = dict(pair.split("=") for pair in pieces[0][0].split(","))
            self.assertEqual([keys[key] for key in "afoscvr"], ["T", "24", "z", "480", "40", "240", "24"])
            dots = zlib.decompress(base64.b64decode("".join(data for _, data in pieces))).hex().upper()
            self.shows([re.findall("......", dots[at : at + 2880]) for at in range(0, len(dots), 2880)], name, (12, 10))

    def test_sixel_is_told_the_dots(self):
        for name in ("title", "boat"):
            text = self.run_of(stand.page(name), "--signs", "sixel")
            self.shows(self.pixels_of(text), name, (24, 30))

    def test_pictures_that_take_longer_than_the_line_are_left_out(self):
        """All has come before a second picture is there: the last one shows the page."""
        text = self.run_of(stand.page("boat"), "--replay", "1000000000", "--signs", "sixel")
        pictures = text.split("\x1bP0;1q")[1:]
        self.assertIn(len(pictures), (2, 3))
        self.shows(self.pixels_of("\x1bP0;1q" + pictures[-1]), "boat", (24, 30))

    def pixels_of(self, text):
        """The pixels that sixel tells: colours in hundredths, and six lines in each band."""
        body = re.search("\x1bP0;1q\"1;1;960;720(.*)\x1b\\\\", text, re.DOTALL)[1]
        lines, colours, colour, x, band = [["" for _ in range(960)] for _ in range(720)], {}, "", 0, 0
        for number, parts, count, sign in re.findall(r"#(\d+)(;2;[\d;]+)?|(?:!(\d+))?([?-~$-])", body):
            if number and parts:
                colours[number] = "".join(f"{round(int(part) * 255 / 100):02X}" for part in parts.split(";")[2:])
            elif number:
                colour = colours[number]
            elif sign in "$-":
                x, band = 0, band + 6 * (sign == "-")
            else:
                end = x + int(count or 1)
                for bit in (bit for bit in range(6) if (ord(sign) - 63) >> bit & 1):
                    lines[band + bit][x:end] = [colour] * (end - x)
                x = end
        return lines

    def shows(self, lines, name, cell):
        self.assertEqual((len(lines), len(lines[0])), (24 * cell[1], 40 * cell[0]))
        for (row, column), look in cells_of(name).items():
            flash = look.split(" ")[4][0]
            phase = next(phase for phase in range(6) if looks.is_on(flash, phase))
            for x, y, colours in looks.want_of(look, phase, False).points:
                pixel = lines[int((row - 1 + y) * cell[1])][int((column - 1 + x) * cell[0])]
                self.assertIn(pixel, colours, (name, row, column, look))

    def test_answers_of_terminals(self):
        for answer, protocol in ANSWERS:
            self.assertEqual(screens.protocol_in(answer), protocol, answer)


class Asked(stand.Case):
    """btx in a terminal of the test's own, which answers."""

    def run_in(self, answer, size, *words, pixels=(0, 0), **variables):
        """What btx writes into a terminal that answers so, and what it says. The system has its size, and so many pixels."""
        terminal, inside = pty.openpty()
        fcntl.ioctl(inside, termios.TIOCSWINSZ, struct.pack("HHHH", *size, *pixels))
        keys: dict[str, Any] = {"stdin": inside, "stdout": inside, "stderr": subprocess.PIPE, "env": {**FULL, **variables}, "start_new_session": True}
        command = ["setsid", "--ctty", stand.BTX, "terminal", *words]
        run = subprocess.Popen(command, **keys)
        os.close(inside)
        text = self.conversation(terminal, answer)
        said = run.communicate(timeout=stand.LONG)[1]
        os.close(terminal)
        self.assertEqual(run.returncode, 0, said)
        return text, said.decode()

    def conversation(self, terminal, answer):
        """All that is written, with an answer where something is asked."""
        text, told = b"", False
        while select.select([terminal], [], [], stand.LONG)[0]:
            try:
                piece = os.read(terminal, 65536)
            except OSError:
                break
            text += piece
            if screens.ASKED in text and not told:
                os.write(terminal, answer)
                told = True
            if not piece:
                break
        return text

    def setUp(self):
        super().setUp()
        if not stand.there("setsid"):
            self.leave_out("setpriv")

    def test_a_terminal_with_pictures_has_one(self):
        for answer, mark in (
            (b"\x1b_Gi=31;OK\x1b\\\x1b[?62c", b"\x1b_Ga=T"), (b"\x1b[4;900;1000t\x1b[?62;4c", b"\x1bP0;1q"), (b"\x1b[?62c", b"Umlaute"),
        ):
            text, _ = self.run_in(answer, (30, 80), stand.page("title"))
            self.assertIn(mark, text)

    def test_sixel_is_taken_where_its_picture_fits(self):
        """It has 960 by 720 pixels, and the cursor goes to the row below it: of 25 rows that are 750 pixels high each has 30."""
        sixel = b"\x1b[?62;4c"
        for answer, pixels, fits in (
            (sixel, (960, 750), True), (sixel, (959, 750), False), (sixel, (960, 740), False), (sixel, (640, 400), False),
            (sixel, (0, 0), False), (b"\x1b[4;750;960t" + sixel, (0, 0), True), (b"\x1b[4;740;960t" + sixel, (0, 0), False),
            (b"\x1b[4;400;640t" + sixel, (0, 0), False), (b"\x1b[4;0;0t" + sixel, (0, 0), False),
            (b"\x1b[4;750;960t" + sixel, (640, 400), False),
        ):
            text, _ = self.run_in(answer, (25, 80), stand.page("title"), pixels=pixels)
            self.assertEqual((b"\x1bP0;1q" in text, b"Umlaute" in text), (fits, not fits), (answer, pixels))
        # Who asks for it has it.
        self.assertIn(b"\x1bP0;1q", self.run_in(b"", (25, 80), stand.page("title"), "--signs", "sixel", pixels=(640, 400))[0])

    def test_signs_that_are_asked_for_ask_nothing(self):
        text, _ = self.run_in(b"", (30, 80), stand.page("title"), "--signs", "blocks")
        self.assertNotIn(screens.ASKED, text)
        text, _ = self.run_in(b"", (30, 80), stand.page("title"), NO_COLOR="1")
        self.assertNotIn(screens.ASKED, text)

    def test_a_small_terminal_is_told_so_in_a_line(self):
        for size in ((23, 80), (30, 39)):
            _, said = self.run_in(b"", size, stand.page("title"), "--signs", "blocks")
            self.assertEqual(said, f"btx: terminal: the terminal has {size[0]} rows of {size[1]}, and a page 24 of 40\n")
        # Of 0 by 0 is one that doesn't know its size.
        for size in ((24, 40), (0, 0)):
            for words in ((), ("--replay", "10000000")):
                self.assertEqual(self.run_in(b"", size, stand.page("title"), "--signs", "blocks", *words)[1], "", size)
