"""What a terminal holds after `btx terminal`, against what the program shows. Signs of mosaics are compared by their names in Unicode."""
import importlib
import itertools
import os
import re
import shlex
import signal
import subprocess
import time
import unicodedata
from typing import Any

import lines
import stand

MOSAIC, PATTERN = "▒", "□"
# A terminal of which it is known that it draws the signs of six blocks.
FULL = stand.environment(COLORTERM="truecolor", TERM="xterm-kitty")
# A clock of Python's own that goes on by sleep alone, and puts the seconds that it has come to between two zero bytes.
CLOCK = """import os, time
now = 0.0
def sleep(seconds):
    global now
    now += seconds
    os.write(1, b"\\0%.6f\\0" % now)
time.sleep, time.monotonic = sleep, lambda: now
"""
SEQUENCE = re.compile("\x1b\\[([0-9;?]*)([A-Za-z])")


def signs_of(row):
    """The signs of a row of text, each with its accents, composed."""
    signs = re.findall("[^\u0300-\u036f][\u0300-\u036f]*", row)
    return [unicodedata.normalize("NFC", sign) for sign in signs]


def shown(name):
    return [signs_of(row) for row in stand.put("show", stand.page(name)).decode().split("\n")[:-1]]


def cells(name):
    """The fields of each look by row and column."""
    lines = [line.split(" ") for line in stand.put("cells", stand.page(name)).decode().splitlines()]
    return {(int(row), int(column)): look for row, column, *look in lines}


def is_part_of_mosaic(look):
    """Whether a cell shows another part of a large mosaic or pattern than its first, which `show` leaves blank."""
    return look is not None and look[0][0] in "MN%" and look[1][3:] != "00"


def rgb(paint):
    return "default" if paint == "---" else "".join(digit * 2 for digit in paint).lower()


class Reading:
    """The least of a terminal: signs at places and the words of their style. It knows what btx writes, and nothing else."""

    def __init__(self, text):
        self.row, self.column, self.style, self.signs, self.styles = 1, 1, "", {}, {}
        at = 0
        while at < len(text):
            found = SEQUENCE.match(text, at)
            if found:
                self.obey(found[2], found[1])
                at = found.end()
            else:
                self.put(text[at])
                at += 1

    def obey(self, letter, words):
        assert letter in "mHhlJ", letter
        if letter == "m":
            self.style = words
        elif letter == "H":
            self.row, self.column = map(int, words.split(";"))

    def put(self, sign):
        if sign == "\n":
            self.row, self.column = self.row + 1, 1
        elif unicodedata.combining(sign):
            self.signs[self.row, self.column - 1] += sign
        else:
            self.signs[self.row, self.column], self.styles[self.row, self.column] = sign, self.style
            self.column += 1

    def rows(self, count):
        return [[self.signs[row, column] for column in range(1, 41)] for row in range(1, count + 1)]


class Terminal(stand.Case):
    def is_shown(self, found, name):
        """Compares signs with what `show` puts; a mosaic and a pattern may be any sign that isn't a letter."""
        want, looks_of = shown(name), cells(name)
        for row, (want_row, found_row) in enumerate(itertools.zip_longest(want, found), 1):
            for column, (one, other) in enumerate(itertools.zip_longest(want_row, found_row), 1):
                if one in (MOSAIC, PATTERN) or is_part_of_mosaic(looks_of.get((row, column))):
                    self.assertFalse(other.isalnum(), f"{name}, row {row}, column {column}: {other}")
                else:
                    self.assertEqual(one, unicodedata.normalize("NFC", other), f"{name}, row {row}, column {column}")

    def run_of(self, *words, env=FULL):
        done = stand.btx("terminal", *words, env=env)
        self.assertIn(done.returncode, (0, 1), done.stderr)
        return done.stdout.decode()

    def test_every_page_is_that_of_show(self):
        for name in stand.all_pages():
            self.is_shown(Reading(self.run_of(stand.page(name))).rows(len(shown(name))), name)

    def test_a_replay_ends_with_the_page(self):
        for name in ("title", "house", "ticker", "patterns"):
            text = self.run_of(stand.page(name), "--replay", "10000000")
            self.is_shown(Reading(text).rows(len(shown(name))), name)

    def test_a_replay_repaints_changed_cells_alone(self):
        page = self.written("page", b"\x1f\x41\x41A\x1f\x43\x45BC")
        text = self.run_of(page, "--replay", "10000000")
        after = text[text.index("A") :]
        self.assertEqual([sign for sign in Reading(after).signs.values()], ["A", "B", "C"])
        self.assertEqual(re.findall("\x1b\\[(\\d+;\\d+)H", after)[:2], ["3;5", "3;6"])

    def test_neighbours_that_change_together_have_one_position(self):
        page = self.written("page", b"\x1f\x43\x45BCD\x1f\x43\x45\x18")
        after = self.run_of(page, "--replay", "10000000").split("D", 1)[1]
        self.assertEqual(re.findall("\x1b\\[(\\d+;\\d+)H", after), ["3;5", "25;1"])

    def test_a_replay_shows_each_byte_when_it_has_come(self):
        """By a clock that goes on where btx sleeps alone, and tells then what it shows: a byte takes ten bits."""
        os.mkdir(self.path("clock"))
        self.written("clock/sitecustomize.py", CLOCK.encode())
        page = self.written("page", b"A" * 120)
        for bits in (1200, 9600):
            words = (page, "--replay", str(bits))
            before, *waits = re.split("\0", self.run_of(*words, env={**FULL, "PYTHONPATH": self.path("clock")}))
            self.assertEqual(before.count("A"), 0)
            count = 0
            for told, after in zip(waits[::2], waits[1::2]):
                count += after.count("A")
                self.assertEqual(count, int(float(told) * bits / 10 + 1e-3), (bits, told))
            self.assertEqual((count, round(float(waits[-2]), 4)), (120, round(1200 / bits, 4)))

    def test_a_signal_ends_a_replay_and_the_cursor_is_seen_again(self):
        for number in (signal.SIGTERM, signal.SIGHUP):
            one = lines.Terminal("terminal", stand.page("title"), "--replay", "1200")
            self.addCleanup(one.close)
            self.assertTrue(one.has(b"\x1b[?25l"))
            one.signal(number)
            self.assertEqual(one.status(), -number)
            self.assertTrue(one.text.endswith(b"\x1b[0m\x1b[25;1H\x1b[?25h"), one.text[-100:])

    def test_colours_are_those_of_the_cells(self):
        for name in ("title", "boat", "colours", "rows"):
            reading = Reading(self.run_of(stand.page(name)))
            for place, look in cells(name).items():
                if look[0][0] == "%":
                    continue
                parts = [f"{layer};2;" + ";".join(str(17 * int(digit, 16)) for digit in paint) if paint != "---" else f"{layer + 1}"
                         for layer, paint in ((38, look[2]), (48, look[3]))]
                self.assertEqual(reading.styles[place].split(";", 1)[1].removesuffix(";5").removesuffix(";4"), ";".join(parts), place)

    def test_256_colours_and_none(self):
        page = self.written("page", b"\x81R\x84\x93B")
        self.assertIn("\x1b[0;38;5;196;48;5;16mR", self.run_of(page, env=stand.environment()))
        self.assertIn("\x1b[0;38;5;21;48;5;226mB", self.run_of(page, env=stand.environment(COLORTERM="other")))
        plain = self.run_of(page, env=stand.environment(NO_COLOR="1", COLORTERM="truecolor"))
        self.assertEqual(re.findall("\x1b\\[([^m]*)m", plain[: plain.index("\n")]), ["0", "0"])

    def test_concealed_signs_are_hidden_until_revealed(self):
        page = self.written("page", b"A\x98secret")
        hidden, open_ = (Reading(self.run_of(page, *words)).rows(1)[0] for words in ((), ("--reveal",)))
        self.assertEqual("".join(hidden).rstrip(), "A")
        self.assertEqual("".join(open_).rstrip(), "Asecret")

    def test_mosaics_are_the_signs_that_unicode_names(self):
        # Set M by LS1; N by LS3. The blocks of a code are its bits 1, 2, 4, 8, 16 and 64, from the upper left.
        worth = (0x01, 0x02, 0x04, 0x08, 0x10, 0x40)
        blocks = [code for code in (*range(0x21, 0x40), *range(0x60, 0x80))]
        page = self.written("page", b"\x0e" + bytes(blocks))
        found = [sign for row in Reading(self.run_of(page)).rows(2) for sign in row]
        for code, sign in zip(blocks, found):
            digits = "".join(str(n + 1) for n in range(6) if code & worth[n])
            names = {"135": "LEFT HALF BLOCK", "246": "RIGHT HALF BLOCK", "123456": "FULL BLOCK"}
            self.assertEqual(unicodedata.name(sign), names.get(digits, "BLOCK SEXTANT-" + digits), f"M{code:02X}")
        slopes = {
            b"\x0e\x40": "LOWER LEFT BLOCK DIAGONAL LOWER MIDDLE LEFT TO LOWER CENTRE", b"\x0e\x45": "BLACK LOWER LEFT TRIANGLE",
            b"\x0e\x55": "BLACK LOWER RIGHT TRIANGLE", b"\x1b\x6f\x65": "BLACK UPPER RIGHT TRIANGLE", b"\x1b\x6f\x75": "BLACK UPPER LEFT TRIANGLE",
            b"\x1b\x6f\x50": "BOX DRAWINGS LIGHT VERTICAL", b"\x1b\x6f\x5a": "BOX DRAWINGS LIGHT VERTICAL AND HORIZONTAL", b"\x0e\x5f": "FULL BLOCK",
        }
        for unit, name in slopes.items():
            sign = Reading(self.run_of(self.written("page", unit))).rows(1)[0][0]
            self.assertEqual(unicodedata.name(sign), name, unit)

    def test_patterns_are_shown_by_their_blocks(self):
        # A form of 6x6 with one plane; lines of six pixels, the left one in the highest of six bits. The code 2/1 is shown by G0.
        head, end = b"\x1f\x23\x20\x20\x40\x3f\x41\x1f\x23\x21\x30", b"\x0f\x1b\x28\x20\x40\x21"
        upper, lower, left, none = 0x40 + 0b111000, 0x40 + 0b000111, 0x40 + 0b111000, 0x40
        for form, name in (
            ([upper, upper, none, none, none, none], "BLOCK SEXTANT-1"), ([none, none, none, none, lower, lower], "BLOCK SEXTANT-6"),
            ([left] * 6, "LEFT HALF BLOCK"), ([0x7F] * 6, "FULL BLOCK"), ([0x60] + [none] * 5, "BLOCK SEXTANT-1"),
        ):
            reading = Reading(self.run_of(self.written("page", head + bytes(form) + end)))
            self.assertEqual(unicodedata.name(reading.signs[1, 1]), name, form)
            self.assertEqual(reading.styles[1, 1], "0;38;2;255;255;255;48;2;0;0;0")

    def test_large_signs_stand_at_their_origin(self):
        page = self.written("page", b"\x0a\x8fX")
        rows = Reading(self.run_of(page)).rows(3)
        self.assertEqual([(row, column) for row in range(3) for column in range(40) if rows[row][column] != " "], [
            (int(r) - 1, int(c) - 1) for r, c, look in (line.split(" ", 2) for line in stand.put("cells", page).decode().splitlines()) if " 22.00 " in look
        ])

    def test_pyte_holds_the_page(self):
        if not stand.absent.has_library("pyte"):
            self.leave_out("pyte")
        pyte = importlib.import_module("pyte")
        for name in stand.all_pages():
            screen = pyte.Screen(80, 30)
            pyte.Stream(screen).feed(self.run_of(stand.page(name)).replace("\n", "\r\n"))
            rows = [[screen.buffer[row][column] for column in range(40)] for row in range(len(shown(name)))]
            self.is_shown([[cell.data for cell in row] for row in rows], name)
            for (row, column), look in cells(name).items():
                cell = rows[row - 1][column - 1]
                if look[0][0] != "%":
                    self.assertEqual([cell.fg, cell.bg], [rgb(look[2]), rgb(look[3])], (name, row, column))

    def test_tmux_holds_the_page(self):
        self.in_tmux(stand.page("timetable"))

    def test_tmux_holds_the_end_of_a_replay(self):
        self.in_tmux(stand.page("title"), "--replay", "10000000")

    def in_tmux(self, page, *options):
        """Runs a terminal in tmux, and compares its pane with what the program shows. Every tmux knows the widths of these signs."""
        tmux, = self.needs("tmux")
        env = {**FULL, "LANG": "C.UTF-8", "LC_ALL": "C.UTF-8", "TERM": "xterm-256color", "SHELL": "/bin/sh"}
        env.pop("TMUX", None)

        def ask(*words):
            # By a short name, since that of a socket has little room.
            command = [tmux, "-f", "/dev/null", "-S", "socket", *words]
            keys: dict[str, Any] = {"stdout": subprocess.PIPE, "stderr": subprocess.STDOUT, "timeout": stand.LONG, "env": env, "cwd": self.folder}
            done = subprocess.run(command, **keys)
            self.assertEqual(done.returncode, 0, done.stdout.decode())
            return done.stdout.decode()

        command = shlex.join([stand.BTX, "terminal", page, *options]) + "; echo ready; exec cat"
        ask("-u", "new-session", "-d", "-x", "80", "-y", "30", command)
        try:
            self.assertTrue(self.comes(lambda: "ready" in ask("capture-pane", "-p")), page)
            found = ask("capture-pane", "-p").split("\n")
        finally:
            ask("kill-server")
        name = os.path.basename(page)[: -len(".btx")]
        want = shown(name)
        self.is_shown([signs_of(row.ljust(40))[:40] for row in found[: len(want)]], name)

    def comes(self, condition):
        end = time.monotonic() + stand.LONG
        while not condition():
            if time.monotonic() > end:
                return False
            time.sleep(0.05)
        return True
