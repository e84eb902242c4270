"""The painter's rule, as shapes/README.md says it: worked looks, and the same dots from btx and from the viewer's scripts, over all pages
and over generated ones."""
import itertools
import json
import os
import random
import subprocess

import stand

from btx import looks, painting, shapes

PAGES, CELLS = 500, 24
FORMS = ("12x12", "12x10", "6x12", "6x10", "6x5", "6x6")
WIDTH, HEIGHT = 12, 10


def colours(look, phase=0, revealed=False):
    """The lines of a cell, of twelve colours each."""
    found = painting.colours_of(looks.look_of(look), phase, revealed)
    return [found[start : start + WIDTH] for start in range(0, len(found), WIDTH)]


def drawn(look, ink="FFFFFF", phase=0, revealed=False):
    """The lines of a cell as text, with # for an ink."""
    return ["".join("#" if colour == ink else "." for colour in line) for line in colours(look, phase, revealed)]


def pattern(form, planes, bits, inks=""):
    """The shape of a pattern whose pixels are given as one number, the first pixel lowest."""
    width, height = map(int, form.split("x"))
    words = -(-width * height * planes // 64)
    text = "".join(f"{bits >> (64 * word) & (2 ** 64 - 1):016X}" for word in range(words))
    return f"%{form}x{planes}/{text}" + (f"/{inks}" if planes > 1 else "")


class Generated:
    """Cells with looks of all kinds, the same for a number."""

    def __init__(self, number):
        self.some = random.Random(number)

    def paint(self):
        return self.some.choice(["---", "%03X" % self.some.randrange(4096), "%03X" % self.some.randrange(4096)])

    def shape(self):
        some = self.some
        if some.random() < 0.3:
            form, planes = some.choice(FORMS), some.choice((1, 2, 4))
            width, height = map(int, form.split("x"))
            inks = "".join(self.paint() for _ in range(2 ** planes))
            return pattern(form, planes, some.getrandbits(width * height * planes), inks)
        if some.random() < 0.1:
            return "-"
        letter, code = some.choice("PPPSSMMNND"), some.randrange(0x20, 0x80)
        accent = f"+{some.randrange(0x40, 0x50):02X}" if letter == "P" and some.random() < 0.5 else ""
        return f"{letter}{code:02X}{accent}"

    def look(self):
        some = self.some
        high, wide = some.choice((1, 2)), some.choice((1, 2))
        part = f"{high}{wide}.{some.randrange(high)}{some.randrange(wide)}"
        kinds = "".join(map(some.choice, ("SFIR123", "c-", "l-", "b-")))
        return f"{self.shape()} {part} {self.paint()} {self.paint()} {kinds}"

    def cells(self):
        places = sorted(self.some.sample(range(960), CELLS))
        return "".join(f"{place // 40 + 1} {place % 40 + 1} {self.look()}\n" for place in places)


def cases_of(text):
    """The looks of a text of cells, each once, in the phases in which it may look otherwise, with and without what is concealed."""
    for look in {line.split(" ", 2)[2] for line in text.splitlines()}:
        flash, concealed = look.split(" ")[-1][:2]
        yield from itertools.product([look], range(1 if flash == "S" else 6), (False, True) if concealed == "c" else (False,))


class Same(stand.Case):
    def compare(self, cases):
        node, = self.needs("node")
        path = self.written("cells.json", json.dumps(cases).encode())
        script = os.path.join(stand.ROOT, "btx_tests", "painted.js")
        done = subprocess.run([node, script, path], stdout=subprocess.PIPE, timeout=stand.LONG)
        lines = done.stdout.decode().splitlines()
        self.assertEqual((done.returncode, len(lines)), (0, len(cases)))
        for (look, phase, revealed), line in zip(cases, lines):
            theirs = ["".join(2 * digit for digit in dot) if len(dot) == 3 else dot for dot in line.split(" ")]
            self.assertEqual(theirs, painting.colours_of(looks.look_of(look), phase, revealed), f"{look} in phase {phase}")

    def test_all_pages_have_the_same_dots_in_the_viewer(self):
        texts = [stand.put("cells", stand.page(name)).decode() for name in stand.all_pages()]
        self.compare([case for text in texts for case in cases_of(text)])

    def test_generated_pages_have_the_same_dots_in_the_viewer(self):
        texts = [Generated(number).cells() for number in range(PAGES)]
        lines = [(line.split(" ", 2)[2], number) for number, text in enumerate(texts) for line in text.splitlines()]
        self.assertEqual(len(lines), PAGES * CELLS)
        self.compare([(look, number % 6, number % 4 == 0) for look, number in lines])


class Rule(stand.Case):
    def test_parts_of_a_large_sign_repeat_dots(self):
        single = drawn("P46 11.00 FFF 000 S---")
        parts = [[drawn(f"P46 22.{down}{right} FFF 000 S---") for right in (0, 1)] for down in (0, 1)]
        large = [left + right for row in parts for left, right in zip(*row)]
        self.assertEqual(large, ["".join(2 * dot for dot in line) for line in single for _ in range(2)])

    def test_small_pixels_of_patterns_are_repeated(self):
        # The left upper pixel and the right lower one.
        for form, across, down in (("6x5", 2, 2), ("6x10", 2, 1), ("12x10", 1, 1)):
            width, height = map(int, form.split("x"))
            lines = drawn(pattern(form, 1, 1 | 1 << (width * height - 1)) + " 11.00 FFF 000 S---")
            ends = ["#" * across + "." * (12 - across), "." * (12 - across) + "#" * across]
            self.assertEqual(lines, [ends[0]] * down + ["." * 12] * (10 - 2 * down) + [ends[1]] * down, form)

    def test_of_twelve_lines_ten_are_seen_and_all_in_double_height(self):
        lines = [pattern("12x12", 1, 0xFFF << (12 * line)) for line in range(12)]
        seen = [sum("#" in row for row in drawn(f"{shape} 11.00 FFF 000 S---")) for shape in lines]
        self.assertEqual(sorted(seen), [0] * 2 + [1] * 10)
        self.assertEqual((seen[0], seen[11], seen), (1, 1, seen[::-1]))
        for shape in lines:
            self.assertTrue(any("#" in row for down in (0, 1) for row in drawn(f"{shape} 21.{down}0 FFF 000 S---")))

    def test_six_lines_fill_ten(self):
        shown = [drawn(pattern("6x6", 1, 0x3F << (6 * line)) + " 11.00 FFF 000 S---") for line in range(6)]
        rows = [[y for y, row in enumerate(lines) if "#" in row] for lines in shown]
        self.assertEqual(sum(rows, []), list(range(10)))
        self.assertLessEqual({len(row) for row in rows}, {1, 2})

    def test_planes_name_inks(self):
        shape = pattern("6x5", 2, 0b10 | 1 << 31, "F000F000F---")
        first = colours(f"{shape} 11.00 FFF 000 S---")[0]
        # Pixel 0 has ink 0, pixel 1 has ink 1 + 2, of which the second plane's bit is the 31st.
        self.assertEqual(first[:4], ["FF0000", "FF0000", "3A4A5E", "3A4A5E"])

    def test_a_lined_sign_has_a_line_on_the_tenth_line(self):
        for shape in ("P41", "-", "N24", pattern("6x5", 1, 0)):
            self.assertEqual(drawn(f"{shape} 11.00 FFF 000 S-l-")[9], "#" * 12, shape)
        self.assertEqual([drawn(f"P41 21.{down}0 FFF 000 S-l-")[8:] for down in (0, 1)][1], ["#" * 12] * 2)
        self.assertNotIn("#" * 12, drawn("P41 21.00 FFF 000 S-l-"))

    def test_lined_blocks_are_parted(self):
        self.assertEqual(drawn("M7F 11.00 FFF 000 S-l-"), [".####..####."] * 2 + ["." * 12] + [".####..####."] * 3 + ["." * 12]
                         + [".####..####."] * 2 + ["." * 12])

    def test_what_is_concealed_shows_its_background_until_revealed(self):
        self.assertEqual(drawn("P7F 11.00 FFF 000 Sc--"), ["." * 12] * 10)
        self.assertEqual(drawn("P7F 11.00 FFF 000 Sc--", revealed=True), ["#" * 12] * 10)

    def test_flashing_is_seen_in_its_phases(self):
        seen = {"S": "012345", "F": "012", "I": "345", "1": "01", "2": "23", "3": "45"}
        for flash, phases in seen.items():
            found = [phase for phase in range(6) if "#" in drawn(f"P7F 11.00 FFF 000 {flash}---", phase=phase)[0]]
            self.assertEqual("".join(map(str, found)), phases, flash)

    def test_reduced_intensity_halves_the_foreground(self):
        for phase in range(6):
            self.assertEqual(colours("P7F 11.00 F71 000 R---", phase)[0][0], "FF7711" if phase < 3 else "773300")

    def test_a_frame_is_at_the_edge_of_the_whole_sign(self):
        frame = ["#." * 6, "." * 11 + "#", "#" + "." * 11, "." * 11 + "#", "#" + "." * 11] + ["." * 11 + "#", "#" + "." * 11] * 2 + [".#" * 6]
        self.assertEqual(drawn("- 11.00 FFF 000 S--b"), frame)
        self.assertEqual(drawn("P7F 11.00 FFF 000 Sc-b"), frame)
        large = ["".join(2 * dot for dot in line) for line in frame for _ in range(2)]
        for down, right in itertools.product((0, 1), (0, 1)):
            part = [line[12 * right : 12 * right + 12] for line in large[10 * down : 10 * down + 10]]
            self.assertEqual(drawn(f"- 22.{down}{right} FFF 000 S--b"), part)

    def test_the_picture_behind_is_in_quarters(self):
        lines = colours("- 11.00 FFF --- S---")
        self.assertEqual([lines[y][x] for x, y in ((0, 0), (6, 0), (0, 5), (6, 5))], ["3A4A5E", "62788F", "62788F", "3A4A5E"])
        self.assertEqual(lines, [lines[0]] * 5 + [lines[9]] * 5)

    def test_a_sign_of_the_background_is_not_seen(self):
        self.assertEqual(drawn("P41 11.00 000 000 S---", "000000"), ["#" * 12] * 10)

    def test_accents_that_add_no_mark_change_nothing(self):
        for accent in ("40", "49", "4C"):
            self.assertEqual(drawn(f"P61+{accent} 11.00 FFF 000 S---"), drawn("P61 11.00 FFF 000 S---"))

    def test_each_set_is_read_where_its_signs_stand(self):
        full, first = ["#" * 12] * 10, ["######......"] * 3 + ["." * 12] * 7
        for shape, lines in (("P7F", full), ("M5F", full), ("N3F", full), ("M21", first)):
            self.assertEqual(drawn(f"{shape} 11.00 FFF 000 S---"), lines, shape)
        self.assertEqual(shapes.lines_of("P20", False), [shapes.EMPTY] * 10)
