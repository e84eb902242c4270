"""The shapes of signs: what is in signs.txt is in view/shapes.js, no two are alike, and each is what its code names. What mosaics fill
comes from the geometry of their blocks, and how letters stand from the rules of shapes/README.md."""
import importlib.machinery
import importlib.util
import itertools
import os
import pathlib
import string
import sys
import unicodedata

import stand

from btx import letters

sys.path.append(os.path.join(stand.ROOT, "shapes"))
import composing  # noqa: E402
import reading  # noqa: E402

SHAPES = composing.shapes()
SETS = SHAPES.sets
FULL, EMPTY = (0xFFF,) * 10, (0,) * 10
LETTERS = string.ascii_letters
ACCENTS = [name for name in SETS if name.startswith("P+")]
EIGHTHS = range(0x5C, 0x60)
# The dots of each block: its columns, and its lines.
COLUMNS, LINES = (range(6), range(6, 12)), (range(3), range(3, 7), range(7, 10))


def dots_of(shape):
    """The places of a shape's dots, each a column and a line."""
    return {(x, y) for y, line in enumerate(shape) for x in range(12) if line >> (11 - x) & 1}


def lines_with_dots(shape):
    return [line for line, dots in enumerate(shape, 1) if dots]


def block(number):
    return set(itertools.product(COLUMNS[number % 2], LINES[number // 2]))


def blocks_of(code):
    """The dots of a block mosaic: bits 1, 2, 4, 8, 16 and 64 of its code are its blocks."""
    return set().union(*(block(number) for number, bit in enumerate((1, 2, 4, 8, 16, 64)) if code & bit))


class Signs(stand.Case):
    def test_view_has_what_is_drawn(self):
        loader = importlib.machinery.SourceFileLoader("make", os.path.join(stand.ROOT, "shapes", "make"))
        make = importlib.util.module_from_spec(importlib.util.spec_from_loader("make", loader))
        loader.exec_module(make)
        with open(os.path.join(stand.ROOT, "view", "shapes.js"), encoding="utf-8") as file:
            self.assertEqual(file.read(), make.script(SHAPES), "view/shapes.js isn't what shapes/make makes of signs.txt")

    def test_a_drawing_that_leaves_its_cell_is_refused(self):
        cell = "\n".join(["." * 12] * 10)
        for text in (cell.replace(".", "..", 1), cell + "\n" + "." * 12, cell[13:], cell.replace(".", "o", 1)):
            path = pathlib.Path(self.written("signs.txt", f"== primary\n\n41 A\n{text}\n".encode()))
            self.assertRaises(reading.Fault, reading.read, path)
        path = pathlib.Path(self.written("signs.txt", f"== primary\n\n41 A\n{cell}\n\n41 A\n{cell}\n".encode()))
        self.assertRaises(reading.Fault, reading.read, path)

    def test_no_two_signs_of_a_set_are_alike(self):
        for name, codes in SETS.items():
            # 5/15 and 7/15 of L are both all blocks, and accents don't tell marks apart that stand on the line.
            compared = [code for code in codes if (name, code) != ("M", 0x5F)] if name[1:] == "" else map(ord, LETTERS)
            for one, other in itertools.combinations(compared, 2):
                self.assertNotEqual(codes[one], codes[other], f"{name} {one:02X} {other:02X}")

    def test_no_letter_is_like_one_with_an_accent(self):
        seen: dict[str, str] = {}
        for name in ("P", *ACCENTS):
            for letter in LETTERS:
                if (name, letter) == ("P+47", "i"):
                    continue
                shape = SETS[name][ord(letter)]
                self.assertNotIn(shape, seen, f"{letter} {name} and {seen.get(shape)}")
                seen[shape] = f"{letter} {name}"

    def test_each_code_with_a_sign_is_drawn(self):
        drawn = {int(code, 16) for code in SHAPES.sections["supplementary"]}
        self.assertEqual(drawn, {*letters.SUPPLEMENTARY, *EIGHTHS})
        self.assertEqual({int(code, 16) for code in SHAPES.sections["primary"]}, set(range(0x20, 0x80)))
        self.assertEqual({int(code, 16) for code in SHAPES.sections["accents"]}, set(letters.MARKS))

    def test_the_space_is_empty_and_7_15_is_full(self):
        self.assertEqual((SETS["P"][0x20], SETS["P"][0x7F]), (EMPTY, FULL))
        for name in ACCENTS:
            self.assertEqual(SETS[name][0x7F], FULL)

    def test_letters_stand_on_the_eighth_line(self):
        heights = {"acemnorsuvwxz": range(4, 9), "bdfhklt": range(2, 9), "gpqy": range(4, 11)}
        heights |= {string.ascii_uppercase + string.digits: range(2, 9)}
        for signs, lines in heights.items():
            for sign in signs:
                self.assertEqual(lines_with_dots(SETS["P"][ord(sign)]), list(lines), sign)

    def test_no_letter_touches_its_neighbours(self):
        for name in ("P", *ACCENTS):
            for letter in LETTERS + string.digits:
                columns = {x for x, _ in dots_of(SETS[name][ord(letter)])}
                self.assertFalse(columns & {0}, f"{name} {letter}")
                self.assertTrue(name != "P" or 11 not in columns, letter)

    def test_stems_are_two_dots_wide(self):
        for letter in LETTERS + string.digits:
            for line in SETS["P"][ord(letter)]:
                self.assertNotIn("010", f"0{line:012b}0", letter)

    def test_a_letter_keeps_its_foot_under_an_accent(self):
        for name in ACCENTS:
            for letter in "ABCDEFGHIJKLMNOPQRSTUVWXYZ" + "aceouns":
                below, plain = SETS[name][ord(letter)], SETS["P"][ord(letter)]
                self.assertEqual(below[7] & plain[7], plain[7], (name, letter))

    def test_the_dots_of_an_umlaut_are_parted_from_their_letter(self):
        for letter in "AEIOUaeiouy":
            lines = lines_with_dots(SETS["P+48"][ord(letter)])
            first = 1 if letter.isupper() else 2
            self.assertEqual(lines[:2], [first, first + 2], letter)
            self.assertEqual(f"{SETS['P+48'][ord(letter)][first - 1]:012b}".strip("0"), "110011", letter)

    def test_accents_below_leave_what_is_above(self):
        for name, mark in (("P+4B", "Çç"), ("P+4E", "ĄąĘę")):
            for composed in mark:
                letter = unicodedata.normalize("NFD", composed)[0]
                shape, plain = SETS[name][ord(letter)], SETS["P"][ord(letter)]
                self.assertEqual(shape[:8], plain[:8])
                self.assertTrue(shape[8] and shape[9])


class Mosaics(stand.Case):
    def test_blocks_fill_what_their_code_names(self):
        for code in (*range(0x20, 0x40), *range(0x60, 0x80)):
            self.assertEqual(dots_of(SETS["M"][code]), blocks_of(code), f"{code:02X}")

    def test_parted_blocks_are_inside_their_blocks_and_touch_none(self):
        for code in (*range(0x20, 0x40), *range(0x60, 0x80)):
            dots = dots_of(SHAPES.lined["M"][code])
            self.assertLessEqual(dots, blocks_of(code))
            for number in range(6):
                inside = dots & block(number)
                whole = 4 * (2, 3, 2)[number // 2] if blocks_of(code) & block(number) else 0
                self.assertEqual(len(inside), whole, f"{code:02X} {number}")
        full = dots_of(SHAPES.lined["M"][0x7F])
        self.assertFalse({x for x, _ in full} & {0, 5, 6, 11} or {y for _, y in full} & {2, 6, 9})

    def test_smoothed_mosaics_and_their_rest_fill_the_cell(self):
        for code in (*range(0x20, 0x2E), *range(0x30, 0x3E)):
            one, other = dots_of(SETS["N"][code]), dots_of(SETS["N"][code + 0x40])
            self.assertEqual((one & other, len(one | other)), (set(), 120), f"{code:02X}")

    def test_smoothed_mosaics_of_both_sets_are_the_same(self):
        for code in range(0x20, 0x40):
            self.assertEqual(SETS["M"][code + 0x20], SETS["N"][code], f"{code:02X}")

    def test_slopes_have_the_area_of_their_edge(self):
        # Twice the area of each in dots, by the corners of blocks between which its edge runs.
        areas = {0x20: 18, 0x21: 36, 0x22: 42, 0x23: 84, 0x24: 60, 0x25: 120, 0x29: 156, 0x2B: 120, 0x35: 120, 0x39: 156, 0x3B: 120}
        for code, twice in areas.items():
            self.assertLessEqual(abs(2 * len(dots_of(SETS["N"][code])) - twice), 6, f"{code:02X}")

    def test_slopes_are_mirrored(self):
        pairs = {0x20: 0x30, 0x21: 0x31, 0x22: 0x32, 0x23: 0x33, 0x24: 0x34, 0x25: 0x35, 0x2E: 0x3E, 0x48: 0x49, 0x4A: 0x4B, 0x44: 0x45}
        pairs |= {0x52: 0x53, 0x54: 0x55, 0x56: 0x57, 0x42: 0x43, 0x2C: 0x3C}
        for left, right in pairs.items():
            self.assertEqual({(11 - x, y) for x, y in dots_of(SETS["N"][left])}, dots_of(SETS["N"][right]), f"{left:02X}")

    def test_a_corner_is_filled(self):
        corners = {0x20: (0, 9), 0x25: (0, 9), 0x26: (11, 9), 0x30: (11, 9), 0x36: (0, 9)}
        corners |= {0x60: (11, 0), 0x66: (0, 0), 0x70: (0, 0), 0x76: (11, 0)}
        for code, corner in corners.items():
            self.assertIn(corner, dots_of(SETS["N"][code]), f"{code:02X}")

    def test_quarters_are_where_they_are_named(self):
        points = {"left": (1, 5), "upper": (6, 1), "right": (10, 5), "lower": (6, 8)}
        there = {0x2C: "upper right lower", 0x2D: "left right lower", 0x3C: "left upper lower", 0x3D: "left upper right"}
        there |= {0x6C: "left", 0x6D: "upper", 0x7C: "right", 0x7D: "lower"}
        for code, names in there.items():
            dots = dots_of(SETS["N"][code])
            self.assertEqual({name for name, point in points.items() if point in dots}, set(names.split()), f"{code:02X}")

    def test_lines_meet_those_of_neighbours(self):
        ends = {"u": (5, 0), "d": (5, 9), "l": (0, 4), "r": (11, 4)}
        arms = {
            0x40: "ulr", 0x41: "dlr", 0x42: "udr", 0x43: "udl", 0x4C: "udlr", 0x50: "ud", 0x51: "lr", 0x52: "rd", 0x53: "ld", 0x54: "ru",
            0x55: "lu", 0x56: "udr", 0x57: "udl", 0x58: "lrd", 0x59: "lru", 0x5A: "udlr", 0x48: "ul", 0x49: "ur", 0x4A: "dl", 0x4B: "dr",
            0x44: "udl", 0x45: "udr", 0x46: "dlr", 0x47: "ulr", 0x5B: "lr", 0x5C: "lr", 0x5D: "ud", 0x5E: "ud",
        }
        for code, sides in arms.items():
            dots = dots_of(SETS["N"][code])
            met = {side for side, (x, y) in ends.items() if (x, y) in dots or side in "ud" and (x + 1, y) in dots}
            self.assertEqual(met, set(sides), f"{code:02X}")

    def test_a_thick_arm_is_three_lines_high(self):
        for code, column in ((0x40, 0), (0x41, 0), (0x42, 11), (0x43, 0), (0x4C, 0)):
            self.assertEqual([y for x, y in sorted(dots_of(SETS["N"][code])) if x == column], [3, 4, 5], f"{code:02X}")

    def test_arrows_point_where_they_are_named(self):
        halves = {
            0x5B: lambda x, _: x > 5, 0x5C: lambda x, _: x < 6, 0x5D: lambda _, y: y < 5, 0x5E: lambda _, y: y > 4,
        }
        for code, is_there in halves.items():
            dots = dots_of(SETS["N"][code])
            self.assertGreater(2 * sum(is_there(x, y) for x, y in dots), len(dots), f"{code:02X}")
