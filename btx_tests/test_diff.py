"""btx diff: the cells in which two screens differ, both beside each other, and pages of an archive whose screens are the same."""
import os
import re
import shutil
import subprocess

import archives
import stand

STYLE = re.compile(r"\x1b\[[0-9;]*m")


def cells(page):
    return {tuple(map(int, line.split()[:2])): line.split(" ", 2)[2] for line in stand.put("cells", page).decode().splitlines()}


class Diff(stand.Case):
    def setUp(self):
        super().setUp()
        script = self.written("script", b"at 5 3\ntext XY\n")
        self.one, self.other = stand.page("title"), self.written("other.btx", stand.put("edit", stand.page("title"), script))

    def lines(self, one, other):
        """What differs, as the program's own texts say."""
        first, second = cells(one), cells(other)
        blank = "- 11.00 FFF 000 S---"
        pairs = [(place, first.get(place, blank), second.get(place, blank)) for place in sorted({*first, *second})]
        return [f"{place[0]} {place[1]} {look} | {new}" for place, look, new in pairs if look != new]

    def test_the_cells_that_differ(self):
        wanted = self.lines(self.one, self.other)
        self.assertIn("5 3 ", wanted[0])
        for pair in ((self.one, self.other), (self.other, self.one), (self.one, stand.page("patterns"))):
            done = stand.btx("diff", "--quiet", *pair)
            self.assertEqual((done.returncode, done.stderr), (1, b""))
            self.assertEqual(done.stdout.decode().splitlines(), self.lines(*pair))

    def test_rows_below_a_format_count_as_they_are_shown(self):
        whole = self.written("whole", b"\x1f\x2d\x41\x70\x1b\x23\x20\x54A")
        short = self.written("short", b"\x1f\x2d\x42\x70\x1b\x23\x20\x54A")
        done = stand.btx("diff", whole, short)
        self.assertEqual((done.returncode, done.stdout), (0, b""))

    def test_both_are_shown_beside_each_other_in_colour(self):
        done = stand.btx("diff", self.one, self.other)
        lines = done.stdout.decode().splitlines()
        self.assertEqual(lines[24:], self.lines(self.one, self.other))
        both = [stand.btx("terminal", page).stdout.decode().splitlines() for page in (self.one, self.other)]
        self.assertEqual(lines[:24], ["".join(rows) for rows in zip(*both)])
        plain = stand.btx("diff", self.one, self.other, env=stand.environment(NO_COLOR="1", COLUMNS="100"))
        self.assertEqual({len(STYLE.sub("", line)) for line in plain.stdout.decode().splitlines()[:24]}, {81})

    def test_pages_that_look_the_same(self):
        # Other bytes that bring back the same screen.
        same = self.written("same.btx", stand.put("write", self.one))
        done = stand.btx("diff", self.one, same)
        self.assertEqual((done.returncode, done.stdout, done.stderr), (0, b"", b""))

    def test_a_page_that_is_not_there_and_one_over_a_pipe(self):
        done = stand.btx("diff", self.one, self.path("nowhere"))
        self.assertEqual(done.returncode, 4)
        self.assertIn(b"diff: " + self.path("nowhere").encode() + b": no such file", done.stderr)
        line = f"{stand.BTX} diff {self.one} <(cat {self.one})"
        done = subprocess.run(["bash", "-c", line], stdout=subprocess.PIPE, stderr=subprocess.PIPE, env=stand.environment(), timeout=stand.LONG)
        self.assertEqual((done.returncode, done.stdout, done.stderr), (0, b"", b""))

    def test_standard_input_is_one_page(self):
        with open(self.one, "rb") as file:
            done = stand.btx("diff", "-", self.one, stdin=file)
        self.assertEqual((done.returncode, done.stdout, done.stderr), (0, b"", b""))
        done = stand.btx("diff", "-", "-")
        said = b"btx: diff: standard input is one page, and - stands more than once\n"
        self.assertEqual((done.returncode, done.stdout, done.stderr), (2, b"", said))


class Alike(archives.Case):
    def test_pages_whose_screens_are_the_same_are_listed(self):
        self.small("title", "boat", "house")
        shutil.copy(stand.page("boat"), os.path.join(self.source, "a.btx"))
        with open(os.path.join(self.source, "other.btx"), "wb") as file:
            file.write(stand.put("write", stand.page("title")))
        done = self.archive()
        self.assertIn(b"4 pages with a screen that another has too", done.stdout)
        self.assertEqual({name: row["alike"] for name, row in self.report().items()}, {
            "a.btx": "a.btx", "boat.btx": "a.btx", "house.btx": "", "other.btx": "other.btx", "title.btx": "other.btx",
        })
