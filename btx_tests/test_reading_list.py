"""The list of definitions that the clause of `run` rests on."""
import os
import re
import subprocess

import stand

WORDS = ("changes", "check", "list", "show", "cells", "write", "trace", "edit", "gen", "load", "seven", "eight", "flash", "plot")


def listed(*words):
    """The lines that are printed, and the numbers of definitions and lines that the last one tells."""
    run = subprocess.run([os.path.join(stand.ROOT, "docs", "reading_list"), *words], stdout=subprocess.PIPE, check=True, timeout=stand.LONG)
    *files, last = run.stdout.decode().splitlines()
    return files, tuple(map(int, re.fullmatch(r"(\d+) definitions in \d+ files, (\d+) lines", last).groups()))


def names(files):
    return {(file, name) for line in files for file, _, more in [line.partition(", ")] for name in more.partition(": ")[2].split(", ")}


class ReadingList(stand.Case):
    def test_readme_tells_how_long_it_is(self):
        with open(os.path.join(stand.ROOT, "README.md"), encoding="utf-8") as file:
            text = " ".join(file.read().split())
        for words, found in (
            ((), r"order to read: (\d+) definitions, ([\d,]+) lines"), (("changes",), r"for `changes` (\d+) with ([\d,]+) lines"),
            (("--covered",), r"--covered` lists, (\d+) definitions of ([\d,]+) lines"),
        ):
            told = re.search(found, text)
            self.assertEqual((int(told[1]), int(told[2].replace(",", ""))), listed(*words)[1], words)

    def test_each_file_comes_after_those_of_lower_crates(self):
        with open(os.path.join(stand.ROOT, "crates.txt"), encoding="utf-8") as file:
            order = [line.split(":")[0].split()[0] for line in file if ":" in line]
        places = [order.index(line.split("/")[1]) for line in listed()[0]]
        self.assertEqual(places, sorted(places))

    def test_a_word_needs_a_part_and_what_it_means(self):
        whole = names(listed()[0])
        for word in WORDS:
            part = names(listed(word)[0])
            self.assertTrue(part < whole, word)
            for crate, by in (("plot", "plot"), ("flash", "flash"), ("seven", "seven eight"), ("generator", "gen load")):
                there = any(file.startswith(f"crates/cept_{crate}/") for file, _ in part)
                self.assertEqual(there, word in by.split(), (word, crate))

    def test_how_a_written_page_is_made_stands_apart(self):
        """Definitions of exact bytes of which the clause of `run` also says what they bring: of the words that write a page, and of no other."""
        believed, covered = names(listed()[0]), names(listed("--covered")[0])
        self.assertFalse(believed & covered)
        self.assertFalse(any(file.startswith("crates/cept_writer/") for file, _ in believed))
        self.assertTrue({("crates/cept_writer/specs/CompactCommands.antt", "page_text"), ("crates/cept_parser/specs/Spelling.antt", "spellings")} <= covered)
        for word in WORDS:
            self.assertEqual(names(listed(word, "--covered")[0]), covered if word in ("write", "edit", "plot") else set(), word)

    def test_what_private_clauses_alone_cite_stands_inside(self):
        run = subprocess.run([os.path.join(stand.ROOT, "docs", "reading_list"), "--private"], stdout=subprocess.PIPE, check=True)
        self.assertEqual(run.stdout, b"")

    def test_definitions_stand_before_those_that_are_made_of_them(self):
        text = subprocess.run([os.path.join(stand.ROOT, "docs", "reading_list"), "--lines"], stdout=subprocess.PIPE, check=True).stdout.decode()
        for earlier, later in (
            ("pub record Place ", "abbrev pub place_of "), ("abbrev pub cascade ", "abbrev pub look_with "), ("abbrev pub strokes_of ", "abbrev pub state "),
            ("abbrev pub changes_between ", "pub record RunsCourse "), ("pub record RunsCourse ", "pub record Runs "),
        ):
            self.assertLess(text.index(earlier), text.index(later), later)

    def test_what_is_no_word_is_refused(self):
        run = subprocess.run([os.path.join(stand.ROOT, "docs", "reading_list"), "draw"], stdout=subprocess.PIPE, stderr=subprocess.PIPE)
        self.assertEqual((run.returncode, run.stdout, run.stderr), (1, b"", b"no word of the program: draw\n"))
