"""What is said of bad lines, and of which. The words and ranges are those of the man page of cept_tool; which line is bad the program says."""
import os
import re

import stand

EDGES = (0, 1, 2, 3, 4, 11, 12, 15, 16, 24, 25, 26, 27, 28, 31, 32, 40, 41, 63, 64, 71, 72, 79, 80)
OTHERS = ("x", "001", "+1", "\u0661")


def manual(heading):
    """The rows of the first table under a heading of the man page: each its words, and what they do."""
    with open(os.path.join(stand.ROOT, "docs", "cept_tool.1"), encoding="utf-8") as file:
        part = re.split(rf"\n\.S[HS] {heading}\n", file.read())[1]
    table = part[part.index(".TS") : part.index(".TE")].split(".\n", 1)[1].replace("T{\n", "").replace("\nT}", "")
    return [row.split("|") for row in table.splitlines()]


def lines_with(words):
    """Lines of a word with what stands after it: numbers at all edges, one after the other, too few words and too many."""
    word, *names = words.split(" ")
    good = {"SIGNS": "A", "DIGITS": "41"}
    values = [good.get(name, "1") for name in names]
    yield from (" ".join([word, *values[:count], *["1"] * (count - len(values))]) for count in range(len(values) + 2))
    for at, name in enumerate(names):
        if name not in good:
            yield from (" ".join([word, *values[:at], str(number), *values[at + 1 :]]) for number in (*EDGES, *OTHERS))


class Faults(stand.Case):
    def checked(self, data, *options):
        """What check-script says of a script: by the number of each bad line the sentence, and the status."""
        script = self.written("script", data.encode())
        done = stand.btx("check-script", *options, script)
        *lines, last = done.stdout.decode().splitlines()
        parts = (re.fullmatch(re.escape(script) + r", line (\d+): (.*)", line).groups() for line in lines)
        found = {int(number): said for number, said in parts}
        self.assertEqual(len(found), len(lines))
        self.assertEqual((last, done.stderr), (f"lines {len(data.splitlines())} bad {len(found)}", b""))
        self.assertEqual(done.returncode, 3 if found else 0)
        return found

    def refuses(self, word, line):
        """Whether the program refuses a line by itself."""
        return stand.put(word, "/dev/null", self.written("line", line.encode() + b"\n")).startswith(b"script line 1: ")

    def agree(self, heading, word, *options):
        lines = [line for words, _ in manual(heading) for one in words.split(", ") for line in lines_with(one)]
        self.assertGreater(len(lines), 150)
        found = self.checked("\n".join(lines), *options)
        self.assertNotIn("for reason", "".join(found.values()))
        for number, said in found.items():
            self.assertTrue(said.endswith(f": {lines[number - 1]}"), said)
            self.assertTrue(self.refuses(word, lines[number - 1]), lines[number - 1])

    def test_of_scripts_those_lines_are_bad_that_the_program_refuses(self):
        self.agree("SCRIPTS", "edit")

    def test_of_drawings_likewise(self):
        self.agree("DRAWINGS", "plot", "--drawing")

    def test_each_fault_is_told_so_that_it_can_be_mended(self):
        for line, said in (
            ("at 25 41", "ROW is 25, and takes 1 to 24; COLUMN is 41, and takes 1 to 40"),
            ("at x 1", "ROW is x, and takes a number of one or two digits, 1 to 24"),
            ("screen 13", "N is 13, and takes 0 to 31, but not 12 to 15 and not 27"), ("c1 27", "N is 27, and takes 0 to 31, but not 27"),
            ("revision 3", "N is 3, and takes 1 or 2"), ("area 5 2", "A is 5 and B 2, and A is at most B"),
            ("undo 3", "undo takes no word after it, and not 1"),
            ("colour 1 2", "colour takes 4 words after it, N R G B, and not 2"), ("text", "text takes SIGNS after it, at least one"),
            ("txet A", "txet is no word of scripts; the nearest is text"),
            ("scroll", "the nearest is scrollup"), ("color 1 2 3 4", "the nearest is colour"),
            ("qqqq", "qqqq is no word of scripts"),
            ("raw 411f4", "raw takes two digits for each byte, and here it has 5"),
            ("  raw 41zz", "sign 9 is z, which is no hexadecimal digit"),
            ("\ttext ö„", "sign 8 is „ (U+201E DOUBLE LOW-9 QUOTATION MARK), which no set has"),
            ("text Öffnung\t8 Uhr", "sign 13 is a tab, which no set has"),
        ):
            shown = line.replace("\t", "\\t")
            self.assertTrue(self.checked(line)[1].endswith(f"{said}: {shown}"), (line, self.checked(line)))

    def test_a_word_of_the_other_kind_is_told_as_such(self):
        self.assertEqual(self.checked("at 1 1\nbox 1 1 2 2\n"), {2: "box is no word of scripts, but of drawings: box 1 1 2 2"})
        self.assertEqual(self.checked("box 1 1 2 2\nat 1 1\n", "--drawing"), {2: "at is no word of drawings, but of scripts: at 1 1"})

    def test_of_long_words_the_beginning_is_told(self):
        beginning = f"{'x' * 60}…"
        self.assertEqual(self.checked("x" * 1000 + "\n"), {1: f"{beginning} is no word of scripts: {beginning}"})
        said = f"N is {'9' * 60}…, and takes a number of one or two digits, 0 to 63: repeat {'9' * 53}…"
        self.assertEqual(self.checked(f"repeat {'9' * 1000}\n"), {1: said})

    def test_items_of_bytes_are_named_with_the_reason_of_the_program(self):
        wording = {number: meaning for number, _, meaning in manual("Reasons")}
        for data in ("1C", "411B2041", "9B3F", "1F2041", "1F4100", "1F1F4141", "41421F"):
            page = self.written("page", bytes.fromhex(data))
            refused = [line.split(" ")[1:] for line in stand.put("check", page).decode().splitlines()[:-1]]
            self.assertTrue(refused, data)
            said = self.checked(f"at 1 1\nraw {data}\n")[2]
            for place, length, number, name in refused:
                item = bytes.fromhex(data)[int(place) : int(place) + int(length)].hex(" ").upper()
                self.assertRegex(said, rf"bytes? {int(place) + 1}( to \d+)?, {item}, (is|are) refused: {number} {name}, ")
                self.assertIn(wording[number].replace("end of the page", "end of the bytes"), said)

    def test_all_bad_lines_are_told_under_edit_and_trace_too(self):
        lines = ["at 1 1", "at 0 1", "# Größe", "raw 1C", "text gut", "", "text „", "raw 1F"]
        found = self.checked("\n".join(lines))
        self.assertEqual(sorted(found), [2, 4, 7, 8])
        script = self.path("script")
        for word in ("edit", "trace"):
            done = stand.btx(word, stand.page("title"), script)
            self.assertEqual((done.returncode, done.stdout), (3, b"script line 2: 3 BadNumber\n"))
            told = [f"btx: {word}: {script}, line {number}: {found[number]}" for number in sorted(found)]
            self.assertEqual(done.stderr.decode().splitlines(), told)

    def test_what_is_taken_for_a_script_or_a_drawing_is_told(self):
        drawing, script = (self.written(name, data) for name, data in (("one", b"# a\n\nplot 1 1\n line  0 0 9 9\n"), ("other", b"at 1 1\ntext A\n")))
        wide = self.written("wide", "at 1 1\ntext A\n".encode("utf-16"))
        for path, options, word, said in (
            (drawing, (), "edit", "it looks like a drawing: plot takes it, and check-script --drawing checks it"),
            (script, ("--drawing",), "plot", "it looks like a script: edit takes it, and check-script without --drawing checks it"),
            (stand.page("boat"), (), "edit", "it looks like a page: check checks it, and edit takes a page first, and then a script"),
            (wide, (), "edit", "it looks like UTF-16, and a script is UTF-8: save it as that"),
        ):
            listed = stand.btx("check-script", *options, path)
            self.assertEqual((listed.returncode, listed.stdout.decode().splitlines()[-2]), (3, f"{path}: {said}"))
            done = stand.btx(word, stand.page("title"), path)
            self.assertEqual((done.returncode, done.stderr.decode().splitlines()[-1]), (3, f"btx: {word}: {path}: {said}"))
        for data, options in ((b"plot 1 1\ntext A\n", ()), (b"plot 1\n", ("--drawing",)), (b"# a\n", ()), (b"", ())):
            self.assertNotIn(b"looks like", stand.btx("check-script", *options, self.written("mixed", data)).stdout)

    def test_the_program_runs_once_and_twice_for_each_line_with_bad_bytes(self):
        log = self.path("log")
        counting = self.written("counting", f'#!/bin/sh\necho run >> {log}\nexec {stand.program} "$@"\n'.encode())
        os.chmod(counting, 0o755)
        for script, runs in (("text A\n" * 500, 1), ("at 0 0\nfoo\nraw 1\n" * 500, 1), ("at 0 0\nraw 1C\nraw 41\nraw 1F\n", 5)):
            open(log, "wb").close()
            stand.btx("check-script", self.written("script", script.encode()), env=stand.environment(BTX_PROGRAM=counting))
            with open(log, encoding="ascii") as file:
                self.assertEqual(len(file.readlines()), runs)

    def test_long_lines_are_cut(self):
        said = self.checked("raw 1" + "41" * 5000)[1]
        self.assertTrue(said.endswith("14…") and len(said) < 150, said)

    def test_names_and_signs_that_a_terminal_cannot_show(self):
        script = os.fsencode(self.path("")) + b"\xff\n"
        with open(script, "wb") as file:
            file.write("text \u202e„\x1b\n".encode())
        done = stand.btx("check-script", script, env=stand.environment(PYTHONIOENCODING="ascii"))
        self.assertEqual((done.returncode, done.stderr), (3, b""))
        first, last = done.stdout.decode().splitlines()
        self.assertIn("\\xff\\n, line 1: sign 6 is U+202E RIGHT-TO-LEFT OVERRIDE, which no set has; sign 7 is „", first)
        self.assertTrue(first.endswith("sign 8 is U+001B, which no set has: text \\u202e„\\x1b"), first)
        self.assertEqual(last, "lines 1 bad 1")

    def test_a_script_that_is_too_long_or_is_not_there(self):
        script = self.written("script", b"")
        os.truncate(script, 2**20 + 1)
        long, none = f"{script}: the script has more than 1,048,576 bytes", "nowhere: no such file or directory"
        for path, status, said in ((script, 7, long), ("nowhere", 4, none)):
            done = stand.btx("check-script", path, cwd=self.folder)
            self.assertEqual((done.returncode, done.stdout, done.stderr.decode()), (status, b"", f"btx: check-script: {said}\n"))
