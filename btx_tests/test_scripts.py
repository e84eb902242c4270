"""Scripts as people type them. Which signs there are and what a line does is asked of the program."""
import json
import os
import subprocess
import unicodedata

import stand

COLUMNS, ROWS, NONE = 39, 23, "\ufffd"
LOADS = """import { readFileSync } from "node:fs";
import "./edit/tests/scripts.js";
const { inGrammar, unknownIn } = await import("./edit/lines.js");
const lines = JSON.parse(readFileSync(0, "utf8"));
process.stdout.write(JSON.stringify(lines.map((line) => [inGrammar(line), unknownIn(line)])));
"""


def composed(text):
    return unicodedata.normalize("NFC", text)


def in_rows(things):
    """Things parted into screens of rows."""
    rows = [things[at : at + COLUMNS] for at in range(0, len(things), COLUMNS)]
    return [rows[at : at + ROWS] for at in range(0, len(rows), ROWS)]


def signs_of(row):
    signs: list[str] = []
    for point in row:
        if unicodedata.combining(point):
            signs[-1] += point
        else:
            signs.append(point)
    return signs


class Scripts(stand.Case):
    def empty(self):
        return self.written("empty.btx", b"")

    def shown(self, page):
        """The signs of the rows that are shown."""
        return [[composed(sign) for sign in signs_of(row)] for row in stand.put("show", page).decode().split("\n")]

    def all_signs(self):
        """Each sign that the program shows of the primary set, with and without accent, and of the supplementary set."""
        bytes_of = [[code] for code in range(0x21, 0x80)] + [[0x19, code] for code in (*range(0x21, 0x40), *range(0x50, 0x7F))]
        bytes_of += [[0x19, accent, code] for accent in range(0x40, 0x50) for code in range(0x20, 0x7F)]
        found = {}
        for screen in in_rows(bytes_of):
            page = b"".join(bytes([0x1F, 0x40 + row, 0x41, *sum(signs, [])]) for row, signs in enumerate(screen, 1))
            for signs, shown in zip(screen, self.shown(self.written("page", page))):
                found.update(dict.fromkeys(shown[: len(signs)]))
        return [sign for sign in found if sign != NONE]

    def test_every_sign_that_is_shown_can_be_typed(self):
        signs = self.all_signs()
        self.assertGreater(len(signs), 1300)
        for form in ("NFC", "NFD"):
            for screen in in_rows(signs):
                lines = [f"at {row} 1\ntext {unicodedata.normalize(form, ''.join(row_of))}\n" for row, row_of in enumerate(screen, 1)]
                done = stand.btx("edit", self.empty(), self.written("script", "".join(lines).encode()))
                self.assertEqual((done.returncode, done.stderr), (0, b""))
                page = self.written("page", done.stdout)
                self.assertEqual([row[: len(want)] for row, want in zip(self.shown(page), screen)], screen)

    def test_no_other_sign_can_be_typed(self):
        known = set(self.all_signs()) | {" "}
        others = [chr(point) for point in (*range(0xA0, 0x250), *range(0x2010, 0x2040), 0x20AC, 0x2126, 0x2588, 0x25A1, 0x4E2D, 0x1F600)]
        others = [sign for sign in others if composed(sign) not in known]
        self.assertGreater(len(others), 200)
        script = self.written("script", "".join(f"text {sign}\n" for sign in others).encode())
        done = stand.btx("edit", self.empty(), script)
        self.assertEqual((done.returncode, done.stdout), (3, b"script line 1: 4 BadText\n"))
        listed = stand.btx("check-script", script).stdout.decode()
        self.assertEqual(listed.splitlines()[-1], f"lines {len(others)} bad {len(others)}")
        for sign in ("„", "€", "ș", "中", "\u00a0"):
            self.assertIn(sign, others)
            done = stand.btx("edit", self.empty(), self.written("script", f"at 1 1\ntext ö {sign}x\n".encode()))
            self.assertEqual((done.returncode, done.stdout), (3, b"script line 2: 4 BadText\n"))
            self.assertIn(f"line 2: sign 8 is {sign if sign.strip() else ''}", done.stderr.decode())
            name = f"U+{ord(sign):04X} {unicodedata.name(sign)}"
            self.assertIn(f"{name if sign.isspace() else f'({name})'}, which no set has", done.stderr.decode())

    def test_the_page_editor_makes_the_same_lines(self):
        node, = self.needs("node")
        lines = [f"text {sign}" for sign in self.all_signs()] + ["", " ", "\t# Größe", "text", "text ", "text\tA", "  text  ü ", "text \tü"]
        lines += [" at  1\t2 ", "undo\t", "raw 41 ", "texts ü", "text A„ü", "text ö\u0301", "text \u0308", "#", "Text ü", "text A\u030aa"]
        # Signs that Unicode composes to some of ASCII.
        lines += ["text \u212aA", "text \u037e\u1fef"]
        words = [node, "--input-type=module", "-e", LOADS]
        done = subprocess.run(words, input=json.dumps(lines), capture_output=True, text=True, cwd=stand.ROOT, timeout=stand.LONG)
        self.assertEqual(done.returncode, 0, done.stderr)
        results = dict(zip(lines, json.loads(done.stdout)))
        good = [line for line, (_, unknown) in results.items() if not unknown and line not in ("text", "text ", "texts ü", "Text ü")]
        for word in ("trace", "edit"):
            # Before each line mosaics are locked.
            paths = [self.written(name, "".join(f"raw 0E\n{line}\n" for line in of).encode()) for name, of in
                     (("typed", good), ("made", [results[line][0] for line in good]))]
            self.assertEqual(stand.btx(word, self.empty(), paths[0]).stdout, stand.put(word, self.empty(), paths[1]))
        for line in [line for line in lines if line not in good]:
            made, unknown = results[line]
            paths = [self.written(name, f"{text}\n".encode()) for name, text in (("typed", line), ("made", made))]
            typed = stand.btx("edit", self.empty(), paths[0])
            self.assertEqual((typed.returncode, typed.stdout), (3, stand.put("edit", self.empty(), paths[1])), line)
            error = typed.stderr.decode()
            self.assertTrue(f": sign {unknown['place']} is" in error if unknown else "which no set has" not in error, (line, error))

    def test_ends_of_lines_blanks_notes_and_a_mark_are_taken(self):
        own = b"# note\nat 3 5\ntext ab\n\ntext  c\nundo\nraw 0F478141\n"
        typed = "\ufeff  # Größe\n\t at\t3   5 \ntext ab\n \t\ntext\t c\n undo\t\nraw  0F478141".encode()
        page, wanted = stand.page("title"), self.written("own", own)
        for word in ("trace", "edit"):
            for end in (b"\n", b"\r\n", b"\r"):
                done = stand.btx(word, page, self.written("typed", typed.replace(b"\n", end)))
                self.assertEqual((done.returncode, done.stderr, done.stdout), (0, b"", stand.put(word, page, wanted)), end)

    def test_lines_and_steps_of_undo_stay(self):
        script = self.written("script", "text Größe\ntext ÄÖ\nundo\nundo\nundo\nredo\n".encode())
        done = stand.btx("trace", self.empty(), script)
        moments = [line.split(" ") for line in done.stdout.decode().splitlines()]
        written = [["1", "1", str(column)] for column in range(1, 6)] + [["2", "1", "6"], ["2", "1", "7"]]
        self.assertEqual([moment[:3] for moment in moments if moment[0] in "12"], written)
        self.assertEqual([moment[0] for moment in moments if moment[0] > "2"], list("33") + list("44444") + ["5"] + list("66666"))
        self.assertIn(["5", "nothing"], moments)

    def test_a_typed_text_writes_as_the_word_does(self):
        """In letters, whatever set was locked before, and in the attributes that are in force."""
        page = self.written("page", b"\x81\x0e")
        paths = [self.written(name, text.encode()) for name, text in (("typed", "text aü"), ("own", "text a\nraw 194875\n"))]
        self.assertEqual(stand.btx("edit", page, paths[0]).stdout, stand.put("edit", page, paths[1]))

    def test_drawings_are_typed_likewise(self):
        own = self.written("own", b"line 0 0 9 9\nplot 3 4\n")
        typed = self.written("typed", "\ufeffline\t0 0  9 9\r\n plot 3 4\r\n# ü".encode())
        self.assertEqual(stand.btx("plot", self.empty(), typed).stdout, stand.put("plot", self.empty(), own))

    def test_a_script_that_a_shell_hands_over(self):
        line = f"{stand.BTX} edit {self.empty()} <(printf 'text \\303\\274\\r\\n')"
        done = subprocess.run(["bash", "-c", line], capture_output=True, env=stand.environment(), timeout=stand.LONG)
        self.assertEqual((done.returncode, done.stderr), (0, b""))
        self.assertEqual(self.shown(self.written("page", done.stdout))[0][0], "ü")

    def test_what_is_no_utf_8_is_told(self):
        done = stand.btx("edit", self.empty(), self.written("script", b"# \xfc\ntext Gr\xf6\xdfe\n"))
        self.assertEqual((done.returncode, done.stdout), (3, b"script line 2: 4 BadText\n"))
        self.assertIn("line 2: sign 8 is the byte F6, which is no UTF-8; sign 9 is the byte DF", done.stderr.decode())

    def test_lines_that_are_too_long_for_the_program(self):
        script = self.written("script", b"")
        os.truncate(script, 2**20)
        with open(script, "r+b") as file:
            file.write("text ".encode() + "ü".encode() * 2**18 + b"\n#")
        done = stand.btx("edit", self.empty(), script)
        self.assertEqual((done.returncode, done.stdout), (7, b""))
        self.assertIn(f"{script}: the script has more than 1,048,576 bytes once its signs outside ASCII are bytes", done.stderr.decode())
