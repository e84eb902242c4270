"""Facts that stand in several places: words, statuses, reasons, limits and letters of looks are those of the man page of cept_tool and of
library/tamligub.h wherever they stand."""
import os
import re
import sys

import stand
from btx import canvas, command, completion, faults, files, grammar, library, listing, live, looks, messages, painting, program, shapes, typed
from btx import website, wire
from btx.statuses import READ, Status

sys.path.append(os.path.join(stand.ROOT, "library", "tests"))
import calls  # noqa: E402

# The package for Python, which is found once its calls are taken.
OWN = library.binding()
from tamligub import looks as package_looks  # noqa: E402
from tamligub import records  # noqa: E402


def text_of(*names):
    with open(os.path.join(stand.ROOT, *names), encoding="utf-8") as file:
        return file.read()


MANUAL, HEADER = text_of("docs", "cept_tool.1"), text_of("library", "tamligub.h")


def section(name):
    """What stands under a heading of the man page."""
    found = re.search(rf"^\.S[HS] {name}\n(.*?)(?=^\.S[HS] |\Z)", MANUAL, re.DOTALL | re.MULTILINE)
    assert found, name
    return found[1]


def numbers_of(first):
    """An enumeration of the header that begins with a name: the numbers by their names."""
    found = re.search(rf"enum \{{\s*({first} .*?)\}};", HEADER, re.DOTALL)
    assert found, first
    return {name: int(number) for name, number in re.findall(r"TAMLIGUB_(\w+) = (\d+)", found[1])}


def list_in(text, name):
    """The texts in the list of a name, in C, Python or JavaScript."""
    found = re.search(rf"\b{name}\b[^=\n]*= ?[\[({{](.*?)[\])}}]", text, re.DOTALL)
    assert found, name
    return re.findall(r'"([^"]*)"', found[1])


def words_of_the_manual():
    """By each word what stands after it."""
    return dict(re.findall(r"^\.B cept_tool (\w+)\n\.I (.*)$", section("SYNOPSIS"), re.MULTILINE))


class Words(stand.Case):
    def test_each_word_takes_what_the_manual_says(self):
        known = words_of_the_manual()
        self.assertEqual(len(known), 14)
        self.assertEqual({word: takes for word, (takes, _) in program.WORDS.items()}, known)
        self.assertEqual(set(re.findall(r'word == "(\w+)"', text_of("crates", "cept_run", "src", "words.rt"))), set(known))

    def test_the_header_names_each_word_by_what_is_given(self):
        kinds = {
            "PAGE": ("PAGE",), "PAGE_AND_SCRIPT": ("PAGE SCRIPT", "PAGE DRAWING"), "NUMBER": ("NUMBER",), "PAGE_AND_NUMBER": ("PAGE NUMBER",),
        }
        tried = dict(zip(kinds, (calls.OF_A_PAGE, calls.OF_A_SCRIPT, calls.OF_A_NUMBER, calls.OF_A_PAGE_AND_A_NUMBER)))
        for kind, takes in kinds.items():
            wanted = {word for word, after in words_of_the_manual().items() if after in takes}
            remark = re.search(rf"TAMLIGUB_{kind} = \d,? +/\* (.*) \*/", HEADER)
            self.assertEqual({word for word in re.findall(r"\w+", remark[1]) if word in program.WORDS}, wanted, kind)
            self.assertEqual(set(tried[kind]), wanted, kind)
        self.assertEqual({word for word, after in words_of_the_manual().items() if after in kinds["PAGE_AND_SCRIPT"]}, set(program.SCRIPTED))

    def test_the_completion_has_each_word_with_what_stands_after_it(self):
        table = {word.name: [name for name, _ in word.after] for word in completion.table(command.parsers())}
        self.assertEqual({word: " ".join(map(str, table[word])) for word in program.WORDS}, words_of_the_manual())
        self.assertEqual(set(table), {*program.WORDS, *command.OWN})

    def test_the_most_of_each_number_is_that_of_the_header(self):
        numbers = {word for word, after in words_of_the_manual().items() if after.endswith("NUMBER")}
        self.assertEqual(set(library.MOST), numbers)
        self.assertEqual(f"whose number is 0 to {library.MOST['flash']} " in HEADER, True)
        for word in ("gen", "load"):
            self.assertIn(f"number  0 to {library.MOST[word]};", HEADER)

    def test_limits_are_those_of_the_manual(self):
        self.assertIn(r"more than 2\(ha24 bytes", section("EXIT STATUS"))
        self.assertIn("than 2\\(ha20 bytes", section("EXIT STATUS"))
        self.assertEqual((files.MOST_PAGE, typed.MOST, messages.MOST_PAGE, messages.MOST_SCRIPT), (2**24, 2**20) * 2)


class Websites(stand.Case):
    def test_the_manual_names_what_a_website_takes_for_itself(self):
        *first, last = website.FOLDERS
        self.assertIn(f"index.html, report.csv, report.json and the folders {', '.join(first)} and {last}: ", text_of("docs", "btx.1"))


class Times(stand.Case):
    def test_how_long_a_host_is_called_is_that_of_the_manual(self):
        self.assertIn(f"is given up after {wire.ANSWERS_IN} seconds for each of its\n", text_of("docs", "btx.1"))


class Statuses(stand.Case):
    def test_they_are_those_of_the_header(self):
        wanted = numbers_of("TAMLIGUB_DONE")
        self.assertEqual({status.name: int(status) for status in Status}, wanted)
        self.assertEqual({name: getattr(OWN, name) for name in wanted}, wanted)
        editor = re.search(r"STATUS = \{(.*?)\}", text_of("edit", "statuses.js"), re.DOTALL)[1]
        self.assertEqual({name: int(number) for name, number in re.findall(r"(\w+): (\d)", editor)}, wanted)

    def test_the_manual_explains_each_and_btx_has_a_sentence_of_each(self):
        explained = list(map(int, re.findall(r"^\.TP\n(\d)$", section("EXIT STATUS"), re.MULTILINE)))
        self.assertEqual(explained, sorted(Status))
        self.assertEqual(set(messages.SENTENCES), set(Status))
        self.assertIn(f"end with the program's status, 0 to {max(Status)}, which", text_of("docs", "btx.1"))
        types = re.sub(r"\n +\* ", " ", text_of("library", "npm", "tamligub.d.ts"))
        self.assertRegex(types, r"/\*\* " + ", ".join(f"{status} [a-z ]+" for status in sorted(Status)) + r"\. \*/")

    def test_the_viewer_knows_them_by_the_same_numbers(self):
        script = text_of("view", "decoding.js") + text_of("view", "asking.js")
        self.assertIn(f"const [UNREAD, NO_MEMORY] = [{Status.UNREAD}, {Status.NO_MEMORY}];", script)
        ends = [int(number) for number in re.search(r"const ENDS = \[(.*?)\];", script)[1].split(", ")]
        self.assertLessEqual(set(ends), set(Status) - set(READ))
        for number in ends:
            self.assertEqual(text_of("view", "words.js").count(f" ended{number}:"), 2, number)

    def test_a_status_is_written_as_its_number(self):
        for status in Status:
            self.assertEqual(f"{status} {status!s}", f"{status.value} {status.value}")


class Reasons(stand.Case):
    def rows(self, name):
        return re.findall(r"^(\d)\|(\w+)\|(.*)$", section(name), re.MULTILINE)

    def test_those_of_refused_items_are_the_same_everywhere(self):
        rows = self.rows("Reasons")
        names = [name for _, name, _ in rows]
        self.assertEqual([int(number) for number, _, _ in rows], list(range(1, 8)))
        self.assertEqual(list(package_looks.REASONS), names)
        self.assertEqual(list(listing.REASONS), names)
        self.assertEqual(list_in(text_of("library", "tests", "notices.js"), "REASONS"), names)
        self.assertEqual(list_in(text_of("library", "tests", "decoder.h"), "names"), names)
        # In btx an item stands in bytes of a line, which are no page.
        means = {int(number): text.replace("end of the page", "end of the bytes") for number, _, text in rows}
        self.assertEqual(faults.REASONS, means)

    def test_those_of_refused_lines_are_numbered_alike(self):
        rows = [(number, name) for number, name, _ in self.rows("SCRIPTS")]
        wanted = ("UNKNOWN_WORD", "WRONG_COUNT", "BAD_NUMBER", "BAD_TEXT", "BAD_HEX", "BAD_BYTES")
        self.assertEqual([name for _, name in rows], [name.title().replace("_", "") for name in wanted])
        self.assertEqual([int(number) for number, _ in rows], [getattr(grammar, name) for name in wanted])


class Looks(stand.Case):
    def test_letters_of_sets_and_of_flashing_are_the_same_everywhere(self):
        self.assertEqual((package_looks.SETS, package_looks.FLASHES), (looks.SETS, looks.FLASHES))
        self.assertEqual("".join(painting.SEEN), looks.FLASHES)
        for place in (("view", "text.js"), ("view", "notices.js"), ("library", "tests", "notices.js"), ("library", "tests", "decoder.h")):
            self.assertIn(looks.SETS, text_of(*place), place)
        self.assertIn(f"([{looks.FLASHES}])", text_of("view", "text.js"))
        # The header numbers the sets, and the shapes have those with signs.
        self.assertRegex(HEADER, r"its set \(0 primary, 1 supplementary, 2 and 3\s+\* mosaics, 4 downloaded\)")
        self.assertEqual({name[0] for name in shapes.facts()["sets"]}, set(looks.SETS))

    def test_the_record_of_a_notice_is_read_alike_by_btx_and_by_the_package(self):
        at = {name: place for name, _, place in records.FIELDS}
        for name in ("SIZE_OF_NOTICE", "SIZE_OF_STATE", "ROOM_FOR_A_BYTE"):
            self.assertEqual(getattr(live, name), getattr(OWN, name), name)
        for name, field in (("ROW", "row"), ("COLUMN", "column"), ("PATTERN", "bits"), ("FORM", "form"), ("COLOURS", "colours")):
            self.assertEqual(getattr(live, name), at[field], name)
        self.assertEqual((live.LOOK.start, live.LOOK.stop), (at["sign"], at["boxed"] + 1))

    def test_the_screen_is_that_of_the_manual(self):
        self.assertIn(f"keeps a screen of {looks.ROWS} rows by {looks.COLUMNS} columns", MANUAL)
        self.assertEqual((canvas.WIDTH, canvas.HEIGHT), (looks.COLUMNS * shapes.WIDTH, looks.ROWS * shapes.HEIGHT))
