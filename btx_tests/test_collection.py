"""What an archive takes of a folder, what it says of the rest, and what it does with what is gone."""
import csv
import errno
import fcntl
import functools
import hashlib
import io
import json
import os
import resource
import shutil
import signal
import time
import unicodedata
import unittest.mock
from typing import Any

import archives
from archives import data_in, entries_in
import stand

from btx import files as own_files, making, progress, website
from btx.statuses import Status

NO_UTF_8 = b"stra\xdfe.btx"
SHOWN = "stra\\xdfe.btx"


def spun_out(folder):
    """Another path of a folder: too long for what is in the folders in it, and not for what is in it itself."""
    return os.path.join(os.path.dirname(folder), *["."] * ((4000 - len(folder)) // 2), os.path.basename(folder))


def unquoted(text):
    return text[1:] if text[:2] in ("'=", "'+", "'-", "'@") else text


class Left(archives.Case):
    """Pages that left the collection, and folders that can't be read."""

    def setUp(self):
        super().setUp()
        self.small("title", "boat", "form")

    def made(self):
        """The files of the website that are of pages, without their endings."""
        found = set()
        for kind in ("pages", "pictures", "made"):
            top = os.path.join(self.out, kind)
            for place, folders, files in os.walk(top):
                found |= {os.path.splitext(os.path.relpath(os.path.join(place, name), self.out))[0] for name in [*files, *folders]}
        return sorted(found)

    def test_what_left_is_removed(self):
        os.mkdir(os.path.join(self.source, "deep"))
        shutil.copy(stand.page("house"), os.path.join(self.source, "deep"))
        self.archive()
        os.remove(os.path.join(self.source, "form.btx"))
        shutil.rmtree(os.path.join(self.source, "deep"))
        self.assertIn(b"2 pages no longer in the collection: removed", self.archive().stdout)
        self.assertEqual(self.made(), sorted(f"{kind}/{name}.btx" for kind in ("pages", "pictures", "made") for name in ("boat", "title")))
        self.assertEqual(sorted(self.report()), ["boat.btx", "title.btx"])

    def test_what_was_made_of_half_a_page_goes_too(self):
        """As where the archive was stopped in it."""
        self.archive()
        os.remove(os.path.join(self.out, "made", "form.btx.json"))
        os.remove(os.path.join(self.source, "form.btx"))
        self.archive()
        self.assertNotIn("pages/form.btx", self.made())
        self.assertNotIn("pictures/form.btx", self.made())

    def test_what_is_kept_beside_the_parts_stays_where_it_cannot_go(self):
        """A folder, as some servers keep one in each."""
        self.archive()
        for name in ("entries", "words", "walk"):
            os.mkdir(os.path.join(self.out, name, "@eaDir"))
        self.assertIn(b"; 3 were there", self.archive().stdout)

    def test_a_name_that_the_file_system_of_the_website_has_not(self):
        site = website.Website(self.out)
        for number in (errno.EINVAL, errno.EILSEQ):
            with unittest.mock.patch.object(website, "write", side_effect=OSError(number, os.strerror(number))):
                facts = site.add("was?.btx", making.Facts(3, Status.DONE, "read"), {"deflated": "", "check": "", "page": "", "cells": ""})
            self.assertEqual((facts.status, facts.bytes, facts.meaning), (5, 3, "its name is none for the file system of the website"))

    def test_what_left_is_kept_and_listed(self):
        self.archive()
        os.remove(os.path.join(self.source, "form.btx"))
        for _ in range(2):
            self.assertIn(b"1 page no longer in the collection: kept", self.archive("--keep").stdout)
            self.assertEqual(self.report()["form.btx"]["meaning"], "read to its end, nothing refused; no longer in the collection")
            self.assertIn("form.btx", [entry[0] for entry in entries_in(self.out)])
        self.assertIn("pages/form.btx", self.made())
        self.archive()
        self.assertNotIn("form.btx", self.report())

    def test_a_page_that_cannot_be_read_any_more_keeps_what_was_made_and_one_too_long_does_not(self):
        self.archive()
        for name in ("boat", "form"):
            os.remove(os.path.join(self.source, name + ".btx"))
        os.mkfifo(os.path.join(self.source, "boat.btx"))
        with open(os.path.join(self.source, "form.btx"), "wb") as file:
            file.truncate(2**24 + 1)
        self.archive()
        self.assertEqual([self.report()[name]["status"] for name in ("boat.btx", "form.btx")], ["4", "7"])
        self.assertIn("pages/boat.btx", self.made())
        self.assertNotIn("pages/form.btx", self.made())

    def test_a_folder_that_cannot_be_read_is_listed_as_one_and_stops_nothing(self):
        deep = "d" * 200
        os.mkdir(os.path.join(self.source, deep))
        shutil.copy(stand.page("house"), os.path.join(self.source, deep))
        self.archive()
        self.source = spun_out(self.source)
        os.remove(os.path.join(self.source, "form.btx"))
        done = self.archive()
        self.assertIn(b"3 pages, 0 with refused items, 0 not read; 2 were there: ", done.stdout)
        self.assertIn(b"1 folder can't be read; the report names it", done.stdout)
        top, names = data_in(os.path.join(self.out, "index.html"), "entries"), [entry[0] for entry in entries_in(self.out)]
        self.assertEqual([names[number] for number in top["unread"]], [deep + "/"])
        report = self.report()
        self.assertEqual((report[deep + "/"]["status"], report[deep + "/"]["meaning"]), ("4", "this folder can't be read: file name too long"))
        # What is in it may be there still, and so stays; what is gone elsewhere doesn't.
        self.assertEqual(report[f"{deep}/house.btx"]["meaning"], "read to its end, nothing refused; its folder can't be read now")
        self.assertIn(f"pages/{deep}/house.btx", self.made())
        self.assertNotIn("form.btx", report)
        # Where no other page is left nothing is taken away, and nothing made.
        before = self.made()
        for out in (self.out, self.path("new")):
            done = stand.btx("archive", self.source, "-o", out, "--pattern", "*.bxt")
            self.assertEqual((done.returncode, done.stdout), (4, b""))
            self.assertIn(b"there is no page in it, named *.bxt; 1 folder can't be read; left aside: 2 files (2 .btx)\n", done.stderr)
        self.assertEqual((self.made(), os.path.exists(self.path("new"))), (before, False))


class Taken(archives.Case):
    """Which files are pages, and what is said of others."""

    def setUp(self):
        super().setUp()
        self.small()

    def add(self, *names):
        for name in names:
            shutil.copyfile(stand.page("title"), os.path.join(os.fsencode(self.source), os.fsencode(name)))

    def test_usual_names_are_taken_in_either_case_and_the_others_are_told(self):
        self.add("a.btx", "B.BTX", "c.cept", "d.Vtx", "e.bin", "f.vdt", "g.vdt", "h.txt", "README")
        os.symlink(self.folder, os.path.join(self.source, "elsewhere"))
        done = self.archive()
        self.assertEqual(sorted(self.report()), ["B.BTX", "a.btx", "c.cept", "d.Vtx", "e.bin"])
        self.assertIn(b"left aside: 4 files (2 .vdt, 1 .txt, 1 without a suffix) and 1 link to a folder\n", done.stdout)

    def test_patterns_of_ones_own(self):
        self.add("a.btx", "b.vdt", "c.VDT", "d.txt")
        self.assertIn(b"left aside: 2 files (", self.archive("--pattern", "*.vdt", "--pattern", "d.*").stdout)
        self.assertEqual(sorted(self.report()), ["b.vdt", "d.txt"])

    def test_no_page_at_all_is_an_error(self):
        self.add("a.btx")
        self.archive()
        os.rename(os.path.join(self.source, "a.btx"), os.path.join(self.source, "a.vdt"))
        error = self.archive(status=4).stderr
        self.assertIn(b"there is no page in it, named *.btx *.cept *.vtx *.bin; left aside: 1 file (1 .vdt)", error)
        # As where a disk isn't there: nothing is taken away.
        self.assertIn("a.btx", self.report())

    def test_words_that_cannot_be_meant(self):
        self.add("a.btx")
        for words, said in (
            (["--sshlogin", "x"], b"--sshlogin is for --jobs-by parallel"), (["--remote", "x"], b"--remote is for --jobs-by parallel"),
            (["--pattern", ""], b"a pattern is empty, and no file has such a name; --pattern '*.btx' takes those that end in .btx\n"),
            (["--pattern", "*.btx", "--pattern="], b"a pattern is empty, "),
            (["--pattern", "1983/*.btx"], b"1983/*.btx: a pattern is of names without their folders, as --pattern '*.btx'\n"),
        ):
            self.assertIn(said, self.archive(*words, status=2).stderr)
        for out in (os.path.join(self.source, "out"), self.source):
            self.out = out
            self.assertIn(b"is in the collection; the website needs a folder outside of it", self.archive(status=2).stderr)
        os.rename(self.source, self.path("pages"))
        self.source, self.out = self.path("pages"), self.folder
        self.assertIn(b"is a folder that the website takes for itself", self.archive(status=2).stderr)
        self.assertEqual(os.listdir(self.source), ["a.btx"])

    def test_a_folder_with_other_files_is_no_place_for_a_website(self):
        self.add("a.btx")
        for name in ("index.html", "words/notes.txt", "viewer/photo.png", "entries/deep/0.js"):
            with self.subTest(name):
                os.makedirs(os.path.dirname(os.path.join(self.out, name)), exist_ok=True)
                self.written(os.path.join("out", name), b"mine")
                error = self.archive(status=4).stderr.decode()
                said = "has other files in it, which stay; the website needs a new or empty folder, or one that archive has made"
                self.assertEqual(error, f"btx: archive: {self.out} {said}\n")
                here = [os.path.relpath(os.path.join(place, one), self.out) for place, _, files in os.walk(self.out) for one in files]
                self.assertEqual(here, [name])
                shutil.rmtree(self.out)

    def test_a_website_goes_into_an_empty_folder_and_into_its_own_with_what_was_put_beside_it(self):
        self.add("a.btx")
        os.mkdir(self.out)
        self.archive()
        self.written("out/robots.txt", b"mine")
        self.assertIn(b"; 1 was there", self.archive().stdout)
        with open(os.path.join(self.out, "robots.txt"), "rb") as file:
            self.assertEqual(file.read(), b"mine")

    def test_a_website_that_lost_its_viewer_has_it_again(self):
        self.add("a.btx")
        self.archive()
        shutil.rmtree(os.path.join(self.out, "viewer"))
        self.assertIn(b"; 1 was there", self.archive().stdout)
        self.assertIn("site.js", os.listdir(os.path.join(self.out, "viewer")))
        shutil.rmtree(os.path.join(self.out, "viewer"))
        os.remove(os.path.join(self.out, "report.csv"))
        self.assertFalse(website.is_foreign(self.out))
        self.written("out/mine", b"")
        self.assertTrue(website.is_foreign(self.out))

    def test_a_website_that_was_only_begun_goes_on(self):
        """Wherever its beginning was stopped."""
        self.add("a.btx")
        os.makedirs(os.path.join(self.out, "viewer"))
        self.assertFalse(website.is_foreign(self.out))
        self.written("out/viewer/site.js.part", b"(window")
        self.assertFalse(website.is_foreign(self.out))
        with unittest.mock.patch.object(website, "scripts_of", side_effect=KeyboardInterrupt), self.assertRaises(KeyboardInterrupt):
            website.Website(self.out).begin("")
        self.assertFalse(website.is_foreign(self.out))
        self.archive()
        self.assertEqual(sorted(self.report()), ["a.btx"])

    def test_a_website_that_another_run_makes_now_is_left_to_it(self):
        self.add("a.btx")
        os.mkdir(self.out)
        folder = os.open(self.out, os.O_RDONLY)
        fcntl.flock(folder, fcntl.LOCK_EX)
        error = self.archive(status=4).stderr.decode()
        self.assertEqual((error, os.listdir(self.out)), (f"btx: archive: {self.out}: another run of archive makes this website now\n", []))
        os.close(folder)
        self.archive()

    def test_a_full_disk_is_told_with_the_file_that_it_has_no_room_for(self):
        """One of the website, and one that goes away."""
        self.add("a.btx")
        limit = functools.partial(resource.setrlimit, resource.RLIMIT_FSIZE, (1000, 1000))
        said = f"btx: archive: {self.out}/viewer/style.css: file too large\n"
        self.assertEqual(self.archive(status=4, preexec_fn=limit).stderr.decode(), said)
        full = unittest.mock.patch.object(own_files, "put_all", side_effect=OSError(errno.ENOSPC, "No space left on device"))
        with full, self.assertRaises(OSError) as caught:
            own_files.copy_of(b"page").__enter__()
        self.assertIn("/btx-", caught.exception.filename)

    def test_names_that_are_no_utf_8_are_read_by_their_bytes(self):
        self.add(NO_UTF_8, "größe.btx")
        plain = stand.environment(LC_ALL="C", PYTHONUTF8="0", PYTHONCOERCECLOCALE="0")
        for again, more in enumerate([dict[str, Any](), {"env": plain}]):
            self.assertIn(b"%d were there" % (2 * again), self.archive(**more).stdout)
            self.assertEqual({name: row["status"] for name, row in self.report().items()}, {SHOWN: "0", "größe.btx": "0"})
            entries = entries_in(self.out)
            self.assertEqual([entry[:2] for entry in entries], [["größe.btx", "gr%C3%B6%C3%9Fe.btx"], [SHOWN, "stra%DFe.btx"]])
        page = os.path.join(os.fsencode(self.out), b"pages", NO_UTF_8 + b".html")
        self.assertEqual(data_in(page, "pages")[0]["name"], SHOWN)

    def test_no_two_names_are_listed_alike(self):
        self.add(NO_UTF_8, SHOWN, "a\nb.btx", "a\\nb.btx", "c\x85\x1b.btx")
        self.archive()
        listed = [SHOWN, "stra\\x5cxdfe.btx", "a\\x0ab.btx", "a\\nb.btx", "c\\xc2\\x85\\x1b.btx"]
        self.assertEqual(sorted(self.report()), sorted(listed))
        self.assertEqual(sorted(entry[0] for entry in entries_in(self.out)), sorted(listed))

    def test_a_website_whose_name_is_no_utf_8(self):
        self.add("a.btx")
        self.out = os.path.join(os.fsencode(self.folder), b"\xff")
        self.assertIn(b"\\xff/index.html", self.archive().stdout)

    def test_a_name_that_an_archive_cannot_have_stops_nothing(self):
        self.add("x.btx", "a.btx")
        os.makedirs(os.path.join(self.source, "x.btx.html"))
        self.add("x.btx.html/y.btx", "z" * 250 + ".btx")
        self.assertIn(b"4 pages, 0 with refused items, 0 not read, 2 not made", self.archive().stdout)
        report = self.report()
        self.assertEqual([name for _, _, names in os.walk(self.out) for name in names if name.endswith(".part")], [])
        self.assertEqual(report["a.btx"]["status"], "0")
        self.assertEqual(sorted(row["status"] for row in report.values()), ["0", "0", "5", "5"])


class Report(archives.Case):
    def setUp(self):
        super().setUp()
        self.small("refused")
        for name in ("=1+1.btx", "+x.btx", "-x.btx", "@x.btx", "größe; \"a\".btx"):
            shutil.copy(stand.page("title"), os.path.join(self.source, name))

    def test_no_name_becomes_a_formula(self):
        self.archive()
        self.assertEqual(sorted(self.report()), sorted(["'=1+1.btx", "'+x.btx", "'-x.btx", "'@x.btx", "größe; \"a\".btx", "refused.btx"]))

    def test_it_opens_in_a_german_spreadsheet(self):
        self.archive("--csv", "german")
        with open(os.path.join(self.out, "report.csv"), "rb") as file:
            data = file.read()
        self.assertTrue(data.startswith(b"\xef\xbb\xbfpath;title;bytes;status;items;refused;passed_over;meaning;sha256;alike\r\n"), data[:80])
        self.assertEqual(len(list(csv.DictReader(io.StringIO(data.decode("utf-8-sig")), delimiter=";"))), 6)

    def test_table_and_json_have_the_same(self):
        self.archive()
        with open(os.path.join(self.out, "report.json"), encoding="utf-8") as file:
            rows = json.load(file)
        table = {unquoted(name): {key: unquoted(value) for key, value in row.items()} for name, row in self.report().items()}
        for row in rows:
            name = row.pop("path")
            self.assertEqual({key: "" if value is None else str(value) for key, value in row.items()}, table[name])
            with open(os.path.join(self.source, name), "rb") as file:
                page = file.read()
            items, refused = stand.put("check", os.path.join(self.source, name)).decode().splitlines()[-1].split()[1::2]
            self.assertEqual((row["bytes"], row["items"], row["refused"]), (len(page), int(items), int(refused)))
            self.assertEqual(row["sha256"], hashlib.sha256(page).hexdigest())

    def test_bytes_that_a_unit_passes_over_are_counted(self):
        # The colours' defaults, then two bytes up to the next unit; and a unit that isn't known, then one byte up to the end.
        for name, page in (("colours.btx", "1F 26 21 41 42 1F 41 41 41"), ("unknown.btx", "1F 2F 7A 41")):
            with open(os.path.join(self.source, name), "wb") as file:
                file.write(bytes.fromhex(page))
        self.archive()
        report = self.report()
        passed_over = {name: report[name]["passed_over"] for name in ("colours.btx", "unknown.btx", "'=1+1.btx")}
        self.assertEqual(passed_over, {"colours.btx": "2", "unknown.btx": "1", "'=1+1.btx": "0"})

    def test_a_title_is_the_first_line_of_double_size_or_else_the_first(self):
        self.small("refused", "title", "flashing")
        # High signs at row 3 among more small ones, and at row 6 beside fewer; and as many of both, which are not most.
        for name, page in (("heads", b"A\x1fCAten small\x8dhigh\x8c\x1fFA\x8dHIGH\x8c 1/3\x1fIA\x8dlast"), ("half", b"A\x1fCAab\x8dCD")):
            self.written(f"collection/{name}.btx", page)
        self.archive()
        shown = unicodedata.normalize("NFC", stand.put("show", stand.page("refused")).decode())
        first = next(filter(None, map(str.strip, shown.splitlines())))
        titles = {"title.btx": "BILDSCHIRMTEXT", "refused.btx": first, "flashing.btx": "Blinken und andere Arten"}
        self.assertEqual({name: row["title"] for name, row in self.report().items()}, {**titles, "heads.btx": "HIGH", "half.btx": "A"})


class Terminal(io.StringIO):
    """What a terminal keeps of a line, and a clock that is turned."""

    def __init__(self):
        super().__init__()
        self.text, self.now = "", 0

    def isatty(self):
        return True

    def write(self, text):
        self.text = text
        return len(text)

    def clock(self):
        return self.now


class Going(archives.Case):
    """What is told while it goes."""

    def test_it_goes_on_where_nothing_can_be_said(self):
        """As where standard error is closed."""
        with unittest.mock.patch.object(progress.sys, "stderr", None):
            line = progress.Progress(1)
            line.step(making.Facts(1, Status.DONE, "read"))
            # A page that isn't made for want of a file is counted apart from those that aren't read.
            line.step(making.Facts(1, Status.NO_ROOM, "another page has its place"))
            line.step(making.unreadable("no such file"))
        self.assertEqual((line.done, line.unread), (3, 1))

    def test_the_time_left_is_hours_and_minutes(self):
        for seconds, said in ((1, "1 min"), (61, "2 min"), (3600, "1 h 00 min"), (7384, "2 h 04 min"), (360000, "100 h 00 min")):
            self.assertEqual(progress.duration(seconds), said)

    def test_the_line_fits_the_terminal(self):
        terminal = Terminal()
        for width, said in (
            (120, "1 of 3,600 pages, 0 with refused items, 0 not read, about 1 h 00 min more"), (60, "1 of 3,600 pages, about 1 h 00 min more"),
            (20, "1 of 3,600 pages"), (10, "1 of 3,60"),
        ):
            terminal.now = 0
            line = progress.Progress(3600, terminal, terminal.clock)
            terminal.now = 1
            with unittest.mock.patch.object(progress, "width_of", lambda stream, width=width: width):
                line.step(making.Facts(1, 0, ""))
            self.assertEqual(terminal.text, "\r\x1b[K" + said)

    def test_lists_are_written_seldom_and_the_more_seldom_the_longer_it_takes(self):
        terminal, done = Terminal(), []

        def act():
            done.append(terminal.now)
            terminal.now += 5

        seldom = progress.NowAndThen(act, terminal.clock)
        for _ in range(300):
            terminal.now += 1
            seldom.step()
        self.assertEqual(done, [0, 105, 210, 315])

    def test_the_index_is_there_before_the_first_page_is_made(self):
        self.small("boat", "title")
        self.archive("--pattern", "boat*")
        environment, runs = self.counted("sleep 3600")
        run = stand.begun("archive", self.source, "-o", self.out, "--jobs", "1", env=environment)
        while run.poll() is None and not (os.path.exists(runs) and os.path.getsize(runs)):
            time.sleep(0.05)
        entries = [entry[0] for entry in entries_in(self.out)]
        os.killpg(run.pid, signal.SIGKILL)
        run.communicate()
        self.assertEqual(entries, ["boat.btx"])
