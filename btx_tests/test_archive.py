"""Archives: each page with the viewer, the index, the report, going on after a stop, and over GNU parallel."""
import argparse
import base64
import concurrent.futures
import contextlib
import hashlib
import json
import os
import re
import shlex
import shutil
import signal
import subprocess
import sys
import time
import unittest.mock
import urllib.parse
import zlib
from typing import Any

import archives
from archives import ODD, data_in, entries_in
import pngs
import stand

import looks as second_reading
from btx import jobs, lists, looks, making, website
from btx.statuses import Status

NAMES = "[...document.querySelectorAll('#tiles .name')].map((one) => one.textContent)"


# Which scripts a document asks for.
ASKED = """window.asked = [];
new MutationObserver((changes) => {
  for (const node of changes.flatMap((one) => [...one.addedNodes])) if (node.src) asked.push(node.src);
}).observe(document, { childList: true, subtree: true });"""


class Archive(archives.Case):
    def add_bad(self):
        """A page that is too long, one that isn't there, and one that is no file."""
        with open(os.path.join(self.source, "long.btx"), "wb") as file:
            file.truncate(2**24 + 1)
        os.symlink("nowhere", os.path.join(self.source, "lost.btx"))
        os.mkfifo(os.path.join(self.source, "pipe.btx"))

    def is_whole(self):
        """Whether report, index and viewers have what the program puts for each page."""
        report = self.report()
        entries = {entry[0]: entry[1:] for entry in entries_in(self.out)}
        self.assertEqual(sorted(report), sorted(entries))
        names = [name + ".btx" for name in stand.all_pages()] + ["folder/" + ODD]
        for name in names:
            path = os.path.join(self.source, name)
            check = stand.put("check", path).decode()
            items, refused = re.fullmatch(r"items (\d+) refused (\d+)", check.splitlines()[-1]).groups()
            status = "0" if refused == "0" else "1"
            row = report[name]
            self.assertEqual([row[one] for one in ("bytes", "status", "items", "refused")], [str(os.path.getsize(path)), status, items, refused])
            self.assertEqual([str(one) for one in entries[name][1:5]], [str(os.path.getsize(path)), status, items, refused])
            address = urllib.parse.unquote(entries[name][0])
            page, = data_in(os.path.join(self.out, "pages", address + ".html"), "pages")
            self.assertEqual(zlib.decompress(base64.b64decode(page["deflated"])), stand.put("changes", path))
            self.assertEqual(page["check"], check)
            with open(path, "rb") as file:
                self.assertEqual(base64.b64decode(page["page"]), file.read())
            if stand.absent.has_library("PIL"):
                self.assertEqual(pngs.size_of(self.small_picture(address)), (480, 240))
        return report, names

    def small_picture(self, name):
        with open(os.path.join(self.out, "pictures", name + ".png"), "rb") as file:
            return file.read()

    def pictures(self):
        folder = os.path.join(self.out, "pictures")
        return sorted(os.listdir(folder)) if os.path.isdir(folder) else []

    def without_pillow(self):
        """An environment in which Pillow can't be had."""
        os.makedirs(self.path("PIL"), exist_ok=True)
        self.written("PIL/__init__.py", b"raise ImportError\n")
        return stand.environment(PYTHONPATH=self.folder)

    def test_small_pictures_show_the_cells_a_pixel_a_dot(self):
        self.needs_pillow()
        names = ["title", "boat", "patterns", "flashing", "answers"]
        self.small(*names)
        self.archive()
        self.assertEqual(self.pictures(), sorted(name + ".btx.png" for name in names))
        for name in names:
            lines = pngs.rows_of(self.small_picture(name + ".btx"))
            for line in stand.put("cells", stand.page(name)).decode().splitlines():
                row, column, look = line.split(" ", 2)
                # What flashes is shown as it is seen, and what is concealed isn't.
                phase = next(phase for phase in range(6) if second_reading.is_on(look.split(" ")[4][0], phase))
                for x, y, colours in second_reading.want_of(look, phase, False).points:
                    pixel = lines[int((int(row) - 1 + y) * 10)][int((int(column) - 1 + x) * 12)]
                    self.assertIn(pixel, colours, (name, line, x, y))

    def test_without_pillow_a_sentence_says_so_and_pages_have_no_pictures(self):
        self.small("title", "boat")
        done = self.archive(env=self.without_pillow())
        said = "no small pictures are made: it takes Pillow, and this Python has none (Debian: apt-get install python3-pil)"
        self.assertEqual(done.stderr.decode(), f"btx: archive: {said}\n")
        self.assertEqual(self.pictures(), [])
        self.assertEqual(sorted(self.report()), ["boat.btx", "title.btx"])
        self.needs_pillow()
        # Pages without pictures get them as soon as they can be made; what a page showed before isn't shown of another.
        done = self.archive()
        self.assertEqual((done.stderr, self.pictures()), (b"", ["boat.btx.png", "title.btx.png"]))
        self.assertIn(b"; 2 were there", self.archive().stdout)
        shutil.copy(stand.page("house"), os.path.join(self.source, "boat.btx"))
        self.assertIn(b"; 1 was there", self.archive(env=self.without_pillow()).stdout)
        self.assertEqual(self.pictures(), ["title.btx.png"])

    def test_each_page_has_its_viewer_and_its_line(self):
        self.add_bad()
        done = self.archive()
        report, names = self.is_whole()
        self.assertEqual(len(report), len(names) + 3)
        bad = [(name, *(report[name][key] for key in ("bytes", "status", "meaning"))) for name in ("long.btx", "lost.btx", "pipe.btx")]
        self.assertEqual(bad, [
            ("long.btx", "16777217", "7", "too long: more than 16,777,216 bytes"), ("lost.btx", "", "4", "can't be read: no such file"),
            ("pipe.btx", "", "4", "can't be read: it is no plain file"),
        ])
        self.assertIn(b"21 pages, 1 with refused items, 3 not read", done.stdout)

    def test_a_page_that_is_made_of_the_same_bytes_is_not_made_again(self):
        self.archive()
        made = os.path.join(self.out, "pages", "boat.btx.html")
        other = os.path.join(self.out, "pages", "title.btx.html")
        for path in (made, other):
            os.utime(path, (1, 1))
        # One page is another, and older than all that was made; one is newer, and the same; of one the facts are lost.
        shutil.copy(stand.page("house"), os.path.join(self.source, "title.btx"))
        os.utime(os.path.join(self.source, "title.btx"), (1, 1))
        os.utime(os.path.join(self.source, "boat.btx"), (2**32, 2**32))
        os.remove(os.path.join(self.out, "made", "form.btx.json"))
        self.assertIn(b"; 16 were there", self.archive().stdout)
        self.assertEqual(os.path.getmtime(made), 1)
        self.assertGreater(os.path.getmtime(other), 1)
        self.assertEqual(zlib.decompress(base64.b64decode(data_in(other, "pages")[0]["deflated"])), stand.put("changes", stand.page("house")))
        with open(stand.page("house"), "rb") as file:
            self.assertEqual(self.report()["title.btx"]["sha256"], hashlib.sha256(file.read()).hexdigest())
        self.archive("--again")
        self.assertGreater(os.path.getmtime(made), 1)

    def test_a_page_that_lacks_a_file_or_has_one_of_another_size_is_made_again(self):
        self.small("title", "boat")
        self.archive()
        kinds = ["made", "pages", "pictures"] if stand.absent.has_library("PIL") else ["made", "pages"]
        for kind in kinds:
            path = os.path.join(self.out, kind, "boat.btx" + website.KINDS[kind])
            with open(path, "rb") as file:
                whole = file.read()
            os.remove(path)
            self.assertIn(b"2 pages, 0 with refused items, 0 not read; 1 was there", self.archive().stdout)
            # It is empty, and something else stands in it.
            for data in (b"", b"[]"):
                with open(path, "wb") as file:
                    file.write(data)
                self.assertIn(b"; 1 was there", self.archive().stdout)
                with open(path, "rb") as file:
                    self.assertEqual(file.read(), whole)
        self.assertIn(b"; 2 were there", self.archive().stdout)

    def test_two_runs_a_page_that_tell_of_the_same_bytes(self):
        environment, runs = self.counted(f"cp {stand.page('house')} {self.source}/title.btx")
        self.small("title")
        self.archive(env=environment)
        with open(runs, encoding="ascii") as file:
            self.assertEqual(sorted(file.read().split()), ["changes", "list"])
        # The page was another one before its first run ended.
        page, = data_in(os.path.join(self.out, "pages", "title.btx.html"), "pages")
        with open(stand.page("title"), "rb") as file:
            stored = file.read()
        self.assertEqual(base64.b64decode(page["page"]), stored)
        self.assertEqual(self.report()["title.btx"]["sha256"], hashlib.sha256(stored).hexdigest())
        self.assertEqual(zlib.decompress(base64.b64decode(page["deflated"])), stand.put("changes", stand.page("title")))
        self.assertIn(b"; 0 were there", self.archive().stdout)

    def test_the_screen_follows_from_the_changes(self):
        front = self.written("front", stand.put("gen", "7")[:3000])
        for page in [front, *map(stand.page, stand.all_pages())]:
            changes, cells = stand.put("changes", page), stand.put("cells", page).decode()
            self.assertEqual(looks.last_cells(changes), cells, page)
            # In pieces too: each cell changes once more at the end, and nothing before that is looked at.
            places = [(row, column) for row in range(1, 25) for column in range(1, 41)]
            told = {tuple(map(int, line.split()[:2])): line.split(" ", 2)[2] for line in cells.splitlines()}
            again = "".join(f"9 {row} {column} {told.get((row, column), looks.BLANK_TEXT)}\n" for row, column in places)
            self.assertEqual(looks.last_cells(b"0 1 1 never\n" * 2**17 + again.encode()), cells)
        self.assertIsNone(looks.last_cells(b"0 1 1 P41 11.00 FFF 000 S---\n" * 2**17))

    def test_a_long_page_has_its_texts_where_no_module_decodes_it(self):
        """Facts, screen and texts of a page of more than 16,384 bytes, with the module and without; a page of so many has them always."""
        long = stand.put("gen", "1")
        self.assertGreater(len(long), making.LONG)
        facts, parts = making.made_of_bytes(stand.program, long)
        shown, decoded = making.made_of_bytes(stand.program, long, True)
        self.assertEqual(shown, facts)
        changes = zlib.decompress(base64.b64decode(parts.pop("deflated")))
        self.assertEqual(changes, stand.put("changes", self.written("long", long)))
        self.assertEqual(decoded, parts)
        short = long[: making.LONG]
        self.assertEqual(making.made_of_bytes(stand.program, short, True), making.made_of_bytes(stand.program, short))

    def test_a_page_for_which_there_is_no_memory_stops_nothing(self):
        with unittest.mock.patch.object(making, "parts_of", side_effect=MemoryError):
            facts, parts = making.made_of_bytes(stand.program, b"page")
        self.assertEqual((facts.bytes, facts.status, facts.meaning, parts), (4, 6, "not enough memory", None))

    def test_a_stop_leaves_what_goes_on(self):
        # A program that waits at its sixteenth run, after more than one page, and is interrupted there with btx.
        runs = self.written("runs", b"")
        lines = ["#!/bin/sh", f"[ $(wc -l < {runs}) -ne 15 ] || {{ echo x >> {runs}; exec sleep 3600; }}", f"echo x >> {runs}"]
        lines += [f'exec {stand.program} "$@"', ""]
        slow = self.written("slow", "\n".join(lines).encode())
        os.chmod(slow, 0o755)
        run = stand.begun("archive", self.source, "-o", self.out, "--jobs", "1", env=stand.environment(BTX_PROGRAM=slow))
        while run.poll() is None and os.path.getsize(runs) < 32:
            time.sleep(0.05)
        os.killpg(run.pid, signal.SIGINT)
        output, error = run.communicate(timeout=stand.LONG)
        self.assertEqual((run.returncode, output, error), (-signal.SIGINT, b"", b""))
        done = self.archive()
        self.assertRegex(done.stdout, rb"; [1-9]\d* were there")
        self.is_whole()

    def waiting(self):
        """A file of runs, and a program that notes its number in it and then never ends."""
        runs = self.written("runs", b"")
        slow = self.written("slow", f"#!/bin/sh\necho $$ >> {runs}\nexec sleep 3600\n".encode())
        os.chmod(slow, 0o755)
        return runs, slow

    def test_killed_it_leaves_no_run_behind(self):
        self.needs("setpriv")
        ways: list[list[str]] = [[], *([["--jobs-by", "parallel"]] if stand.there("parallel") else [])]
        for words in ways:
            with self.subTest(words):
                runs, slow = self.waiting()
                run = stand.begun("archive", self.source, "-o", self.out, "--jobs", "2", *words, env=stand.environment(BTX_PROGRAM=slow))
                while run.poll() is None and self.lines(runs) < 2:
                    time.sleep(0.05)
                with open(runs, encoding="ascii") as file:
                    begun = [int(line) for line in file]
                run.kill()
                run.wait()
                run.stdout.close()
                run.stderr.close()
                # A run that never ends would be seen here for ever.
                end = time.monotonic() + stand.LONG
                while any(map(stand.is_running, begun)) and time.monotonic() < end:
                    time.sleep(0.05)
                self.assertEqual([number for number in begun if stand.is_running(number)], [])

    def lines(self, path):
        with open(path, "rb") as file:
            return file.read().count(b"\n")

    def test_pages_that_are_taken_away_leave_others_their_folder(self):
        os.makedirs(os.path.join(self.out, "viewer"))
        site, parts = website.Website(self.out), {"deflated": "", "check": "", "page": "", "cells": ""}

        def change(name):
            for _ in range(150):
                site.add(name, making.Facts(1, Status.DONE, "read"), parts)
                site.add(name, making.ended(2**24 + 1, Status.TOO_LONG), None)

        with concurrent.futures.ThreadPoolExecutor(3) as pool:
            self.assertEqual(list(pool.map(change, ("folder/a.btx", "folder/b.btx", "folder/c.btx"))), [None] * 3)
        self.assertEqual(os.listdir(self.out), ["viewer"])

    def test_the_progress_is_told_on_a_terminal(self):
        master, slave = os.openpty()
        run = stand.begun("archive", self.source, "-o", self.out, "--jobs", "1", stderr=slave, env=stand.environment(TERM="xterm"))
        os.close(slave)
        said = b""
        # Where nobody has a terminal open any more, reading from its other side is a fault.
        with contextlib.suppress(OSError):
            while piece := os.read(master, 1 << 16):
                said += piece
        os.close(master)
        run.communicate(timeout=stand.LONG)
        self.assertEqual(run.returncode, 0)
        self.assertRegex(said.decode(), r"\r\x1b\[K18 of 18 pages, 1 with refused items, 0 not read\r?\n$")
        self.assertEqual(self.archive().stderr, b"")

    def test_a_folder_that_is_not_there(self):
        self.source = self.path("nowhere")
        self.assertIn(b"archive: " + self.source.encode() + b": no such file", self.archive(status=4).stderr)

    def test_over_parallel(self):
        self.needs("parallel")
        self.add_bad()
        self.archive("--jobs-by", "parallel", "--jobs", "2")
        report, names = self.is_whole()
        self.assertEqual(len(report), len(names) + 3)

    def test_each_machine_is_given_btx_and_this_one_alone_its_own_path(self):
        beside = os.path.join(stand.ROOT, "bin")
        own = shlex.quote(os.path.join(beside, "btx"))
        for logins, remote, called in (
            ([], None, own), ([":"], None, own), ([":", ":"], None, own), (["one"], None, "btx"), (["one", ":"], None, "btx"), ([":"], "x y", "x y"),
        ):
            options = argparse.Namespace(sshlogin=logins, remote=remote, jobs=None, beside=beside)
            self.assertEqual(jobs.parallel_words(options)[-1], f"{called} archive --worker", (logins, remote))

    def test_over_parallel_on_this_machine_by_its_login(self):
        self.needs("parallel")
        self.small("title", "boat")
        self.archive("--jobs-by", "parallel", "--sshlogin", ":")
        self.assertEqual({row["status"] for row in self.report().values()}, {"0"})

    def test_without_parallel_it_says_so(self):
        folder = self.path("bin")
        os.mkdir(folder)
        os.symlink(sys.executable, os.path.join(folder, "python3"))
        said = b"GNU parallel isn't on this machine (Debian: apt-get install parallel)"
        self.assertIn(said, self.archive("--jobs-by", "parallel", status=127, env=stand.environment(PATH=folder)).stderr)
        os.chmod(self.written("bin/parallel", b"#!/bin/sh\necho \"parallel: invalid option -- '-'\" >&2\nexit 1\n"), 0o755)
        self.assertIn(said, self.archive("--jobs-by", "parallel", status=127, env=stand.environment(PATH=folder)).stderr)

    def test_what_else_a_machine_says_is_passed_over(self):
        """A greeting, the front of a result, and JSON that is none."""
        self.needs("parallel")
        self.small("title", "boat")
        own = shlex.quote(os.path.join(stand.ROOT, "bin", "btx"))
        called = self.written("called", f"#!/bin/sh\nprintf 'Gr\\374\\337e\\n{{\"number\": 1, \"pa\\n7\\n'\nexec {own} \"$@\"\n".encode())
        os.chmod(called, 0o755)
        self.archive("--jobs-by", "parallel", "--remote", called)
        self.assertEqual({row["status"] for row in self.report().values()}, {"0"})

    def test_pages_that_no_machine_made_are_told(self):
        self.needs("parallel")
        done = self.archive("--jobs-by", "parallel", "--remote", "false", status=5)
        needs = "each machine must let you in without a question, and start btx by the command false, which --remote can change"
        said = f"18 pages were not made: {needs}; the same command goes on with them"
        self.assertIn(said, done.stderr.decode())
        self.assertIn(b"18 pages, 0 with refused items, 0 not read, 18 not made; 0 were there", done.stdout)
        self.small("title")
        said = f"btx: archive: 1 page was not made: {needs}; the same command goes on with it\n"
        self.assertIn(said, self.archive("--jobs-by", "parallel", "--remote", "false", status=5).stderr.decode())

    def test_what_all_jobs_say_is_said_once(self):
        self.needs("parallel")
        done = self.archive("--jobs-by", "parallel", "--remote", "echo such a fault >&2; false", status=5)
        self.assertEqual(done.stderr.count(b"such a fault\n"), 1, done.stderr)

    def over_ssh(self, *words, **more):
        """An archive over two logins of this machine."""
        self.needs("parallel", "sshd", "ssh", "ssh-keygen")
        command = [os.path.join(stand.ROOT, "btx_tests", "over_ssh"), self.source, self.out, *words]
        keys: dict[str, Any] = {"stdout": subprocess.PIPE, "stderr": subprocess.STDOUT, "env": stand.environment(**more), "timeout": stand.LONG}
        done = subprocess.run(command, **keys)
        if done.returncode == 77:
            self.leave_out(why=done.stdout.decode().strip())
        self.assertEqual(done.returncode, 0, done.stdout.decode())

    def test_over_ssh_on_this_machine(self):
        self.over_ssh()
        self.is_whole()

    def test_killed_it_leaves_no_run_behind_over_ssh(self):
        self.needs("setpriv")
        runs, slow = self.waiting()
        self.over_ssh(runs, BTX_PROGRAM=slow)


class Index(stand.Case):
    def setUp(self):
        super().setUp()
        self.tab = self.browser()

    def archive(self, source):
        out = self.path("out")
        self.assertEqual(stand.btx("archive", source, "-o", out).returncode, 0)
        return out

    def open(self, path):
        self.tab.size(1280, 900)
        self.tab.call("Page.navigate", url="file://" + urllib.parse.quote(path))
        self.tab.until("document.readyState === 'complete' && window.Tamligub !== undefined")

    def are(self, names):
        """Waits until the index has these names."""
        text = json.dumps(names, ensure_ascii=False, separators=(",", ":"))
        self.tab.until(f"JSON.stringify({NAMES}) === {json.dumps(text)}")

    def choose(self, name, value):
        self.tab.value(f"(({{ id, value }}) => {{ const part = document.getElementById(id); part.value = value; "
                       f"part.dispatchEvent(new Event(id === 'search' ? 'input' : 'change')); }})({json.dumps({'id': name, 'value': value})})")

    def test_an_index_of_2000_pages_asks_for_what_is_in_sight(self):
        self.needs_pillow()
        source = self.path("source")
        os.mkdir(source)
        shutil.copy(stand.page("boat"), source)
        out = self.archive(source)
        facts = website.Website(out).facts("boat.btx")
        for number in range(2000):
            os.link(os.path.join(out, "pictures", "boat.btx.png"), os.path.join(out, "pictures", f"{number}.btx.png"))
        lists.write(out, {f"{number}.btx": facts for number in range(2000)}, ",")
        index = os.path.join(out, "index.html")
        with self.tab.beforehand(ASKED):
            self.open(index)
        # Pictures come once all that is in sight is there.
        in_sight = "[...document.querySelectorAll('#tiles img')].filter((one) => one.getBoundingClientRect().top < innerHeight)"
        self.tab.until(f"{in_sight}.length > 0 && {in_sight}.every((one) => one.complete && one.naturalWidth === 480)")
        self.assertEqual(self.tab.value("document.getElementById('count').textContent"), "2,000 of 2,000 pages")
        seen, tiles = self.tab.value(f"[{in_sight}.length, document.querySelectorAll('#tiles li').length]")
        wanted = self.tab.value("document.querySelectorAll('#tiles img[src]').length")
        # Those in sight, and those of one more screen; tiles, of which the next are made before they come into sight, for five.
        self.assertTrue(seen <= wanted <= 2 * seen, (seen, wanted))
        self.assertTrue(seen <= tiles <= 5 * seen, (seen, tiles))
        # Of the index's eight parts those of the pages in sight.
        asked = self.tab.value("asked.filter((name) => /\\/(entries|words)\\//.test(name))")
        self.assertEqual([name.rpartition("/entries/")[2] for name in asked], ["0.js"])

    def test_where_there_are_no_pictures_the_index_has_none(self):
        source = self.path("source")
        os.mkdir(source)
        for name in ("title", "boat"):
            shutil.copy(stand.page(name), source)
        out = self.archive(source)
        shutil.rmtree(os.path.join(out, "pictures"), ignore_errors=True)
        self.open(os.path.join(out, "index.html"))
        self.are(["boat.btx", "title.btx"])
        self.tab.until("document.querySelectorAll('#tiles img').length === 0")
        self.assertEqual(self.tab.value("document.querySelectorAll('#tiles a').length"), 2)

    def test_a_folder_that_cannot_be_read_is_counted_apart_from_the_pages(self):
        out = self.path("out")
        facts = {"boat.btx": making.Facts(1, 0, "read to its end, nothing refused"), "deep/": making.unreadable_folder("permission denied")}
        facts["lost.btx"] = making.unreadable("no such file")
        website.Website(out).begin("")
        lists.write(out, facts, ",")
        self.open(os.path.join(out, "index.html"))
        self.are(["boat.btx", "deep/", "lost.btx"])
        tiles = "[...document.querySelectorAll('#tiles li')].map((tile) => [...tile.querySelectorAll('span')].map((one) => one.textContent))"
        why, lost = "this folder can't be read: permission denied", ["can't be read: no such file", "lost.btx", "status 4"]
        self.assertEqual(self.tab.value(tiles)[1:], [[why, "deep/"], lost])
        self.choose("language", "de")
        german = [["dieser Ordner ist nicht lesbar: keine Berechtigung", "deep/"], ["nicht lesbar: keine solche Datei", "lost.btx", "Status 4"]]
        self.tab.until(f"JSON.stringify({tiles}.slice(1)) === {json.dumps(json.dumps(german, separators=(',', ':')))}")
        self.choose("language", "en")
        for choice, said in (("all", "2 of 2 pages, folders not read: 1"), ("unread", "1 of 2 pages, folders not read: 1"), ("whole", "1 of 2 pages")):
            self.choose("filter", choice)
            self.tab.until(f"document.getElementById('count').textContent === {json.dumps(said)}")

    def test_pages_of_the_same_screen_stand_together_in_each_order(self):
        out = self.path("out")
        pages = {"a": (428, "x"), "b": (428, "x"), "c": (752, "y"), "d": (376, "y"), "e": (1128, "y"), "f": (9999, "z")}
        read = "read to its end, nothing refused"
        facts = {f"{name}.btx": making.Facts(size, 0, read, screen=screen) for name, (size, screen) in pages.items()}
        website.Website(out).begin("")
        lists.write(out, facts, ",")
        self.open(os.path.join(out, "index.html"))
        self.choose("filter", "alike")
        for order, wanted in (("name", "abcde"), ("bytes", "ecdab")):
            self.choose("order", order)
            names = json.dumps([f"{name}.btx" for name in wanted], separators=(",", ":"))
            self.tab.until(f"JSON.stringify({NAMES}) === {json.dumps(names)}")

    def test_index_filters_searches_and_leads_to_the_viewer(self):
        self.needs_pillow()
        source = self.path("source")
        os.mkdir(source)
        for name in ("title", "boat", "refused"):
            shutil.copy(stand.page(name), source)
        shutil.copy(stand.page("title"), os.path.join(source, ODD))
        with open(os.path.join(source, "long<b>.btx"), "wb") as file:
            file.truncate(2**24 + 1)
        out = self.archive(source)
        self.open(os.path.join(out, "index.html"))
        everything = sorted(["title.btx", "boat.btx", "refused.btx", ODD, "long<b>.btx"])
        self.are(everything)
        for choice, wanted in (("unread", ["long<b>.btx"]), ("refused", ["refused.btx"]), ("whole", ["boat.btx", ODD, "title.btx"])):
            self.choose("filter", choice)
            self.are(wanted)
        self.choose("filter", "all")
        for search, *found in (("50%", ODD), ("bildschirmtext größe", ODD, "title.btx"), ("segelboot zelle", "boat.btx"), ("nowhere",)):
            self.choose("search", search)
            self.are(found)
        self.choose("search", "")
        self.choose("order", "refused")
        self.tab.until(f"{NAMES}[0] === 'refused.btx'")
        # The boat's picture comes into sight, 4 to 3.
        self.choose("search", "boat.btx")
        self.are(["boat.btx"])
        self.tab.until("(([image]) => image.complete && image.naturalWidth === 480)(document.querySelectorAll('#tiles img'))")
        box = "(({ width, height }) => [width, height])(document.querySelector('#tiles img').getBoundingClientRect())"
        self.assertEqual(self.tab.value(box), [240, 180])
        self.assertTrue(self.tab.value("document.querySelector('#tiles img').src.endsWith('/pictures/boat.btx.png')"))
        self.choose("search", "50%")
        self.tab.value("document.querySelector('#tiles a').click()")
        self.tab.until("window.Tamligub !== undefined && Tamligub.viewer !== undefined && Tamligub.viewer.film() !== null")
        shown = stand.put("show", stand.page("title")).decode()
        self.assertEqual(self.tab.value("Tamligub.textOfRows(Tamligub.viewer.shown(), false)"), shown)
        back = "file://" + os.path.join(out, "index.html#search=50%25&order=refused")
        self.tab.until(f"document.querySelector('h1 a').href === {json.dumps(back)}")
        self.assertEqual(self.tab.faults, [])
