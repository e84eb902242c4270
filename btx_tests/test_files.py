"""Standard input by the name -, files that -o names, a page alone, and help. What is put is compared with what the program puts."""
import contextlib
import os
import select
import subprocess

import stand


class Files(stand.Case):
    def fed(self, data, *words):
        """What btx puts where bytes come over a pipe, and its status."""
        run = stand.begun(*words, stdin=subprocess.PIPE)
        output, error = run.communicate(data, timeout=stand.LONG)
        self.assertEqual(error, b"")
        return output, run.returncode

    def bytes_of(self, path):
        with open(path, "rb") as file:
            return file.read()

    def requests(self):
        """Each word that puts bytes, with what stands after it; the page comes first."""
        script, drawing = self.written("script", b"at 1 2\ntext XY\n"), self.written("drawing", b"line 0 0 79 71\n")
        page = stand.page("title")
        seven = self.written("seven", stand.put("seven", page))
        return [["write", page], ["seven", page], ["eight", seven], ["edit", page, script], ["plot", page, drawing]]

    def test_a_page_comes_over_standard_input(self):
        texts = [[word, stand.page("title")] for word in ("changes", "check", "show", "cells")]
        for word, page, *after in [*self.requests(), *texts, ["flash", stand.page("flashing"), "2"]]:
            self.assertEqual(self.fed(self.bytes_of(page), word, "-", *after), (stand.put(word, page, *after), 0), word)

    def test_own_words_take_it_too(self):
        data = self.bytes_of(stand.page("title"))
        self.assertEqual(self.fed(data, "terminal", "-"), (stand.btx("terminal", stand.page("title")).stdout, 0))
        self.assertEqual(self.fed(data, "-"), (stand.btx("terminal", stand.page("title")).stdout, 0))
        self.assertIn(b"items 315 refused 0", self.fed(data, "html", "-")[0])
        self.assertEqual(self.fed(b"at 1 1\n", "check-script", "-"), (b"lines 1 bad 0\n", 0))
        self.assertEqual(stand.btx("html", "-", "-").returncode, 2)

    def test_a_file_is_taken_from_where_it_stands(self):
        path = self.written("page", b"AB\x9b1\rC")
        for word in ("show", "terminal"):
            with open(path, "rb") as file:
                file.seek(1)
                done = stand.btx(word, "-", stdin=file)
            self.assertEqual(done.stdout, stand.btx(word, self.written("rest", b"B\x9b1\rC")).stdout)
            self.assertEqual((done.returncode, done.stderr), (1, b"btx: some items of the page are refused\n"))

    def test_standard_input_has_a_name_of_the_system_too(self):
        """Whether a file or a pipe is behind it."""
        for name in ("/dev/stdin", "/dev/fd/0", "/proc/self/fd/0"):
            for word in ("terminal", "show", "svg"):
                with open(stand.page("title"), "rb") as file:
                    done = stand.btx(word, name, stdin=file)
                self.assertEqual(done.returncode, 0)
                self.assertIn(b"Guten Tag" if word != "terminal" else stand.btx(word, stand.page("title")).stdout, done.stdout)

    def test_a_script_comes_over_standard_input(self):
        for word in ("edit", "trace"):
            want = stand.put(word, stand.page("title"), self.written("script", b"at 1 1\nraw 0F194875\n"))
            self.assertEqual(self.fed("at 1 1\r\ntext ü\r\n".encode(), word, stand.page("title"), "-"), (want, 0))
        done = stand.btx("edit", "-", "-")
        self.assertEqual((done.returncode, done.stdout), (2, b""))
        self.assertIn(b"PAGE and SCRIPT have the same name", done.stderr)

    def test_a_page_that_is_too_long_comes_over_standard_input(self):
        # Of what has no end no more is kept than shows that it is too long.
        with open("/dev/zero", "rb") as file:
            done = stand.btx("seven", "-", stdin=file, env=stand.environment(BTX_PROGRAM=self.stub('wc -c < "$2"; exit 7')))
        self.assertEqual((done.returncode, int(done.stdout)), (7, 2**24 + 1))
        said = "the page has more than 16,777,216 bytes; only the items of the first 16,777,216 were read"
        self.assertEqual(done.stderr.decode(), f"btx: seven: -: {said}\n")

    def stub(self, line):
        path = self.written("stub", f"#!/bin/sh\n{line}\n".encode())
        os.chmod(path, 0o755)
        return path

    def test_what_is_put_is_written_to_a_file(self):
        out = self.path("out")
        for request in [*self.requests(), ["gen", "1"], ["show", stand.page("title")]]:
            for words in ([*request, "-o", out], [request[0], f"--output={out}", *request[1:]], [request[0], f"-o{out}", *request[1:]]):
                done = stand.btx(*words)
                self.assertEqual((done.returncode, done.stdout, done.stderr), (0, b"", b""), words)
                self.assertEqual(self.bytes_of(out), stand.put(*request))
                os.remove(out)

    def test_a_terminal_is_given_no_bytes_of_a_page_unasked(self):
        page, empty = stand.page("title"), self.written("empty", b"")
        requests = (["write", page], ["seven", page], ["eight", page], ["edit", page, empty], ["plot", page, empty], ["gen", "1"])
        for words in requests:
            said = f"btx: {words[0]}: a terminal shows no page's bytes; -o FILE writes them into a file\n"
            self.assertEqual(self.at_terminal(*words), (2, b"", said.encode()))
        self.assertEqual(self.at_terminal("gen", "1", "-o", "-")[::2], (0, b""))
        self.assertIn(b"usage", self.at_terminal("write")[2])

    def at_terminal(self, *words):
        """The status of a run whose output is a terminal, the beginning of what that is given, and what is said."""
        leader, terminal = os.openpty()
        run = stand.begun(*words, stdout=terminal)
        os.close(terminal)
        given = b""
        with contextlib.suppress(OSError):
            while more := os.read(leader, 65536):
                given += more
        os.close(leader)
        said = run.communicate(timeout=stand.LONG)[1]
        return run.returncode, given, said

    def test_a_page_is_edited_in_its_place(self):
        script = self.written("script", "at 1 2\ntext Größe\n".encode())
        want = stand.btx("edit", stand.page("title"), script).stdout
        page = self.written("page", self.bytes_of(stand.page("title")))
        os.chmod(page, 0o640)
        os.symlink("page", self.path("link"))
        self.assertEqual(stand.btx("edit", self.path("link"), script, "-o", self.path("link")).returncode, 0)
        self.assertEqual((self.bytes_of(page), os.stat(page).st_mode & 0o777, os.path.islink(self.path("link"))), (want, 0o640, True))
        self.assertEqual(sorted(os.listdir(self.folder)), ["link", "page", "script"])

    def test_a_file_stays_where_what_is_put_is_not_whole(self):
        kept, new = self.written("kept", b"kept"), self.path("new")
        bad, page, wide = self.written("bad", b"jump\n"), stand.page("title"), self.written("wide", b"A\x80")
        here = sorted(os.listdir(self.folder))
        requests = ((["edit", page, bad], 3), (["show", self.path("none")], 4), (["eight", wide], 8), (["gen", "x"], 2), (["html", "none"], 4))
        for words, status in requests:
            for out, said in ((kept, "stays as it was"), (new, "is not written")):
                done = stand.btx(*words, "-o", out, cwd=self.folder)
                self.assertEqual((done.returncode, done.stdout, self.bytes_of(kept)), (status, b"", b"kept"), words)
                self.assertEqual(f"{words[0]}: {out} {said}\n" in done.stderr.decode(), words[0] != "html", done.stderr)
                self.assertEqual(sorted(os.listdir(self.folder)), here)
        done = stand.btx("show", page, "-o", kept, env=stand.environment(BTX_PROGRAM=self.stub("echo front; exit 5")))
        self.assertEqual((done.returncode, self.bytes_of(kept)), (5, b"kept"))
        self.assertEqual(done.stderr.decode(), f"btx: show: the output failed, as on a full disk\nbtx: show: {kept} stays as it was\n")

    def test_of_standard_output_that_is_named_nothing_is_said_to_stay(self):
        """What went there went there, as without -o."""
        bad, wide, page = self.written("bad", b"jump\n"), self.written("wide", b"A\x80"), stand.page("title")
        as_ever, failing = stand.environment(), stand.environment(BTX_PROGRAM=self.stub("echo front; exit 5"))
        for words, status, env in (
            (["show", "none"], 4, as_ever), (["edit", page, bad], 3, as_ever), (["gen", "x"], 2, as_ever), (["eight", wide], 8, as_ever),
            (["show", page], 5, failing),
        ):
            done, plain = (stand.btx(*words, *more, cwd=self.folder, env=env) for more in (("-o", "-"), ()))
            self.assertEqual((done.returncode, done.stdout, done.stderr), (status, plain.stdout, plain.stderr))
            self.assertNotIn(b"is not written", done.stderr)

    def test_refused_items_keep_nothing_from_being_written(self):
        page, out = self.written("page", b"\x9b1\rB"), self.path("out")
        self.assertEqual(stand.btx("write", page, "-o", out).returncode, 1)
        self.assertEqual(self.bytes_of(out), stand.put("write", page))

    def test_places_that_are_no_files(self):
        page = stand.page("title")
        for out in ("-", "/dev/stdout"):
            self.assertEqual(stand.btx("show", page, "-o", out).stdout, stand.put("show", page))
        for out, said in ((self.path("none", "x"), "no such file or directory"), (self.folder, "is a directory")):
            for word in ("write", "html"):
                done = stand.btx(word, page, "-o", out)
                self.assertEqual((done.returncode, done.stdout, done.stderr.decode()), (4, b"", f"btx: {word}: {out}: {said}\n"))
        done = stand.btx("show", page, "-o")
        self.assertEqual((done.returncode, done.stderr), (2, b"btx: show: -o takes a FILE after it\nusage: btx show PAGE [-o FILE]\n"))
        for word in ("html", "svg", "cast", "archive", "cut"):
            done = stand.btx(word, page, "-o", "")
            self.assertEqual((done.returncode, done.stderr.splitlines()[-1]),
                             (2, f"btx {word}: error: -o takes a name after it, and this one is empty".encode()))

    def test_names_that_no_file_can_have(self):
        for word in ("write", "html", "svg"):
            done = stand.btx(word, stand.page("title"), "-o", self.path("none", ""))
            self.assertEqual((done.returncode, done.stderr.decode()), (4, f"btx: {word}: {self.path('none', '')}: no such folder\n"))
        out = self.path("x" * 256)
        done = stand.btx("svg", stand.page("title"), "-o", out)
        self.assertEqual((done.returncode, done.stderr.decode()), (4, f"btx: svg: {out}: file name too long\n"))
        self.assertEqual(os.listdir(self.folder), [])

    def test_what_is_read_is_replaced_by_a_page_alone(self):
        page, script = self.written("page", b"A"), self.written("script", b"text B\n")
        os.symlink("page", self.path("link"))
        texts = [[word, page] for word in ("changes", "check", "list", "show", "cells", "html", "svg", "cast")]
        for words in [*texts, ["html", stand.page("title"), page], ["trace", page, script], ["flash", page, "1"]]:
            for out in (page, self.path("link")):
                done = stand.btx(*words, "-o", out)
                said = f"btx: {words[0]}: -o names {page}, which is read here and would be lost; another name keeps it\n"
                self.assertEqual((done.returncode, done.stdout, done.stderr.decode(), self.bytes_of(page)), (2, b"", said, b"A"), words)
        done = stand.btx("edit", page, script, "-o", script)
        self.assertEqual((done.returncode, self.bytes_of(script)), (2, b"text B\n"))
        for words in (["write", page], ["seven", page], ["edit", page, script]):
            want = stand.put(*words)
            self.assertEqual((stand.btx(*words, "-o", page).returncode, self.bytes_of(page)), (0, want))

    def test_a_script_over_a_pipe_is_read_once(self):
        """Where the page isn't there nothing waits for another."""
        pipe = self.path("pipe")
        os.mkfifo(pipe)
        run = stand.begun("edit", self.path("none"), pipe)
        with open(pipe, "wb") as file:
            file.write(b"text A\n")
        self.assertEqual(run.communicate(timeout=stand.LONG)[1].decode(), f"btx: edit: {self.path('none')}: no such file\n")
        self.assertEqual(run.returncode, 4)

    def test_a_page_alone_is_shown(self):
        want = stand.btx("terminal", stand.page("title")).stdout
        self.assertEqual(stand.btx(stand.page("title")).stdout, want)
        self.assertEqual(stand.btx("title.btx", "--reveal", cwd=stand.PAGES).stdout, want)
        named = self.written("name", self.bytes_of(stand.page("title")))
        self.assertEqual(stand.btx("name", cwd=os.path.dirname(named)).stdout, want)
        # A file that has the name of a word doesn't hide it.
        self.written("show", b"A")
        self.assertEqual(stand.btx("show", cwd=self.folder).returncode, 2)
        for name in ("none.btx", "./none"):
            done = stand.btx(name, cwd=self.folder)
            self.assertEqual((done.returncode, done.stderr.decode()), (4, f"btx: terminal: {name}: no such file\n"))

    def test_what_stands_after_the_end_of_the_options_is_a_name(self):
        data, script = self.bytes_of(stand.page("title")), self.bytes_of(self.written("-o", b"at 1 2\ntext XY\n"))
        page = self.written("page", data)
        for name in ("-x.btx", "--", "--help", "-opage"):
            self.written(name, data)
            for words, want in (
                (["show", "--", name], stand.put("show", page)), (["write", "-o-", "--", name], stand.put("write", page)),
                (["edit", "--", name, "-o"], stand.put("edit", page, self.written("script", script))),
                (["--", "show", "--", name], stand.put("show", page)), (["--", name], stand.btx("terminal", page).stdout),
                (["terminal", "--", name], stand.btx("terminal", page).stdout),
            ):
                done = stand.btx(*words, cwd=self.folder)
                self.assertEqual((done.returncode, done.stdout, done.stderr), (0, want, b""), words)
        self.assertEqual(self.fed(data, "show", "--", "-"), (stand.put("show", page), 0))
        for words, status, said in (
            (["check", "--", "-x", "-y"], 2, "check: takes one word after it, PAGE, and not 2\nusage: btx check PAGE [-o FILE]"),
            (["check", "--", "-none"], 4, "check: ./-none: no such file"), (["--", "-none"], 4, "terminal: -none: no such file"),
        ):
            done = stand.btx(*words, cwd=self.folder)
            self.assertEqual((done.returncode, done.stdout, done.stderr.decode()), (status, b"", f"btx: {said}\n"), words)
        self.assertEqual(stand.btx("--").stderr, stand.btx().stderr)

    def test_help_of_a_word(self):
        for word in ("edit", "terminal", "check-script"):
            self.assertEqual(stand.btx("help", word).stdout, stand.btx(word, "--help").stdout)
            self.assertIn(f"usage: btx {word}".encode(), stand.btx("help", word).stdout)
        for asked in (["show", "page", "--help"], ["show", "-h"], ["show", "-o", "x", "page", "-h"]):
            self.assertEqual(stand.btx(*asked).stdout, stand.btx("help", "show").stdout)
        self.assertEqual(stand.btx("help").stdout, stand.btx("--help").stdout)
        self.assertEqual(stand.btx("help", "help").stdout, stand.btx("--help").stdout)
        for words, count in ((("edit", "trace"), 2), (("help", "edit"), 2), (("edit", "trace", "plot"), 3)):
            done = stand.btx("help", *words)
            told = f"btx: help: takes one word after it, WORD, or none, and not {count}\nusage: btx help [WORD]\n"
            self.assertEqual((done.returncode, done.stdout, done.stderr.decode()), (2, b"", told))
        done = stand.btx("help", "shwo")
        said = b"btx: shwo is neither a word of btx nor a file; the nearest word is show\nbtx --help lists the words\n"
        self.assertEqual((done.returncode, done.stderr), (2, said))

    def test_an_option_before_a_word_is_told(self):
        for words in (["--replay", "1200", stand.page("boat")], ["--reveal", stand.page("answers")], ["-o", "x", "show", stand.page("boat")]):
            rule = "btx itself has --help and --version, and options of a word or a page stand behind it, as in btx PAGE --reveal"
            said = f"btx: {words[0]} stands first: {rule}\nbtx --help lists the words\n"
            done = stand.btx(*words)
            self.assertEqual((done.returncode, done.stdout, done.stderr.decode()), (2, b"", said))
        self.assertEqual(stand.btx("--version").returncode, 0)

    def test_the_nearest_word_is_that_of_the_letters(self):
        for word, nearest in (
            ("hlep", "help"), ("term", "terminal"), ("arch", "archive"), ("tarce", "trace"), ("gne", "gen"), ("ceck", "check"), ("EDIT", "edit"),
            ("text", None), ("pic", None), ("x", None), ("page", None), ("jump", None),
        ):
            hint = f"; the nearest word is {nearest}" if nearest else ""
            said = f"btx: {word} is neither a word of btx nor a file{hint}\nbtx --help lists the words\n"
            self.assertEqual(stand.btx(word).stderr.decode(), said)

    def test_on_a_terminal_it_says_that_it_waits_for_a_pipe(self):
        for word in ("show", "terminal", "edit"):
            pipe = self.path(f"pipe-{word}")
            os.mkfifo(pipe)
            leader, terminal = os.openpty()
            after = [self.written("script", b"text A\n")] if word == "edit" else []
            run = stand.begun(word, pipe, *after, stderr=terminal)
            os.close(terminal)
            said = b""
            while b"\n" not in said:
                self.assertTrue(select.select([leader], [], [], stand.LONG)[0], "nothing is said")
                said += os.read(leader, 1000)
            self.assertEqual(said, f"btx: {pipe} is a pipe; this waits for what writes it\r\n".encode())
            with open(pipe, "wb") as file:
                file.write(b"A")
            output = run.communicate(timeout=stand.LONG)[0]
            os.close(leader)
            self.assertEqual((run.returncode, output), (0, stand.btx(word, self.written("page", b"A"), *after).stdout))
