"""What btx says of each status. The statuses, limits and reasons are those of the man page of cept_tool."""
import contextlib
import io
import os
import shlex
import shutil
import signal
import subprocess
import sys

import stand

from btx import command


class Messages(stand.Case):
    def ends(self, words, status, *said, **more):
        """A run of btx that ends with a status and says some words on standard error, and nothing where none are given."""
        done = stand.btx(*words, **more)
        error = done.stderr.decode()
        self.assertEqual(done.returncode, status, error)
        for part in said:
            self.assertIn(part, error)
        self.assertEqual(bool(error), bool(said), error)
        return done

    def stub(self, status):
        """A program that ends with a status and does nothing else."""
        path = self.written("stub", b"#!/bin/sh\nexit %d\n" % status)
        os.chmod(path, 0o755)
        return stand.environment(BTX_PROGRAM=path)

    def test_memory_that_is_not_there(self):
        """As for the decoder of a line."""
        def act(_):
            raise MemoryError("there is no memory for a decoder")

        with contextlib.redirect_stderr(io.StringIO()) as said:
            status = command.guarded("", "line", act)
        self.assertEqual((status, said.getvalue()), (6, "btx: line: there is not enough memory\n"))

    def test_words_of_the_program_pass_through(self):
        script = self.written("script", b"at 1 2\ntext XY\nundo\n")
        requests = [[word, stand.page("title")] for word in ("changes", "check", "show", "cells", "write", "seven")]
        requests += [[word, stand.page("title"), script] for word in ("trace", "edit")]
        requests.append(["plot", stand.page("title"), self.written("drawing", b"line 0 0 79 71\nunplot 3 3\n")])
        for request in [*requests, ["flash", stand.page("flashing"), "6"], ["gen", "1"]]:
            self.assertEqual(self.ends(request, 0).stdout, stand.put(*request), request)

    def test_what_is_no_page_in_seven_bits(self):
        page = self.written("wide", b"A\x80B")
        self.assertEqual(self.ends(["eight", page], 8, f"eight: {page}: this is no page in seven bits; only what stands before").stdout, b"A")
        told = f"btx: eight: {page}: this is no page in seven bits\nbtx: eight: {self.path('eight')} is not written\n"
        self.assertEqual(stand.btx("eight", page, "-o", self.path("eight")).stderr.decode(), told)

    def test_refused_items_are_counted(self):
        page = self.written("broken", b"\x9b1\rB")
        for word, said in (("show", f"1 of 3 items is refused; btx check {page} names it"), ("check", "1 of 3 items is refused\n")):
            self.assertEqual(self.ends([word, page], 1, said).stdout, stand.put(word, page))

    def test_a_page_that_can_be_read_once_is_not_read_again(self):
        page = self.path("pipe")
        os.mkfifo(page)
        run = stand.begun("check", page)
        with open(page, "wb") as file:
            file.write(b"\x9b1\rB")
        output, error = run.communicate(timeout=stand.LONG)
        self.assertEqual(output, b"! 0 2 6 Interrupted\nitems 3 refused 1\n")
        self.assertEqual((run.returncode, error), (1, b"btx: some items of the page are refused\n"))

    def test_a_page_that_a_shell_hands_over(self):
        for word in ("show", "terminal", "html"):
            line = f"{stand.BTX} {word} <(cat {stand.page('title')})"
            done = subprocess.run(["bash", "-c", line], stdout=subprocess.PIPE, stderr=subprocess.PIPE, env=stand.environment(), timeout=stand.LONG)
            self.assertEqual((done.returncode, done.stderr), (0, b""))
            self.assertIn(b"Guten Tag!" if word != "html" else b"items 315 refused 0", done.stdout)

    def test_words_that_are_no_request(self):
        page = stand.page("title")
        for words, said in (
            (["show"], "usage: btx show PAGE"), (["show", page, page], "and not 2"), (["show", ""], "a name is empty"),
            (["edit", page], "usage: btx edit PAGE SCRIPT"), (["trace", page, page], "PAGE and SCRIPT have the same name"),
            (["plot", page], "usage: btx plot PAGE DRAWING"), (["plot", page, page], "PAGE and DRAWING have the same name"),
            (["gen", "4294967296"], "4294967296 is no number"), (["load", "00000000001"], "usage: btx load NUMBER"),
            (["show", self.path("\udcdc")], "\\xdc isn't UTF-8, and the program takes no other; btx show - reads standard input"),
            (["flash", page, "601"], "601 is no number from 0 to 600"), (["flash", page], "usage: btx flash PAGE NUMBER"),
            (["viewer", page], "usage: btx viewer "), (["diff", page, page, page], "usage: btx diff "),
            (["show", "--reveal", page], "show: --reveal is no option of show\n"),
        ):
            self.assertEqual(self.ends(words, 2, said).stdout, b"")

    def test_numbers_that_options_do_not_take(self):
        page, speed = stand.page("title"), "a speed is a whole number from 1 on, and not "
        for words, said in (
            (["terminal", page, "--replay", "abc"], f"{speed}abc"), (["gif", page, "--replay", "0"], f"{speed}0"),
            (["terminal", page, "--replay", "1" * 19], "a speed has at most 18 digits, and not 19"),
            (["host", stand.PAGES, "--port", "1" * 19], "whole number from 0 to 65535, and not 1111"),
            (["host", stand.PAGES, "--port", "65536"], "whole number from 0 to 65535, and not 65536"),
            (["png", page, "--scale", "+1"], "a scale is a whole number from 1 to 8, and not +1"),
            (["cut", page, "--pause", "long", "-o", self.path("parts")], "a time is a number of seconds, or 0, and not long"),
        ):
            self.ends(words, 2, said)

    def test_unknown_words_are_answered_with_the_nearest(self):
        for word, nearest in (("shwo", "show"), ("Check", "check"), ("terminl", "terminal"), ("htm", "html")):
            self.ends([word, "x"], 2, f"{word} is neither a word of btx nor a file; the nearest word is {nearest}\n")
        self.ends(["qqqq"], 2, "qqqq is neither a word of btx nor a file\n")

    def test_a_line_of_a_script_is_named_with_its_reason(self):
        for line, said in (
            (b"jump 1", "line 2: jump is no word of scripts: jump 1"), (b"at 1", "at takes 2 words after it, ROW COLUMN, and not 1"),
            (b"at 25 1", "ROW is 25, and takes 1 to 24"), (b"text \xff", "sign 6 is the byte FF, which is no UTF-8"),
            (b"raw 1", "two digits for each byte"), (b"raw 1F", "byte 1, 1F, is refused: 7 Truncated"),
        ):
            script = self.written("script", b"at 1 1\n" + line + b"\n")
            done = self.ends(["edit", stand.page("title"), script], 3, said)
            self.assertEqual(done.stdout, stand.put("edit", stand.page("title"), script))

    def test_a_line_of_a_drawing_is_named_with_its_reason(self):
        text = "line 2: text is no word of drawings, but of scripts: text A"
        for line, said in ((b"text A", text), (b"plot 80 0", "X is 80, and takes 0 to 79")):
            drawing = self.written("drawing", b"plot 0 0\n" + line + b"\n")
            done = self.ends(["plot", stand.page("title"), drawing], 3, said)
            self.assertEqual(done.stdout, stand.put("plot", stand.page("title"), drawing))

    def test_files_that_cannot_be_read(self):
        self.ends(["show", "nowhere"], 4, "btx: show: nowhere: no such file\n", cwd=self.folder)
        self.ends(["show", self.folder], 4, "is a directory; btx archive takes a folder and makes its pages a website\n")
        self.ends(["edit", stand.page("title"), self.path("none")], 4, f"{self.path('none')}: no such file")

    def test_a_full_disk(self):
        with open("/dev/full", "wb") as full:
            self.ends(["show", stand.page("title")], 5, "the output failed", stdout=full)

    def test_a_full_disk_under_words_of_its_own(self):
        """Once, by one line, also where so little is written that it is kept to the end."""
        for words in (["diff", "--quiet", stand.page("title"), stand.page("boat")], ["completion", "bash"], ["terminal", stand.page("title")],
                      ["--help"], ["--version"], ["show", "--help"], ["png", "--help"]):
            for unbuffered in ("", "1"):
                with open("/dev/full", "wb") as full:
                    done = stand.btx(*words, stdout=full, env=stand.environment(PYTHONUNBUFFERED=unbuffered))
                name = "" if words[0].startswith("--") else f"{words[0]}: "
                self.assertEqual((done.returncode, done.stderr.decode()), (4, f"btx: {name}no space left on device\n"), words)

    def test_messages_that_cannot_be_written_keep_nothing_from_being_done(self):
        page = self.written("page", b"\x9b1\rB")
        for unbuffered in ("", "1"):
            env = stand.environment(PYTHONUNBUFFERED=unbuffered)
            for words, status in ((["check", page], 1), (["terminal", page], 1), (["show", "nowhere"], 4), (["shwo"], 2), (["terminal"], 2), ([], 2)):
                with open("/dev/full", "wb") as full:
                    done = stand.btx(*words, stderr=full, env=env)
                self.assertEqual((done.returncode, done.stdout), (status, stand.btx(*words).stdout), words)

    def test_streams_that_are_closed(self):
        """What can't be read or written is told, no other file takes the place of a stream, and without one for messages all else is done."""
        page, script = self.written("page", b"A"), self.written("script", b"text B\n")
        own = [["terminal", page], ["svg", page], ["html", page], ["diff", page, stand.page("title")], ["cast", page], ["--help"]]
        for words in [["show", page], ["edit", page, script], *own]:
            done = self.closed(">&-", *words)
            said, status = ("bad file descriptor", 4) if words in own else ("the output failed", 5)
            self.assertEqual((done.returncode, done.stdout), (status, b""), words)
            self.assertRegex(done.stderr.decode(), rf"\Abtx: .*{said}.*\n\Z")
        for words in (["show", "-"], ["edit", page, "-"], ["terminal", "-"], ["png", "-"]):
            if words[0] != "png" or stand.absent.has_library("PIL"):
                done = self.closed("<&-", *words)
                self.assertEqual((done.returncode, done.stdout), (4, b""), words)
        done = self.closed("<&- 2>&-", "edit", page, script)
        self.assertEqual((done.returncode, done.stdout, done.stderr), (0, stand.put("edit", page, script), b""))
        self.assertEqual(self.closed("2>&-", "show", "nowhere").returncode, 4)

    def closed(self, how, *words):
        """A run with some streams closed by a shell."""
        line = f"exec {shlex.join([sys.executable, stand.BTX, *words])} {how}"
        return stand.btx("-c", line, command="/bin/sh")

    def test_where_messages_cannot_be_written_the_status_stays(self):
        """On a full disk, and where standard error can't be written at all."""
        for words, status in ((["diff", "nowhere", stand.page("title")], 4), (["check", "nowhere"], 4), (["nonsense"], 2)):
            for name, way in (("/dev/full", "wb"), (os.devnull, "rb")):
                with open(name, way) as error:
                    done = stand.btx(*words, stderr=error)
                self.assertEqual((done.returncode, done.stdout), (status, b""), (words, name))

    def test_memory_and_limits(self):
        self.ends(["show", "page"], 6, "not enough memory", env=self.stub(6))
        page, script = self.written("page", b""), self.written("script", b"")
        os.truncate(script, 2**20 + 1)
        self.ends(["edit", stand.page("title"), script], 7, f"{script}: the script has more than 1,048,576 bytes")
        self.ends(["plot", stand.page("title"), script], 7, f"{script}: the drawing has more than 1,048,576 bytes")
        os.truncate(script, 2**20)
        os.truncate(page, 2**24 + 1)
        self.ends(["edit", page, script], 7, f"{page}: the page has more than 16,777,216 bytes", env=self.stub(7))

    def test_a_broken_pipe_ends_quietly(self):
        # The changes of a generated page are far more than a pipe holds.
        words = ["changes", self.written("page", stand.put("gen", "1"))]
        run = stand.begun(*words)
        run.stdout.read(1)
        run.stdout.close()
        self.assertEqual((run.stderr.read(), run.wait(stand.LONG)), (b"", -signal.SIGPIPE))
        run.stderr.close()
        shell = f"{stand.BTX} terminal {stand.page('title')} | head -n 1 > /dev/null; echo ${{PIPESTATUS[0]}}"
        keys = {"stdout": subprocess.PIPE, "stderr": subprocess.PIPE, "env": stand.environment(), "timeout": stand.LONG}
        done = subprocess.run(["bash", "-c", shell], preexec_fn=stand.as_from_a_terminal, **keys)
        self.assertIn(done.stdout, (b"0\n", b"141\n"))
        self.assertEqual(done.stderr, b"")

    def test_an_interrupt_ends_quietly(self):
        page = self.path("pipe")
        os.mkfifo(page)
        run = stand.begun("show", page)
        # The program has begun once the pipe has a reader.
        with open(page, "wb"):
            os.killpg(run.pid, signal.SIGINT)
            output, error = run.communicate(timeout=stand.LONG)
        self.assertEqual((run.returncode, output, error), (-signal.SIGINT, b"", b""))

    def test_a_program_that_is_named_and_not_there(self):
        self.ends(["show", "x"], 127, "BTX_PROGRAM is nowhere", env=stand.environment(BTX_PROGRAM="nowhere"))

    def test_a_name_that_the_program_does_not_take_is_told_by_the_word_that_was_asked(self):
        page, out = self.path("\udcdc"), self.path("out")
        for words in (["terminal", page], ["png", page, "-o", out], ["html", page, "-o", out], ["svg", page], ["diff", page, stand.page("title")]):
            if words[0] == "png" and not stand.absent.has_library("PIL"):
                continue
            said = f"the name {self.folder}/\\xdc isn't UTF-8, and the program takes no other; btx {words[0]} - reads standard input"
            self.assertEqual(self.ends(words, 2, said).stderr.decode(), f"btx: {words[0]}: {said}\n")
        self.assertEqual(self.ends(["terminal", ""], 2, "a name").stderr, b"btx: terminal: a name is empty\n")
        for words in (["host", "", "--port", "0"], ["cut", "", "-o", "x"], ["check-script", ""], ["archive", "", "-o", "x"]):
            self.assertEqual(self.ends(words, 2, "a name").stderr.decode(), f"btx: {words[0]}: a name is empty\n")
        for words in ([""], ["help", ""]):
            self.assertEqual(self.ends(words, 2, "a name").stderr, b"btx: a name is empty\n")

    def test_control_characters_of_names_are_told_by_their_numbers(self):
        name = "a\x1b[31mred\x07"
        self.assertEqual(stand.btx("png", self.path(name), "-o", self.path("x")).stderr.decode(),
                         f"btx: png: {self.path('a')}\\x1b[31mred\\x07: no such file\n")

    def test_help_and_version(self):
        program = ("changes", "check", "list", "show", "cells", "write", "trace", "edit", "plot", "gen", "load")
        for word in (*program, "terminal", "html", "png", "gif", "svg", "cast", "archive", "diff", "line", "cut", "host"):
            self.assertIn(f"usage: btx {word}".encode(), self.ends([word, "--help"], 0).stdout)
            self.assertIn(f"\n    {word} ".encode(), self.ends(["--help"], 0).stdout)
        self.assertRegex(self.ends(["--version"], 0).stdout.decode(), r"^btx \d+\.\d+\n$")
        self.ends([], 2, "usage: btx")

    def test_a_copy_of_the_command_alone(self):
        command = shutil.copy(stand.BTX, self.path("copy"))
        self.ends(["--help"], 127, f"btx: {command} is a copy without the files that it needs", command=command)
