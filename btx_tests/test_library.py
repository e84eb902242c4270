"""btx over the shared library: what its words write, and how they end, is what the program writes, and how it ends."""
import concurrent.futures
import importlib.machinery
import importlib.util
import os
import subprocess
import sys
import unittest.mock

import stand
from btx import library, making, program

CASES = os.path.join(stand.ROOT, "cases", "run")
SHARED = os.path.join(stand.ROOT, "library", "out", library.NAME)


def cases_of():
    """The module of the cases."""
    loader = importlib.machinery.SourceFileLoader("cases_run", CASES)
    cases = importlib.util.module_from_spec(importlib.util.spec_from_loader("cases_run", loader))
    loader.exec_module(cases)
    return cases


class Library(stand.Case):
    def setUp(self):
        super().setUp()
        if not os.path.exists(SHARED):
            self.leave_out(why=f"there is no library/out/{library.NAME} (library/build library/out makes it)")
        self.library = library.at(SHARED)

    def by_library(self, *words, **more):
        env = {name: value for name, value in stand.environment(TAMLIGUB_LIBRARY=SHARED, **more).items() if name != "BTX_PROGRAM"}
        return stand.btx(*words, env=env)

    def test_all_cases_both_ways(self):
        """Each run of the cases by a word that btx hands on: what the case wants, by the program and by the library."""
        cases, compared = cases_of(), 0
        runs = [(case, run) for case in cases.all_cases() for run in case.runs if run.words and run.words[0] in program.WORDS]
        with concurrent.futures.ThreadPoolExecutor(len(os.sched_getaffinity(0))) as pool:
            by_program = pool.map(lambda one: cases.given_by(stand.program, one[1]), runs)
            for (case, run), (put, status, _) in zip(runs, by_program):
                with self.subTest(case.name, words=run.words):
                    self.assertEqual(self.put_by_library(run), (put, status))
                    self.assertTrue(status == run.status and cases.is_put(run, put))
                    compared += 1
        self.assertGreater(compared, 1000)

    def put_by_library(self, run):
        """What the library puts for the words of a run; files and pipes are handed over as their bytes, and others aren't there."""
        held = {**run.files, **run.pipes}
        read = library.bytes_of

        def bytes_of(name, most):
            return held[name][: most + 1] if name in held else read(self.path(name), most)

        with unittest.mock.patch.object(library, "bytes_of", bytes_of):
            return self.library.put(*run.words)

    def test_btx_writes_the_same_bytes(self):
        page, script = stand.page("refused"), self.written("script", b"at 1 2\ntext XY\n")
        bad = self.written("bad", b"at 300 1\n")
        for request in (
            *([word, page] for word in ("changes", "check", "list", "show", "cells", "write", "seven", "eight")), ["trace", page, script],
            ["edit", page, script], ["edit", page, bad], ["edit", "nowhere", bad], ["edit", page, "nowhere"], ["show", "nowhere"], ["show"],
            ["flash", page, "6"], ["flash", page, "601"], ["gen", "7"], ["load", "7"], ["gen", "4294967296"], ["show", stand.ROOT],
            ["terminal", page], ["svg", page], ["html", page], ["check-script", bad], ["cast", page], ["diff", page, stand.page("title")],
        ):
            want, found = stand.btx(*request), self.by_library(*request)
            self.assertEqual((found.returncode, found.stdout, found.stderr), (want.returncode, want.stdout, want.stderr), request)

    def test_a_page_is_made_the_same(self):
        for name in stand.all_pages():
            with open(stand.page(name), "rb") as file:
                page = file.read()
            self.assertEqual(making.made_of_bytes(self.library, page), making.made_of_bytes(stand.program, page), name)

    def test_no_program_is_run(self):
        """An archive by the library alone: there is no program on the machine."""
        env = {"PATH": os.path.dirname(sys.executable), "TAMLIGUB_LIBRARY": SHARED, "BTX_PROGRAM": "nowhere", "TMPDIR": self.folder}
        done = stand.btx("archive", stand.PAGES, "-o", self.path("website"), env=env)
        self.assertEqual(done.returncode, 0, done.stderr)
        self.assertIn(f"{len(stand.all_pages())} pages, ", done.stdout.decode())

    def test_a_name_alone_is_that_of_the_file_that_is_here(self):
        env = {name: value for name, value in stand.environment(TAMLIGUB_LIBRARY=library.NAME).items() if name != "BTX_PROGRAM"}
        done = stand.btx("show", stand.page("title"), cwd=os.path.dirname(SHARED), env=env)
        self.assertEqual((done.returncode, done.stdout), (0, stand.put("show", stand.page("title"))))

    def test_an_output_that_fails(self):
        page = self.written("page", b"A" * 2000)
        with open("/dev/full", "wb") as full:
            env = {**stand.environment(), "TAMLIGUB_LIBRARY": SHARED}
            done = subprocess.run([stand.BTX, "changes", page], stdout=full, stderr=subprocess.PIPE, env=env, timeout=stand.LONG)
        self.assertEqual(done.returncode, 5)
        self.assertIn(b"the output failed", done.stderr)

    def test_one_that_is_older_than_the_program_is_not_taken(self):
        old, new = self.written("old", b""), self.written("new", b"")
        os.utime(old, (1, 1))
        os.chmod(new, 0o755)
        for standing, quick in ((new, "nowhere"), (None, new)):
            with unittest.mock.patch.object(program, "standing", lambda _: standing), unittest.mock.patch.object(program, "QUICK", quick):
                self.assertFalse(library.is_current(old, self.folder))
                self.assertTrue(library.is_current(new, self.folder))
        with unittest.mock.patch.object(program, "standing", lambda _: None), unittest.mock.patch.object(program, "QUICK", "nowhere"):
            self.assertTrue(library.is_current(old, self.folder))

    def test_which_is_taken(self):
        beside, named = self.path("bin"), unittest.mock.patch.dict(os.environ, clear=False)
        os.mkdir(beside)
        with named:
            for name in ("BTX_PROGRAM", library.VARIABLE):
                os.environ.pop(name, None)
            self.assertIn(library.place(beside), (SHARED, None))
            os.makedirs(self.path("lib"))
            installed = self.written("lib/" + library.NAME, b"")
            self.assertEqual(library.place(beside), installed)
            # One that can't be taken leaves the program, but one that is named.
            with unittest.mock.patch.object(program, "found", lambda _: "the program"):
                self.assertEqual(library.found(beside), "the program")
            os.environ["BTX_PROGRAM"] = stand.program
            self.assertIsNone(library.place(beside))
            self.assertEqual(library.found(beside), stand.program)
            os.environ[library.VARIABLE] = SHARED
            self.assertEqual(library.place(beside), SHARED)
            self.assertIsInstance(library.found(beside), library.Library)
            os.environ[library.VARIABLE] = installed
            self.assertRaises(program.Missing, library.found, beside)
            os.environ[library.VARIABLE] = ""
            self.assertIsNone(library.place(beside))
