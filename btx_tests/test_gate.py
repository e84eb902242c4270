"""The gate's own parts: what it says of what passes, fails, isn't run and is left out."""
import contextlib
import glob
import importlib.machinery
import importlib.util
import io
import os
import re
import subprocess
import sys
from typing import Any

import stand


def program_of(name):
    """A program of the gate, as a module."""
    loader = importlib.machinery.SourceFileLoader(name, os.path.join(stand.ROOT, ".ci", name))
    found = importlib.util.module_from_spec(importlib.util.spec_from_loader(name, loader))
    loader.exec_module(found)
    return found


parts, check_python = program_of("parts"), program_of("check_python")


def part(name, line, after=None):
    one = parts.Part("sh", "-c", line, after=after)
    one.name = name
    return one


class Gate(stand.Case):
    def said(self, *all_parts):
        """What the gate says of some parts, without the seconds, and whether all have passed."""
        place = self.path("place")
        os.mkdir(place)
        with contextlib.redirect_stdout(io.StringIO()) as said:
            good = parts.run(all_parts, place)
        return re.sub(r", \d+ s$", ", N s", said.getvalue(), flags=re.MULTILINE), good

    def test_what_passes_is_told_in_order(self):
        # The first ends after the second, which runs beside it.
        mark = self.path("mark")
        slow = part("slow", f"until [ -e {mark} ]; do sleep 0.01; done; echo one; echo beside >&2")
        lines = "== slow: passed, N s\none\nbeside\n== quick: passed, N s\ntwo\nNothing was left out.\n2 parts passed, 0 failed, N s\n"
        self.assertEqual(self.said(slow, part("quick", f"touch {mark}; echo two")), (lines, True))

    def test_what_fails_fails_the_gate_and_what_stands_on_it_is_not_run(self):
        lines = ("== low: FAILED with status 3, N s\n== high: NOT RUN, since low failed\n== other: passed, N s\nyes\n"
                 "Nothing was left out.\n1 parts passed, 2 failed low high, N s\n")
        self.assertEqual(self.said(part("low", "exit 3"), part("high", "echo no", "low"), part("other", "echo yes")), (lines, False))

    def test_what_stands_on_another_part_begins_after_it(self):
        mark = self.path("mark")
        said, good = self.said(part("high", f"cat {mark}", "low"), part("low", f"sleep 0.2; echo made > {mark}"))
        self.assertEqual((said.splitlines()[:2], good), (["== high: passed, N s", "made"], True))

    def test_of_those_that_are_ready_the_first_begins(self):
        low, high, other, last = part("low", "true"), part("high", "true", "low"), part("other", "true"), part("last", "true")
        turns = parts.Turns([low, high, other, last])
        begun = [turns.next(), turns.next()]
        turns.end(low)
        self.assertEqual([*begun, turns.next(), turns.next(), turns.next()], [low, other, high, last, None])

    def test_parts_that_are_named_run_alone(self):
        all_parts = [part("low", "echo no"), part("high", "echo yes", "low")]
        self.assertEqual(self.said(*parts.named_of(all_parts, ["high"]))[0].splitlines()[:2], ["== high: passed, N s", "yes"])
        self.assertEqual(parts.named_of(all_parts, []), all_parts)
        shared = [part("high", "echo yes"), part("high", "echo too"), part("low", "echo no")]
        self.assertEqual(parts.named_of(shared, ["high"]), shared[:2])
        with self.assertRaisesRegex(SystemExit, "^other: no such part; these are there: low high$"):
            parts.named_of(all_parts, ["low", "other"])

    def test_the_shares_of_the_tests_of_btx_are_all_of_them(self):
        tests, shares = program_of("../btx_tests/run"), parts.SHARES
        dealt = [name for one in range(1, shares + 1) for name in tests.share_of(f"{one}/{shares}")]
        names = glob.glob(os.path.join(stand.ROOT, "btx_tests", "test_*.py"))
        self.assertEqual(sorted(dealt), sorted(os.path.basename(name).removesuffix(".py") for name in names))

    def test_each_part_has_a_folder_of_its_own(self):
        said, good = self.said(part("a", "echo $TMPDIR; echo x > $TMPDIR/x"), part("b", "echo $TMPDIR; [ ! -e $TMPDIR/x ]"))
        self.assertEqual((len(set(re.findall("^/.*", said, re.MULTILINE))), good), (2, True))

    def test_what_is_left_out_is_listed_with_its_packages(self):
        """By tests for which no program is there but Python and the one that they try."""
        bare = self.path("bin")
        os.mkdir(bare)
        os.symlink(sys.executable, os.path.join(bare, "python3"))
        tests = ("view/test", "view/test_decoder", "edit/test", "edit/check_scripts", ".ci/check_python", "library/test", "library/test_web")
        lines = self.path("left_out")
        for test in tests:
            own: dict[str, list[str]] = {"edit/check_scripts": [], ".ci/check_python": [], "library/test": [stand.program, "out"]}
            given = own.get(test, [stand.program])
            words = [os.path.join(stand.ROOT, test), *given]
            keys: dict[str, Any] = {"stdout": subprocess.PIPE, "stderr": subprocess.STDOUT, "timeout": stand.LONG}
            done = subprocess.run(words, env=stand.environment(PATH=bare, TAMLIGUB_LEFT_OUT=lines), **keys)
            self.assertEqual(done.returncode, 0, (test, done.stdout))
        with open(lines, encoding="utf-8") as file:
            told = {(package, line.split(":")[1].strip()) for package, line in (one.split("\t") for one in file.read().splitlines())}
        wanted = {("nodejs", test) for test in ("view/test", "edit/test")} | {("chromium", test) for test in tests[:3]}
        wanted |= {("gcc libc6-dev", "library/test"), *((package, "edit/check_scripts") for package in ("node-typescript", "eslint"))}
        wanted |= {(package, ".ci/check_python") for package in ("mypy", "flake8")}
        there = os.path.exists(stand.absent.MODULE)
        wanted |= {("nodejs" if there else "binaryen", "view/test_decoder")} | (set() if there else {("binaryen", "edit/test")})
        wanted |= {(package, "library/test_web") for package in (("nodejs", "chromium") if there else ("binaryen",))}
        self.assertEqual(told, wanted)
        with contextlib.redirect_stdout(io.StringIO()) as said:
            parts.tell_left_out(lines)
        first, *rest = said.getvalue().splitlines()
        packages = sorted({one for package, _ in wanted for one in package.split()})
        self.assertEqual(first, f"== Left out, until apt-get install {' '.join(packages)}")
        self.assertEqual(len(rest), len(wanted))

    def test_each_file_of_python_is_in_one_group_and_no_other(self):
        self.assertEqual([*check_python.forgotten()], [])
        files = check_python.all_files(check_python.GROUPS)
        self.assertEqual(sorted(set(files)), sorted(files))
        self.assertGreater(len(files), 150)

    def test_a_check_is_turned_off_with_a_reason_beside_it(self):
        off = "x = 1  # " + "type: ignore[name]"
        for line, right in ((off, False), (off + "  # -- why", True), ("from a import *  # " + "noqa: F403", False), ("import a  # " + "noqa: E402", True)):
            self.assertTrue(check_python.SUPPRESSED.search(line), line)
            self.assertEqual(bool(check_python.REASON.search(line)), right, line)
        self.assertEqual([*check_python.without_reason(check_python.GROUPS)], [])

    def test_the_first_line_of_contributing_installs_all_packages(self):
        with open(os.path.join(stand.ROOT, "CONTRIBUTING.md"), encoding="utf-8") as file:
            line = re.match(r"# .*\n\n`apt-get install ([a-z0-9 +\n-]+)`", file.read())
        named = {one for packages in stand.absent.PACKAGES.values() for one in packages.split()}
        # Where there is no dpkg there is no apt-get.
        self.assertEqual(sorted(line[1].split()), sorted(named - {"dpkg"}))
