"""./build and library/build, over a kit that proves nothing: what they hand to it, what they make of what it leaves, what they say, and how
they end. That the kit proves is its own; test_readme has it compile the quick program, and the gate has it build the library."""
import contextlib
import errno
import io
import os
import re
import shlex
import shutil
import signal
import subprocess
import sys
import time
import unittest.mock
from typing import Any

import stand
import stub_kit
from building import Stop, crates, module, npm, plan, proving, running, shared, whole

CRATES = """low:
high: low kitlib
tests: low high
cept_tool: high
tamligub staticlib: high low kitlib
"""
ORDER = ["low", "high", "cept_tool", "tamligub"]
LIBRARIES = ("libtamligub.a", "libtamligub.so.1", "tamligub.h", "tamligub_signs.h")
# What is made beside the libraries.
BESIDE = ("libtamligub.so", "tamligub.pc")


class Build(stand.Case):
    def setUp(self):
        super().setUp()
        self.tree, self.temporary = self.path("clone"), self.path("temporary")
        shutil.copytree(os.path.join(stand.ROOT, "building"), self.path("clone", "building"), ignore=shutil.ignore_patterns("__pycache__"))
        os.makedirs(self.path("clone", "library"))
        for name in ("build", "HANDLES", "library/build", "library/heap.c", "library/tamligub.js"):
            shutil.copy(os.path.join(stand.ROOT, name), self.path("clone", name))
        for name in ("library/npm", "shapes"):
            shutil.copytree(os.path.join(stand.ROOT, name), self.path("clone", name), ignore=shutil.ignore_patterns("__pycache__"))
        self.put("library/tamligub.h", stub_kit.HEADER)
        minutes = {"low": "10.2", "high": "20.5", "cept_tool": "1", "tamligub": "4"}
        rows = "".join(f"| `{name}` | {count} |\n" for name, count in minutes.items())
        self.put("docs/MEASURES.md", f"\n## Proofs alone\n\n{rows}\n## Others\n\n| `low` | 100 |\n")
        self.put("crates.txt", CRATES)
        for name in [*ORDER, "tests"]:
            self.put(f"crates/{name}/src/lib.rt", f"// {name}\n")
            self.put(f"crates/{name}/must-fail/edit.edit", "")
            self.put(f"crates/{name}/out/rlib/left", "")
        os.mkdir(self.temporary)
        commands = stub_kit.made(self.path("kit"))
        python = os.path.dirname(sys.executable)
        path = f"{commands}:{self.path('kit', 'tools')}:{python}:/usr/bin:/bin"
        told = {"STUB": "", "SEEN": self.path("seen"), "TARGETS": "wasm64"}
        self.environment = {**os.environ, "PATH": path, "TMPDIR": self.temporary, **told}

    def put(self, name, text):
        path = os.path.join(self.tree, name)
        os.makedirs(os.path.dirname(path), exist_ok=True)
        with open(path, "w", encoding="utf-8") as file:
            file.write(text)

    def text(self, *names):
        with open(self.path(*names), encoding="utf-8") as file:
            return file.read()

    def run_of(self, *words, status=0, **more):
        keys: dict[str, Any] = {"stdin": subprocess.DEVNULL, "stdout": subprocess.PIPE, "stderr": subprocess.PIPE, "timeout": stand.LONG, "text": True}
        done = subprocess.run([os.path.join(self.tree, words[0]), *words[1:]], **keys, env={**self.environment, **more})
        self.assertEqual(done.returncode, status, done.stderr)
        self.assertEqual(os.listdir(self.temporary), [])
        return done.stdout.splitlines(), done.stderr

    def made(self):
        return sorted(os.listdir(os.path.join(self.tree, "library", "out")))

    def test_all_is_built_of_one_proof(self):
        paths, said = self.run_of("build")
        made = ("crates/cept_tool/out/cept_tool", *(f"library/out/{name}" for name in (*whole.MADE, *BESIDE, "npm")))
        self.assertEqual(paths, [os.path.join(self.tree, place) for place in made])
        self.assertTrue(os.access(paths[0], os.X_OK))
        for number, name in enumerate(ORDER, 1):
            self.assertIn(f"build: {name} proved, {number} of 4", said)
        taken = "what an earlier run on this machine has proved is only taken, except tamligub"
        first = rf"^build: 4 crates, at most about 35 minutes of proof on \d+ processors; {taken}$"
        self.assertRegex(said.splitlines()[0], first)
        self.assertNotIn("are left", said)
        words = self.text("seen.words").split("\n")
        self.assertEqual([word.partition("=")[0] for word in words if ".rlib" in word], ["std", "kitlib", "high", "low"])

    def test_the_kit_sees_the_crates_that_are_needed_alone(self):
        self.run_of("build")
        seen = self.text("seen").splitlines()
        self.assertEqual(seen, ["./HANDLES", "./crates.txt", *(f"./crates/{name}/src/lib.rt" for name in ("cept_tool", "high", "low"))])
        self.run_of("library/build", self.path("made"))
        self.assertNotIn("cept_tool", self.text("seen"))
        self.assertEqual(sorted(os.listdir(self.path("made"))), sorted([*whole.MADE, *BESIDE, "npm"]))
        self.assertEqual(os.readlink(self.path("made", "libtamligub.so")), "libtamligub.so.1")

    def test_a_folder_npm_of_others_stays(self):
        """One with files of their own, and the one from which the package is made."""
        self.put("made/npm/mine.txt", "mine")
        for folder in ("made", "library"):
            said = self.run_of("library/build", os.path.join(self.tree, folder), status=1)[1]
            self.assertIn("npm: it is no package that was made here, and stays; the library needs another folder", said)
            self.assertFalse(os.path.exists(self.path("seen")))
        self.assertEqual(self.text("clone/made/npm/mine.txt"), "mine")
        # An empty one may be left by a build that was ended.
        os.remove(os.path.join(self.tree, "made", "npm", "mine.txt"))
        npm.check(os.path.join(self.tree, "made"))
        self.assertTrue(os.path.exists(os.path.join(self.tree, "library", "npm", "package.json")))
        # A link isn't replaced at the end, and so is refused at the beginning, wherever it leads.
        os.rename(os.path.join(self.tree, "made", "npm"), os.path.join(self.tree, "made", "other"))
        os.symlink("other", os.path.join(self.tree, "made", "npm"))
        self.assertRaises(Stop, npm.check, os.path.join(self.tree, "made"))

    def test_an_end_that_is_ignored_stays_so(self):
        code = "import signal, sys; sys.path.insert(0, '.'); from building import running; running.heed_ends(); print(*map(signal.getsignal, (1, 15)))"
        line = f"trap '' HUP; exec {shlex.quote(sys.executable)} -c {shlex.quote(code)}"
        done = subprocess.run(["sh", "-c", line], cwd=stand.ROOT, capture_output=True, text=True, check=True)
        self.assertRegex(done.stdout, r"^(1|Handlers\.SIG_IGN) <function interrupted at")

    def test_what_an_earlier_run_has_proved_is_told_apart(self):
        said = self.run_of("build", STUB="kept low kept high")[1]
        self.assertIn("build: high was proved by an earlier run, 2 of 4\n", said)
        self.assertIn("build: cept_tool proved, 3 of 4", said)

    def test_a_crate_that_is_not_proved(self):
        self.put("crates/cept_tool/out/cept_tool", "old")
        paths, said = self.run_of("build", status=1, STUB="fail high")
        self.assertEqual(paths, [])
        self.assertIn("build: high isn't proved\n", said)
        self.assertIn("said of high\n", said)
        self.assertNotIn("said of low\n", said)
        self.assertEqual(self.text("clone", "crates/cept_tool/out/cept_tool"), "old")
        self.assertEqual(self.made(), [])

    def test_an_interrupt_ends_all_that_was_begun(self):
        for number in (signal.SIGINT, signal.SIGTERM):
            command = subprocess.Popen([os.path.join(self.tree, "build")], stdout=subprocess.PIPE, stderr=subprocess.PIPE, text=True,
                                       env={**self.environment, "STUB": "hang high"}, start_new_session=True,
                                       preexec_fn=stand.as_from_a_terminal)
            for line in command.stderr:
                if "low proved" in line:
                    break
            while not os.path.exists(self.path("seen.pid")):
                time.sleep(0.05)
            command.send_signal(number)
            said = command.communicate(timeout=stand.LONG)[1]
            self.assertEqual((command.returncode, said), (-signal.SIGINT, "build: interrupted\n"))
            for process in self.text("seen.pid").split():
                self.assertTrue(self.is_gone(process), process)
            self.assertEqual(os.listdir(self.temporary), [])
            os.remove(self.path("seen.pid"))

    def is_gone(self, process):
        """Whether a process has ended; one that nobody has waited for yet has."""
        end = time.monotonic() + stand.LONG
        while stand.is_running(process):
            if time.monotonic() > end:
                return False
            time.sleep(0.05)
        return True

    def test_what_keeps_a_module_from_being_made_is_said_first(self):
        self.run_of("build")
        bare = f"{self.path('kit', 'bin')}:{os.path.dirname(sys.executable)}:/bin"
        if shutil.which("wasm-opt", path=bare):
            os.makedirs(self.path("few"))
            for name in ("python3", "sh", "cp", "sleep"):
                os.symlink(shutil.which(name), self.path("few", name))
            bare = f"{self.path('kit', 'bin')}:{self.path('few')}"
        said = self.run_of("build", PATH=bare)[1]
        self.assertIn("wasm-opt on this machine (Debian: apt-get install binaryen)", said.splitlines()[1])
        # No module of an earlier build stays beside a library of this one.
        self.assertEqual(self.made(), sorted([*LIBRARIES, *BESIDE, "tamligub64.wasm"]))
        said = self.run_of("build", TARGETS="x86-64")[1]
        self.assertIn("the clang of the kit has no WebAssembly", said.splitlines()[1])
        self.assertEqual(self.made(), sorted([*LIBRARIES, *BESIDE]))

    def test_without_the_kit(self):
        os.remove(self.path("kit", "bin", "rt"))
        for words in (["build"], ["build", "--quick"], ["library/build", self.path("made")]):
            paths, said = self.run_of(*words, status=1, PATH=f"{os.path.dirname(sys.executable)}:/usr/bin:/bin")
            self.assertEqual((paths, said), ([], "build: the Rattle kit isn't on this machine: its command rt isn't on the PATH\n"))

    def test_another_program_of_the_name_rt(self):
        os.makedirs(self.path("other", "bin"))
        command = shutil.copy("/bin/true", self.path("other", "bin", "rt"))
        paths, said = self.run_of("build", "--quick", status=1, PATH=f"{os.path.dirname(command)}:{self.environment['PATH']}")
        folder = os.path.realpath(self.path("other"))
        self.assertEqual(paths, [])
        self.assertEqual(said, f"build: the command rt on the PATH, {command}, isn't that of the Rattle kit: {folder} has no toolchain\n")

    def test_an_output_that_is_full(self):
        with open("/dev/full", "wb") as full:
            done = subprocess.run([os.path.join(self.tree, "build"), "--quick"], stdout=full, stderr=subprocess.PIPE, env=self.environment)
        self.assertEqual(done.returncode, 1)
        self.assertEqual(done.stderr.splitlines()[-1], b"build: standard output: No space left on device")

    def test_the_quick_program_is_kept_apart(self):
        paths, said = self.run_of("build", "--quick")
        self.assertEqual(paths, [os.path.join(self.tree, "out/quick/cept_tool")])
        self.assertEqual(said, "build: rt try compiles the program unproved, which takes up to a minute\n")
        self.assertEqual(subprocess.run(paths, stdout=subprocess.PIPE).stdout, b"PAGE\n")
        self.assertFalse(os.path.exists(os.path.join(self.tree, "crates/cept_tool/out/cept_tool")))

    def test_a_fault_without_a_file_is_told(self):
        said = io.StringIO()
        for words, wanted in (((errno.ENOSPC, "full"), "build: full"), ((errno.ENOENT, "lost", "file"), "build: file: lost")):
            failing = unittest.mock.Mock(side_effect=OSError(*words))
            with contextlib.redirect_stderr(said), unittest.mock.patch.object(running, "heed_ends"), self.assertRaises(SystemExit) as end:
                running.main(failing)
            self.assertEqual(end.exception.code, wanted)

    def test_a_quick_program_that_was_not_made(self):
        self.assertIn("left no program:\nrun=ended", self.run_of("build", "--quick", status=1, STUB="lost")[1])
        self.assertIn("shows something else", self.run_of("build", "--quick", status=1, STUB="other")[1])
        self.assertFalse(os.path.exists(os.path.join(self.tree, "out/quick/cept_tool")))


class Plan(stand.Case):
    USES = {"a": [], "b": ["a"], "c": ["a"], "d": ["b"], "e": ["c", "d"]}

    def test_what_is_left_is_said_once_something_was_taken(self):
        said = io.StringIO()
        course = plan.Plan(["cept_codes", "cept_profile"], 2)
        course.done("cept_codes", True)
        with contextlib.redirect_stderr(said), unittest.mock.patch.object(proving, "TAKING", 0.01), proving.told_later(course):
            end = time.monotonic() + stand.LONG
            while not said.getvalue().endswith("\n") and time.monotonic() < end:
                time.sleep(0.01)
        self.assertRegex(said.getvalue(), r"^build: 1 of 2 crates are left, (less than a|at most about \d+) minutes? of proof on 2 processors\n$")
        with contextlib.redirect_stderr(said), proving.told_later(course):
            pass
        self.assertEqual(said.getvalue().count("\n"), 1)
        # Of what was told before the first crate nothing is said again.
        with contextlib.redirect_stderr(said), unittest.mock.patch.object(proving, "TAKING", 0.01), proving.told_later(plan.Plan(["cept_codes"], 2)):
            time.sleep(0.1)
        self.assertEqual(said.getvalue().count("\n"), 1)

    def test_a_proof_takes_what_its_order_and_the_processors_let_it(self):
        minutes = {"a": 1.0, "b": 2.0, "c": 4.0, "d": 3.0, "e": 1.0}
        self.assertEqual([plan.span(minutes, self.USES, lanes) for lanes in (1, 2, 3)], [11, 7, 7])
        self.assertEqual(plan.span({"c": 4.0, "d": 3.0}, self.USES, 2), 4)
        self.assertEqual(plan.span({}, self.USES, 2), 0)
        # The longest chain goes first, whatever is short.
        self.assertEqual(plan.span({"u": 2.0, "v": 2.0, "x": 3.0, "y": 3.0}, {"u": [], "v": [], "x": [], "y": ["x"]}, 2), 6)

    def test_the_table_has_crates_that_ship(self):
        ships = {*crates.below("cept_tool", "tamligub"), "cept_tool", "tamligub"}
        self.assertLessEqual({"cept_codes", "cept_repaint", "cept_run", "cept_tool", "tamligub"}, set(plan.table()))
        self.assertLessEqual(set(plan.table()), ships)
        # One that isn't in the table takes as long as its lines let expect.
        with unittest.mock.patch.object(plan, "table", lambda: {"cept_codes": 10.0}):
            expected = 10 * plan.lines_of("cept_profile") / plan.lines_of("cept_codes")
            self.assertEqual(plan.minutes_of(["cept_codes", "cept_profile"]), {"cept_codes": 10.0, "cept_profile": expected})


class Shared(stand.Case):
    def test_exports_are_those_of_the_header_in_one_version(self):
        lines = [line.strip() for line in shared.version_script().splitlines()]
        self.assertEqual((lines[0], lines[-2:]), ("TAMLIGUB_1 {", ["local: *;", "};"]))
        self.assertEqual(lines[2:-2], sorted(f"{name};" for name in module.exports()))

    def test_all_versions_are_the_same(self):
        names = ("library/python/pyproject.toml", "library/python/tamligub/__init__.py", "library/npm/package.json", "btx/__init__.py")
        found = {}
        for name in names:
            with open(os.path.join(stand.ROOT, name), encoding="utf-8") as file:
                found[name] = re.search(r'(?:version"?:?|VERSION|__version__) ?=? ?"([\d.]+)"', file.read())[1]
        self.assertEqual(set(found.values()), {shared.version(), shared.version() + ".0"})


class Npm(stand.Case):
    def test_the_scripts_have_all_of_the_library_and_export_it(self):
        for name, text in npm.scripts().items():
            self.assertNotIn("typeof exports", text)
            self.assertIn("class Decoder {", text)
            names = "{ BadLine, Closed, Decoder, NoMemory, NoSnapshot, TooLong, load, run };"
            self.assertIn(f"export {names}" if name.endswith(".mjs") else f"module.exports = {names}", text)

    def test_the_types_name_all_calls(self):
        with open(os.path.join(npm.SOURCE, "tamligub.d.ts"), encoding="utf-8") as file:
            types = file.read()
        body = re.search(r"^class Decoder \{\n(.*?)^\}$", npm.text_of(npm.SCRIPT), re.MULTILINE | re.DOTALL)[1]
        own = {"call", "feedIn", "noticesOf", "textOf"}
        for call in set(re.findall(r"^    (?:static )?(\w+)\(", body, re.MULTILINE)) - own:
            self.assertRegex(types, rf"\b{call}[(<]")


class Module(stand.Case):
    CODE = stub_kit.CODE

    def setUp(self):
        super().setUp()
        header = self.written("tamligub.h", stub_kit.HEADER.encode())
        named = unittest.mock.patch.object(module, "HEADER", header)
        named.start()
        self.addCleanup(named.stop)

    def test_what_names_the_processor_is_changed_and_exports_are_named(self):
        code = module.for_wasm(self.CODE)
        self.assertIn('target triple = "wasm64-unknown-unknown"', code)
        self.assertIn('define i32 @tamligub_run(ptr %0, i64 %1) #0 "wasm-export-name"="tamligub_run" {\n', code)
        self.assertIn("define internal i32 @tamligub_inner(i64 %0) #0 {\n", code)
        self.assertNotIn("x86", code)

    def test_exports_are_those_of_the_header(self):
        more = self.CODE.replace("@tamligub_inner", "@tamligub_outer").replace("internal ", "")
        for code in (more, self.CODE.replace("@tamligub_run", "@tamligub_ran"), self.CODE.replace("define i32", "define internal i32")):
            with self.assertRaisesRegex(Exception, "its header has tamligub_run$"):
                module.for_wasm(code)

    def test_what_may_differ_by_processor_stops_it(self):
        for text in ("@llvm.ctpop.i64", " asm ", "@llvm.x86.sse2", '"target-features"="+sse"'):
            with self.assertRaisesRegex(Exception, "may differ by processor"):
                module.for_wasm(self.CODE + f"  call void {text}()\n")
