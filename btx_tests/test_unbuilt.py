"""What is said in a fresh clone, where nothing is built, and where ./build --quick has kept a program: no word starts a proof."""
import os
import shutil
import subprocess
import sys
from typing import Any

import stand

PARTS = ("bin", "btx", "building", "desktop", "docs", "edit", "library", "pages", "view")
PROVES = "proves and builds it, in about 40 minutes on four processors"
# What else than the program a word needs.
PARTLY = dict.fromkeys(("viewer", "editor"), "the decoder's module") | dict.fromkeys(("line", "cut"), "the decoder's library")
UNPROVED = "this program is unproved and slow, as ./build --quick keeps it"


class Unbuilt(stand.Case):
    def setUp(self):
        super().setUp()
        self.tree = self.path("clone")
        for part in PARTS:
            shutil.copytree(os.path.join(stand.ROOT, part), os.path.join(self.tree, part), ignore=shutil.ignore_patterns("out", "__pycache__"))
        for name in ("build", "install", "README.md"):
            shutil.copy(os.path.join(stand.ROOT, name), self.tree)
        os.makedirs(os.path.join(self.tree, "crates", "cept_tool"))
        # Nothing is on the path but Python, and tools that only leave a mark, in the place of those that would prove and build.
        self.mark = self.path("called")
        for name in ("rt", "wasm-opt"):
            self.executable(self.path("tools", name), f"#!/bin/sh\necho {name} >> {self.mark}\n")
        os.mkdir(self.path("python"))
        os.symlink(sys.executable, self.path("python", "python3"))
        bare = {name: value for name, value in stand.environment().items() if name != "BTX_PROGRAM"}
        self.without_kit = {**bare, "PATH": self.path("python")}
        self.with_kit = {**bare, "PATH": f"{self.path('tools')}:{self.path('python')}"}

    def executable(self, path, text):
        os.makedirs(os.path.dirname(path), exist_ok=True)
        with open(path, "w", encoding="utf-8") as file:
            file.write(text)
        os.chmod(path, 0o755)
        return path

    def run_of(self, *words, **more):
        keys: dict[str, Any] = {"stdin": subprocess.DEVNULL, "stdout": subprocess.PIPE, "stderr": subprocess.PIPE, "timeout": stand.LONG, "env": self.with_kit}
        done = subprocess.run([os.path.join(self.tree, words[0]), *words[1:]], **{**keys, **more})
        self.assertFalse(os.path.exists(self.mark), "something was started")
        return done.returncode, done.stdout, done.stderr.decode()

    def requests(self):
        """Each word of btx, as its help lists them, with what it needs after it."""
        text = self.run_of("bin/btx", "--help")[1].decode()
        words = [line.split()[0] for line in text.splitlines() if line.startswith("    ") and line[4] not in " W"]
        after = {
            "archive": [stand.PAGES, "-o", self.path("website")], "cut": [stand.page("title"), "-o", self.path("pages")], "line": ["-"],
            "gen": ["1"], "load": ["1"], "viewer": [], "editor": [], "diff": [stand.page("title")] * 2,
        }
        self.assertGreater(len(words), 15)
        return [[word, *after.get(word, [stand.page("title")])] for word in words if word not in ("completion", "host")]

    def test_each_word_says_what_is_missing_the_command_and_how_long_it_takes(self):
        for request in self.requests():
            status, output, error = self.run_of("bin/btx", *request)
            self.assertEqual((status, output, error.count("\n")), (127, b"", 1), error)
            self.assertIn(f"isn't built: {self.tree}/build {PROVES}", error)
            is_whole = request[0] in PARTLY
            self.assertEqual(f"{self.tree}/build --quick keeps an unproved one, in about a minute" in error, not is_whole, error)
            self.assertIn(PARTLY.get(request[0], "the program"), error)
            self.assertNotIn("this machine", error)

    def test_without_the_kit_they_say_that_it_is_needed(self):
        for request in self.requests():
            error = self.run_of("bin/btx", *request, env=self.without_kit)[2]
            self.assertIn("the Rattle kit with its command rt", error)
            self.assertIn("which this machine doesn't have", error)
            self.assertEqual(error.count("\n"), 1, error)

    def test_an_unproved_program_is_taken_and_named_once(self):
        quick = self.executable(os.path.join(self.tree, "out/quick/cept_tool"), f'#!/bin/sh\nexec {stand.program} "$@"\n')
        pages = [stand.page("title"), stand.page("boat")]
        for request in (["show", pages[0]], ["terminal", pages[0]], ["html", *pages]):
            status, output, error = self.run_of("bin/btx", *request)
            self.assertEqual(output, stand.btx(*request).stdout)
            self.assertEqual((status, error), (0, f"btx: {UNPROVED}; {self.tree}/build {PROVES}\n"))
        # What its status means is said as ever.
        error = self.run_of("bin/btx", "show", self.path("nowhere"))[2]
        self.assertEqual((error.count("\n"), error.count(UNPROVED)), (2, 1))
        self.assertEqual(self.run_of("bin/btx", "show", pages[0], env={**self.with_kit, "BTX_PROGRAM": quick})[2], "")

    def test_the_proved_program_goes_before_it(self):
        self.executable(os.path.join(self.tree, "out/quick/cept_tool"), "#!/bin/sh\nexit 6\n")
        shutil.copy(stand.program, self.executable(os.path.join(self.tree, "crates/cept_tool/out/cept_tool"), ""))
        status, output, error = self.run_of("bin/btx", "show", stand.page("title"))
        self.assertEqual((status, output, error), (0, stand.put("show", stand.page("title")), ""))

    def test_only_a_proved_program_is_installed(self):
        for _ in range(2):
            for words in ([self.path("prefix")], ["--deb", self.path("deb")]):
                status, output, error = self.run_of("install", *words)
                self.assertEqual((status, output), (1, b""))
                self.assertIn(f"install: the program isn't built: {self.tree}/build {PROVES}", error)
                self.assertNotIn("--quick", error)
                self.assertFalse(os.path.exists(words[-1]))
            self.executable(os.path.join(self.tree, "out/quick/cept_tool"), "#!/bin/sh\n")

    def test_the_unproved_program_is_not_installed_by_its_name(self):
        """Nor is one with its bytes, also where there is a proved one."""
        shutil.copy(stand.program, self.executable(os.path.join(self.tree, "crates/cept_tool/out/cept_tool"), ""))
        quick = self.executable(os.path.join(self.tree, "out/quick/cept_tool"), "#!/bin/sh\nexit 6\n")
        copy = shutil.copy(quick, self.path("copy"))
        for named, words in ((quick, [self.path("prefix")]), (copy, [self.path("prefix")]), (quick, ["--deb", self.path("deb")])):
            status, output, error = self.run_of("install", *words, env={**self.with_kit, "BTX_PROGRAM": named})
            self.assertEqual((status, output, os.path.exists(words[-1])), (1, b"", False))
            self.assertEqual(error, f"install: {named} is the unproved program that ./build --quick keeps; {self.tree}/build {PROVES}\n")

    def test_an_install_without_library_and_module_says_what_builds_them(self):
        shutil.copy(stand.program, self.executable(os.path.join(self.tree, "crates/cept_tool/out/cept_tool"), ""))
        kit, more = "the Rattle kit with its command rt", "wasm-opt (Debian: apt-get install binaryen)"
        for env, lacks in ((self.with_kit, ("", "")), (self.without_kit, (kit, f"{kit} and {more}"))):
            status, _, error = self.run_of("install", self.path("prefix"), env=env)
            self.assertEqual((status, error), (0, self.said_of_parts(*lacks)))

    def said_of_parts(self, *lacks):
        """What an install says of library and module, of which each needs what this machine lacks."""
        build = f"{self.tree}/build builds it, in about 40 minutes on four processors"
        needs = [f"; that needs {one}, which this machine doesn't have" if one else "" for one in lacks]
        parts = zip(("the library for C", "the module for the web"), needs)
        return "".join(f"install: {what} isn't built, and is left out; {build}{need}\n" for what, need in parts)

    def test_packages_without_library_and_module_say_it_too(self):
        dpkg, _ = self.needs("dpkg-deb", "dpkg")
        shutil.copy(stand.program, self.executable(os.path.join(self.tree, "crates/cept_tool/out/cept_tool"), ""))
        shutil.copytree(os.path.join(stand.ROOT, "debian"), os.path.join(self.tree, "debian"))
        env = {**self.with_kit, "PATH": f"{self.with_kit['PATH']}:{os.path.dirname(dpkg)}:{os.environ['PATH']}"}
        status, output, error = self.run_of("install", "--deb", self.path("deb"), env=env)
        self.assertEqual((status, error), (0, self.said_of_parts("", "")))
        self.assertEqual([os.path.basename(one).partition("_")[0] for one in output.decode().splitlines()], ["tamligub"])
