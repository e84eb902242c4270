"""The install under a prefix and as a Debian package, each used as a reader would, from where it was put."""
import ast
import configparser
import glob
import hashlib
import os
import re
import resource
import shlex
import shutil
import signal
import struct
import subprocess
import sys
import tempfile
import xml.etree.ElementTree
from typing import Any

import stand
from building import deb, desktop, parts, shared, tree

INSTALL = os.path.join(stand.ROOT, "install")


class Install(stand.Case):
    def run_of(self, *words, **more):
        keys: dict[str, Any] = {"stdout": subprocess.PIPE, "stderr": subprocess.PIPE, "timeout": stand.LONG, "env": self.bare()}
        return subprocess.run(words, **{**keys, **more})

    def bare(self):
        """Variables without BTX_PROGRAM, so that what is installed finds its own program."""
        return {name: value for name, value in stand.environment().items() if name != "BTX_PROGRAM"}

    def is_right(self, done, status=0):
        self.assertEqual(done.returncode, status, done.stderr.decode())
        return done.stdout

    def works(self, prefix):
        """Whether btx under a prefix shows a page by the program beside it, from another folder."""
        command = os.path.join(prefix, "bin", "btx")
        page = os.path.join(prefix, "share/doc/tamligub/examples/title.btx")
        self.assertEqual(self.is_right(self.run_of(command, "show", page, cwd="/")), stand.put("show", stand.page("title")))
        self.assertIn(b"Guten Tag!", self.is_right(self.run_of(command, "terminal", page, cwd="/")))
        self.assertIn(b"<canvas", self.is_right(self.run_of(command, "html", page, cwd="/")))
        module = os.path.join(prefix, "share/tamligub/library/out/tamligub.wasm")
        for word in ("viewer", "editor"):
            done = self.run_of(command, word, cwd="/")
            if os.path.exists(module):
                self.assertIn(b'id="module"', self.is_right(done))
            else:
                self.assertEqual((done.returncode, done.stdout), (127, b""))
                self.assertIn(b"the decoder's module isn't installed", done.stderr)
        self.assertIn(b"no such file", self.run_of(command, "show", "nowhere").stderr)
        self.shows_a_line(prefix, command, page)
        package = glob.glob(os.path.join(glob.escape(prefix), "**", "tamligub", "__main__.py"), recursive=True)
        if package:
            places = {**self.bare(), "PYTHONPATH": os.path.dirname(os.path.dirname(package[0]))}
            shown = self.is_right(self.run_of(sys.executable, "-m", "tamligub", "show", page, cwd="/", env=places))
            self.assertEqual(shown, stand.put("show", stand.page("title")))

    def shows_a_line(self, prefix, command, page):
        """Whether btx shows what comes over standard input by the library under the prefix, or says that there is none."""
        with open(page, "rb") as file:
            done = self.run_of(command, "line", "-", stdin=file, cwd="/")
        if glob.glob(os.path.join(glob.escape(prefix), "lib", "**", "libtamligub.so.1"), recursive=True):
            self.assertIn(b"Tag!", self.is_right(done))
        else:
            self.assertEqual((done.returncode, done.stdout), (127, b""))
            self.assertIn(b"the decoder's library isn't installed", done.stderr)

    def reads_manual(self, prefix):
        for name, said in (("btx", b"Bildschirmtext"), ("cept_tool", b"EXIT STATUS")):
            manual = self.run_of("man", "-M", os.path.join(prefix, "share/man"), name, env={**self.bare(), "MANWIDTH": "80", "LC_ALL": "C.UTF-8"})
            self.assertIn(said, self.is_right(manual))

    def test_a_prefix(self):
        prefix = self.path("pre fix")
        done = self.run_of(INSTALL, prefix, env=stand.environment())
        said = self.is_right(done).decode()
        self.assertIn(f"install: BTX_PROGRAM names {stand.program}, and whether it is proved isn't looked at\n", done.stderr.decode())
        self.works(prefix)
        self.completes_in_fish(said)
        self.completes_in_bash(said)
        # Once more over itself.
        self.is_right(self.run_of(INSTALL, prefix, env=stand.environment()))
        self.works(prefix)

    def completes_in_fish(self, said):
        """Whether fish completes btx after what an install has said of it, typed in fish."""
        lines: list[str] = re.findall("^fish (?:finds them|completes btx) after: (.*)$", said, re.MULTILINE)
        self.assertEqual([line.split(" ")[0] for line in lines], ["fish_add_path", "source"])
        if stand.absent.needed(f"btx_tests/run: {self.id()}, fish", "fish"):
            bare = {name: value for name, value in self.bare().items() if name != "XDG_DATA_DIRS"}
            found = self.run_of("fish", "-c", "; ".join([*lines, "type -P btx; complete -C 'btx arc'"]), env={**bare, "HOME": self.folder})
            path, first = self.is_right(found).decode().split("\n")[:2]
            self.assertEqual((path, first.split("\t")[0]), (self.path("pre fix", "bin", "btx"), "archive"))

    def completes_in_bash(self, said):
        """Whether bash does, without its own package of completions."""
        line, = re.findall("^bash completes btx after: (.*)$", said, re.MULTILINE)
        found = self.run_of("bash", "-ec", f"{line}; complete -p btx", env={**self.bare(), "HOME": self.folder})
        self.assertEqual(self.is_right(found).split()[-1], b"btx")

    def contents(self, prefix):
        """All that is under a prefix, by its paths from there."""
        found = [os.path.join(place, name) for place, folders, names in os.walk(prefix) for name in folders + names]
        return sorted(os.path.relpath(path, prefix) for path in found)

    def test_options_that_do_not_go_together(self):
        place = self.path("place")
        for words, said in (
            (["--deb", place, self.path("prefix")], "takes no prefix"), (["--deb", place, "--uninstall"], "not allowed with"),
            (["--replace", "--uninstall", place], "not allowed with"), (["--replace", "--deb", place], "not allowed with"),
            ([""], "the prefix is empty"), (["--uninstall", ""], "the prefix is empty"),
            (["--deb", ""], "the name of the folder for --deb is empty"),
        ):
            done = self.run_of(INSTALL, *words, env=stand.environment())
            self.assertEqual((done.returncode, done.stdout, os.listdir(self.folder)), (2, b"", []), words)
            self.assertIn(said, done.stderr.decode())

    def test_help_describes_what_is_given(self):
        said = self.is_right(self.run_of(INSTALL, "--help")).decode()
        for word in ("PREFIX", "--deb DIR", "--uninstall", "--replace"):
            self.assertRegex(said, rf"(?m)^  {word} +\w")

    def test_an_older_python_is_told(self):
        """By each command that people begin with, before it reads any module of its own."""
        needs = "this needs Python 3.10 or a later one, and this is 3.9"
        commands = (("bin/btx", "btx", 127), ("install", "install", 1), ("build", "build", 1), ("library/build", "build", 1))
        for place, name, status in commands:
            path = os.path.join(stand.ROOT, place)
            with open(path, encoding="utf-8") as file:
                ast.parse(file.read(), feature_version=(3, 7))
            code = f"""import runpy, sys
sys.version_info, sys.modules["btx"], sys.modules["building"] = (3, 9, 18, "final", 0), None, None
runpy.run_path({path!r}, run_name="__main__")"""
            done = self.run_of(sys.executable, "-c", code)
            self.assertEqual((done.returncode, done.stdout, done.stderr.decode()), (status, b"", f"{name}: {needs}\n"))

    def test_the_package_tells_of_an_older_python(self):
        """In a sentence alone where it is run, and else by an ImportError, also in a module that is run."""
        self.written("sitecustomize.py", b'import sys\nsys.version_info = (3, 9, 18, "final", 0)\n')
        caught = "try:\n    import tamligub\nexcept ImportError as fault:\n    print(fault)\n"
        self.written("other.py", caught.encode())
        path = os.pathsep.join([self.folder, os.path.join(stand.ROOT, "library", "python")])
        env = stand.environment(PYTHONPATH=path, PYTHONDONTWRITEBYTECODE="1")
        said = b"tamligub needs Python 3.10 or a later one, and this is 3.9\n"
        done = self.run_of(sys.executable, "-m", "tamligub", "check", env=env)
        self.assertEqual((done.returncode, done.stdout, done.stderr), (127, b"", said))
        for words in (("-c", caught), ("-m", "other")):
            done = self.run_of(sys.executable, *words, env=env)
            self.assertEqual((done.returncode, done.stdout, done.stderr), (0, said, b""))

    def test_files_of_others_stay_until_they_are_to_be_replaced(self):
        """Those with the very bytes are no hindrance, and stay; a link is one. An uninstall takes all, and what was compiled, but that of
        others."""
        prefix = self.path("prefix")
        places = ["bin/cept_tool", "share/man/man1/btx.1.gz", "share/man/man1/cept_tool.1.gz", "share/fish/vendor_completions.d/btx.fish"]
        for place in places:
            os.makedirs(os.path.dirname(os.path.join(prefix, place)), exist_ok=True)
        for place in places[:3]:
            self.written(f"prefix/{place}", b"others")
        os.symlink("nowhere", os.path.join(prefix, places[3]))
        shutil.copy(os.path.join(stand.ROOT, "bin", "btx"), os.path.join(prefix, "bin"))
        before = self.contents(prefix)
        done = self.run_of(INSTALL, prefix, env=stand.environment())
        self.assertEqual((done.returncode, done.stdout, self.contents(prefix)), (1, b"", before))
        said = done.stderr.decode().splitlines()[-1]
        self.assertIn(" and 1 more; --replace replaces them", said)
        self.assertEqual(sum(os.path.join(prefix, place) in said for place in places), 3)
        self.assertNotIn("bin/btx", said)
        self.is_right(self.run_of(INSTALL, "--replace", prefix, env=stand.environment()))
        self.works(prefix)
        own = ["share/tamligub/own", "share/tamligub/own/__pycache__", "share/tamligub/own/__pycache__/own.pyc"]
        os.makedirs(os.path.join(prefix, own[1]))
        self.written(f"prefix/{own[2]}", b"")
        self.is_right(self.run_of(sys.executable, "-m", "compileall", "-q", os.path.join(prefix, "share", "tamligub")))
        self.assertTrue(os.path.isdir(os.path.join(prefix, "share/tamligub/library/python/tamligub/__pycache__")))
        self.is_right(self.run_of(INSTALL, "--uninstall", prefix))
        stood = {os.path.dirname(place) for place in places} | {"share/man", "share/fish", "share"}
        self.assertEqual(self.contents(prefix), sorted([*own, *stood, "bin/btx", "share/tamligub"]))

    def test_what_others_put_in_the_place_of_its_files_stays(self):
        """At an uninstall, which names it; and at an install, where it is to be replaced."""
        prefix = self.path("prefix")
        self.is_right(self.run_of(INSTALL, prefix, env=stand.environment()))
        self.written("prefix/bin/btx", b"others")
        done = self.run_of(INSTALL, prefix, env=stand.environment())
        self.assertEqual((done.returncode, done.stdout), (1, b""))
        self.assertIn(f"are in the way: {prefix}/bin/btx; --replace replaces them\n", done.stderr.decode())
        said = self.is_right(self.run_of(INSTALL, "--uninstall", prefix)).decode()
        self.assertEqual(said, f"what others have put in its place since stays: {prefix}/bin/btx\n")
        self.assertEqual(self.contents(prefix), ["bin", "bin/btx"])

    def test_a_package_that_came_over_an_install_stays_whole(self):
        """Also what has the same bytes, links among it."""
        prefix = self.path("prefix")
        self.is_right(self.run_of(INSTALL, prefix, env=stand.environment()))
        packed = [place for place in self.contents(prefix) if place != tree.LIST]
        for place in packed:
            if not os.path.isdir(os.path.join(prefix, place)):
                os.utime(os.path.join(prefix, place), (10**9, 10**9), follow_symlinks=False)
        said = self.is_right(self.run_of(INSTALL, "--uninstall", prefix)).decode()
        self.assertTrue(said.startswith("what others have put in its place since stays: "), said)
        self.assertEqual(self.contents(prefix), packed)

    def test_a_folder_in_the_place_of_a_file(self):
        """And a file in that of a folder: each is named before anything is written, whatever is to be replaced."""
        os.makedirs(self.path("one", "bin", "btx"))
        os.makedirs(self.path("two"))
        self.written("two/bin", b"")
        for prefix, place in (("one", "bin/btx"), ("two", "bin")):
            before = self.contents(self.path(prefix))
            done = self.run_of(INSTALL, "--replace", self.path(prefix), env=stand.environment())
            self.assertEqual((done.returncode, self.contents(self.path(prefix))), (1, before))
            self.assertRegex(done.stderr.decode(), rf"\ninstall: {re.escape(self.path(prefix, place))} is (a|no) folder")

    def test_an_install_that_fails_is_taken_away(self):
        """Where writing fails the message names the file, and nothing that was begun stays; --uninstall takes the rest."""
        prefix = self.path("prefix")

        def with_little_room():
            resource.setrlimit(resource.RLIMIT_FSIZE, (60_000, 60_000))

        done = self.run_of(INSTALL, prefix, env=stand.environment(), preexec_fn=with_little_room)
        self.assertEqual(done.returncode, 1)
        self.assertRegex(done.stderr.decode(), rf"\ninstall: {re.escape(prefix)}/\S+: File too large\n$")
        left = [place for place in self.contents(prefix) if os.path.isfile(os.path.join(prefix, place))]
        self.assertIn("share/tamligub/installed", left)
        self.assertEqual([place for place in left if place.endswith(tree.NEW)], [])
        self.is_right(self.run_of(INSTALL, "--uninstall", prefix))
        self.assertFalse(os.path.exists(prefix))

    def test_an_install_that_is_killed_is_taken_away(self):
        """Of an earlier install too, with the file that was being written; all that is there is listed before."""
        prefix = self.path("prefix")
        earlier = tree.Tree(prefix, prefix)
        earlier.write("lib/earlier", b"")
        earlier.install(False)
        code = """import os, signal, sys
from building import tree
class Killed:
    def mark(self):
        return "0"
    def make(self, path):
        open(path, "w").close()
        os.kill(os.getpid(), signal.SIGKILL)
place = tree.Tree(sys.argv[1], sys.argv[1])
place.write("bin/first", b"")
place.files["bin/second"] = Killed()
place.write("bin/third", b"")
place.install(False)
"""
        done = self.run_of(sys.executable, "-c", code, prefix, cwd=stand.ROOT)
        self.assertEqual(done.returncode, -signal.SIGKILL)
        names = ["bin/first", f"bin/second{tree.NEW}", "lib/earlier", "share/tamligub/installed"]
        self.assertEqual([place for place in self.contents(prefix) if os.path.isfile(os.path.join(prefix, place))], names)
        self.is_right(self.run_of(INSTALL, "--uninstall", prefix))
        self.assertFalse(os.path.exists(prefix))

    def test_an_install_that_is_killed_at_any_step_is_taken_away(self):
        """Also in the first instants, with the folders above its prefix; and over an earlier one."""
        prefix = self.path("one", "two")
        code = """import os, signal, sys
from building import tree
place = tree.Tree(sys.argv[1], sys.argv[1])
place.write("bin/first", b"")
left = int(sys.argv[2])
def step(event, _):
    global left
    if event in ("os.chmod", "os.mkdir", "os.remove", "os.rename", "open"):
        left -= 1
        if left == 0:
            os.kill(os.getpid(), signal.SIGKILL)
sys.addaudithook(step)
place.install(False)
"""
        earlier = tree.Tree(prefix, prefix)
        earlier.write("lib/earlier", b"")
        for is_over in (False, True):
            for count in range(1, 100):
                if is_over:
                    earlier.install(False)
                done = self.run_of(sys.executable, "-c", code, prefix, str(count), cwd=stand.ROOT)
                self.run_of(INSTALL, "--uninstall", prefix)
                self.assertEqual(self.contents(self.folder), [], (is_over, count))
                if done.returncode == 0:
                    break
                self.assertEqual(done.returncode, -signal.SIGKILL, done.stderr.decode())
            self.assertGreater(count, 8)

    def test_an_interrupt_ends_it_without_a_word(self):
        """While it reads the program, which comes through a pipe."""
        program = self.path("cept_tool")
        os.mkfifo(program, 0o755)
        command = subprocess.Popen(
            [INSTALL, self.path("prefix")], stdout=subprocess.PIPE, stderr=subprocess.PIPE, env={**self.bare(), "BTX_PROGRAM": program},
            start_new_session=True, preexec_fn=stand.as_from_a_terminal,
        )
        # It opens once the other end is read.
        with open(program, "wb"):
            command.send_signal(signal.SIGINT)
            output, said = command.communicate(timeout=stand.LONG)
        self.assertEqual((command.returncode, output, os.path.exists(self.path("prefix"))), (-signal.SIGINT, b"", False))
        self.assertNotIn(b"Traceback", said)
        self.assertEqual([line for line in said.decode().splitlines() if not line.startswith("install: ")], [])

    def test_a_package_that_fails_leaves_nothing(self):
        self.needs("dpkg")
        os.mkdir(self.path("bin"))
        failing = self.written("bin/dpkg-deb", b'#!/bin/sh\nfor word; do last=$word; done\n: > "$last"\necho no room >&2\nexit 2\n')
        os.chmod(failing, 0o755)
        env = stand.environment(PATH=f"{self.path('bin')}:{os.environ['PATH']}")
        done = self.run_of(INSTALL, "--deb", self.path("deb"), env=env)
        self.assertEqual((done.returncode, done.stdout, os.listdir(self.path("deb"))), (1, b"", []))
        self.assertIn(b"dpkg-deb failed: no room", done.stderr)
        file = self.written("file", b"")
        for folder in (file, self.path("file", "sub")):
            done = self.run_of(INSTALL, "--deb", folder, env=env)
            self.assertEqual(done.stderr.decode().splitlines()[-1], f"install: {file} is no folder, and one is needed in its place")

    def test_the_manual(self):
        self.needs("man")
        self.is_right(self.run_of(INSTALL, self.path("prefix"), env=stand.environment()))
        self.reads_manual(self.path("prefix"))

    def test_help_names_the_manual_that_can_be_read(self):
        """That of the prefix by its path, and by its name alone where man finds it, beside a bin of the PATH."""
        prefix = self.path("prefix")
        self.is_right(self.run_of(INSTALL, prefix, env=stand.environment()))
        path, names = os.environ["PATH"], [os.path.join(prefix, "share", "man", "man1", f"{name}.1.gz") for name in ("btx", "cept_tool")]
        for places, said in ((path, "man -l {} and man -l {} say more".format(*names)), (f"{prefix}/bin:{path}", "man btx and man cept_tool say more")):
            shown = self.is_right(self.run_of(os.path.join(prefix, "bin", "btx"), "--help", env=stand.environment(PATH=places))).decode()
            # Lines of the help end where they are full, within a name too.
            self.assertIn("".join(said.split()), "".join(shown.split()))

    def test_without_the_program_it_says_what_to_do(self):
        done = self.run_of(INSTALL, self.path("prefix"), env={**self.bare(), "BTX_PROGRAM": "nowhere"})
        self.assertEqual((done.returncode, os.path.exists(self.path("prefix"))), (1, False))
        self.assertIn(b"BTX_PROGRAM is nowhere", done.stderr)

    def test_a_debian_package_is_installed_used_and_removed(self):
        self.needs("dpkg", "dpkg-deb")
        paths = self.is_right(self.run_of(INSTALL, "--deb", self.path("deb"), env=stand.environment())).decode().split()
        system = self.path("system")
        for place in ("var/lib/dpkg/info", "var/lib/dpkg/updates", "usr"):
            os.makedirs(os.path.join(system, place))
        open(os.path.join(system, "var/lib/dpkg/status"), "w", encoding="ascii").close()
        # A system of its own in a folder, so that the machine's own packages stay as they are.
        names, usr = [os.path.basename(path).partition("_")[0] for path in paths], os.path.join(system, "usr")
        dpkg = ["dpkg", "--root=" + system, "--log=/dev/null", "--force-not-root", "--force-depends", "--force-bad-path"]
        dpkg += ["--force-script-chrootless"]
        env = self.with_notes("py3compile", "py3clean")
        self.is_right(self.run_of(*dpkg, "--install", *paths, env=env))
        with open(os.path.join(usr, "bin", "btx"), "rb") as file:
            self.assertEqual(file.readline(), b"#!/usr/bin/python3\n")
        for path in paths:
            self.has_sums(path, system)
        self.works(usr)
        self.passes(system, names)
        if stand.absent.needed(f"btx_tests/run: {self.id()}, the manual", "man"):
            self.reads_manual(usr)
        self.is_right(self.run_of(*dpkg, "--remove", *names, env=env))
        self.assertEqual([name for _, _, files in os.walk(usr) for name in files], [])
        with open(self.path("notes"), encoding="utf-8") as file:
            told = file.read().splitlines()
        wanted = {"tamligub": "-p tamligub /usr/share/tamligub", "python3-tamligub": "-p python3-tamligub"}
        wanted = {name: wanted[name] for name in wanted if name in names}
        self.assertEqual(sorted(told), sorted(f"{command} {words}" for command in ("py3clean", "py3compile") for words in wanted.values()))

    def with_notes(self, *commands):
        """Variables by which these commands only note how they are called."""
        os.mkdir(self.path("noting"))
        for name in commands:
            self.written(f"noting/{name}", f"#!/bin/sh\necho {name} \"$@\" >> '{self.path('notes')}'\n".encode())
            os.chmod(self.path("noting", name), 0o755)
        return {**self.bare(), "PATH": f"{self.path('noting')}:{os.environ['PATH']}"}

    def has_sums(self, package, system):
        """Whether a package has the sums of all its files, and scripts that do without the commands of Debian's Python."""
        os.makedirs(self.path("told"), exist_ok=True)
        told = self.path("told", os.path.basename(package))
        self.is_right(self.run_of("dpkg-deb", "--control", package, told))
        with open(os.path.join(told, "md5sums"), encoding="utf-8") as file:
            sums = {place: told_sum for told_sum, _, place in (line.partition("  ") for line in file.read().splitlines())}
        listing = self.is_right(self.run_of("dpkg-deb", "--contents", package)).decode().splitlines()
        self.assertEqual(sorted(sums), sorted(line.split(" ./")[1] for line in listing if line.startswith("-")))
        for place, wanted in sums.items():
            self.assertEqual(hashlib.md5(tree.bytes_of(os.path.join(system, place)), usedforsecurity=False).hexdigest(), wanted, place)
        for name in {"postinst", "prerm"} & set(os.listdir(told)):
            self.is_right(self.run_of("/bin/sh", os.path.join(told, name), "configure", env={"PATH": self.path("nowhere")}))

    def passes(self, system, packages):
        """Runs the tests of these packages, as debian/tests has them for autopkgtest, in a system that stands in a folder."""
        usr, kind = os.path.join(system, "usr"), deb.multiarch()
        own = {
            "PATH": f"{usr}/bin:{os.environ['PATH']}", "PYTHONPATH": f"{usr}/lib/python3/dist-packages", "LD_LIBRARY_PATH": f"{usr}/lib/{kind}",
            "PKG_CONFIG_LIBDIR": f"{usr}/lib/{kind}/pkgconfig", "PKG_CONFIG_SYSROOT_DIR": system, "PYTHONDONTWRITEBYTECODE": "1",
        }
        with open(os.path.join(stand.ROOT, "debian", "tests", "control"), encoding="utf-8") as file:
            listed = dict(re.findall(r"^Tests: (\S+)\nDepends: ([\w-]+)", file.read(), re.MULTILINE))
        self.assertEqual(set(listed.values()), set(deb.PACKAGES))
        for name, package in listed.items():
            if package in packages and (name != "c-library" or stand.absent.needed(f"btx_tests/run: {self.id()}, {name}", "cc", "pkg-config")):
                os.makedirs(self.path(name))
                env = {**self.bare(), **own, "AUTOPKGTEST_TMP": self.path(name)}
                self.is_right(self.run_of(os.path.join(stand.ROOT, "debian", "tests", name), env=env))

    def test_lintian_finds_nothing_in_the_packages(self):
        lintian, _, _, _ = self.needs("lintian", "dpkg-deb", "readelf", "dpkg")
        paths = self.is_right(self.run_of(INSTALL, "--deb", self.path("deb"), env=stand.environment())).decode().split()
        self.assertIn(len(paths), (1, len(deb.PACKAGES)))
        done = self.run_of(lintian, "--fail-on", "error,warning", *paths)
        self.assertEqual((done.returncode, re.findall("^[EW]: .*", done.stdout.decode(), re.MULTILINE)), (0, []))

    def test_the_library_under_a_prefix(self):
        """A program in C is built by pkg-config and runs as it is, and btx and Python take the library from there."""
        prefix = self.path("pre fix")
        self.is_right(self.run_of(INSTALL, prefix, env=stand.environment()))
        if not os.path.exists(os.path.join(prefix, "lib", "libtamligub.so.1")):
            self.leave_out(why="there is no library/out/libtamligub.so.1 (library/build library/out makes it)")
        page, want = stand.page("title"), stand.put("show", stand.page("title"))
        code = f"import tamligub, sys; sys.stdout.buffer.write(tamligub.show(open({page!r}, 'rb').read()).encode())"
        env = {**self.bare(), "PYTHONPATH": os.path.join(prefix, "share/tamligub/library/python")}
        self.assertEqual(self.is_right(self.run_of(sys.executable, "-c", code, env=env)), want)
        os.remove(os.path.join(prefix, "bin", "cept_tool"))
        self.assertEqual(self.is_right(self.run_of(os.path.join(prefix, "bin", "btx"), "show", page)), want)
        self.needs("cc", "pkg-config")
        env = {**self.bare(), "PKG_CONFIG_PATH": os.path.join(prefix, "lib", "pkgconfig")}
        line = f"eval cc {stand.ROOT}/library/example.c $(pkg-config --cflags --libs tamligub) -o {self.path('example')}"
        self.is_right(self.run_of("sh", "-ec", line, env=env))
        self.assertEqual(self.is_right(self.run_of(self.path("example"), page)), want)

    def test_what_pkg_config_reads_holds_under_any_prefix(self):
        config, = self.needs("pkg-config")
        for prefix in ("/pre fix", "/c#", '/a"b', "/a\\b", "/a,b"):
            self.written("tamligub.pc", shared.pkg_config(prefix, "${prefix}/lib", "${prefix}/include", "0.1", is_searched=False).encode())
            done = self.run_of(config, "--cflags", "--libs", "tamligub", env={**self.bare(), "PKG_CONFIG_PATH": self.folder})
            words = shlex.split(self.is_right(done).decode())
            # A linker is told of a comma by a word of its own.
            path = ["-Xlinker", f"-rpath={prefix}/lib"] if "," in prefix else [f"-Wl,-rpath,{prefix}/lib"]
            self.assertEqual(words, [f"-I{prefix}/include", f"-L{prefix}/lib", *path, "-ltamligub"])

    def test_a_prefix_that_files_cannot_name_is_told(self):
        for more, said in ((b"\xff", b"isn't UTF-8, as files are in which it stands"), (b"\n", b"has the end of a line in it")):
            done = self.run_of(INSTALL, os.fsencode(self.path("pre")) + more, env=stand.environment())
            self.assertEqual((done.returncode, done.stdout, os.listdir(self.folder)), (1, b"", []))
            self.assertIn(b"install: the name of the prefix " + said, done.stderr)

    def test_packages_in_a_folder_that_is_not_utf_8(self):
        self.needs("dpkg", "dpkg-deb")
        folder = os.fsencode(self.path("deb")) + b"\xff"
        paths = self.is_right(self.run_of(INSTALL, "--deb", folder, env=stand.environment())).splitlines()
        self.assertEqual(sorted(paths), sorted(os.path.join(folder, name) for name in os.listdir(folder)))

    def test_a_full_output_is_told_once(self):
        """By install and build, of their help too, whether or not it is kept to the end."""
        commands = (("install", INSTALL, self.path("prefix")), ("install", INSTALL, "--help"), ("build", os.path.join(stand.ROOT, "build"), "--help"),
                    ("build", os.path.join(stand.ROOT, "library", "build"), "--help"))
        for unbuffered in ("", "1"):
            # An empty one is none.
            env = stand.environment(PYTHONUNBUFFERED=unbuffered)
            for name, *words in commands:
                with open("/dev/full", "wb") as full:
                    done = self.run_of(*words, env=env, stdout=full)
                self.assertEqual(done.returncode, 1, words)
                self.assertEqual(done.stderr.decode().splitlines()[-1], f"{name}: standard output: No space left on device")
        self.works(self.path("prefix"))

    def test_an_install_with_its_output_closed(self):
        line = f"{INSTALL} {self.path('prefix')} >&-"
        self.is_right(self.run_of("sh", "-c", line, env=stand.environment(PYTHONSAFEPATH="1")))
        self.assertTrue(os.path.exists(self.path("prefix", "bin", "btx")))

    def test_the_completion_of_bash(self):
        script = self.written("btx.bash", stand.btx("completion", "bash").stdout)
        cases: list[tuple[list[str], list[str]]] = [
            (["btx", "te"], ["terminal"]), (["btx", "c"], ["cast", "changes", "check", "cells", "check-script", "colours.btx", "completion", "cut"]),
            (["btx", "terminal", "--re"], ["--reveal", "--replay"]), (["btx", "help", "ar"], ["archive"]),
            (["btx", "edit", "--o"], ["--output"]),
            (["btx", "terminal", "--replay", "1"], ["1200"]), (["btx", "show", "title.b"], ["title.btx"]), (["btx", "--v"], ["--version"]),
            (["btx", "gen", ""], []), (["btx", "archive", "exp"], ["expected"]), (["btx", "completion", ""], ["bash", "zsh", "fish"]),
            (["btx", "png", "-o", "boat.b"], ["boat.btx"]), (["btx", "png", "--scale", "boat.b"], []), (["btx", "gif", "--replay", "2"], ["2400"]),
            (["btx", "terminal", "--signs", "s"], ["sextants", "sixel"]), (["btx", "host", "exp"], ["expected"]), (["btx", "host", "--bits", "9"], ["9600"]),
            (["btx", "line", "--k"], ["--keys"]), (["btx", "cut", "boat.b"], ["boat.btx"]), (["btx", "exp"], ["expected"]),
            (["btx", "diff", "boat.b"], ["boat.btx"]), (["btx", "diff", "boat.btx", "title.b"], ["title.btx"]),
        ]
        for words, wanted in cases:
            self.assertEqual(self.completed_by_bash(script, words, stand.PAGES), sorted(wanted), words)

    def completed_by_bash(self, script, words, folder):
        """What bash offers for the last of some words in a folder."""
        line = f". {script}; COMP_WORDS=({shlex.join(words)}); COMP_CWORD={len(words) - 1}; _btx; printf '%s\\n' \"${{COMPREPLY[@]}}\""
        return sorted(self.is_right(self.run_of("bash", "-c", line, cwd=folder)).decode().split())

    def in_folders(self):
        """A folder with one in it that has a page, and one that has the name of a word."""
        for name in ("some", "edit"):
            os.makedirs(self.path("here", name))
        shutil.copy(stand.page("title"), self.path("here", "some"))
        return self.path("here")

    def test_the_completion_of_bash_reaches_a_page_in_a_folder(self):
        script, folder = self.written("btx.bash", stand.btx("completion", "bash").stdout), self.in_folders()
        for word, wanted in (("so", ["some"]), ("some/ti", ["some/title.btx"]), ("edi", ["edit", "edit/", "editor"])):
            self.assertEqual(self.completed_by_bash(script, ["btx", word], folder), wanted)

    def test_the_completion_of_zsh(self):
        """By what it hands to the functions of zsh that complete."""
        zsh, = self.needs("zsh")
        script = self.written("_btx", stand.btx("completion", "zsh").stdout)
        stubs = """compdef() { :; }; _files() { print -r -- files "$@"; }; _describe() { print -rl -- ${(P)2}; }
        _arguments() { if [[ $1 = -C ]]; then state=$asked; return 1; else print -rl -- "$@"; fi; }"""
        for asked, words, wanted in (
            ("word", ["te"], ["terminal:the page in colour in the terminal", "files -g *.btx"]), ("after", ["help", ""], ["archive:"]),
            ("after", ["terminal", ""], ["--reveal[", "--replay[", ":BITS:(1200 2400 9600)", "*:PAGE:_files"]),
            ("after", ["archive", ""], ["--jobs-by[", ":(btx parallel)", "*:FOLDER:_files -/"]),
            ("after", ["edit", ""], ["-o[", "--output[", ":FILE:_files"]), ("after", ["diff", ""], ["*:A:_files"]),
            # What may stand several times is offered again.
            ("after", ["archive", ""], ["\n*--pattern[", "\n*--sshlogin[", "\n--title["]),
        ):
            found = self.run_of(zsh, "-f", "-c", f"{stubs}; . {script}; asked={asked}; words=({shlex.join(words)}); _btx")
            text = self.is_right(found).decode()
            self.assertEqual(found.stderr, b"")
            for one in wanted:
                self.assertIn(one, text)

    def test_the_completion_of_fish(self):
        fish, = self.needs("fish")
        script = self.written("btx.fish", stand.btx("completion", "fish").stdout)
        for line, wanted in (
            ("btx te", ["terminal"]), ("btx arc", ["archive"]), ("btx terminal --re", ["--replay", "--reveal"]),
            ("btx terminal --replay 1", ["1200"]),
            ("btx show title.b", ["title.btx"]), ("btx title.b", ["title.btx"]), ("btx help ar", ["archive"]), ("btx edit --o", ["--output"]),
            ("btx archive --jobs-by p", ["parallel"]), ("btx completion z", ["zsh"]), ("btx gen ti", []),
            ("btx diff title.btx boat.b", ["boat.btx"]), ("btx archive --pattern x --pat", ["--pattern"]),
        ):
            self.assertEqual(self.completed_by_fish(fish, script, line, stand.PAGES), wanted, line)
        folder = self.in_folders()
        for line, wanted in (("btx so", ["some/"]), ("btx some/ti", ["some/title.btx"])):
            self.assertEqual(self.completed_by_fish(fish, script, line, folder), wanted, line)

    def completed_by_fish(self, fish, script, line, folder):
        """What fish offers for a line in a folder."""
        words, env = ["--no-config", "-c", f"source {script}; complete -C '{line}'"], {**self.bare(), "HOME": self.folder}
        found = self.run_of(fish, *words, cwd=folder, env=env)
        return [one.split("\t")[0] for one in self.is_right(found).decode().splitlines()]

    def test_each_completion_and_the_manual_know_all_words_and_options(self):
        with open(os.path.join(stand.ROOT, "docs", "btx.1"), encoding="utf-8") as file:
            texts = [file.read().replace("\\-", "-")]
        texts += [stand.btx("completion", shell).stdout.decode().replace(" -l ", " --") for shell in ("bash", "zsh", "fish")]
        words = [line.split()[0] for line in stand.btx("--help").stdout.decode().splitlines() if line.startswith("    ") and line[4] != " "]
        self.assertGreater(len(words), 20)
        for word in words:
            help_of = stand.btx(word, "--help").stdout.decode()
            options = {*re.findall(r"--[a-z-]*[a-z]", help_of)} - {"--help"}
            for known in texts:
                self.assertRegex(known, rf"\b{word}\b")
                for option in options:
                    self.assertIn(option, known, word)

    def test_a_desktop_knows_pages(self):
        prefix = self.path("pre fix")
        self.is_right(self.run_of(INSTALL, prefix, env=stand.environment()))
        kind = "application/x-bildschirmtext"
        types = xml.etree.ElementTree.parse(os.path.join(prefix, "share/mime/packages/tamligub.xml")).getroot()
        space = "{http://www.freedesktop.org/standards/shared-mime-info}"
        self.assertEqual([(one.get("type"), one.find(f"{space}glob").get("pattern")) for one in types], [(kind, "*.btx")])
        for place, head in (("applications/tamligub.desktop", "Desktop Entry"), ("thumbnailers/tamligub.thumbnailer", "Thumbnailer Entry")):
            entry = configparser.ConfigParser(interpolation=None, delimiters="=", strict=True)
            entry.read(os.path.join(prefix, "share", place), encoding="utf-8")
            self.assertEqual(entry[head]["MimeType"], f"{kind};")
            self.assertTrue(os.access(entry[head]["TryExec"], os.X_OK))
            self.runs(shlex.split(entry[head]["Exec"]))

    def test_what_a_desktop_reads_holds_under_any_prefix(self):
        """A backslash is doubled in an entry, a program whose path has % is called by nice, and XDG_DATA_DIRS can name no folder with a colon."""
        for prefix, lines in (
            ("/a\\s", (b"\nTryExec=/a\\\\s/bin/btx\n", b'\nExec="/a\\\\\\\\s/')),
            ("/50%", (b"\nTryExec=/50%/bin/btx\n", b'\nExec=nice -n 0 "/50%%/')),
        ):
            place = tree.Tree("", prefix)
            parts.put_desktop(place)
            for name in ("applications/tamligub.desktop", "thumbnailers/tamligub.thumbnailer"):
                entry = place.files[f"share/{name}"]
                assert isinstance(entry, tree.File)
                for line in lines:
                    self.assertIn(line, entry.data)
        said = list(desktop.made_known("/a:b"))
        self.assertIn("it looks in no folder with : in its name, which XDG_DATA_DIRS can't name", said)
        self.assertFalse(any("XDG_DATA_DIRS=" in line for line in said))

    def runs(self, words):
        """Runs an entry as a desktop does: one that makes a picture, or one that opens a file that plays the page."""
        page = stand.page("title")
        if "%o" in words:
            if not stand.absent.has_library("PIL"):
                self.leave_out("PIL")
            picture = self.path("out.png")
            self.is_right(self.run_of(*({"%i": page, "%o": picture}.get(word, word) for word in words)))
            with open(picture, "rb") as file:
                self.assertEqual(struct.unpack(">8x4x4xII", file.read(24)), (960, 720))
            return
        opener = self.written("xdg-open", f"#!/bin/sh\ncat \"$1\" > '{self.path('opened')}'\n".encode())
        os.chmod(opener, 0o755)
        env = {**self.bare(), "PATH": f"{self.folder}:{os.environ['PATH']}", "XDG_RUNTIME_DIR": self.folder}
        self.is_right(self.run_of(*(page if word == "%f" else word for word in words), env=env))
        with open(self.path("opened"), "rb") as file:
            self.assertEqual(file.read(), stand.btx("html", page).stdout)

    def test_documents_and_pictures_that_readme_names_are_there(self):
        prefix = self.path("prefix")
        self.is_right(self.run_of(INSTALL, prefix, env=stand.environment()))
        folder = os.path.join(prefix, "share/doc/tamligub")
        with open(os.path.join(folder, "README.md"), encoding="utf-8") as file:
            named = set(re.findall(r"[\w./-]+\.(?:md|png)\b", file.read()))
        self.assertGreater(len(named), 8)
        for name in named:
            self.assertTrue(os.path.isfile(os.path.join(folder, name)), name)
        self.assertTrue(os.path.isfile(os.path.join(folder, "examples", "weather.drawing")))

    def test_each_installed_document_has_what_it_names(self):
        """Documents, pictures, and the examples in C with their header, by their place or beside the document."""
        prefix = self.path("prefix")
        self.is_right(self.run_of(INSTALL, prefix, env=stand.environment()))
        folder, count = os.path.join(prefix, "share/doc/tamligub"), 0
        for place, _, names in os.walk(folder):
            for document in (name for name in names if name.endswith(".md")):
                with open(os.path.join(place, document), encoding="utf-8") as file:
                    text = file.read()
                at = os.path.relpath(place, folder)
                for name in set(re.findall(r"[\w./-]+\.(?:md|png|c|h)\b", text)):
                    for one in (os.path.normpath(name), os.path.normpath(os.path.join(at, name))):
                        if os.path.isfile(os.path.join(stand.ROOT, one)):
                            count += 1
                            self.assertTrue(os.path.isfile(os.path.join(folder, one)), (document, one))
                for link in re.findall(r"\]\(([^)#]+)\)", text):
                    self.assertTrue(os.path.isfile(os.path.join(place, link)), (document, link))
        self.assertGreater(count, 40)

    def test_pkg_config_takes_a_prefix_with_spaces(self):
        command, = self.needs("pkg-config")
        self.written("tamligub.pc", parts.pkg_config(tree.Tree("", "/a place/of it")).encode())
        path = "-Wl,-rpath,/a place/of it/lib"
        for words, wanted in ((["--cflags"], ["-I/a place/of it/include"]), (["--libs"], ["-L/a place/of it/lib", path, "-ltamligub"])):
            found = self.run_of(command, *words, "tamligub", env={**self.bare(), "PKG_CONFIG_PATH": self.folder})
            self.assertEqual(shlex.split(self.is_right(found).decode()), wanted)

    def test_an_install_is_taken_away(self):
        prefix = self.path("prefix")
        os.makedirs(os.path.join(prefix, "share", "man"))
        own = self.written("prefix/share/man/own", b"")
        for _ in range(2):
            self.is_right(self.run_of(INSTALL, prefix, env=stand.environment()))
        # What an earlier one put and this one doesn't goes with the next, which says so.
        os.mkdir(os.path.join(prefix, "share/tamligub/aside"))
        old = self.written("prefix/share/tamligub/aside/old", b"")
        with open(os.path.join(prefix, "share/tamligub/installed"), "a", encoding="ascii") as file:
            file.write("share/tamligub/aside/old\nshare/tamligub/aside/\n")
        for said in (f"taken away, since an earlier install had it and this one hasn't: {old}\n", "installed; "):
            done = self.is_right(self.run_of(INSTALL, prefix, env=stand.environment()))
            self.assertEqual(done.decode()[: len(said)], said)
        self.assertFalse(os.path.exists(os.path.dirname(old)))
        self.works(prefix)
        self.is_right(self.run_of(INSTALL, "--uninstall", prefix, env={**self.bare(), "BTX_PROGRAM": "nowhere"}))
        left = [os.path.join(place, name) for place, folders, names in os.walk(prefix) for name in folders + names]
        self.assertEqual(left, [os.path.join(prefix, "share"), os.path.join(prefix, "share", "man"), own])
        done = self.run_of(INSTALL, "--uninstall", prefix)
        self.assertEqual((done.returncode, done.stderr.decode()), (1, f"install: nothing was installed under {prefix}\n"))

    def desktop_noticed(self, prefix):
        """Makes what a desktop's commands make under a prefix: by those that are on this machine, and else empty files of the names."""
        for notes in desktop.ALL:
            at = os.path.join(prefix, notes.folder)
            found = shutil.which(notes.command)
            if found:
                self.is_right(self.run_of(found, at))
            else:
                open(os.path.join(at, notes.made[-1]), "w", encoding="ascii").close()
            self.assertTrue(os.path.exists(os.path.join(at, notes.made[-1])))

    def test_what_a_desktop_made_of_an_install_goes_with_it(self):
        """All of it where nothing else is there; else it stays, and the commands that make it again are said."""
        prefix = self.path("pre fix")
        self.is_right(self.run_of(INSTALL, prefix, env=stand.environment()))
        self.desktop_noticed(prefix)
        self.assertEqual(self.is_right(self.run_of(INSTALL, "--uninstall", prefix)), b"")
        self.assertFalse(os.path.exists(prefix))
        self.is_right(self.run_of(INSTALL, prefix, env=stand.environment()))
        types = b'<mime-info xmlns="http://www.freedesktop.org/standards/shared-mime-info"/>'
        others = [self.written(f"pre fix/share/{place}", data) for place, data in (("mime/packages/other.xml", types), ("applications/other.desktop", b""))]
        self.desktop_noticed(prefix)
        said = self.is_right(self.run_of(INSTALL, "--uninstall", prefix)).decode()
        self.assertEqual(said, "".join(f"a desktop forgets .btx files after: {notes.line(prefix)}\n" for notes in desktop.ALL))
        self.assertTrue(all(os.path.exists(os.path.join(prefix, notes.folder, notes.made[-1])) for notes in desktop.ALL))
        self.assertTrue(all(map(os.path.exists, others)))
        for line in said.splitlines():
            words = shlex.split(line.partition(": ")[2])
            if shutil.which(words[0]):
                self.is_right(self.run_of(*words))
                self.assertFalse(os.path.exists(os.path.join(words[1], desktop.TYPE)))

    def test_an_install_says_what_makes_a_desktop_know_it(self):
        """Each command by itself, and the package of one that isn't there."""
        os.mkdir(self.path("bin"))
        self.written("bin/update-mime-database", b"#!/bin/sh\n")
        os.chmod(self.path("bin", "update-mime-database"), 0o755)
        os.symlink(sys.executable, self.path("bin", "python3"))
        done = self.run_of(INSTALL, self.path("prefix"), env=stand.environment(PATH=self.path("bin")), cwd=self.folder)
        share = self.path("prefix", "share")
        self.assertEqual(self.is_right(done).decode().splitlines()[-5:], [
            f"a desktop knows .btx files after: update-mime-database {share}/mime",
            f"a desktop opens them after: update-desktop-database {share}/applications",
            "update-desktop-database isn't on this machine (Debian: apt-get install desktop-file-utils)",
            f"it looks there only where its login has: XDG_DATA_DIRS={share}:${{XDG_DATA_DIRS:-/usr/local/share:/usr/share}}",
            "GNOME makes small pictures by programs within /usr alone: they take a prefix there, such as /usr/local",
        ])

    def test_a_list_that_was_not_written_goes_with_an_uninstall(self):
        """Of an install that was killed while it wrote that."""
        os.makedirs(self.path("prefix", "share", "tamligub"))
        self.written("prefix/share/tamligub/installed.tamligub-new", b"bin/b")
        done = self.run_of(INSTALL, "--uninstall", self.path("prefix"))
        self.assertEqual((done.returncode, self.contents(self.path("prefix"))), (1, ["share"]))

    def test_folders_above_a_prefix_go_with_an_uninstall(self):
        """Those that the install made, and that are empty."""
        os.mkdir(self.path("stood"))
        prefix = self.path("stood", "one", "two")
        kept: tuple[list[str], ...] = ([], ["stood/one", "stood/one/others"])
        for others in kept:
            self.is_right(self.run_of(INSTALL, prefix, env=stand.environment(), cwd=self.folder))
            if others:
                self.written(others[1], b"")
            self.is_right(self.run_of(INSTALL, "--uninstall", prefix))
            self.assertEqual(self.contents(self.folder), sorted(["stood", *others]))

    def test_an_uninstall_knows_a_prefix_by_each_name(self):
        """As the folder in which one is, and by a link."""
        prefix, link = self.path("prefix"), self.path("link")
        os.symlink("prefix", link)
        for name, place in ((".", prefix), (link, self.folder)):
            self.is_right(self.run_of(INSTALL, prefix, env=stand.environment()))
            self.is_right(self.run_of(INSTALL, "--uninstall", name, cwd=place))
            self.assertEqual((os.path.exists(prefix), os.path.islink(link)), (False, True), name)

    def test_a_package_where_nothing_may_be_written(self):
        self.needs("dpkg", "dpkg-deb")
        # Where another user comes to, wherever tests keep their own.
        place = tempfile.TemporaryDirectory(prefix="btx-test-", dir="/tmp")
        self.addCleanup(place.cleanup)
        os.chmod(place.name, 0o755)
        folder = os.path.join(place.name, "closed")
        os.mkdir(folder, 0o555)
        # Root may write anywhere.
        keys: dict[str, Any] = {"user": 65534, "group": 65534, "extra_groups": []} if os.geteuid() == 0 else {}
        if subprocess.run(["test", "-x", INSTALL, "-a", "-x", stand.program], **keys).returncode:
            self.leave_out(why="another user can't read this checkout")
        here = f"{folder}: no package can be made there, since you may not write in it"
        for name, said in ((folder, here), (f"{folder}/in", f"{folder}/in: Permission denied")):
            done = self.run_of(INSTALL, "--deb", name, env=stand.environment(), **keys)
            # Where no library was built, it says so before.
            self.assertEqual((done.returncode, done.stdout, done.stderr.decode().splitlines()[-1:]), (1, b"", [f"install: {said}"]))

    def test_the_manual_knows_all_statuses_of_the_program(self):
        texts = {}
        for name in ("btx.1", "cept_tool.1"):
            with open(os.path.join(stand.ROOT, "docs", name), encoding="utf-8") as file:
                texts[name] = file.read()
        part = texts["cept_tool.1"].partition(".SH EXIT STATUS")[2].partition(".SH ")[0]
        last = max(map(int, re.findall(r"^\.TP\n(\d+)$", part, re.MULTILINE)))
        self.assertEqual(re.search(r"program's status, 0 to (\d+),", texts["btx.1"])[1], str(last))
