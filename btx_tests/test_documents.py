"""The first programs of docs/EMBEDDING.md and docs/ARCHIVES.md, run as they are printed, and the places that documents name."""
import os
import re
import shutil
import subprocess
import sys
import urllib.parse

import stand

DOCUMENTS = ("README.md", "CONTRIBUTING.md", "docs", "edit/README.md", "view/README.md", "library/README.md", "cases/README.md", "pages/README.md")
# Folders whose files documents name with their place.
FOLDERS = r"(?:docs|library|edit|view|cases|pages|btx|btx_tests|bench|building|bin|desktop|must-not-compile|crates)"


def text_of(name):
    with open(os.path.join(stand.ROOT, name), encoding="utf-8") as file:
        return file.read()


def all_documents():
    """The names of all documents."""
    for name in DOCUMENTS:
        path = os.path.join(stand.ROOT, name)
        yield from [name] if os.path.isfile(path) else sorted(f"{name}/{one}" for one in os.listdir(path) if one.endswith(".md"))


def blocks(name, language):
    """The blocks of a document in a language, in order."""
    return re.findall(rf"^```{language}\n(.*?)^```", text_of(name), re.DOTALL | re.MULTILINE)


class Documents(stand.Case):
    def clone(self):
        """A copy of the tree with the program where `./build` leaves it."""
        tree = self.path("clone")
        shutil.copytree(stand.ROOT, tree, ignore=shutil.ignore_patterns("out", ".git", "__pycache__", "proofs", "must-fail"))
        os.makedirs(os.path.join(tree, "crates", "cept_tool", "out"))
        shutil.copy(stand.program, os.path.join(tree, "crates", "cept_tool", "out", "cept_tool"))
        return tree

    def output(self, *words, **more):
        keys = {"stdin": subprocess.DEVNULL, "stdout": subprocess.PIPE, "stderr": subprocess.PIPE, "timeout": stand.LONG, "env": stand.environment()}
        done = subprocess.run(words, **{**keys, **more})
        self.assertEqual(done.returncode, 0, done.stderr.decode())
        return done.stdout.decode()

    def with_libraries(self):
        """The same tree with what `library/build` leaves, where it was built; else this test is left out."""
        folder = os.path.join(stand.ROOT, "library", "out")
        if not os.path.exists(os.path.join(folder, "libtamligub.so.1")):
            self.leave_out(why="there is no library/out/libtamligub.so.1 (library/build library/out makes it)")
        tree = self.clone()
        shutil.copytree(folder, os.path.join(tree, "library", "out"), symlinks=True)
        return tree

    def test_the_programs_in_python(self):
        tree = self.with_libraries()
        first, records = blocks("docs/EMBEDDING.md", "python")
        printed = re.search(r"^prints this:\n\n```\n(.*?)^```", text_of("docs/EMBEDDING.md"), re.DOTALL | re.MULTILINE)[1]
        env = stand.environment(PYTHONPATH=os.path.join(tree, "library", "python"))
        self.assertEqual(self.output(sys.executable, "-c", first, cwd=tree, env=env), printed)
        if not stand.absent.has_library("numpy"):
            stand.absent.left_out(f"btx_tests/run: {self.id()}, records by numpy", "numpy")
        else:
            env["PYTHONPATH"] += os.pathsep + stand.absent.PYTHON
            count, _ = self.output(sys.executable, "-c", records, cwd=tree, env=env).split()
            self.assertEqual(int(count), stand.put("changes", self.written("page", stand.put("gen", "1"))).count(b"\n"))

    def test_the_display_in_rattle(self):
        if not stand.there("rt"):
            self.skipTest("the Rattle kit is not on this machine")
        tree, text = self.clone(), text_of("docs/EMBEDDING.md")
        with open(os.path.join(tree, "crates.txt"), "a", encoding="utf-8") as file:
            file.write(re.search(r"^my_terminal: .*\n", text, re.MULTILINE)[0])
        crate = os.path.join(tree, "crates", "my_terminal")
        os.makedirs(os.path.join(crate, "src"))
        with open(os.path.join(crate, "src", "main.rt"), "w", encoding="utf-8") as file:
            file.write(blocks("docs/EMBEDDING.md", "rust")[0])
        # An A at the first place, a B at row 2, column 3, which has the number 42.
        self.assertIn("A" + "." * 41 + "B..\n", self.output("rt", "try", cwd=crate))

    def test_the_parts_that_stand_elsewhere(self):
        """A decoder in C is the example's, the display in Rattle that of the tests, and what flashes is called as there."""
        code, lines = blocks("docs/EMBEDDING.md", "c")
        self.assertIn(code, text_of("library/example_feed.c"))
        for call in re.findall(r"tamligub_\w+\(&?decoder, ", lines):
            self.assertIn(call.replace("&", ""), text_of("library/tests/lines.c"))
        whole, flashing = blocks("docs/EMBEDDING.md", "rust")
        display = re.search(r"impl<G: Glass> Glass for Terminal<G> \{.*?\n\}\n", whole, re.DOTALL)[0]
        self.assertIn(display, text_of("crates/cept_run_tests/src/glasses.rt"))
        tests = text_of("crates/cept_screen_tests/src/flash.rt")
        for call in re.findall(r"(?:blink|Blink)[.:]+\w+\(", flashing):
            self.assertIn(call, tests)

    def test_the_library_in_c(self):
        """The examples over the libraries, as they are built and run there; an install goes to a home of its own."""
        tree, (calls, decoders, _) = self.with_libraries(), blocks("docs/EMBEDDING.md", "sh")
        self.needs("cc", "pkg-config")
        env = {name: value for name, value in stand.environment(HOME=self.path("home")).items() if name != "BTX_PROGRAM"}
        shown = self.output("bash", "-ec", calls, cwd=tree, env=env)
        want = stand.put("show", stand.page("title")).decode()
        self.assertEqual((shown.count(want), "installed; begin with" in shown), (2, True))
        self.assertIn("row 1, column 2: sign 54 of set 0\n", self.output("bash", "-ec", decoders, cwd=tree, env=env))
        with open(os.path.join(tree, "library", "out", "title.ppm"), "rb") as file:
            self.assertEqual(file.read(11), b"P6\n480 240\n")

    def test_the_package_in_node(self):
        tree, packs = self.with_libraries(), blocks("docs/EMBEDDING.md", "sh")[2]
        self.needs("node", "npm")
        if not os.path.exists(os.path.join(tree, "library", "out", "npm")):
            self.leave_out("wasm-opt")
        env = stand.environment(npm_config_cache=self.path("cache"), npm_config_update_notifier="false")
        self.output("bash", "-ec", packs, cwd=tree, env=env)
        code, = blocks("docs/EMBEDDING.md", "js")
        with open(os.path.join(tree, "project", "first.mjs"), "w", encoding="utf-8") as file:
            file.write(code)
        said = self.output("node", "project/first.mjs", stand.page("title"), cwd=tree)
        self.assertTrue(said.startswith(stand.put("show", stand.page("title")).decode()))
        self.assertEqual(said.count("\n"), 24 + stand.put("changes", stand.page("title")).count(b"\n"))

    def test_a_collection_without_a_website(self):
        pages, _ = blocks("docs/ARCHIVES.md", "sh")
        status, name = re.search(r"as in `(\d) (\S+)`", text_of("docs/ARCHIVES.md")).groups()
        self.assertEqual(self.output("sh", "-ec", pages, cwd=self.clone()), f"{status} {name}\n")

    def test_the_keys_in_the_address_of_an_index(self):
        """Those of the document are those of the index, and their values those of its lists besides the usual ones, which come first."""
        text, index = text_of("docs/ARCHIVES.md"), text_of("view/archive.html")
        keys = urllib.parse.parse_qs(re.search(r"`index\.html#(\S+)`", text)[1])
        self.assertEqual(list(keys), ["folder", *re.findall(r"(\w+): ", re.search(r"const CONTROLS = (.*)", text_of("view/archive.js"))[1])])
        told = re.search(r"`filter` takes (.*?), and `order` takes (.*?)\.\n", text, re.DOTALL).groups()
        for key, values in zip(("filter", "order"), told):
            options = re.search(rf'<select id="{key}">(.*?)</select>', index, re.DOTALL)[1]
            self.assertEqual(re.findall(r"`(\w+)`", values), re.findall(r'value="(\w+)"', options)[1:])
            self.assertIn(f"`{keys[key][0]}`", values)

    def test_over_seven_bits(self):
        _, pipe = blocks("docs/ARCHIVES.md", "sh")
        page = self.written("page", b"A\x9d\xe1")
        env = stand.environment(PATH=f"{os.path.dirname(self.as_cept_tool())}:{os.environ['PATH']}")
        self.output("sh", "-ec", pipe, cwd=self.folder, env=env)
        with open(self.path("received"), "rb") as file:
            self.assertEqual(file.read(), b"A\x1b\x5d\xe1")
        self.assertTrue(os.path.exists(page))

    def as_cept_tool(self):
        """The program by its own name, in a folder of its own."""
        os.makedirs(self.path("bin"))
        os.symlink(stand.program, self.path("bin", "cept_tool"))
        return self.path("bin", "cept_tool")

    def test_places_that_documents_name_are_there(self):
        for name in all_documents():
            text = text_of(name)
            beside = os.path.dirname(os.path.join(stand.ROOT, name))
            for picture in re.findall(r"\]\(([^)#]+)\)", text):
                self.assertTrue(os.path.exists(os.path.join(beside, picture)), (name, picture))
            for place in re.findall(rf"`({FOLDERS}/[\w.-]+(?:/[\w.-]+)*)(?=[` ])", text):
                if "/out" not in place and not place.startswith("crates/my_terminal/"):
                    self.assertTrue(os.path.exists(os.path.join(stand.ROOT, place)), (name, place))


class Proofs(stand.Case):
    """The tables of docs/PROOFS.md: each row names what stands in the code."""

    def rows(self):
        """The rows of the tables: promise, function and clauses, with the number of the line."""
        for number, line in enumerate(text_of("docs/PROOFS.md").splitlines(), 1):
            cells = [cell.strip() for cell in line.split("|")[1:-1]]
            if line.startswith("| ") and cells[0] not in ("promise", "---"):
                yield number, cells

    def words_of_the_code(self):
        """All words of the sources and the definitions of the crates."""
        words: set[str] = set()
        for place, _, names in os.walk(os.path.join(stand.ROOT, "crates")):
            if {"src", "specs"} & set(place.split(os.sep)):
                texts = [text_of(os.path.join(os.path.relpath(place, stand.ROOT), name)) for name in names if name.endswith((".rt", ".antt"))]
                words.update(*(re.findall(r"\w+", text) for text in texts))
        return words

    def test_each_row_has_three_cells_and_each_name_stands_in_the_code(self):
        known, rows = self.words_of_the_code(), list(self.rows())
        self.assertGreater(len(rows), 250)
        for number, cells in rows:
            self.assertEqual(len(cells), 3, number)
            for name in re.findall(r"`([^`]+)`", cells[1] + cells[2]):
                self.assertTrue(set(re.split(r"::|\.", name)) <= known, (number, name))
