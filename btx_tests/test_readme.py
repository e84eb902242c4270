"""README, as somebody with a fresh clone uses it: its length, its commands, and the places that it names."""
import os
import re
import shlex
import shutil
import subprocess
from typing import Any

import stand

with open(os.path.join(stand.ROOT, "README.md"), encoding="utf-8") as file:
    README = file.read()
MOST_LINES = 90
# Words that stand for what a reader has: without one of these a command runs as it is printed.
PLACEHOLDER = re.compile(r"\b[A-Z]{2,}\b")
# What proves, and so takes longer than a test may; that it is there is tested.
PROVING = ("./build", ".ci/run", "rt ci")


def part(heading):
    """What stands under a heading of the second level."""
    return re.search(rf"^## {heading}\n(.*?)(?=^## |\Z)", README, re.DOTALL | re.MULTILINE)[1]


def block():
    """The commands of the first minute, each with its remark."""
    lines = re.search(r"```sh\n(.*?)```", part("The first minute"), re.DOTALL)[1].splitlines()
    return [(command.strip(), remark) for command, _, remark in (line.partition("#") for line in lines)]


def named():
    """The commands that stand in the text: those of the checkout, of the kit and of the machine."""
    found = re.findall(r"`([^`]+)`", re.sub(r"```.*?```", "", README, flags=re.DOTALL))
    return [one for one in found if re.match(r"(\./\w|\.ci/run|bin/btx\b|cases/run\b|rt \w|man )", one)]


class Readme(stand.Case):
    def tree(self):
        """A fresh clone: a copy of what is kept of this tree."""
        tree = self.path("clone")
        shutil.copytree(stand.ROOT, tree, ignore=shutil.ignore_patterns("out", ".git", "__pycache__", "proofs", "must-fail"))
        return tree

    def clone(self):
        """A clone with the program where `./build` leaves it, and the module where it is made."""
        tree = self.tree()
        os.makedirs(os.path.join(tree, "crates", "cept_tool", "out"))
        shutil.copy(stand.program, os.path.join(tree, "crates", "cept_tool", "out", "cept_tool"))
        if os.path.exists(stand.absent.MODULE):
            os.makedirs(os.path.join(tree, "library", "out"))
            shutil.copy(stand.absent.MODULE, os.path.join(tree, "library", "out"))
        return tree

    def run_in(self, tree, command, **more):
        bare = {name: value for name, value in stand.environment().items() if name != "BTX_PROGRAM"}
        keys: dict[str, Any] = {"stdin": subprocess.DEVNULL, "stdout": subprocess.PIPE, "stderr": subprocess.PIPE, "timeout": stand.LONG}
        keys |= {"env": bare, "cwd": tree}
        return subprocess.run(["bash", "-c", command], **{**keys, **more})

    def test_it_has_at_most_ninety_lines(self):
        self.assertLessEqual(len(README.splitlines()), MOST_LINES)

    def test_it_begins_with_what_it_is_the_profile_and_a_picture(self):
        parts = README.split("\n\n")
        self.assertEqual(parts[0], "# Tamligub")
        self.assertEqual(len(parts[1].splitlines()), 3)
        self.assertIn("`docs/PROFILE.md`", parts[2])
        picture = re.fullmatch(r"!\[[^\]]+\]\(([^)]+)\)", parts[3])
        self.assertTrue(os.path.exists(os.path.join(stand.ROOT, picture[1])))
        self.assertEqual(parts[4].splitlines()[0], "## The first minute")
        self.assertTrue(parts[5].startswith("`rt` is "))
        self.assertEqual(len(parts[5].splitlines()), 2)

    def test_the_first_minute_shows_pages_proves_and_tests(self):
        commands = dict(block())
        for command, said in (
            ("./build --quick && bin/btx terminal pages/title.btx", "a minute"), ("./build", "40 minutes"), (".ci/run", "the tests"),
            (".ci/run", "an hour"),
        ):
            self.assertIn(said, commands[command])
        for command in ("build", ".ci/run", "install", "cases/run", "bin/btx"):
            self.assertTrue(os.access(os.path.join(stand.ROOT, command), os.X_OK), command)

    def test_a_fresh_clone_shows_a_page(self):
        if not stand.there("rt"):
            self.skipTest("the Rattle kit is not on this machine")
        done = self.run_in(self.tree(), block()[0][0])
        self.assertEqual(done.returncode, 0, done.stderr.decode())
        self.assertIn("B I L D S C H I R M T E X T", done.stdout.decode())
        self.assertEqual(done.stderr.decode().count("this program is unproved"), 1)

    def test_each_command_of_btx_runs(self):
        tree = self.clone()
        commands = [command.rpartition("&& ")[2] for command, _ in block()] + named()
        commands = [one for one in commands if one.startswith("bin/btx") and shlex.split(one)[1:] and not PLACEHOLDER.search(one)]
        self.assertGreater(len(commands), 5)
        for command in (re.sub(r"--replay \d+", "--replay 1000000", one) for one in commands):
            done = self.run_in(tree, command)
            wanted = (127,) if " editor " in command and not os.path.exists(stand.absent.MODULE) else (0, 1)
            self.assertIn(done.returncode, wanted, (command, done.stderr))
        for made in ("website/index.html", "title.html"):
            self.assertTrue(os.path.exists(os.path.join(tree, made)), made)

    def test_every_other_command_is_there(self):
        """A program of the checkout that can be started and describes itself, a word of the kit, or a page of the manual."""
        commands = [command.partition(" && ")[0] for command, _ in block()] + named()
        self.assertTrue(set(PROVING) <= {*commands})
        for command in commands:
            first, *rest = shlex.split(command)
            if first == "man":
                self.assertTrue(os.path.exists(os.path.join(stand.ROOT, rest[-1])), command)
            elif first == "rt":
                self.knows(rest[0])
            else:
                self.assertTrue(os.access(os.path.join(stand.ROOT, first), os.X_OK), command)
                self.describes(first, [word for word in rest if word.startswith("--")])

    def knows(self, word):
        """Whether the kit has a word, where it is on this machine."""
        rt = stand.there("rt")
        if rt:
            keys: dict[str, Any] = {"stdin": subprocess.DEVNULL, "stdout": subprocess.PIPE, "stderr": subprocess.STDOUT, "timeout": stand.LONG}
            self.assertRegex(subprocess.run([rt, "help"], **keys).stdout.decode(), rf"\brt (\w+\|)*{word}\b")

    def describes(self, command, options):
        """Whether the text that stands at the head of a program has these options."""
        with open(os.path.join(stand.ROOT, command), encoding="utf-8") as file:
            text = file.read()
        for option in options if command != "bin/btx" else []:
            self.assertIn(f"{os.path.basename(command)} {option}", text)

    def test_places_that_it_names_are_there(self):
        places = re.findall(r"`((?:docs|crates|pages|library|edit|cases)/[\w./*]*)`", README) + re.findall(r"`([A-Z]+(?:\.md)?)`", README)
        self.assertGreater(len(places), 12)
        for place in places:
            self.assertTrue(os.path.exists(os.path.join(stand.ROOT, place.partition("*")[0])), place)

    def test_it_has_six_doors_and_six_sentences(self):
        rows = [line for line in part("Six doors").splitlines() if line.startswith("| ")]
        self.assertEqual(len(rows), 1 + 6)
        self.assertEqual(re.findall(r"^(\d)\. ", part("What is proved"), re.MULTILINE), list("123456"))
