"""What tests of archives stand on: a collection, an archive of it, and its report."""
import csv
import json
import os
import re
import shutil

import stand

ODD = "odd #1 & 50% ü.btx"


def data_in(path, kind):
    with open(path, encoding="utf-8") as file:
        return json.loads(re.search(rf'<script type="application/json" id="{kind}">(.*?)</script>', file.read(), re.DOTALL)[1])


def entries_in(out):
    """What the index of a website has of each page, of all its parts."""
    top = data_in(os.path.join(out, "index.html"), "entries")
    entries = []
    for number in range((top["count"] + top["part"] - 1) // top["part"]):
        with open(os.path.join(out, "entries", f"{number}.js"), encoding="utf-8") as file:
            entries += json.loads(re.fullmatch(rf"Tamligub.entries\({number}, (.*)\);\n", file.read())[1])
    return entries


class Case(stand.Case):
    """A test with a collection of all pages of this repository, one of them in a folder under an odd name."""

    def setUp(self):
        super().setUp()
        self.source, self.out = self.path("collection"), self.path("out")
        shutil.copytree(stand.PAGES, self.source, ignore=lambda place, names: [name for name in names if not name.endswith(".btx")])
        os.mkdir(os.path.join(self.source, "folder"))
        shutil.copy(stand.page("title"), os.path.join(self.source, "folder", ODD))

    def small(self, *names):
        """A collection of a few pages instead."""
        shutil.rmtree(self.source)
        os.mkdir(self.source)
        for name in names:
            shutil.copy(stand.page(name), self.source)

    def archive(self, *words, status=0, **more):
        done = stand.btx("archive", self.source, "-o", self.out, *words, **more)
        self.assertEqual(done.returncode, status, done.stderr.decode())
        return done

    def report(self, **more):
        with open(os.path.join(self.out, "report.csv"), encoding="utf-8-sig", newline="") as file:
            return {row.pop("path"): row for row in csv.DictReader(file, **more)}

    def counted(self, *lines):
        """A program that notes its words, a run a line, and runs some lines of a shell before; and the file of its notes."""
        runs = self.path("runs")
        path = self.written("counted", "\n".join(["#!/bin/sh", f"echo $1 >> {runs}", *lines, f'exec {stand.program} "$@"', ""]).encode())
        os.chmod(path, 0o755)
        return stand.environment(BTX_PROGRAM=path), runs
