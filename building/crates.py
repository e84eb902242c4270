"""The crates of `crates.txt`: what each is made of, and a copy of some of them in which the kit proves these alone."""
import os
import re
import shutil

from building import ROOT

LIST = "crates.txt"
# What a proof and a run of a crate read of its folder: all but what was made, and the edits, which no proof reads.
UNREAD = ("out", "must-fail")


def rows():
    """By the name of each crate its line, and the libraries that it names, in the order of the file."""
    found = {}
    with open(os.path.join(ROOT, LIST), encoding="utf-8") as file:
        for line in file:
            head, _, names = line.partition("#")[0].partition(":")
            if head.strip():
                found[head.split()[0]] = line.rstrip("\n"), re.split(r"[\s,]+", names.strip()) if names.strip() else []
    return found


def uses():
    """By the name of each crate the crates of the repository that its line names."""
    found = rows()
    return {name: [one for one in names if one in found] for name, (_, names) in found.items()}


def of_kit(name):
    """The libraries of the kit that the line of a crate names."""
    found = rows()
    return [one for one in found[name][1] if one not in found]


def below(*names):
    """The crates on which some stand, each after those on which it stands itself."""
    known, found = uses(), []

    def visit(name):
        for one in known[name]:
            visit(one)
            if one not in found:
                found.append(one)

    for name in names:
        visit(name)
    return found


def copied(name, to):
    """A copy of a crate in a new folder."""
    shutil.copytree(os.path.join(ROOT, "crates", name), to, ignore=shutil.ignore_patterns(*UNREAD))
    return to


def repository(names, to):
    """A repository in a new folder that has copies of these crates alone. The mark makes it a repository of its own wherever it lies."""
    os.makedirs(os.path.join(to, ".git"))
    shutil.copy2(os.path.join(ROOT, "HANDLES"), to)
    found = rows()
    with open(os.path.join(to, LIST), "w", encoding="utf-8") as file:
        file.writelines(found[name][0] + "\n" for name in names)
    for name in names:
        copied(name, os.path.join(to, "crates", name))
    return to
