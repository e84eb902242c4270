"""The calls that the tests compare with the program, and what the program puts."""
import concurrent.futures
import glob
import importlib.machinery
import importlib.util
import itertools
import os
import re
import subprocess
import tempfile

import absent

ROOT = os.path.dirname(os.path.dirname(os.path.dirname(os.path.abspath(__file__))))
CASES = os.path.join(ROOT, "cases", "run")

OF_A_PAGE = ("changes", "check", "list", "show", "cells", "write", "seven", "eight")
OF_A_SCRIPT = ("trace", "edit", "plot")
OF_A_NUMBER = ("gen", "load")
OF_A_PAGE_AND_A_NUMBER = ("flash",)
# Scripts and drawings: none, edits, more undos and redos than there are edits, an edit that drops those undone, figures, and lines that
# can't be read.
SCRIPTS = (b"", b"at 1 2\ntext XY\nclear\n", b"at 1 2\ntext XY\nundo\nundo\nundo\n",
           b"at 1 2\ntext XY\nundo\nundo\nredo\nredo\nredo\n", b"at 2 2\ntext A\ntext B\nundo\ntext C\nredo\nundo\nredo\n",
           b"plot 0 0\nline 0 71 79 0\nbox 2 2 40 30\nwipe 10 10 20 20\nunplot 2 2\n", b"plot 80 0\n",
           b"at 3 3\ntext A\nat 300 1\n", b"nonsense\n")
NUMBERS = ("0", "1", "7", "65535", "4294967295")
# Generated pages that are read too, each of some 50,000 bytes.
LONG_PAGES = ("0", "1", "4294967295")
# Turns of flashing: none, each phase once, and more than there may be; and the most, of the shorter pages.
TURNS = ("0", "6", "601", "4294967295")
MOST_TURNS = "600"

program_at = absent.program_at


def library_at(folder):
    """The whole path of a folder with the libraries; the test ends where there are none."""
    archive = os.path.join(folder, "libtamligub.a")
    if not os.path.isfile(archive):
        raise SystemExit(f"there is no {archive}: library/build {folder} makes it")
    return os.path.abspath(folder)


def read(path):
    with open(path, "rb") as file:
        return file.read()


def write(path, data):
    with open(path, "wb") as file:
        file.write(data)
    return path


def answer(program, words, folder, **more):
    done = subprocess.run([program, *words], cwd=folder, stdout=subprocess.PIPE, stderr=subprocess.PIPE, env={**os.environ, **more})
    return done.returncode, done.stdout, done.stderr


def stored_pages(program):
    """The pages of pages/, whole and damaged, generated ones, and one without bytes."""
    paths = sorted(glob.glob(os.path.join(ROOT, "pages", "*.btx")))
    pages = [(os.path.basename(path), read(path)) for path in paths]
    pages += [(f"generated page {number}", answer(program, ["gen", number], ROOT)[1]) for number in LONG_PAGES]
    for name, data in pages:
        yield name, data
        if len(data) > 1 << 14:
            continue
        yield f"half of {name}", data[: len(data) // 2]
        yield f"{name} with every 97th byte turned", bytes(b ^ 0xFF if at % 97 == 96 else b for at, b in enumerate(data))
    yield "no bytes", b""


def words_of_pages(program, folder):
    """The words for every page, and the files that they name."""
    scripts = [os.path.basename(write(os.path.join(folder, f"script{at}"), script)) for at, script in enumerate(SCRIPTS)]
    for name, data in stored_pages(program):
        write(os.path.join(folder, "page"), data)
        for word in OF_A_PAGE:
            yield f"{word} of {name}", [word, "page"]
        for word in OF_A_PAGE_AND_A_NUMBER:
            for number in TURNS:
                yield f"{word} of {name}, {number}", [word, "page", number]
        if len(data) <= 1 << 14:
            for word in OF_A_SCRIPT:
                for script in scripts:
                    yield f"{word} of {name}, {script}", [word, "page", script]
            yield f"flash of {name}, {MOST_TURNS}", ["flash", "page", MOST_TURNS]
    for word in OF_A_NUMBER:
        for number in NUMBERS:
            yield f"{word} {number}", [word, number]
    for words in ([], ["show"], ["nothing", "page"], ["trace", "page"], ["flash", "page"]):
        yield f"the words {words}", words


def is_number(text):
    return re.fullmatch("[0-9]{1,10}", text) is not None and int(text) < 2**32


def is_said(words, files):
    """Whether a call can say these words: the files are there, no two of one name, and a number is one."""
    if not words or words[0] in OF_A_NUMBER:
        return len(words) == 2 and is_number(words[1])
    if words[0] in OF_A_PAGE_AND_A_NUMBER:
        return len(words) == 3 and words[1] in files and is_number(words[2])
    names = words[1:]
    return len(names) == (2 if words[0] in OF_A_SCRIPT else 1) == len(set(names)) and all(name in files for name in names)


def words_of_cases(folder):
    """The words of each run of the cases that a call can say."""
    loader = importlib.machinery.SourceFileLoader("cases_run", CASES)
    cases = importlib.util.module_from_spec(importlib.util.spec_from_loader("cases_run", loader))
    loader.exec_module(cases)
    for case in cases.all_cases():
        for run in case.runs:
            if is_said(run.words, run.files):
                for name, data in run.files.items():
                    write(os.path.join(folder, name), data)
                yield f"{case.name}: {' '.join(run.words)}", run.words


def all_words(program, folder):
    """The name and the words of every call, while the files that it names stand in the folder."""
    yield from words_of_pages(program, folder)
    yield from words_of_cases(folder)


def in_shares(program, workers):
    """What each worker answers for its share of the calls, side by side. It is handed their names and words one by one, and the folder of
    its own in which the files of the last one stand."""

    def share(number):
        with tempfile.TemporaryDirectory(prefix="library-") as folder:
            return workers[number](itertools.islice(all_words(program, folder), number, None, len(workers)), folder)

    with concurrent.futures.ThreadPoolExecutor(len(workers)) as pool:
        return list(pool.map(share, range(len(workers))))
