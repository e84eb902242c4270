"""The tests that need no page, under Node, over all pages of the repository."""
import json
import os
import subprocess
import tempfile

import absent

HERE = os.path.dirname(os.path.abspath(__file__))
PAGES = os.path.join(os.path.dirname(os.path.dirname(HERE)), "pages")
# What the program puts of a page; of the flash each phase of the six, and the first again.
WORDS: dict[str, list[str]] = {"changes": [], "show": [], "cells": [], "check": [], "flash": ["6"]}


def texts_of(program, path):
    """The length of a page, and what the program puts of it."""
    runs = {word: subprocess.run([program, word, path, *after], stdout=subprocess.PIPE, timeout=600) for word, after in WORDS.items()}
    assert all(done.returncode in (0, 1) for done in runs.values()), path
    return {"length": os.path.getsize(path), **{word: done.stdout.decode("utf-8") for word, done in runs.items()}}


def are_right(what, program, scripts, *after):
    """Whether some scripts hold their cases; without Node they are left out."""
    node = absent.found("node")
    if not node:
        absent.left_out(f"{what}: the modules by themselves", "node")
        return True
    names = sorted(name.removesuffix(".btx") for name in os.listdir(PAGES) if name.endswith(".btx"))
    with tempfile.TemporaryDirectory() as place:
        path = os.path.join(place, "texts.json")
        with open(path, "w", encoding="utf-8") as file:
            json.dump({name: texts_of(program, os.path.join(PAGES, name + ".btx")) for name in names}, file)
        runs = [subprocess.run([node, os.path.join(HERE, one), path, *after], stdout=subprocess.PIPE, text=True) for one in scripts]
    said = "".join(done.stdout for done in runs if done.returncode)
    print(said or f"{what}: the modules that need no page are right under Node", flush=True)
    return not said and not any(done.returncode for done in runs)
