"""Stored pages, and pages that are made from a number: units of every kind, fragments of stored pages, and random bytes."""
import glob
import importlib.machinery
import importlib.util
import os
import random

ROOT = os.path.dirname(os.path.dirname(os.path.dirname(os.path.abspath(__file__))))
MOST_BYTES = 4000


def stored_pages():
    """The name and the bytes of each page of pages/, and of none."""
    pages = [("no bytes", b"")]
    for path in sorted(glob.glob(os.path.join(ROOT, "pages", "*.btx"))):
        with open(path, "rb") as file:
            pages.append((os.path.basename(path), file.read()))
    return pages


def maker_of_units():
    """The module of bench/fuzz, which makes pages of units of every row of the tables."""
    loader = importlib.machinery.SourceFileLoader("fuzz", os.path.join(ROOT, "bench", "fuzz"))
    module = importlib.util.module_from_spec(importlib.util.spec_from_loader("fuzz", loader))
    loader.exec_module(module)
    return module


def fragment(draw, page):
    start = draw.randrange(len(page))
    return page[start : start + draw.choice([1, 3, 20, 100, len(page)])]


def made_page(maker, stored, number):
    """The page of a number: the same in every run."""
    draw = random.Random(number)
    page = bytearray(maker.page_of(draw) if draw.random() < 0.6 else b"")
    for _ in range(draw.choice([0, 1, 3, 8] if page else [1, 3, 8])):
        at = draw.randrange(len(page) + 1)
        way = draw.randrange(6)
        if way == 0:
            more = bytes(draw.randrange(256) for _ in range(draw.choice([1, 2, 9])))
        elif way == 1:
            more = maker.UNITS[draw.choice(["downloaded", "patterns", "colours", "dclut", "area", "format"])](draw)
        else:
            more = fragment(draw, draw.choice(stored))
        page[at:at] = more
    return bytes(page[:MOST_BYTES])


def made_pages(count, first=0):
    """The name and the bytes of so many pages, from a number on."""
    maker = maker_of_units()
    stored = [page for _, page in stored_pages() if page]
    for number in range(first, first + count):
        yield f"made page {number}", made_page(maker, stored, number)
