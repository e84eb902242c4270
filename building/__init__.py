"""What `./build` and `library/build` stand on: the kit for Rattle, the crates that the program and the library need, and what is made of
them once they are proved."""
import argparse
import io
import os
import sys

ROOT = os.path.dirname(os.path.dirname(os.path.abspath(__file__)))


class Stop(Exception):
    """Nothing can be built; the text says why, and what helps."""


def tell(text):
    """A line for who waits, apart from what is made."""
    print(f"build: {text}", file=sys.stderr, flush=True)


def put_out(*lines):
    """Writes lines to the output, names in them as the system has them. Where that can't be done, nothing of it is tried again as the
    process ends."""
    if isinstance(sys.stdout, io.TextIOWrapper):
        sys.stdout.reconfigure(errors="surrogateescape")
    try:
        print(*lines, sep="\n", flush=True)
    except OSError as fault:
        os.dup2(os.open(os.devnull, os.O_WRONLY), 1)
        fault.filename = "standard output"
        raise


class Parser(argparse.ArgumentParser):
    """One that passes over no fault of the output where it writes its help."""

    def print_help(self, file=None):
        put_out(self.format_help().rstrip("\n"))
