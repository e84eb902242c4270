"""Lists each line of a script that the program would refuse, and what is wrong with it: which number and its range, which words the line
takes, the nearest word, which sign no set has, which bytes of raw are refused and why. The last line says how many lines there are and how
many of them are bad. No page is read."""
import argparse

from btx import faults, files, messages, program, say, typed
from btx.statuses import Status

SUMMARY = "what is wrong with each bad line of a script"


def arguments(parser: argparse.ArgumentParser) -> None:
    parser.add_argument("script", metavar="SCRIPT")
    parser.add_argument("--drawing", action="store_true", help="it is a drawing, as plot takes it")


def run(path: program.Runner, options: argparse.Namespace) -> int:
    kind = "drawing" if options.drawing else "script"
    with files.patience(options.script):
        data = files.read(options.script, typed.MOST)
    long = messages.too_long_script(options.script, data, kind)
    if long:
        say(f"{options.word}: {long}")
        return Status.TOO_LONG
    told = faults.told(path, options.script, data, kind)
    lines = typed.lines_of(data)
    files.write_utf8()
    for line in [*told, *faults.hint(options.script, data, kind), f"lines {len(lines) - (lines[-1] == '')} bad {len(told)}"]:
        print(line)
    return Status.BAD_SCRIPT if told else Status.DONE
