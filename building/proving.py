"""The proof of some crates by the kit, in a copy of them, side by side."""
import contextlib
import os
import re
import subprocess
import threading

from building import ROOT, Stop, kit, running, tell

LOG = os.path.join(ROOT, "out", "build.log")
ENDED = re.compile(r"rt: (\w+) (proved|is kept|NOT PROVED)\b")
SAID = re.compile(r"rt: (.*\bwaiting for .*|note: .*)")
SHOWN = 30
# So many seconds after the last crate that `rt ci` took of an earlier run it is said, once, what is left.
TAKING = 20


def follow(lines, course, log):
    """Says of each crate when it is done, and how long the rest takes. Answers the lines of the crates that aren't proved."""
    block: list[str] = []
    failed: list[str] = []
    for line in lines:
        log.write(line)
        if line.startswith("== "):
            block = []
        block.append(line)
        ended, said = ENDED.match(line), SAID.match(line)
        if ended and ended[1] in course.left:
            name, how = ended.groups()
            if how == "NOT PROVED":
                failed += block[-SHOWN:]
                tell(f"{name} isn't proved")
            else:
                tell(course.done(name, how == "is kept"))
        elif said:
            tell(said[1])
    return failed


@contextlib.contextmanager
def told_later(course):
    """Where something was taken of what was proved earlier, and then nothing for a while, says what is left."""
    ended = threading.Event()

    def tell_then():
        while not ended.wait(course.quiet(TAKING)):
            if not course.quiet(TAKING):
                if course.left:
                    tell(course.ahead())
                break

    waits = threading.Thread(target=tell_then, daemon=True)
    waits.start()
    try:
        yield
    finally:
        ended.set()


def prove(folder, course):
    """Has `rt ci` prove the crates of a copy, and says how far it is. It takes what it has proved on this machine, in whatever checkout: of
    the very same files, over the very same libraries."""
    os.makedirs(os.path.dirname(LOG), exist_ok=True)
    words = [os.path.join(kit.found(), "bin", "rt"), "ci"]
    how = {"cwd": folder, "stdout": subprocess.PIPE, "stderr": subprocess.STDOUT, "text": True, "errors": "replace"}
    try:
        with open(LOG, "w", encoding="utf-8") as log, told_later(course), running.started(words, **how) as command:
            failed = follow(command.stdout, course, log)
            status = command.wait()
    except OSError as fault:
        fault.filename = fault.filename or LOG
        raise
    if status != 0:
        with open(LOG, encoding="utf-8") as log:
            shown = failed or log.readlines()[-SHOWN:]
        raise Stop(f"not all is proved; {LOG} has all that rt ci said:\n{''.join(shown)}".rstrip())
