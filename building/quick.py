"""The program as `rt try` compiles it: unproved, with checks in it, and slower."""
import os
import shlex
import shutil
import subprocess
import tempfile

from building import ROOT, Stop, kit, running, tell

CRATE = os.path.join(ROOT, "crates", "cept_tool")
PROGRAM = os.path.join(ROOT, "out", "quick", "cept_tool")
PAGE = os.path.join("data", "welcome")
# A linker that keeps what it links.
KEEPS = """TOOL "$@" || exit
for word; do
    [ "$before" != -o ] || cp "$word" KEPT || exit
    before=$word
done
"""


def shows(program):
    """What a program puts of the page."""
    done = subprocess.run([program, "show", PAGE], cwd=CRATE, stdin=subprocess.DEVNULL, stdout=subprocess.PIPE)
    return done.stdout if done.returncode == 0 else None


def make():
    """Has `rt try` show a page, and keeps the program that it compiled for that. Answers its path."""
    folder = kit.found()
    tell("rt try compiles the program unproved, which takes up to a minute")
    with tempfile.TemporaryDirectory(prefix="tamligub-quick-") as work:
        kept = os.path.join(work, "program")
        rt = kit.shadow(folder, work, "ld.lld", KEEPS.replace("KEPT", shlex.quote(kept)))
        words = [rt, "try", "--", "show", PAGE]
        with open(os.path.join(work, "said"), "w+b") as said:
            with running.started(words, cwd=CRATE, stdout=subprocess.PIPE, stderr=said) as command:
                shown = command.stdout.read()
                status = command.wait()
            if status != 0 or not os.path.exists(kept):
                said.seek(0)
                raise Stop(f"rt try ended with status {status} and left no program:\n{said.read().decode(errors='replace')}".rstrip())
        if shows(kept) != shown:
            raise Stop("the program that rt try compiled shows something else by itself")
        os.makedirs(os.path.dirname(PROGRAM), exist_ok=True)
        shutil.copy2(kept, PROGRAM + ".new")
        os.replace(PROGRAM + ".new", PROGRAM)
    return PROGRAM
