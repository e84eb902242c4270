"""A command for people over the proved program. Nothing here is proved, and nothing here decodes: what is shown is what the
program says."""
import os
import re
import sys

# The bytes of a name that are no UTF-8, as Python keeps them, and the control characters that no line has.
UNDECODED = re.compile("[\udc80-\udcff]")
CONTROLS = re.compile("[\x00-\x09\x0b-\x1f\x7f-\x9f]")
VERSION = "0.1"
# Where messages go.
ERRORS = 2


def say(text: object) -> None:
    """A line for who waits, apart from the output."""
    line = UNDECODED.sub(lambda found: f"\\x{ord(found[0]) - 0xdc00:02x}", f"btx: {text}")
    put_apart(CONTROLS.sub(lambda found: f"\\x{ord(found[0]):02x}", line) + "\n")


def put_apart(text: str) -> None:
    """Writes apart from the output. Where that can't be done, as on a full disk, nothing more is written there, and the run goes on."""
    try:
        print(text, end="", file=sys.stderr, flush=True)
    except BrokenPipeError:
        raise
    except OSError:
        os.dup2(os.open(os.devnull, os.O_WRONLY), ERRORS)
