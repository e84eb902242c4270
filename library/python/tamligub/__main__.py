"""The command for people, `btx`, as `python3 -m tamligub`."""
from __future__ import annotations

import importlib
import os
import sys
from typing import Final

from .binding import HERE

# Where the command's files may be: in a wheel, in a checkout or under a prefix, and where Debian installs it.
PLACES: Final = ("people", "../../..", "../../../../share/tamligub")
FILE: Final = os.path.join("btx", "command.py")


def main() -> None:
    """Runs btx with the words of this process."""
    folders = [os.path.normpath(os.path.join(HERE, place)) for place in PLACES]
    found = next((folder for folder in folders if os.path.isfile(os.path.join(folder, FILE))), None)
    if found is None:
        raise SystemExit("btx isn't on this machine: in Debian the package tamligub has it")
    sys.path.insert(0, found)
    # The program stands in bin: of a checkout beside the command's files, of a prefix beside the share that they are in.
    folders = [os.path.normpath(os.path.join(found, place)) for place in ("bin", "../../bin")]
    importlib.import_module("btx.command").main(sys.argv[1:], next(filter(os.path.isdir, folders), folders[0]))


if __name__ == "__main__":
    main()
