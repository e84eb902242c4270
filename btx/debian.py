"""Libraries of Python that Debian packages, wherever they are on this machine."""
import importlib
import sys
from types import ModuleType

# Where Debian puts them, which another Python of the machine doesn't look into.
PLACE = "/usr/lib/python3/dist-packages"


class Missing(Exception):
    """A library isn't there; the text says what helps."""

    def __init__(self, name: str, package: str) -> None:
        super().__init__(f"it takes {name}, and this Python has none (Debian: apt-get install {package})")


def module(path: str, name: str, package: str) -> ModuleType:
    """A module of a library, or its absence raised."""
    try:
        return importlib.import_module(path)
    except ImportError:
        pass
    sys.path.append(PLACE)
    try:
        return importlib.import_module(path)
    except ImportError:
        raise Missing(name, package) from None
    finally:
        sys.path.remove(PLACE)
