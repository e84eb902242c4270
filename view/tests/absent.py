"""What the tests of this repository need of the machine, and what is left out where it is absent.

Each test that leaves something out says so by `left_out`, in a line of one form. The gate names a file by TAMLIGUB_LEFT_OUT, in which
these lines are kept too, and so lists them at its end."""
import importlib.util
import os
import shutil
import sys

# The Debian package of each program, and of a library of Python.
PACKAGES = {
    "c++": "g++", "cc": "gcc libc6-dev", "chromium": "chromium", "dpkg": "dpkg", "dpkg-deb": "dpkg", "ensurepip": "python3-venv",
    "eslint": "eslint", "fish": "fish", "flake8": "flake8", "man": "man-db", "node": "nodejs", "parallel": "parallel",
    "lintian": "lintian", "mypy": "mypy", "npm": "npm", "numpy": "python3-numpy", "PIL": "python3-pil", "pkg-config": "pkg-config",
    "pyproject-build": "python3-build python3-setuptools python3-wheel", "pyte": "python3-pyte", "readelf": "binutils", "setpriv": "util-linux",
    "ssh": "openssh-client", "ssh-keygen": "openssh-client", "sshd": "openssh-server", "tmux": "tmux", "tsc": "node-typescript",
    "valgrind": "valgrind", "websockets": "python3-websockets", "wasm-opt": "binaryen", "zsh": "zsh",
}
NAMES = {"chromium": ("chromium", "chromium-browser", "google-chrome", "chromium-headless-shell"), "node": ("node", "nodejs")}
# Where Debian puts servers, and libraries for any Python of the machine.
SYSTEM = ("/usr/sbin", "/sbin")
PYTHON = "/usr/lib/python3/dist-packages"
LIST = "TAMLIGUB_LEFT_OUT"
ROOT = os.path.dirname(os.path.dirname(os.path.dirname(os.path.abspath(__file__))))
MODULE = os.path.join(ROOT, "library", "out", "tamligub.wasm")


def found(name):
    """The path of a program, or None."""
    places = os.pathsep.join([os.environ.get("PATH", os.defpath), *SYSTEM])
    return next(filter(None, (shutil.which(one, path=places) for one in NAMES.get(name, (name,)))), None)


def program_at(path):
    """The whole path of cept_tool; the test ends where there is none."""
    if not (os.path.isfile(path) and os.access(path, os.X_OK)):
        raise SystemExit(f"there is no program {path}: ./build makes crates/cept_tool/out/cept_tool, and ./build --quick an unproved one")
    return os.path.abspath(path)


def has_library(name):
    """Whether Python has a library."""
    if PYTHON not in sys.path:
        sys.path.append(PYTHON)
    return importlib.util.find_spec(name) is not None


def left_out(what, name=None, why=None):
    """Says that something is left out: the program that is absent, or else why."""
    package = PACKAGES[name] if name else ""
    reason = f"{name} isn't on this machine (Debian: {package})" if name else why
    line = f"left out: {what}: {reason}"
    print(line, flush=True)
    if os.environ.get(LIST):
        with open(os.environ[LIST], "a", encoding="utf-8") as file:
            file.write(f"{package}\t{line}\n")
    return line


def needed(what, *names):
    """The paths of programs; where one is absent this is said, and the answer is None."""
    paths = [found(name) for name in names]
    if None in paths:
        left_out(what, names[paths.index(None)])
        return None
    return paths


def module(what, path=None):
    """The path of the module, which may be named; where none is named and none is made this is said, and the answer is None."""
    if path and not os.path.exists(path):
        raise SystemExit(f"{path}: no such module")
    if path or os.path.exists(MODULE):
        return path or MODULE
    if found("wasm-opt"):
        left_out(what, why="there is no library/out/tamligub.wasm (library/build library/out makes it)")
    else:
        left_out(what, "wasm-opt")
    return None
