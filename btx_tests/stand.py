"""What the tests stand on: the program, btx as a user runs it, and a folder that goes away."""
import os
import shutil
import signal
import subprocess
import sys
import tempfile
import unittest

ROOT = os.path.dirname(os.path.dirname(os.path.abspath(__file__)))
sys.path.append(os.path.join(ROOT, "view", "tests"))
import absent  # noqa: E402
import browser  # noqa: E402

# In seconds: what hasn't ended by then hangs, however much else the machine has to do.
LONG = 600
# What a shell, nohup or Python may have ignored for all that they start.
SIGNALS = (signal.SIGHUP, signal.SIGINT, signal.SIGQUIT, signal.SIGPIPE, signal.SIGTERM, signal.SIGTSTP, signal.SIGTTIN, signal.SIGTTOU)
# Variables of the user's own terminal.
OF_TERMINALS = ("NO_COLOR", "COLORTERM", "COLUMNS", "LINES")
PAGES = os.path.join(ROOT, "pages")
BTX = os.path.join(ROOT, "bin", "btx")
program = os.path.join(ROOT, "crates", "cept_tool", "out", "cept_tool")


def page(name):
    return os.path.join(PAGES, name + ".btx")


def all_pages():
    return sorted(file[: -len(".btx")] for file in os.listdir(PAGES) if file.endswith(".btx"))


def there(name):
    """The path of a program of this machine, or None."""
    return absent.found(name)


def put(*words):
    """What the program itself puts."""
    return subprocess.run([program, *words], stdout=subprocess.PIPE, timeout=LONG).stdout


def environment(**more):
    """The variables that btx sees, without those of the user's own terminal."""
    kept = {name: value for name, value in os.environ.items() if name not in OF_TERMINALS}
    return {**kept, "BTX_PROGRAM": program, **more}


def as_from_a_terminal():
    """Has a child begin with all signals as they are by default: one that is ignored stays so in all that is started, as interrupts do
    where a shell runs the tests in the background."""
    for number in SIGNALS:
        signal.signal(number, signal.SIG_DFL)
    signal.pthread_sigmask(signal.SIG_SETMASK, ())


def begun(*words, **more):
    """A run of btx that can be signalled, in a group of its own."""
    keys = {"stdout": subprocess.PIPE, "stderr": subprocess.PIPE, "stdin": subprocess.DEVNULL, "env": environment()}
    keys |= {"start_new_session": True, "preexec_fn": as_from_a_terminal}
    return subprocess.Popen([BTX, *words], **{**keys, **more})


def btx(*words, command=BTX, **more):
    """A run of btx: its status, its output as bytes, and what it says on standard error."""
    keys = {"stdout": subprocess.PIPE, "stderr": subprocess.PIPE, "stdin": subprocess.DEVNULL, "timeout": LONG, "env": environment()}
    return subprocess.run([command, *words], **{**keys, **more})


def is_running(number):
    """Whether a process is there and hasn't ended."""
    try:
        with open(f"/proc/{number}/stat", encoding="ascii") as file:
            return file.read().rpartition(")")[2].split()[0] != "Z"
    except OSError:
        return False


class Case(unittest.TestCase):
    """A test with a folder of its own."""

    maxDiff = None

    def setUp(self):
        self.folder = tempfile.mkdtemp(prefix="btx-test-")
        self.addCleanup(shutil.rmtree, self.folder, ignore_errors=True)

    def path(self, *names):
        return os.path.join(self.folder, *names)

    def written(self, name, data):
        with open(self.path(name), "wb") as file:
            file.write(data)
        return self.path(name)

    def needs(self, *names):
        """The paths of programs that this test needs; it is skipped where one is absent."""
        paths = [there(name) for name in names]
        if None in paths:
            self.leave_out(names[paths.index(None)])
        return paths

    def needs_pillow(self):
        """Skips this test where there is no Pillow."""
        if not absent.has_library("PIL"):
            self.leave_out("PIL")

    def browser(self):
        """A browser, which is closed after this test; it is skipped where there is none."""
        opened = browser.opened(f"btx_tests/run: {self.id()}")
        tab = opened.__enter__()
        self.addCleanup(opened.__exit__, None, None, None)
        if not tab:
            self.skipTest("there is no browser")
        return tab

    def leave_out(self, name=None, why=None):
        """Skips this test, since a program is absent, or for another reason that the machine gives."""
        self.skipTest(absent.left_out(f"btx_tests/run: {self.id()}", name, why))

    def module(self):
        """The path of the decoder's module; this test is skipped where it can't be made."""
        path = absent.module(f"btx_tests/run: {self.id()}")
        if not path:
            self.skipTest("there is no module")
        return path
