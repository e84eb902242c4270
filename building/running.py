"""Commands that end with the build, however it ends."""
import contextlib
import os
import signal
import subprocess

from building import Stop, put_out, tell

PATIENCE = 5


def interrupted(*_):
    raise KeyboardInterrupt


def heed_ends():
    """Has a request to end, or the end of the terminal, end the build as an interrupt does; what is ignored, as under nohup, stays so."""
    for number in (signal.SIGTERM, signal.SIGHUP, signal.SIGINT):
        if signal.getsignal(number) is not signal.SIG_IGN:
            signal.signal(number, interrupted)


def end(command):
    """Ends a command and what it has started: first in peace, so that it can end what stands in groups of its own."""
    for number in (signal.SIGTERM, signal.SIGKILL):
        with contextlib.suppress(ProcessLookupError):
            os.killpg(command.pid, number)
        with contextlib.suppress(subprocess.TimeoutExpired):
            command.wait(PATIENCE)


@contextlib.contextmanager
def started(words, **how):
    """A command that runs in a group of its own, which is ended where the build goes on without its end."""
    with subprocess.Popen(words, stdin=subprocess.DEVNULL, start_new_session=True, **how) as command:
        try:
            yield command
        finally:
            if command.poll() is None:
                end(command)


def put(words, **how):
    """The status of a command, and what it put on both outputs, as text."""
    with started(words, stdout=subprocess.PIPE, stderr=subprocess.STDOUT, errors="replace", **how) as command:
        text = command.stdout.read()
        return command.wait(), text


def do(*words, cwd):
    """Runs a command that must end well."""
    status, said = put(words, cwd=cwd)
    if status != 0:
        raise Stop(f"{os.path.basename(words[0])} ended with status {status}:\n{said}".rstrip())


def main(make):
    """Runs a build, and prints the paths of what it made."""
    try:
        heed_ends()
        put_out(*make())
    except Stop as why:
        raise SystemExit(f"build: {why}")
    except OSError as fault:
        raise SystemExit(": ".join(filter(None, ["build", fault.filename, fault.strerror or str(fault)])))
    except KeyboardInterrupt:
        tell("interrupted")
        signal.signal(signal.SIGINT, signal.SIG_DFL)
        os.kill(os.getpid(), signal.SIGINT)
