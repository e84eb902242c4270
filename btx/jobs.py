"""Makes the pages of an archive: by threads of this machine, or by GNU parallel on several."""
import argparse
import base64
import concurrent.futures
import contextlib
import dataclasses
import itertools
import json
import os
import shlex
import subprocess
import sys
import threading
from collections.abc import Iterator, Sequence
from typing import IO

from btx import ERRORS, collection, files, making, program
from btx.website import Website

WORKER = ["archive", "--worker"]
# The login by which parallel knows this machine.
HERE = ":"
PAGES_A_JOB = 8
# So many seconds after its end what was said is waited for, which something that it left behind may hold open.
LAST = 5
# So many pages a job are handed over before they are begun.
AHEAD = 4
# The name and the facts of a page that is made.
Result = tuple[str, making.Facts]


def by_threads(path: program.Runner, website: Website, here: collection.Collection, names: Sequence[str], jobs: int) -> Iterator[Result]:
    """Makes pages, as many at once as there are jobs; gives the name and facts of each as it is made. Nothing waits for a run of the
    program where it is stopped: the system ends these with this process."""

    def make(name: str) -> Result:
        return name, website.add(name, *making.made(path, here.path(name), website.has_module))

    pool, waiting = concurrent.futures.ThreadPoolExecutor(jobs), iter(names)
    try:
        running = {pool.submit(make, name) for name in itertools.islice(waiting, AHEAD * jobs)}
        while running:
            done, running = concurrent.futures.wait(running, return_when=concurrent.futures.FIRST_COMPLETED)
            running |= {pool.submit(make, name) for name in itertools.islice(waiting, len(done))}
            yield from (one.result() for one in done)
    finally:
        pool.shutdown(wait=False, cancel_futures=True)


class Sent:
    """The pages that go to the jobs of parallel, each read once as it is sent; those that can't be read are kept back."""

    def __init__(self, here: collection.Collection, names: Sequence[str], has_module: bool) -> None:
        self.here, self.names, self.has_module = here, names, has_module
        self.unread: dict[str, making.Facts] = {}

    def lines(self) -> Iterator[str]:
        """For each page that can be read a line with its number and its bytes."""
        for number, name in enumerate(self.names):
            try:
                page = base64.b64encode(making.stored(self.here.path(name))).decode("ascii")
            except making.Unread as unread:
                self.unread[name] = unread.facts
            else:
                yield json.dumps({"number": number, "page": page, "module": self.has_module}) + "\n"

    def feed(self, stream: IO[str]) -> None:
        try:
            with stream:
                stream.writelines(self.lines())
        except OSError:
            pass  # The runner has ended; what it lacks is seen by the results that don't come.


def has_parallel() -> bool:
    """Whether GNU parallel is on this machine; another program has that name too."""
    try:
        said = subprocess.run(["parallel", "--version"], stdin=subprocess.DEVNULL, capture_output=True, check=False).stdout
    except OSError:
        return False
    return said.startswith(b"GNU parallel")


def own_command(beside: str) -> str:
    """What a shell of this machine starts btx by: the command, or Python where it is a part of the package."""
    path = os.path.join(beside, "btx")
    return shlex.quote(path) if os.path.exists(path) else f"{shlex.quote(sys.executable)} -m tamligub"


def remote(options: argparse.Namespace) -> str:
    """How btx is called on the machines."""
    return options.remote or ("btx" if set(options.sshlogin) - {HERE} else own_command(options.beside))


def needs(options: argparse.Namespace) -> str:
    """What parallel needs of its machines where pages are lacking; nothing without it."""
    if options.jobs_by != "parallel":
        return ""
    command = f"start btx by the command {remote(options)}, which --remote can change"
    return f": each machine must let you in without a question, and {command}"


def parallel_words(options: argparse.Namespace) -> list[str]:
    """The words that start GNU parallel."""
    machines = itertools.chain.from_iterable(["--sshlogin", login] for login in options.sshlogin)
    jobs = ["--jobs", str(options.jobs)] if options.jobs else []
    return ["parallel", "--will-cite", "--pipe", "-N", str(PAGES_A_JOB), *jobs, *machines, f"{remote(options)} {shlex.join(WORKER)}"]


def result_of(line: str) -> tuple[int, making.Made] | None:
    """The number of a page and what was made of it, of a line that comes back; None where it is no such line."""
    try:
        result = json.loads(line)
        return result["number"], (making.Facts(**result["facts"]), result["parts"])
    except (ValueError, KeyError, TypeError):
        return None


def hand_on(reading: int) -> None:
    """Says what parallel and its jobs say, each line once, since all jobs of a machine say the same."""
    said: set[bytes] = set()
    with open(reading, "rb") as file:
        for line in file:
            if line not in said:
                said.add(line)
                with contextlib.suppress(OSError):
                    files.put_all(ERRORS, line)


def by_parallel(website: Website, here: collection.Collection, names: Sequence[str], words: Sequence[str]) -> Iterator[Result]:
    """The same by GNU parallel: pages go to its jobs and results come back over their input and output. What else comes back, as from a run
    that was cut off in the middle of a line, is passed over; its pages are lacking then."""
    sent = Sent(here, names, website.has_module)
    reading, saying = os.pipe()
    with open(saying, "wb") as said:
        runner = subprocess.Popen(
            [*program.ending_with_us("TERM"), *words], stdin=subprocess.PIPE, stdout=subprocess.PIPE, stderr=said, text=True,
            encoding="ascii", errors="replace",
        )
    assert runner.stdout is not None, "it is a pipe"
    feeder = threading.Thread(target=sent.feed, args=(runner.stdin,), daemon=True)
    teller = threading.Thread(target=hand_on, args=(reading,), daemon=True)
    feeder.start()
    teller.start()
    try:
        for line in runner.stdout:
            result = result_of(line)
            if result:
                name = names[result[0]]
                yield name, website.add(name, *result[1])
        feeder.join()
        yield from ((name, website.add(name, facts, None)) for name, facts in sent.unread.items())
    finally:
        runner.stdout.close()
        runner.wait()
        teller.join(LAST)


def work(path: program.Runner) -> int:
    """What runs on the machines of parallel: a line for each page comes in, and one for each goes out."""
    for line in sys.stdin:
        job = json.loads(line)
        facts, parts = making.made_of_bytes(path, base64.b64decode(job["page"]), job["module"])
        sys.stdout.write(json.dumps({"number": job["number"], "facts": dataclasses.asdict(facts), "parts": parts}) + "\n")
        sys.stdout.flush()
    return 0
