"""How long a proof of some crates takes: by the minutes of `docs/MEASURES.md`, and by the pace at which they are proved."""
import os
import re
import time

from building import ROOT, crates

MEASURES = os.path.join(ROOT, "docs", "MEASURES.md")
ROW = re.compile(r"^\| `(\w+)` \| ([\d.]+) \|$", re.MULTILINE)
# Before so many minutes of work are done nothing is said of the pace.
ENOUGH = 2
SLOWEST, FASTEST = 6, 0.2


def table():
    """The minutes of processor time that the proof of a crate takes, by its name."""
    with open(MEASURES, encoding="utf-8") as file:
        part = file.read().partition("\n## Proofs alone\n")[2].partition("\n## ")[0]
    return {name: float(minutes) for name, minutes in ROW.findall(part)}


def lines_of(name):
    """How many lines of source a crate has."""
    count = 0
    for place, _, names in os.walk(os.path.join(ROOT, "crates", name, "src")):
        for one in names:
            with open(os.path.join(place, one), "rb") as file:
                count += sum(1 for _ in file)
    return count


def minutes_of(names):
    """The minutes of each crate; of one that isn't in the table as many as its lines let expect."""
    known = table()
    measured = sum(map(lines_of, known)) or 1
    each = sum(known.values()) / measured
    return {name: known[name] if name in known else each * lines_of(name) for name in names}


def chains(minutes, uses):
    """For each crate the minutes of the longest chain of crates that begins with it and leads upwards."""
    behind = dict.fromkeys(minutes, 0.0)
    for name in reversed(list(minutes)):
        behind[name] += minutes[name]
        for one in uses[name]:
            if one in behind:
                behind[one] = max(behind[one], behind[name])
    return behind


def span(minutes, uses, lanes):
    """The minutes until all of these crates are done, so many at once, each after those on which it stands, those with the longest chain
    behind them first."""
    behind, left, now = chains(minutes, uses), dict(minutes), 0.0
    running: dict[str, float] = {}
    while left or running:
        ready = [name for name in left if not any(one in left or one in running for one in uses[name])]
        for name in sorted(ready, key=lambda one: -behind[one])[: lanes - len(running)]:
            running[name] = now + left.pop(name)
        first = min(running, key=lambda one: running[one])
        now = running.pop(first)
    return now


class Plan:
    """What is done of a proof, and how long the rest takes. The crates are given with each after those on which it stands."""

    def __init__(self, names, lanes):
        self.uses, self.lanes = crates.uses(), lanes
        self.left = minutes_of(names)
        self.total, self.count = len(names), 0
        # When the proof began, when the last crate was taken of an earlier run, and the minutes of all that were.
        self.begun = time.monotonic()
        self.took: float | None = None
        self.taken = 0.0
        self.whole = self.rest()

    def rest(self):
        """The minutes that the rest takes by the table alone."""
        return span(self.left, self.uses, self.lanes)

    def beginning(self):
        """What is said before the first crate. Which of them earlier runs have proved shows only as they are taken."""
        whole = f"{at_most(self.whole)} of proof on {self.lanes} processors"
        return f"{self.total} crates, {whole}; what an earlier run on this machine has proved is only taken, except tamligub"

    def ahead(self):
        """What is said of the crates that are neither proved nor taken yet, of which more may be taken."""
        return f"{len(self.left)} of {self.total} crates are left, {at_most(self.rest())} of proof on {self.lanes} processors"

    def quiet(self, seconds):
        """How many of so many seconds are left until nothing was taken for as long; all of them while nothing was taken."""
        return seconds if self.took is None else max(0.0, self.took + seconds - time.monotonic())

    def done(self, name, taken=False):
        """Notes that a crate is proved, or that an earlier run has proved it, and answers what is said of that."""
        before = self.rest()
        self.left.pop(name)
        self.count += 1
        rest = self.rest()
        if taken:
            self.took = time.monotonic()
            self.taken += before - rest
            return f"{name} was proved by an earlier run, {self.count} of {self.total}"
        worked, minutes = self.whole - self.taken - rest, (time.monotonic() - self.begun) / 60
        pace = max(FASTEST, min(SLOWEST, minutes / worked)) if worked > ENOUGH else 1
        return f"{name} proved, {self.count} of {self.total}" + (f"; {about(rest * pace)} left" if self.left else "")


def at_most(minutes):
    """Minutes that it may take, as they are said."""
    return about(minutes) if minutes < 1 else f"at most {about(minutes)}"


def about(minutes):
    """Minutes as they are said."""
    if minutes < 1:
        return "less than a minute"
    return f"about {minutes:.0f} minute{'s' if round(minutes) != 1 else ''}"
