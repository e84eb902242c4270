"""What `list` says of the items of a page: how many there are, how many bytes are passed over, and which are refused."""
import re
from typing import NamedTuple

# Why items are refused, by their numbers from 1 on.
REASONS = ("UnassignedControl", "UnknownEscape", "UnknownCsi", "UnknownUnit", "BadParameter", "Interrupted", "Truncated")
REFUSED = re.compile(r"^(\d+) (\d+) REFUSED (\w+)$", re.MULTILINE)


class Listing(NamedTuple):
    """Items, bytes that a unit passes over, and place, length and reason of each refused item."""

    items: int
    passed_over: int
    refused: list[tuple[str, str, str]]

    def check(self) -> str:
        """The text that `check` has of the same page."""
        lines = [f"! {place} {length} {REASONS.index(reason) + 1} {reason}\n" for place, length, reason in self.refused]
        return "".join(lines) + f"items {self.items} refused {len(self.refused)}\n"


def read(text: str) -> Listing:
    """The items of a text of `list`. Each byte that is passed over is an item of its own."""
    refused = REFUSED.findall(text) if " REFUSED " in text else []
    return Listing(text.count("\n"), text.count(" SKIPPED\n"), refused)
