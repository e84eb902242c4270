"""What is said where files or the program fail, and the status of that. A word that takes several pages goes on with the others."""
from collections.abc import Callable
from typing import TypeVar

from btx import ending, messages, program, say
from btx.statuses import Status

Read = TypeVar("Read")


def of_end(path: program.Runner, word: str, end: program.Ended) -> int:
    """Says why a run of the program ended, which people asked for by a word; by a signal this process ends too."""
    if end.status < 0:
        ending.end_by(-end.status)
    is_unnamed = end.status == Status.USAGE and word not in program.WORDS
    say(messages.no_name(word, end.words) if is_unnamed else messages.sentence(messages.Run(path, word, end.words), end.status))
    return end.status


def of_fault(word: str, fault: OSError) -> int:
    """Says why a file failed."""
    say(": ".join(part for part in (word, fault.filename, messages.why(fault)) if part))
    return Status.UNREAD


class Pages:
    """The pages of a word that takes several: of each that can't be read it says so. The status is that of the first of these."""

    def __init__(self, path: program.Runner, word: str) -> None:
        self.path, self.word, self.status = path, word, 0

    def read(self, act: Callable[..., Read], *things: object) -> Read | None:
        """What is read of a page; None where it can't be read."""
        try:
            return act(self.path, *things)
        except BrokenPipeError:
            raise
        except program.Ended as end:
            status = of_end(self.path, self.word, end)
        except OSError as fault:
            status = of_fault(self.word, fault)
        self.status = self.status or status
        return None
