"""How a run of the program ends: its statuses, by the names and numbers of library/tamligub.h, and what each says of a stored page."""
import enum


class Status(enum.IntEnum):
    """The status of a run that no signal has ended."""

    DONE = 0
    REFUSALS = 1
    USAGE = 2
    BAD_SCRIPT = 3
    UNREAD = 4
    # Of the library: the text is longer than its room; of the program: its output has failed.
    NO_ROOM = 5
    NO_MEMORY = 6
    TOO_LONG = 7
    NOT_SEVEN = 8


# Of btx itself: something that it needs isn't on this machine.
NOT_THERE = 127
# The page was read to its end.
READ = (Status.DONE, Status.REFUSALS)
