"""What a call of a decoder says, as records of one buffer; values are made of those that are asked for."""
from __future__ import annotations

from collections.abc import Iterator, Sequence
from typing import Any, Final, TypedDict, Union, overload

from .binding import SIZE_OF_NOTICE
from .looks import Change, Refusal, notice_of

Notice = Union[Change, Refusal]


class Fields(TypedDict):
    """The fields of records, as numpy.dtype reads them."""

    names: Sequence[str]
    formats: Sequence[Any]


class Layout(Fields, total=False):
    """A layout of records, as numpy.dtype reads it: with the keys and the types that numpy has for one."""

    offsets: Sequence[int]
    titles: Sequence[Any]
    itemsize: int
    aligned: bool


# Each field of a record: its name, its form, and how many bytes stand before it. tamligub.h says what they mean.
FIELDS: Final = (
    ("at", "<u8", 0), ("kind", "u1", 8), ("length", "u1", 9), ("reason", "u1", 10), ("row", "u1", 11), ("column", "u1", 12),
    ("sign", "4u1", 13), ("dy", "u1", 17), ("dx", "u1", 18), ("w", "u1", 19), ("h", "u1", 20), ("fore", "4u1", 21), ("back", "4u1", 25),
    ("flash", "u1", 29), ("conceal", "u1", 30), ("lined", "u1", 31), ("boxed", "u1", 32), ("bits", "9<u8", 40), ("form", "4u1", 112),
    ("colours", "(16,4)u1", 116),
)
# numpy.frombuffer(notices.buffer, numpy.dtype(tamligub.LAYOUT)) reads the records without a copy.
LAYOUT: Final[Layout] = {
    "names": [name for name, _, _ in FIELDS], "formats": [form for _, form, _ in FIELDS], "offsets": [at for _, _, at in FIELDS],
    "itemsize": SIZE_OF_NOTICE,
}


class Notices(Sequence[Notice]):
    """Changes and refusals in their order. `buffer` has them as records of 184 bytes, one after the other, so that those of a long page
    are no objects each; an index, or a walk, makes a value of each record that is reached. Those with the same records are equal.

    >>> from tamligub import Decoder
    >>> said = Decoder().feed(b"AB")
    >>> len(said), len(said.buffer), str(said[1]), said == Decoder().feed(b"AB")
    (2, 368, '1 1 2 P42 11.00 FFF 000 S---', True)
    """

    __slots__ = ("buffer",)

    def __init__(self, records: bytes = b"") -> None:
        self.buffer: Final = records

    def __reduce__(self) -> tuple[type[Notices], tuple[bytes]]:
        return type(self), (self.buffer,)

    def __len__(self) -> int:
        return len(self.buffer) // SIZE_OF_NOTICE

    @overload
    def __getitem__(self, index: int) -> Notice: ...

    @overload
    def __getitem__(self, index: slice) -> list[Notice]: ...

    def __getitem__(self, index: int | slice) -> Notice | list[Notice]:
        if isinstance(index, slice):
            return [self[one] for one in range(*index.indices(len(self)))]
        try:
            number = range(len(self))[index]
        except IndexError:
            raise IndexError(f"there is no notice {index} of {len(self)}") from None
        return notice_of(self.buffer[number * SIZE_OF_NOTICE : (number + 1) * SIZE_OF_NOTICE])

    def __iter__(self) -> Iterator[Notice]:
        for start in range(0, len(self.buffer), SIZE_OF_NOTICE):
            yield notice_of(self.buffer[start : start + SIZE_OF_NOTICE])

    def __eq__(self, other: object) -> bool:
        if not isinstance(other, Notices):
            return NotImplemented
        return self.buffer == other.buffer

    def __repr__(self) -> str:
        return f"<Notices: {len(self)}>"
