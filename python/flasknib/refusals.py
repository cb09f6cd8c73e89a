"""Refusals: one exception, with the number, the name and the text of what is wrong."""
from typing import Any, Callable, Optional, Tuple, Union

from . import header
from ._lend import Buffer

Written = Union[bytes, memoryview]


class Refused(Exception):
    """The library refuses a call, and has changed nothing.

    number  the refusal's number, as in the header and in a table's line `refused N block I`
    name    its name in the header
    text    what is wrong
    size    of refusal 12, ROOM: the bytes that the call would write; else None
    block   the block of a trace that is refused, counted from 0; else None
    table   the rows that `Feed.feed` completed before that block; else empty

    >>> import flasknib
    >>> try:
    ...     flasknib.read_compound(b"", media=1)
    ... except flasknib.Refused as refused:
    ...     print(refused.number, refused.name, "-", refused.text)
    1 INCOMPLETE - the input is empty, or ends in the middle of a block or a header
    """

    def __init__(self, number: int, size: Optional[int] = None, block: Optional[int] = None, table: bytes = b"") -> None:
        super().__init__(number, size, block, table)
        self.number, self.size, self.block, self.table = number, size, block, table
        self.name, self.text = header.REFUSALS.get(number, ("UNKNOWN", "a refusal that this package does not know"))

    def __str__(self) -> str:
        where = "" if self.block is None else f" block {self.block}"
        need = "" if self.size is None else f" ({self.size} bytes are needed)"
        return f"refused {self.number}{where}: {self.text}{need}"


Refused.__module__ = "flasknib"


def accepted(answer: int) -> None:
    """What a call that fills words answers: 0, or its refusal."""
    if answer:
        raise Refused(answer)


def taken_apart(answer: int) -> Tuple[int, int]:
    """(refusal, size) of a negative answer of a writer, which is minus (256 * size + refusal)."""
    return -answer % 256, -answer // 256


def counted(answer: int) -> int:
    """What a writer answers: the length; or it is refused, with 12 and the size that it needs."""
    if answer >= 0:
        return answer
    refusal, size = taken_apart(answer)
    raise Refused(refusal, size if refusal == header.REFUSAL_ROOM else None)


def given(write: Callable[[Any], int], most: int, out: Optional[Buffer] = None) -> Any:
    """What a writer writes of at most so many bytes: new bytes, or a view of the front of `out`."""
    lent = bytearray(most) if out is None else out
    length = counted(write(lent))
    return bytes(memoryview(lent)[:length]) if out is None else memoryview(out).cast("B")[:length]
