"""A trace as it is given: its bytes, a file, or the name of one."""
import os
from typing import BinaryIO, Iterator, Union

from . import header
from ._lend import Buffer

BLOCK = header.BLOCK_BYTES
STRETCH = 128 * BLOCK  # bytes that are taken at a time

Trace = Union[str, os.PathLike[str], Buffer, BinaryIO]


def stretches(trace: Trace) -> Iterator[memoryview]:
    """The bytes of a trace, as views of at most so many."""
    if isinstance(trace, (str, os.PathLike)):
        with open(trace, "rb", buffering=0) as file:
            yield from read_from(file)
        return
    try:
        view = memoryview(trace).cast("B")  # type: ignore[arg-type]
    except TypeError:
        yield from read_from(trace)  # type: ignore[arg-type]
        return
    for at in range(0, len(view), STRETCH):
        yield view[at : at + STRETCH]


def read_from(file: BinaryIO) -> Iterator[memoryview]:
    """From where a file stands to its end."""
    while piece := file.read(STRETCH):
        yield memoryview(piece)
    if piece is None:
        raise BlockingIOError("the file has no bytes yet: give one whose reads wait for them")


def blocks(trace: Trace) -> Iterator[memoryview]:
    """The blocks of a trace: of 512 bytes, the last perhaps shorter; of an empty one, one of no bytes."""
    rest, seen = b"", False
    for stretch in stretches(trace):
        if rest:
            stretch = memoryview(rest + bytes(stretch))
        end = len(stretch) - len(stretch) % BLOCK
        for at in range(0, end, BLOCK):
            seen = True
            yield stretch[at : at + BLOCK]
        rest = bytes(stretch[end:])
    if rest or not seen:
        yield memoryview(rest)
