"""The bytes of a trace, as docs/TRACE.md has them. Whether a block is sound is not said here: that is the proved reader's to say."""
import struct
from typing import BinaryIO, Iterator, NamedTuple

BLOCK = 512
MARKS = ("not-ECT", "ECT(1)", "ECT(0)", "CE")
RETIRED = {10: "LF", 13: "CR"}  # bytes that an older label may have, and no new one


class Form(NamedTuple):
    number: int
    label: int  # the kind of its label block
    arrivals: int  # and of its arrivals blocks
    time: int  # the bytes of a time
    most: int  # the most records of a block


FORMS = {1: Form(1, 1, 2, 4, 62), 2: Form(2, 3, 4, 6, 50)}


class Record(NamedTuple):
    time: int
    number: int
    mark: int


class Header(NamedTuple):
    kind: int
    count: int
    ssrc: int


def blocks_in(trace: BinaryIO) -> Iterator[bytes]:
    """The blocks of a trace from where it stands; of an empty one, one of no bytes."""
    yield trace.read(BLOCK)
    yield from iter(lambda: trace.read(BLOCK), b"")


def header(block: bytes) -> Header:
    return Header(*struct.unpack_from(">HHI", block))


def check(block: bytes) -> int:
    return int.from_bytes(block[-2:], "big")


def label_in(block: bytes) -> bytes:
    return block[8 : 8 + header(block).count]


def records_in(block: bytes, form: Form) -> Iterator[Record]:
    width = form.time + 4
    for at in range(8, 8 + header(block).count * width, width):
        number, mark = struct.unpack_from(">HB", block, at + form.time)
        yield Record(int.from_bytes(block[at : at + form.time], "big"), number, mark)
