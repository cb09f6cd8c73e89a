"""The blocks of a trace, of 512 bytes each: read, judged and written."""
import enum
from array import array
from typing import Iterable, Iterator, NamedTuple, Optional, Tuple

from . import header
from ._lend import Buffer, list_of, u16, u64
from .refusals import Written, accepted, counted, given

BLOCK = header.BLOCK_BYTES


class Form(enum.IntEnum):
    """The form of a trace: times of 32 bits in ms, or of 48."""

    ONE = header.FORM_ONE
    TWO = header.FORM_TWO


class Kind(enum.IntEnum):
    """What a block holds, and the form of its trace."""

    LABEL_ONE = header.KIND_LABEL_ONE
    ARRIVALS_ONE = header.KIND_ARRIVALS_ONE
    LABEL_TWO = header.KIND_LABEL_TWO
    ARRIVALS_TWO = header.KIND_ARRIVALS_TWO


class Block(NamedTuple):
    """A sound block: its kind, the bytes of its label or the number of its records, and the SSRC."""

    kind: Kind
    held: int
    ssrc: int


class Record(NamedTuple):
    """An arrival: its time in ms, its sequence number, its mark."""

    time: int
    wire: int
    mark: int


def read_block(block: Buffer) -> Block:
    """Judges a block by itself. Refused with 1, 13 or 14.

    >>> from flasknib import read_block, write_label
    >>> read_block(write_label(1, b"ward 3", ssrc=7))
    Block(kind=<Kind.LABEL_ONE: 1>, held=6, ssrc=7)
    """
    found = (u64 * header.BLOCK_WORDS)()
    accepted(header.read_block(block, found))
    return Block(Kind(found[header.BLOCK_KIND]), found[header.BLOCK_HELD], found[header.BLOCK_SSRC])


def read_own(form: int, ssrc: int, block: Buffer) -> None:
    """Judges a later block at its place in a trace of this form and this SSRC, as ecntable does. Refused with 10, 1, 13 or 14."""
    accepted(header.read_own(form, ssrc, block))


def record_at(block: Buffer, i: int) -> Record:
    """The record `i`, counted from 0, of a block of arrivals. Refused with 1, 14, or 10 for no such record."""
    found = (u64 * header.RECORD_WORDS)()
    accepted(header.record_at(block, i, found))
    return Record(found[header.RECORD_TIME], found[header.RECORD_WIRE], found[header.RECORD_MARK])


def records(block: Buffer) -> Iterator[Record]:
    """The records of a sound block of arrivals; a block that is not sound is refused as by `read_block`, and a label with 14.

    >>> from flasknib import records, write_arrivals
    >>> for each in records(write_arrivals(1, [0, 20], [65535, 0], [2, 3], ssrc=7)):
    ...     print(each)
    Record(time=0, wire=65535, mark=2)
    Record(time=20, wire=0, mark=3)
    """
    held = read_block(block).held
    return (record_at(block, i) for i in range(max(held, 1)))


def write_label(form: int, label: Buffer, ssrc: int, out: Optional[Buffer] = None) -> Written:
    """The label block of a new trace. Refused with 10 for a label that is no printable ASCII of 0 to 502 bytes, 19 for one with a
    line break, or 12."""
    return given(lambda lent: header.write_label(form, label, ssrc, lent), BLOCK, out)


def write_arrivals(
    form: int, times: Iterable[int], numbers: Iterable[int], marks: Iterable[int], ssrc: int, out: Optional[Buffer] = None
) -> Written:
    """A block of arrivals, of three lists. Refused with 10 for lists that differ in length, no record, more than the form has to a
    block (62 or 50), a time that it has no bytes for or a mark above 3, or with 12."""
    clock, wire = list_of(times, "Q", u64), list_of(numbers, "H", u16)
    marked = marks if isinstance(marks, (bytes, bytearray, memoryview)) else array("B", marks)
    return given(lambda lent: header.write_arrivals(form, clock, wire, marked, ssrc, lent), BLOCK, out)


def write_records(form: int, records: Buffer, ssrc: int, out: Optional[Buffer] = None) -> Written:
    """A block of arrivals, of the bytes of its records. Refused with 10 or 12."""
    return given(lambda lent: header.write_records(form, records, ssrc, lent), BLOCK, out)


def space_label(zeroth: Buffer) -> Tuple[bytes, int]:
    """Block 0 of a trace again, with one space in the place of each line break of its label, and how many bytes that are. Refused
    with 1, 13 or 14.

    >>> from flasknib import space_label, write_label
    >>> block = write_label(2, b"ward 3", ssrc=7)
    >>> space_label(block) == (block, 0)
    True
    """
    out = bytearray(BLOCK)
    replaced = counted(header.space_label(zeroth, out))
    return bytes(out), replaced
