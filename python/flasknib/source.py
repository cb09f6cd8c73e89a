"""One RTP source: its arrivals counted by ECN mark, and the ECN reports about it (RFC 6679)."""
import enum
from typing import NamedTuple, Optional

from . import header
from ._lend import Buffer, u64
from ._state import State, Word, signed
from .refusals import Refused, Written, accepted, given, taken_apart


class Mark(enum.IntEnum):
    """The two ECN bits of the IP header (RFC 3168)."""

    NOT_ECT = header.MARK_NOT_ECT
    ECT1 = header.MARK_ECT1
    ECT0 = header.MARK_ECT0
    CE = header.MARK_CE


class Arrival(enum.IntEnum):
    """What an arrival was. A jump is refused with 7: it is left out, and only remembered. It is no exception here,
    since every sender that reboots gives one; its next packet restarts the source."""

    COUNTED = 0
    JUMP = header.REFUSAL_JUMP
    RESTARTED = header.RESTARTED


class Counted(NamedTuple):
    """What a block of arrivals brought beside its counts."""

    jumps: int
    restarts: int


ARRIVALS = {int(each): each for each in Arrival}


def arrival(answer: int) -> Arrival:
    try:
        return ARRIVALS[answer]
    except KeyError:
        raise Refused(answer) from None


def block_counted(answer: int) -> Counted:
    if answer < 0:
        raise Refused(taken_apart(answer)[0])
    return Counted(answer % 256, answer // 256)


class Source(State):
    """The counts of one RTP source; a new one has seen no packet.

    >>> from flasknib import Source
    >>> source = Source()
    >>> for number, mark in [(65534, 2), (65535, 2), (0, 3), (0, 3), (3, 1)]:
    ...     source.arrive(number, mark)
    <Arrival.COUNTED: 0>
    <Arrival.COUNTED: 0>
    <Arrival.COUNTED: 0>
    <Arrival.COUNTED: 0>
    <Arrival.COUNTED: 0>
    >>> source.highest, source.ect0, source.ect1, source.ce, source.not_ect, source.lost, source.duplicates
    (65539, 2, 1, 2, 0, 2, 1)
    >>> source.feedback(sender=9, media=1).hex(" ", 4)
    '88cd0007 00000009 00000001 00010003 00000002 00000001 00020000 00020001'

    A sender that begins again, with other numbers:

    >>> source.arrive(30000, 2), source.arrive(30001, 2)
    (<Arrival.JUMP: 7>, <Arrival.RESTARTED: 128>)
    >>> source.highest
    30001
    """

    base = Word(header.SOURCE_BASE, "The first sequence number.", signed=True)
    highest = Word(header.SOURCE_HIGHEST, "The highest sequence number, with its wraps counted.", signed=True)
    not_ect = Word(header.SOURCE_NOT_ECT, "Packets with the mark not-ECT.")
    ect1 = Word(header.SOURCE_ECT1, "Packets with the mark ECT(1).")
    ect0 = Word(header.SOURCE_ECT0, "Packets with the mark ECT(0).")
    ce = Word(header.SOURCE_CE, "Packets with the mark CE.")
    duplicates = Word(header.SOURCE_DUPLICATES, "Packets whose number had arrived before.")
    remembered = Word(header.SOURCE_REMEMBERED, "0, or the number that would follow the last jump, plus 1.")

    def __init__(self) -> None:
        self._words = (u64 * header.SOURCE_WORDS)()

    def arrive(self, wire: int, mark: int) -> Arrival:
        """Counts a packet by its 16-bit sequence number and its mark. Refused with 9, 10 or 8."""
        return arrival(header.arrive(self._words, wire, mark))

    def count_block(self, records: Buffer, width: int) -> Counted:
        """Counts the 1 to 62 records of a block of arrivals, as a trace has them, of `width` bytes each: a time, the number
        (2 bytes, big-endian), the mark and one byte. Refused with 9 or 10.

        >>> from flasknib import Source
        >>> Source().count_block(bytes.fromhex("75300200 75310200"), width=4)
        Counted(jumps=0, restarts=0)
        """
        return block_counted(header.count_block(self._words, records, width))

    @property
    def lost(self) -> int:
        """Packets lost; negative if packets from before the first came. Refused with 9."""
        found = (u64 * header.LOST_WORDS)()
        accepted(header.lost(self._words, found))
        return signed(found[0])

    def feedback(self, sender: int, media: int, out: Optional[Buffer] = None) -> Written:
        """The ECN feedback packet, 32 bytes, from the SSRC `sender` about the SSRC `media`: new bytes, or the front of `out`, as a
        view. Refused with 9, or 12 for an `out` that is too small."""
        return given(lambda lent: header.write_feedback(self._words, sender, media, lent), header.FEEDBACK_BYTES, out)

    def summary(self, media: int, out: Optional[Buffer] = None) -> Written:
        """The XR ECN summary block, 24 bytes, about the SSRC `media`, for an XR packet: as `feedback`."""
        return given(lambda lent: header.write_summary(self._words, media, lent), header.SUMMARY_BYTES, out)

    def row(self, label: Buffer, ssrc: int, jumped: int = 0, restarts: int = 0, out: Optional[Buffer] = None) -> Written:
        """The row of a table with these counts, ended by CR LF. Refused with 9, 10 or 12.

        >>> from flasknib import Source
        >>> Source().row(b"probe 2, left", 1)
        b'"probe 2, left",1,0,0,0,0,0,0,0,0,0\\r\\n'
        """

        def write(lent: Buffer) -> int:
            return header.write_row(label, ssrc, self._words, jumped, restarts, lent)

        return given(write, header.ROW_MOST_BYTES, out)


def feedback(source: Source, sender: int, media: int, out: Optional[Buffer] = None) -> Written:
    """`source.feedback`."""
    return source.feedback(sender, media, out)


def summary(source: Source, media: int, out: Optional[Buffer] = None) -> Written:
    """`source.summary`.

    >>> import flasknib
    >>> flasknib.summary(flasknib.Source(), media=1).hex(" ", 4)
    '0d000005 00000001 00000000 00000000 00000000 00000000'
    """
    return source.summary(media, out)
