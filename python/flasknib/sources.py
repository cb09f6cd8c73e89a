"""Several RTP sources in one table, and the compound with the feedback of all of them."""
from typing import Iterator, Optional, Tuple

from . import header
from ._lend import Buffer, u64
from ._state import State
from .refusals import Refused, Written, accepted, counted, given
from .source import Arrival, Counted, Source, arrival, block_counted


class Sources(State):
    """A table of 0 to 16 sources, by SSRC.

    >>> from flasknib import Sources
    >>> sources = Sources(places=2)
    >>> sources.arrive(900, 17, 2), sources.arrive(100, 5, 3), sources.arrive(900, 19, 2)
    (<Arrival.COUNTED: 0>, <Arrival.COUNTED: 0>, <Arrival.COUNTED: 0>)
    >>> [(ssrc, source.highest, source.lost) for ssrc, source in sources]
    [(100, 5, 0), (900, 19, 1)]
    >>> sources.held(), len(sources.compound(sender=9))
    (2, 72)

    A third source has no place:

    >>> sources.arrive(7, 1, 0)
    Traceback (most recent call last):
    flasknib.Refused: refused 15: a source is new, and every place of the table is held (at most 16)
    """

    def __init__(self, places: int = header.SOURCES_MOST_PLACES) -> None:
        self._words = (u64 * (places * header.PLACE_WORDS))()

    def arrive(self, ssrc: int, wire: int, mark: int) -> Arrival:
        """Counts a packet of the source `ssrc`, as `Source.arrive` does. Refused with 16, 9, 10, 15 or 8."""
        return arrival(header.sources_arrive(self._words, ssrc, wire, mark))

    def count_block(self, ssrc: int, records: Buffer, width: int) -> Counted:
        """Counts the records of a block of the source `ssrc`, as `Source.count_block` does. Refused with 16, 9, 10 or 15."""
        return block_counted(header.sources_count_block(self._words, ssrc, records, width))

    def compound(self, sender: int, out: Optional[Buffer] = None) -> Written:
        """The compound of an RR and one ECN feedback packet for each source, in order of SSRC. Refused with 16, 9 or 12."""
        most = header.SOURCES_COMPOUND_MOST_BYTES
        return given(lambda lent: header.sources_write_compound(self._words, sender, lent), most, out)

    def place(self, place: int) -> Tuple[int, Source]:
        """The SSRC at a place that is held, counted from 0, and a copy of its source. Refused with 16, 9 or 10."""
        found = (u64 * header.PLACE_WORDS)()
        accepted(header.sources_place(self._words, place, found))
        return found[header.PLACE_SSRC], Source.of(found[header.PLACE_SOURCE :])

    def held(self) -> int:
        """How many sources there are. Refused with 16 or 9."""
        return counted(header.sources_held(self._words))

    def __iter__(self) -> Iterator[Tuple[int, Source]]:
        """Each source with its SSRC, in rising order."""
        for place in range(len(self._words) // header.PLACE_WORDS):
            try:
                found = self.place(place)
            except Refused as refused:
                if refused.number == header.REFUSAL_LIMITS:
                    return
                raise
            yield found
