"""A trace whose blocks are of several sources, and the row of each."""
from typing import List

from . import header
from ._lend import Buffer, u64
from ._trace import Trace, blocks
from .refusals import Refused, accepted, given
from .table import Row, split_rows


class Streams:
    """A run of ecnstreams: it begins with block 0, takes the later blocks one by one, and gives a row for each source.

    >>> import flasknib
    >>> run = flasknib.Streams(flasknib.write_label(1, b"ward 3", 7))
    >>> for ssrc in (900, 100):
    ...     run.block(flasknib.write_arrivals(1, [0, 20], [5, 6], [2, 3], ssrc))
    >>> [(row.ssrc, row.highest, row.ce) for row in run.rows()]
    [(100, 6, 1), (900, 6, 1)]
    """

    def __init__(self, zeroth: Buffer) -> None:
        """Refused with 1, 13 or 14 for block 0."""
        self._words = (u64 * header.STREAMS_WORDS)()
        self._lines = (u64 * (header.STREAMS_MOST_LINES * header.LINE_WORDS))()
        self._zeroth = bytes(zeroth)
        accepted(header.streams_start(self._zeroth, self._words))

    def block(self, block: Buffer) -> None:
        """Counts a later block. Refused with 1, 13, 14, or 15 for a seventeenth source."""
        accepted(header.streams_block(self._words, self._lines, block))

    def __len__(self) -> int:
        """How many sources there are."""
        return self._words[header.STREAMS_HELD]

    def table(self) -> bytes:
        """The rows, each ended by CR LF, in rising order of SSRC."""
        return b"".join(self._row(i) for i in range(len(self)))

    def _row(self, i: int) -> bytes:
        def write(lent: Buffer) -> int:
            return header.streams_row(self._words, i, self._lines, self._zeroth, lent)

        return given(write, header.ROW_MOST_BYTES)

    def rows(self) -> List[Row]:
        return split_rows(self.table())


def streams(trace: Trace) -> List[Row]:
    """A row for each source of a trace, in rising order of SSRC, as ecnstreams prints them. If a block is refused there are none.

    >>> import flasknib
    >>> flasknib.streams(flasknib.write_label(1, b"ward 3", 7))
    []
    """
    run = None
    for index, block in enumerate(blocks(trace)):
        try:
            if run is None:
                run = Streams(block)
            else:
                run.block(block)
        except Refused as refused:
            raise Refused(refused.number, block=index) from None
    return run.rows() if run else []
