"""The rows of a trace's table as values."""
import csv
import io
from typing import Iterator, List, NamedTuple

from ._trace import Trace, stretches
from .feed import Feed
from .refusals import Refused


class Row(NamedTuple):
    """A row of the table: the counts from the beginning of the trace to the end of a block, by the columns' names."""

    label: str
    ssrc: int
    highest: int
    ect0: int
    ect1: int
    ce: int
    notect: int
    lost: int
    dup: int
    jumped: int
    restarts: int


def split_rows(table: bytes) -> List[Row]:
    """The rows in the text of a table, without its head line.

    >>> from flasknib import split_rows
    >>> split_rows(b'"probe 2, left",1,65539,2,1,2,0,2,1,0,0\\r\\n')[0].label
    'probe 2, left'
    """
    lines = csv.reader(io.StringIO(table.decode("ascii"), newline=""), strict=True)
    return [Row(label, *map(int, counts)) for label, *counts in lines]


def rows(trace: Trace) -> Iterator[Row]:
    """The rows of a trace: of a file by its name, of an open file, or of bytes. They come as the trace is read. A block that is
    refused ends them, after the rows before it, with its refusal.

    >>> import flasknib
    >>> trace = flasknib.write_label(1, b"ward 3", 7) + flasknib.write_arrivals(1, [0, 20], [5, 7], [2, 3], 7)
    >>> for row in flasknib.rows(trace):
    ...     print(row.label, row.highest, row.ce, row.lost)
    ward 3 7 1 1
    >>> list(flasknib.rows(trace[:700]))
    Traceback (most recent call last):
    flasknib.Refused: refused 1 block 1: the input is empty, or ends in the middle of a block or a header

    `pandas.DataFrame(flasknib.rows("night1.trace"))` has a column for each.
    """
    feed = Feed()
    for stretch in stretches(trace):
        try:
            table = feed.feed(stretch)
        except Refused as refused:
            yield from split_rows(refused.table)
            raise
        yield from split_rows(table)
    feed.close()
