"""What a page says of a trace, found in one pass over it: its rows and picture, its refused blocks, and its sums."""
import hashlib
from typing import Any, List, NamedTuple, Optional

from . import files, several
from .blocks import BLOCK, label_in
from .check import Judge
from .origins import Sum
from .plotpicture import Picture
from .plotrows import STRETCH, Rows, TraceReader

MOST_LISTED = 20  # runs of refused blocks
WIDTH = 180  # mm, of a picture


class Refused(NamedTuple):
    """Blocks one after the other that are refused with one number."""

    number: int
    first: int
    last: int


class Found(NamedTuple):
    """Of a trace: the label and the form are None if block 0 is refused."""

    label: Optional[bytes]
    form: Optional[int]
    blocks: int
    trace: Sum
    table: Optional[Sum]  # as ecntable or ecnstreams prints it; None if a block is refused
    rows: List[Any]  # the last one, or one for each source
    others: List[int]  # SSRCs of blocks that are refused since they are of another source than the label's
    refused: int
    refusals: List[Refused]  # the first of them
    picture: Optional[str]
    several: bool  # the rows are those of ecnstreams
    salvaged: bool  # refused blocks are left out of the rows
    only: bool  # no block after block 0 was judged


class Sums:
    """The size and the SHA-256 of bytes that come one after the other."""

    def __init__(self) -> None:
        self.size, self.sha = 0, hashlib.sha256()

    def add(self, data: bytes) -> None:
        self.size += len(data)
        self.sha.update(data)

    @property
    def sum(self) -> Sum:
        return Sum(self.size, self.sha.hexdigest())


class Judged:
    """The refused blocks. Those before the first one are sound, as the rows show; the others are judged one by one at their place."""

    def __init__(self, flasknib: Any, streams: bool):
        self.judge, self.streams, self.refused, self.listed = Judge(flasknib, streams), streams, 0, 0
        self.runs: List[Refused] = []

    def take(self, stretch: bytes, index: int, sound: bool) -> None:
        """A stretch, of which the first block has this index; whether all of its blocks are known to be sound."""
        every = self.streams or not sound
        for at in range(0, len(stretch) if every else BLOCK if index == 0 else 0, BLOCK):
            if self.judge.form is None and index + at:
                return
            number = self.judge.refusal(stretch[at : at + BLOCK])
            if number is not None:
                self.add(number, index + at // BLOCK)

    def add(self, number: int, block: int) -> None:
        self.refused += 1
        last = self.runs[-1] if self.runs else None
        if last and (last.number, last.last) == (number, block - 1) and self.listed == self.refused - 1:
            self.runs[-1] = last._replace(last=block)
        elif len(self.runs) < MOST_LISTED and self.listed == self.refused - 1:
            self.runs.append(Refused(number, block, block))
        else:
            return
        self.listed += 1


def last_rows(reader: TraceReader, rows: Rows) -> list:
    if rows is not reader.rows:
        return reader.run.rows() if rows.rows else []
    return [reader.flasknib.Row(**rows.last)] if rows.last else []


def table_of(reader: TraceReader, rows: Rows, printed: Sums) -> Sum:
    """The sum of a table of several sources, or of the rows that came block by block."""
    if rows is reader.rows:
        return printed.sum
    found = Sums()
    found.add(reader.flasknib.head_line() + reader.run.table())
    return found.sum


def read(trace: str, streams: bool, salvage: bool, prefixes: dict) -> Found:
    reader = TraceReader(files.shown(trace), streams, salvage)
    judged, trace_sums, printed, label = Judged(reader.flasknib, streams), Sums(), Sums(), None
    printed.add(reader.flasknib.head_line())
    with several.reading(trace) as file:
        for stretch in iter(lambda: file.read(STRETCH), b""):
            index = trace_sums.size // BLOCK
            trace_sums.add(stretch)
            printed.add(reader.take(stretch))
            judged.take(stretch, index, not reader.rows.refusal and not reader.rows.left and len(stretch) % BLOCK == 0)
            label = label_in(stretch) if index == 0 and judged.judge.form else label
    rows = reader.finish()
    if not trace_sums.size:
        judged.add(1, 0)
    return found(trace_sums, judged, label, rows, reader, printed, prefixes[trace])


def found(sums: Sums, judged: Judged, label: Optional[bytes], rows: Rows, reader: TraceReader, printed: Sums, prefix: str) -> Found:
    judge, whole = judged.judge, not judged.refused
    others = sorted(judge.sources - {judge.ssrc}) if judged.refused and not judged.streams else []
    drawn = Picture(rows, WIDTH, prefix, bare=True).svg() if rows.rows else None
    table = table_of(reader, rows, printed) if whole else None
    blocks = -(-sums.size // BLOCK)
    lines = last_rows(reader, rows)
    more = drawn, rows is not reader.rows, bool(rows.left), judge.form is None and blocks > 1
    return Found(label, judge.form, blocks, sums.sum, table, lines, others, judged.refused, judged.runs, *more)
