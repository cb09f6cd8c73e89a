"""The rows of a picture: those of a table, or those that the proved library makes of a trace. Either is read once, and not kept."""
import csv
import io
import operator
from typing import Any, BinaryIO, Iterable, Iterator, List, NamedTuple, Optional

from . import files, several
from .bars import COUNTS, MOST_BARS, Bar, Blocks
from .blocks import BLOCK, header
from .common import FAILED, REFUSED, Ended, refused_words
from .library import package
from .programs import REFUSED_LINE, Refusal

STRETCH = 128 * BLOCK
MOST_LEFT = 200  # refused blocks of which the place is kept
COUNTED = operator.attrgetter("ssrc", *COUNTS)


class LeftOut(NamedTuple):
    """A refused block that is left out: after so many rows, and at this time of the clock."""

    refusal: Refusal
    rows: int
    clock: Optional[int]


class Rows:
    """What is drawn: the bars, the last row by column, the refusal that ends them, and the refused blocks that were left out."""

    def __init__(self, name: str):
        self.name, self.rows, self.sources, self.several = name, 0, [], False
        self.blocks, self.last, self.refusal = Blocks(), {}, None  # type: Blocks, dict, Optional[Refusal]
        self.left: List[LeftOut] = []  # the first of them
        self.left_out = 0

    def leave(self, refusal: Refusal) -> None:
        self.left_out += 1
        if len(self.left) < MOST_LEFT:
            self.left.append(LeftOut(refusal, self.rows, self.blocks.clock.now))

    def add(self, ssrc: int, *counts: int, times: Optional[tuple] = None) -> None:
        """A row of one more block, or of one more source: that is known when the rows differ in it."""
        self.rows += 1
        if self.rows <= MOST_BARS:
            self.sources.append((ssrc, counts))
        self.several = self.several or ssrc != self.sources[0][0]
        if self.several and self.rows > MOST_BARS:
            raise Ended(REFUSED, f"{self.name}: more than {MOST_BARS} rows of several sources")
        if not self.several:
            self.blocks.add(counts, times)

    @property
    def timed(self) -> bool:
        """Whether the times are known."""
        return self.blocks.clock.began is not None and not self.several

    def bars(self, most: int, timed: bool) -> List[Bar]:
        if self.several:
            return [Bar(f"SSRC {ssrc}", at, at + 1, 1, None, dict(zip(COUNTS, counts))) for at, (ssrc, counts) in enumerate(self.sources)]
        return self.blocks.timed_bars(most) if timed else self.blocks.bars(most)

    def some(self) -> "Rows":
        if not self.rows:
            refusal = self.left[0].refusal if self.left else self.refusal
            raise Ended(REFUSED, f"{self.name}: no rows to draw" + (f"; {refused_words(*refusal)}" if refusal else ""))
        return self


def whole_lines(text: Iterable[str], name: str) -> Iterator[str]:
    line = "\n"
    for line in text:
        yield line
    if not line.endswith(("\n", "\r")):
        raise Ended(REFUSED, f"{name}: the last line has no end, so the table is cut short")


class TableReader:
    """Reads a table of ecntable or ecnstreams."""

    def __init__(self, name: str):
        self.rows, self.head = Rows(name), []

    def read(self, file: BinaryIO) -> Rows:
        with io.TextIOWrapper(file, "utf-8-sig", newline="") as text:
            try:
                self.read_lines(csv.reader(whole_lines(text, self.rows.name), strict=True))
                self.rows.blocks.ended()
            except (ValueError, csv.Error) as error:
                what = f"row {self.rows.rows + 1} is no row of a table" if self.head else "this is neither a table nor a trace"
                raise Ended(REFUSED, f"{self.rows.name}: {what}") from error
        return self.rows

    def read_lines(self, lines: Iterator[list]) -> None:
        head = next(lines, [])
        if not {"label", "ssrc", *COUNTS} <= set(head):
            raise Ended(REFUSED, f"{self.rows.name}: this is no table, its first line does not name the columns, and no trace")
        self.head, chosen, line = head, operator.itemgetter(*map(head.index, ("ssrc", *COUNTS))), None
        for row in lines:
            if len(row) == len(head) and not self.rows.refusal:
                self.rows.add(*map(int, chosen(row)))
                line = row
            elif row:
                self.end(row)
        self.rows.last = dict(zip(head, line or []))

    def end(self, row: list) -> None:
        """The line of a refused block, which ends a table."""
        refusal = self.rows.refusal
        if refusal:
            raise Ended(REFUSED, f"{self.rows.name}: something stands after the line of the refused block {refusal.block}, so this is not one table")
        line = REFUSED_LINE.fullmatch(",".join(row).encode())
        if not line:
            raise ValueError
        self.rows.refusal = Refusal(int(line[1]), int(line[2]))


class TraceReader:
    """Feeds a trace to the library stretch by stretch. With `streams` its blocks may be of several sources, and if they are, each has one row. With
    `salvage` refused blocks are left out, as ecnsalvage leaves them out."""

    def __init__(self, name: str, streams: bool, salvage: bool = False):
        self.flasknib: Any = package(needed=True)
        self.rows, self.feed = Rows(name), self.flasknib.Feed()
        self.run, self.own, self.streams, self.blocks = None, None, streams, 0
        self.salvage, self.seen = salvage, 0  # how many blocks were fed or left out

    def read(self, file: BinaryIO) -> Rows:
        for stretch in iter(lambda: file.read(STRETCH), b""):
            self.take(stretch)
            if self.ended:
                break
        return self.finish()

    @property
    def ended(self) -> bool:
        """Nothing that comes can change the rows."""
        return bool(self.rows.refusal and (self.own or not self.streams))

    def take(self, stretch: bytes) -> bytes:
        """The rows of a stretch of whole blocks. Nothing is fed after a refused block that is not left out."""
        if self.streams and not self.own:
            self.take_of_several(stretch)
        if self.rows.refusal:
            return b""
        if self.salvage:
            return self.take_sound(stretch)
        try:
            table = self.feed.feed(stretch)
        except self.flasknib.Refused as refused:
            table, self.rows.refusal = refused.table, Refusal(refused.number, refused.block)
        return self.add(table, stretch)

    def take_sound(self, stretch: bytes) -> bytes:
        """The same. If a block is refused the feed begins again in front of the stretch, and takes it block by block."""
        before = self.copy()
        try:
            if len(stretch) % BLOCK == 0:
                return self.add(self.feed.feed(stretch), stretch)
        except self.flasknib.Refused:
            self.feed = before
        return b"".join(self.take_block(stretch[at : at + BLOCK]) for at in range(0, len(stretch), BLOCK) if not self.rows.refusal)

    def take_block(self, block: bytes) -> bytes:
        """The row of a block. One that is refused is not fed."""
        before = self.copy()
        try:
            self.flasknib.read_block(block)  # one that is cut short, for the rest of which a feed would wait, is refused with 1
            return self.add(self.feed.feed(block), block)
        except self.flasknib.Refused as refused:
            self.feed = before
            self.leave(refused.number)
            return b""

    def copy(self) -> Any:
        return self.flasknib.Feed.of(self.feed.words, self.feed.kept)

    def leave(self, number: int) -> None:
        """Without block 0 there is no trace."""
        refusal = Refusal(number, self.seen)
        if self.seen:
            self.rows.leave(refusal)
        else:
            self.rows.refusal = refusal
        self.seen += 1

    def add(self, table: bytes, stretch: bytes) -> bytes:
        """Rows, and the stretch of their blocks, which begins with block 0 if it is the first."""
        record_at, row, view, at = self.flasknib.record_at, None, memoryview(stretch), 0 if self.seen else BLOCK
        self.seen += len(stretch) // BLOCK
        for row in self.flasknib.split_rows(table):
            block = view[at : at + BLOCK]
            times = record_at(block, 0).time, record_at(block, header(block).count - 1).time
            self.rows.add(*COUNTED(row), times=times)
            at += BLOCK
        if row:
            self.rows.last = row._asdict()
        return table

    def take_of_several(self, stretch: bytes) -> None:
        """The same as ecnstreams takes it: its refusal is kept in `own`."""
        for at in range(0, len(stretch), BLOCK):
            try:
                if self.run is None:
                    self.run = self.flasknib.Streams(stretch[at : at + BLOCK])
                else:
                    self.run.block(stretch[at : at + BLOCK])
            except self.flasknib.Refused as refused:
                self.own = Refusal(refused.number, self.blocks)
                return
            self.blocks += 1

    def finish(self) -> Rows:
        try:
            if not self.rows.refusal:
                self.feed.close()
        except self.flasknib.Refused as refused:
            self.rows.refusal = Refusal(refused.number, self.feed.blocks)
        one = not self.streams or self.rows.refusal == self.own or not self.run
        return self.rows if one else self.of_sources()

    def of_sources(self) -> Rows:
        """As ecnstreams has them: none if a block is refused."""
        rows = Rows(self.rows.name)
        rows.refusal = self.own
        for row in self.run.rows() if not self.own else ():
            rows.add(*COUNTED(row))
            rows.last = row._asdict()
        return rows


def read(path: str, streams: bool = False, salvage: bool = False) -> Rows:
    """A trace begins with a byte 0, a table never."""
    with several.reading(path) as file:
        trace, name = file.peek(1)[:1] == b"\0", files.shown(path)
        if streams and not trace:
            raise Ended(FAILED, f"{name}: --streams is for a trace, and this is none; a table of ecnstreams needs no option")
        if salvage and not trace:
            raise Ended(FAILED, f"{name}: --salvage is for a trace, and this is none; a table ends at the refused block")
        return (TraceReader(name, streams, salvage) if trace else TableReader(name)).read(file).some()
