"""A trace that arrives bit by bit, and its table."""
from typing import Any, Iterable, Type

from . import header
from ._lend import Buffer, u64
from ._state import Own, State, Word
from ._trace import BLOCK, STRETCH
from .refusals import Refused, given, taken_apart


def head_line() -> bytes:
    """The head line of a table, ended by CR LF.

    >>> import flasknib
    >>> flasknib.head_line()
    b'label,ssrc,highest,ect0,ect1,ce,notect,lost,dup,jumped,restarts\\r\\n'
    """
    return given(header.write_head, header.HEAD_BYTES)


def refused_line(number: int, block: int) -> bytes:
    """The last line of the table of a trace of which a block is refused.

    >>> import flasknib
    >>> flasknib.refused_line(13, 5)
    b'refused 13 block 5\\r\\n'
    """
    return given(lambda lent: header.write_refused(number, block, lent), header.REFUSED_MOST_BYTES)


class Feed(State):
    """A trace that arrives in stretches of any length, down to one byte. However it is cut, the rows are those that ecntable prints.

    >>> import flasknib
    >>> trace = flasknib.write_label(1, b"ward 3", 7) + flasknib.write_arrivals(1, [0, 20], [5, 6], [2, 3], 7)
    >>> feed = flasknib.Feed()
    >>> feed.feed(trace[:600]), feed.blocks, feed.kept_bytes
    (b'', 1, 88)
    >>> feed.feed(trace[600:])
    b'ward 3,7,6,1,0,1,0,0,0,0,0\\r\\n'
    >>> feed.close()

    A block that is refused comes with the rows before it, and every later call repeats the refusal:

    >>> try:
    ...     feed.feed(bytes(512))
    ... except flasknib.Refused as refused:
    ...     print(refused.number, refused.block, refused.table)
    13 2 b''
    """

    blocks = Word(header.UPLOAD_BLOCKS, "The whole blocks taken.")
    kept_bytes = Word(header.UPLOAD_KEPT, "The bytes kept of the next block.")
    refusal = Word(header.UPLOAD_REFUSAL, "The refusal of a block, which is kept; 0 for none.")

    def __init__(self) -> None:
        self._words, self._kept = (u64 * header.UPLOAD_WORDS)(), bytearray(header.UPLOAD_KEPT_BYTES)

    @classmethod
    def of(cls: Type[Own], words: Iterable[int], kept: Buffer = bytes(header.UPLOAD_KEPT_BYTES)) -> Own:
        """The feed with these words and these bytes kept."""
        feed = super().of(words)  # type: ignore[misc]
        feed._kept = bytearray(kept)
        return feed

    @property
    def kept(self) -> bytes:
        """A copy of the 1,024 bytes that are kept beside the words: block 0, and what has come of the next block."""
        return bytes(self._kept)

    def __reduce__(self) -> Any:
        return type(self).of, (self.words, self.kept)

    def __eq__(self, other: object) -> bool:
        return isinstance(other, Feed) and super().__eq__(other) and self.kept == other.kept

    def feed(self, stretch: Buffer) -> bytes:
        """Takes a stretch, and gives the rows of the blocks that it completes. Refused with 13 or 14 for a block, with the rows before
        it in `table`; with a refusal that is kept; or with 9 or 10."""
        rows = []
        view = memoryview(stretch).cast("B")
        for at in range(0, len(view), STRETCH) or [0]:
            try:
                rows.append(self._fed(view[at : at + STRETCH]))
            except Refused as refused:
                raise Refused(refused.number, block=refused.block, table=b"".join([*rows, refused.table])) from None
        return b"".join(rows)

    def _fed(self, part: memoryview) -> bytes:
        out = bytearray(header.ROW_MOST_BYTES * ((len(part) + BLOCK - 1) // BLOCK))
        answer = header.feed(self._words, self._kept, part, out)
        refusal, length = taken_apart(answer) if answer < 0 else (0, answer)
        if refusal and not self._is_kept(refusal):
            raise Refused(refusal)
        table = bytes(memoryview(out)[:length])
        if refusal:
            raise Refused(refusal, block=self.blocks, table=table)
        return table

    def _is_kept(self, refusal: int) -> bool:
        """Whether it is the refusal of a block; 9 comes first, and never is."""
        return refusal != header.REFUSAL_MALFORMED and refusal == self.refusal

    def close(self) -> None:
        """Ends the trace, or asks how it would end here. Refused with 1 if it ends in the middle of a block or is empty, or with the
        refusal that is kept. If nothing is refused nothing has changed, and feeding may go on."""
        answer = header.feed_close(self._words, self._kept)
        if answer:
            raise Refused(answer, block=self.blocks if self._is_kept(answer) else None)
