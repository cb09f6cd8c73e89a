"""A trace in the other form."""
from typing import Iterator

from . import header
from ._lend import Buffer, u64
from ._trace import BLOCK, Trace, blocks
from .refusals import Refused, given


class Forms:
    """A run of ecnforms: it begins with block 0, takes the later blocks one by one, and gives the blocks of the other form.

    >>> import flasknib
    >>> run = flasknib.Forms(flasknib.write_label(1, b"ward 3", 7))
    >>> flasknib.read_block(run.label)
    Block(kind=<Kind.LABEL_TWO: 3>, held=6, ssrc=7)
    >>> run.block(flasknib.write_arrivals(1, [0, 20], [5, 6], [2, 3], 7))
    b''
    >>> flasknib.read_block(run.close())
    Block(kind=<Kind.ARRIVALS_TWO: 4>, held=2, ssrc=7)
    """

    def __init__(self, zeroth: Buffer) -> None:
        """Refused with 1, 13 or 14 for block 0."""
        self._words, self._part = (u64 * header.FORMS_WORDS)(), bytearray(header.FORMS_PART_BYTES)
        self.label: bytes = given(lambda lent: header.forms_start(zeroth, self._words, lent), BLOCK)

    def block(self, block: Buffer) -> bytes:
        """Takes a later block, and gives the blocks that are full with its records, 0 to 2 of them. Refused with 1, 13, 14, or 17 for
        a time that only form 2 has bytes for."""
        return given(lambda lent: header.forms_block(self._words, self._part, block, lent), 2 * BLOCK)

    def close(self) -> bytes:
        """The last block, of the records that are held, or nothing."""
        return given(lambda lent: header.forms_close(self._words, self._part, lent), BLOCK)


def other_form(trace: Trace) -> Iterator[bytes]:
    """The blocks of a trace in its other form. A block that is refused ends them, after the records before it, with its refusal.

    >>> import flasknib
    >>> trace = flasknib.write_label(1, b"ward 3", 7) + flasknib.write_arrivals(1, [0, 20], [5, 6], [2, 3], 7)
    >>> second = b"".join(flasknib.other_form(trace))
    >>> b"".join(flasknib.other_form(second)) == trace
    True
    """
    run = None
    for index, block in enumerate(blocks(trace)):
        try:
            if run is None:
                run = Forms(block)
                yield run.label
            else:
                yield run.block(block)
        except Refused as refused:
            if run:
                yield run.close()
            raise Refused(refused.number, block=index) from None
    if run:
        yield run.close()
