"""What is left of a damaged trace."""
from typing import Iterator, NamedTuple, Optional

from . import header
from ._lend import u64
from ._trace import Trace, blocks
from .refusals import Refused


class Salvaged(NamedTuple):
    """A block of a trace: its place, its bytes (a view that is only good until the next block), and its refusal or None."""

    index: int
    block: memoryview
    refused: Optional[Refused]


def salvage(trace: Trace) -> Iterator[Salvaged]:
    """Judges each block of a trace at its place, as ecnsalvage does: those that are not refused, in order, are what is left of it. A
    wrong block 0 is the last: there is nothing to go by.

    >>> import flasknib
    >>> trace = flasknib.write_label(1, b"ward 3", 7) + bytes(512) + flasknib.write_arrivals(1, [0, 20], [5, 6], [2, 3], 7)
    >>> copy = b""
    >>> for index, block, refused in flasknib.salvage(trace):
    ...     if refused:
    ...         print(refused)
    ...     else:
    ...         copy += block
    refused 13 block 1: the block's checksum does not fit
    >>> copy == trace[:512] + trace[1024:]
    True
    """
    run = (u64 * header.RUN_WORDS)()
    for index, block in enumerate(blocks(trace)):
        if index == 0:
            answer = header.run_start(block, run)
        else:
            answer = header.read_own(run[header.RUN_FORM], run[header.RUN_SSRC], block)
        yield Salvaged(index, block, Refused(answer, block=index) if answer else None)
        if answer and index == 0:
            return
