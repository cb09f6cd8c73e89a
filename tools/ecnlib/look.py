"""Shows a trace: each block with its verdict, and its records.

    ecn look night1.trace --brief
    ecn look night1.trace --refused

The verdicts are the proved reader's. The library (that of $FLASKNIB_LIBRARY, or of this installation, or of the
system) judges each block by itself. The program ecntable judges each block at its place. It ends at the first block
that it refuses. So it is run again on the trace without that block, until it refuses none, and 100 times at most. If
one of the two is missing, only the other's verdicts are shown. A block that is refused is shown with its header's
numbers and no records. The last line counts the blocks of the whole trace, also if only some are shown.

The trace is read more than once, so TRACE is a file and not standard input.

Exit status: 0 no block is refused; 1 one is; 2 a read or a write failed, neither the program nor the library is there,
or the arguments are wrong.
"""
import argparse
import enum
import io
import json
import os
import re
from collections import Counter
from typing import BinaryIO, Iterator, NamedTuple, Optional

from . import programs
from .blocks import BLOCK, FORMS, MARKS, blocks_in, check, header, label_in, records_in
from .common import FAILED, REFUSED, WELL, Ended, file_name, many, printing
from .files import Input
from .layer import refusal_text
from .library import file_of, package

MOST_RUNS = 100  # of the program on one trace


def add_arguments(parser: argparse.ArgumentParser) -> None:
    parser.add_argument("trace", type=file_name, metavar="TRACE", help="the trace's file")
    parser.add_argument("--brief", action="store_true", help="one line for each block, without its label or records")
    parser.add_argument("--block", type=asked_range, metavar="I[-J]", help="only these blocks, counted from 0; I is a block of the trace")
    parser.add_argument("--refused", action="store_true", help="only the blocks that are refused or not judged")
    parser.add_argument("--streams", action="store_true", help="ask ecnstreams in place of ecntable: arrivals blocks may differ in SSRC")


def asked_range(text: str) -> range:
    ends = re.fullmatch(r"([0-9]+)(?:-([0-9]+))?", text)
    if not ends:
        raise argparse.ArgumentTypeError(f"{text!r} is neither one block, as 5, nor the first and the last of several, as 5-7")
    first, last = int(ends[1]), int(ends[2] or ends[1])
    if last < first:
        raise argparse.ArgumentTypeError(f"{text} ends before it begins")
    return range(first, last + 1)


def pieces_from(trace: BinaryIO, first: int) -> Iterator[bytes]:
    """The label block, and the trace from a block on."""
    trace.seek(0)
    yield trace.read(BLOCK if first else 0)
    trace.seek(first * BLOCK)
    yield from iter(lambda: trace.read(1 << 18), b"")


class AtPlace(NamedTuple):
    """The refusals that a program gives, by block, and the first block that it was not asked about, with the reason."""

    refusals: dict
    end: Optional[int]
    why: str


def judged_at_place(path: str, trace: BinaryIO) -> AtPlace:
    refusals: dict = {}
    first = 0  # the blocks before it have their verdict; block 0 is sound if there are any
    name = os.path.basename(path)
    for _ in range(MOST_RUNS):
        refusal = programs.asked(path, pieces_from(trace, first))
        if refusal is None:
            return AtPlace(refusals, None, "")
        block = refusal.block + max(0, first - 1)
        refusals[block] = refusal.number
        first = block + 1
        if block == 0:
            return AtPlace(refusals, first, f"{name} refuses block 0, and goes no further")
        if refusal.number == 1:
            return AtPlace(refusals, None, "")
    return AtPlace(refusals, first, f"{name} was run {MOST_RUNS} times, the limit, and refused a block each time")


class Kind(enum.Enum):
    SOUND = "sound"
    ALONE = "sound by itself; its place is not judged"
    REFUSED = "REFUSED"
    OPEN = "not judged"


class Verdict(NamedTuple):
    kind: Kind
    words: str


class Judge:
    """The verdict on each block, from the program, the library, or both."""

    def __init__(self, trace: BinaryIO, streams: bool, folder: Optional[str]):
        self.library = package()
        name = "ecnstreams" if streams else "ecntable"
        try:
            path = programs.program(name, folder)
        except Ended:
            if self.library is None or folder:
                raise
            self.place, self.by = AtPlace({}, 0, f"the program {name} is not there"), file_of(self.library)
            return
        self.place = judged_at_place(path, trace)
        self.by = name + (f" and {file_of(self.library)}" if self.library else "")

    def by_itself(self, block: bytes) -> Optional[int]:
        """The refusal of a block by itself, or 0; None where the library is not there."""
        if self.library is None:
            return None
        try:
            self.library.read_block(block)
        except self.library.Refused as refused:
            return refused.number
        return 0

    def verdict(self, index: int, block: bytes) -> Verdict:
        alone = self.by_itself(block)
        if index in self.place.refusals:
            return refused(self.place.refusals[index], "; by itself it is sound" if alone == 0 else "")
        if self.place.end is None or index < self.place.end:
            return Verdict(Kind.SOUND, Kind.SOUND.value)
        if alone is None:
            return Verdict(Kind.OPEN, f"{Kind.OPEN.value}: {self.place.why}, and the library is not there")
        return refused(alone) if alone else Verdict(Kind.ALONE, Kind.ALONE.value)

    def summary(self, blocks: int, kinds: Counter) -> str:
        """Blocks that are refused, not judged, and judged by themselves alone are counted apart."""
        words = f"{many(blocks, 'block')}, {kinds[Kind.REFUSED]:,} refused"
        for kind, name in ((Kind.ALONE, "not judged at their place"), (Kind.OPEN, "not judged")):
            words += f", {kinds[kind]:,} {name} ({self.place.why})" if kinds[kind] else ""
        return f"{words}; judged by {self.by}"


def refused(number: int, more: str = "") -> Verdict:
    return Verdict(Kind.REFUSED, f"{Kind.REFUSED.value} with {number}: {refusal_text(number)}{more}")


def shown(block: bytes, brief: bool) -> Iterator[str]:
    """A sound block: what its header says, then the label or the records."""
    kind, count, ssrc = header(block)
    form = FORMS[(kind + 1) // 2]
    if kind == form.label:
        yield f"label of {many(count, 'byte')}, form {form.number}, SSRC {ssrc}"
        if not brief:
            yield f"    {json.dumps(label_in(block).decode('ascii'))}"
        return
    yield f"{many(count, 'arrival')}, form {form.number}, SSRC {ssrc}"
    if not brief:
        for each in records_in(block, form):
            yield f"    time {each.time} ms  number {each.number}  mark {each.mark} {MARKS[each.mark]}"


def lines(index: int, block: bytes, verdict: Verdict, brief: bool) -> Iterator[str]:
    if verdict.kind in (Kind.SOUND, Kind.ALONE):
        first, *others = shown(block, brief)
        yield f"block {index}: {verdict.words}: {first}"
        yield from others
        return
    raw = f"{len(block)} bytes" if len(block) < BLOCK else "kind {}, count {}, SSRC {}, check {:04x}".format(*header(block), check(block))
    yield f"block {index}: {verdict.words} ({raw})"


def asked_for(options: argparse.Namespace, index: int, verdict: Verdict) -> bool:
    refused_only = options.refused and verdict.kind not in (Kind.REFUSED, Kind.OPEN)
    return not refused_only and (options.block is None or index in options.block)


def run(options: argparse.Namespace) -> int:
    if options.trace == "-":
        raise Ended(FAILED, "look reads a trace more than once, and standard input can be read only once: give the trace's file")
    with io.BufferedReader(Input(options.trace), 1 << 18) as trace:
        if not trace.seekable():
            raise Ended(FAILED, f"{options.trace}: look reads a trace more than once, and this can be read only once: give a file")
        count = -(-trace.seek(0, os.SEEK_END) // BLOCK)
        if options.block and options.block[0] >= max(1, count):
            raise Ended(FAILED, f"{options.trace} has no block {options.block[0]}: it has {many(count, 'block')}, counted from 0")
        judge, kinds = Judge(trace, options.streams, options.bin), Counter()
        trace.seek(0)
        with printing():
            for index, block in enumerate(blocks_in(trace)):
                verdict = judge.verdict(index, block)
                kinds[verdict.kind] += 1
                if asked_for(options, index, verdict):
                    print(*lines(index, block, verdict, options.brief), sep="\n")
            print(judge.summary(count, kinds))
    return REFUSED if kinds[Kind.REFUSED] or kinds[Kind.OPEN] else WELL
