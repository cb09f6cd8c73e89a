"""Saves what is left of damaged traces: copies the label and every sound block, by the proved program ecnsalvage.

    ecn salvage night1.trace -o night1.copy

A block that ecntable would refuse is left out: one whose checksum does not fit (13), one with wrong contents or of
another form or SSRC than the label's (14), and a partial block at the end (1). The other blocks are copied in order,
byte for byte, so ecntable accepts the copy. For each trace the blocks that were left out are listed on standard
error by their numbers, counted from 0 in the trace. A trace with nothing wrong comes out as it is.

If the label block itself is damaged there is nothing to go by, and no copy is made. A trace of several sources
(ecnstreams) is not for this: the blocks of all sources but the label's would be left out.

A memory stick that gives read errors has to be copied first, and that image is then salvaged:

    dd if=/media/stick/night1.trace of=night1.image bs=512 conv=noerror,sync

With one trace OUT is the copy's file. If OUT is a folder, ends with a slash, or there are several traces, it is a
folder (made if it is missing). Then each copy is OUT/NAME, and NAME is the trace's file name. A copy is written
beside its place and renamed at the end, so OUT is the whole copy or as it was before.

A trace `-` is standard input, and OUT `-` standard output, for the copy of one trace. Standard output, /dev/stdout,
/dev/fd/N, a device or a pipe is written to in its place and never replaced. It gets the copy when the program has
ended, and no byte before.

Exit status: 0 nothing was left out; 1 something was, and the copy is in place, or the label block is wrong, and there
is no copy; 2 a read or a write failed, a program is missing, or the arguments are wrong, and nothing is put in place.
With several traces the others go on, and the highest status counts.
"""
import argparse
import errno
import os
from typing import Iterator, List, Optional, Tuple

from . import programs, runs
from .blocks import BLOCK
from .common import FAILED, REFUSED, WELL, Ended, many, refused_words, say, tell
from .label import COPIES, add_arguments  # noqa: F401
from .layer import refusal_text

UNREAD = "; copy it first with dd bs=512 conv=noerror,sync, and salvage that image"


def stretches(refusals: List[programs.Refusal]) -> Iterator[Tuple[int, int, int]]:
    """The first and the last of blocks that follow each other with one refusal, and the refusal."""
    at = 0
    while at < len(refusals):
        number, first = refusals[at]
        end = at + 1
        while end < len(refusals) and refusals[end] == (number, first + end - at):
            end += 1
        yield first, refusals[end - 1].block, number
        at = end


def listed(refusals: List[programs.Refusal]) -> Iterator[str]:
    """The blocks left out, as a table with a line for each stretch of them."""
    parts = stretches(refusals)
    rows = [(f"{first}" if first == last else f"{first} to {last}", number) for first, last, number in parts]
    width = max(len(where) for where, _ in [("block", 0), *rows])
    yield f"    {'block':<{width}}  refused with"
    for where, number in rows:
        yield f"    {where:<{width}}  {number:<2}  {refusal_text(number)}"


class Salvage(runs.Run):
    """A trace and what is left of it."""

    refusals: List[programs.Refusal] = []
    copied = 0

    def fault(self) -> Optional[Ended]:
        self.refusals, rest = programs.refusals_told(self.errors)
        fault = programs.fault_by(self.path, self.child.returncode, rest)
        if fault:
            where = f"{self.name}, block {self.refusals[-1].block}" if self.refusals else self.name
            return Ended(FAILED, f"{where}: {fault}{UNREAD if os.strerror(errno.EIO) in fault else ''}")
        if self.refusals and self.refusals[0].block == 0:
            return Ended(REFUSED, f"{self.name}: {refused_words(*self.refusals[0])}; without a sound label block nothing is copied")
        return self.missing_blocks()

    def missing_blocks(self) -> Optional[Ended]:
        """Each block is copied or listed."""
        read, size = self.read(), self.output.file.seek(0, os.SEEK_END)
        self.copied, left = divmod(size, BLOCK)
        if not left and read is None or not left and -(-read // BLOCK) == self.copied + len(self.refusals):
            return None
        counts = f"{size} bytes copied and {many(len(self.refusals), 'block')} listed for {read} bytes"
        return Ended(FAILED, f"{self.name}: {counts}; the copy is not whole")

    def finish(self) -> int:
        super().finish()
        tell(f"{self.name}: {many(self.copied, 'block')} copied, {len(self.refusals):,} left out")
        if self.refusals:
            say("".join(f"{line}\n" for line in listed(self.refusals)))
        return REFUSED if self.refusals else WELL


def run(options: argparse.Namespace) -> int:
    return runs.run_all(options, COPIES, "ecnsalvage", Salvage)
