"""Turns traces into the other form, by the proved program ecnforms: form 1 has times of 32 bits in ms, form 2 of 48 bits.

    ecn forms night1.trace -o night1.form2
    ecn forms traces/*.trace -o converted/ -j 4

A trace of form 1 becomes one of form 2, and one of form 2 becomes one of form 1. The label and the records stay as they are
and in their order, and the blocks are packed full: 62 records to a block in form 1 and 50 in form 2. ecntable reads both,
and the last row is the same. Form 1 has no place for a time of 2^32 ms (49 days) or more: such a trace is refused with 17.

With one trace OUT is the copy's file. If OUT is a folder, ends with a slash, or there are several traces, it is a
folder (made if it is missing). Then each copy is OUT/NAME, and NAME is the trace's file name. A copy is written
beside its place and renamed at the end, so OUT is whole or as it was before. A trace with a refused block has no
copy; run the program itself for the blocks before the refused one. A trace of several sources is refused: split it
first.

A trace `-` is standard input, and OUT `-` standard output, which gets the copy when that is whole and no byte before.

Exit status: 0 all copies are in place; 1 a block was refused; 2 a read or a write failed, a program is missing, or the
arguments are wrong. With several traces the others go on, and the highest status counts.
"""
import argparse
import os
from typing import Optional

from . import programs, runs
from .blocks import BLOCK
from .common import FAILED, Ended
from .label import COPIES, add_arguments  # noqa: F401


class Converted(runs.Run):
    """A trace and its copy in the other form."""

    def fault(self) -> Optional[Ended]:
        fault = self.told(*programs.refusals_told(self.errors))
        size = self.output.file.seek(0, os.SEEK_END)
        if fault or size and size % BLOCK == 0:
            return fault
        return Ended(FAILED, f"{self.name}: ecnforms wrote {size} bytes; the copy is not whole")


def run(options: argparse.Namespace) -> int:
    return runs.run_all(options, COPIES, "ecnforms", Converted)
