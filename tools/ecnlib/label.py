"""Copies traces with one space in the place of each line break in the label, by the proved program ecnlabel.

    ecn label night1.trace -o night1.copy

Bytes 10 (LF) and 13 (CR) are retired: a trace that has them in its label is read as before, but no new label may have
them. In the copy each of them is a space, and the checksum of the label block is the one that fits. Every other byte
is as it was. How many bytes were replaced is reported on standard error; if there were none, the copy is the trace.

With one trace OUT is the copy's file. If OUT is a folder, ends with a slash, or there are several traces, it is a
folder (made if it is missing). Then each copy is OUT/NAME, and NAME is the trace's file name. A copy is written
beside its place and renamed at the end, so OUT is whole or as it was before. A trace with a refused block has no
copy; run the program itself for the blocks before the refused one. A trace of several sources (ecnstreams) is
refused.

A trace `-` is standard input, and OUT `-` standard output, for the copy of one trace. Standard output, /dev/stdout,
/dev/fd/N, a device or a pipe is written to in its place and never replaced. It gets the copy when that is whole, and
no byte before.

Exit status: 0 all copies are in place; 1 a block was refused; 2 a read or a write failed, a program is missing, or
the arguments are wrong. It is also 2 if the program printed a refused line for a read that failed. With several
traces the others go on, and the highest status counts.
"""
import argparse
import os
import re
from typing import Optional

from . import programs, runs
from .common import FAILED, Ended, many, tell

COPIES = runs.Kind("copy", "copies", lambda name: name)


def add_arguments(parser: argparse.ArgumentParser) -> None:
    runs.add_arguments(parser, COPIES, "copied")


class Copy(runs.Run):
    """A trace and its copy, of which the program tells the number of bytes replaced."""

    replaced = 0

    def fault(self) -> Optional[Ended]:
        refusals, rest = programs.refusals_told(self.errors)
        number = re.fullmatch(rb"(\d+)\r\n", rest)
        fault = self.told(refusals, b"" if number else rest)
        if fault:
            return fault
        if not number:
            return Ended(FAILED, f"{self.name}: ecnlabel reported no number of bytes; the copy is not whole")
        self.replaced = int(number[1])
        read, copied = self.read(), self.output.file.seek(0, os.SEEK_END)
        return None if read in (None, copied) else Ended(FAILED, f"{self.name}: {copied} of {read} bytes; the copy is not whole")

    def finish(self) -> None:
        super().finish()
        tell(f"{self.name}: {many(self.replaced, 'byte')} of the label replaced by spaces")


def run(options: argparse.Namespace) -> int:
    return runs.run_all(options, COPIES, "ecnlabel", Copy)
