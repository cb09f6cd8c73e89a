"""Runs the proved program ecntable on traces, and puts each table in place only when it is whole.

    ecn table night1.trace -o night1.csv
    ecn table traces/*.trace -o tables/ -j 4

With one trace OUT is the table's file. If OUT is a folder, ends with a slash, or there are several traces, it is a
folder (made if it is missing). Then each table is OUT/NAME.csv, and NAME is the trace's file name without `.trace`. A
table is written beside its place and renamed at the end, so OUT is whole or as it was before. For a trace that is
refused nothing is put in place; run the program itself for the rows before the refused block.

With --origin a file OUT.origin is written beside each table. It says of what the table was made: the SHA-256 of the
trace, the table and the program, the version and the command. `ecn check --origin OUT.origin` makes the table again and
compares. The trace and the table are files then.

A trace `-` is standard input, and OUT `-` standard output, for the table of one trace. Standard output, /dev/stdout,
/dev/fd/N, a device or a pipe is written to in its place and never replaced. It gets the table when that is whole, and
no byte before.

Exit status: 0 all tables are in place; 1 a block was refused; 2 a read or a write failed, a program is missing, or
the arguments are wrong. It is also 2 if the program printed a refused line for a read that failed. With several
traces the others go on, and the highest status counts.
"""
import argparse
import csv
import io
import os
import shlex
import stat
import sys
from typing import Optional

from . import endings, files, origins, programs, runs
from .blocks import BLOCK
from .common import FAILED, REFUSED, Ended, refused_words

TABLES = runs.Kind("table", "tables", lambda name: name.removesuffix(".trace") + ".csv")


def add_arguments(parser: argparse.ArgumentParser) -> None:
    runs.add_arguments(parser, TABLES, "converted")
    parser.add_argument("--streams", action="store_true", help="take ecnstreams: arrivals blocks may differ in SSRC, and there is one row for each")
    parser.add_argument("--origin", action="store_true", help="write OUT.origin beside each table, which says of what it was made")


def rows_in(table: io.BufferedRandom) -> int:
    """How many rows stand behind the head line. They all have one label, so one has as many line breaks as another."""
    table.seek(0)
    text = io.TextIOWrapper(table, "latin-1", newline="")
    rows = csv.reader(text)
    next(rows, None)
    label = next(rows, [""])[0]
    text.detach()
    table.seek(0)
    lines = sum(piece.count(b"\n") for piece in iter(lambda: table.read(1 << 20), b""))
    return (lines - 1) // (label.count("\n") + 1)


class Conversion(runs.Run):
    """A trace and its table."""

    def fault(self) -> Optional[Ended]:
        table = self.output.file
        end = table.seek(0, os.SEEK_END)
        table.seek(max(0, end - programs.TAIL))
        refusal = programs.refusal_at_end(table.read())
        fault = programs.fault_of(self.path, self.child.returncode, self.errors)
        if fault:
            return Ended(FAILED, f"{self.name}{f', block {refusal.block}' if refusal else ''}: {fault}")
        return Ended(REFUSED, f"{self.name}: {refused_words(*refusal)}{self.saved(refusal)}") if refusal else self.missing_rows()

    def saved(self, refusal: programs.Refusal) -> str:
        """What can be done for a damaged block of ecntable's."""
        damaged = refusal.number == 13 and refusal.block > 0 and os.path.basename(self.path) == "ecntable"
        return "; ecn salvage saves the other blocks" if damaged else ""

    def missing_rows(self) -> Optional[Ended]:
        """ecntable prints a row for each block behind the first."""
        read = self.read()
        if read is None or os.path.basename(self.path) != "ecntable":
            return None
        rows = rows_in(self.output.file)
        return None if rows == read // BLOCK - 1 else Ended(FAILED, f"{self.name}: {rows} rows for {read} bytes; the table is not whole")


class Original(Conversion):
    """A trace, its table, and the table's origin."""

    def __init__(self, path: str, trace: str, out: str, inputs: set):
        self.out, there = out, files.found(trace)
        if files.descriptor(trace) is not None or there and stat.S_ISFIFO(there.st_mode):
            raise Ended(FAILED, f"{files.shown(trace)}: --origin reads a trace more than once: give the trace's file")
        super().__init__(path, trace, out, inputs)
        try:
            if self.output.path is None:
                raise Ended(FAILED, f"{self.output.name}: --origin stands beside a table: give the table's file as OUT")
            self.origin = self.opened.enter_context(files.Output(out + origins.ENDING, inputs))
        except BaseException:
            self.close()
            raise

    def finish(self) -> None:
        fault = self.fault()
        if fault:
            raise fault
        os.lseek(self.handle, self.began, os.SEEK_SET)
        with open(self.handle, "rb", closefd=False) as trace, endings.waiting():
            trace_sum = origins.sum_of(trace)
        if self.state() != self.before:
            raise Ended(FAILED, f"{self.name} has changed while it was read; the table is not put in place")
        self.output.file.seek(0)
        table_sum = origins.sum_of(self.output.file)
        self.output.commit()
        self.origin.write(origins.text_of(shlex.join(["ecn", *sys.argv[1:]]), self.path, (self.trace, trace_sum), (self.out, table_sum)))
        self.origin.commit()


def run(options: argparse.Namespace) -> int:
    return runs.run_all(options, TABLES, "ecnstreams" if options.streams else "ecntable", Original if options.origin else Conversion)
