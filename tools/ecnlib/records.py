"""Prints the records of a trace as CSV: block, time, number, mark and ssrc of each arrival.

    ecn records night1.trace -o night1.csv
    ecn records night1.trace | ecn make - --label "ward 3" -o copy.trace

`block` counts from 0 and `time` is in ms; `mark` is 0 not-ECT, 1 ECT(1), 2 ECT(0), 3 CE. Arrivals stand in the order of
the trace, of one source or of several. `ecn make` gives the same records back, in blocks that are packed full: with the
same label and form, and full blocks of one source, the same bytes. If a time is 2^32 ms or more, make needs --form 2.

Each block is judged by the proved library, as ecntable judges it in a trace of that block's source. At the first block
that is refused the command ends, and nothing is put in place; `ecn salvage` copies the sound blocks.

TRACE `-` is standard input, and OUT `-` standard output, which gets the rows when they are whole and no byte before.

Exit status: 0 all records are written; 1 a block is refused; 2 a read or a write failed, the library is not there, or
the arguments are wrong.
"""
import argparse

from . import files
from .blocks import records_in
from .common import WELL, file_name
from .library import package
from .several import add_output
from .sound import sound_blocks

HEAD = b"block,time,number,mark,ssrc\r\n"


def add_arguments(parser: argparse.ArgumentParser) -> None:
    parser.add_argument("trace", type=file_name, metavar="TRACE", help="a trace of either form; - is standard input")
    add_output(parser, "the rows")


def run(options: argparse.Namespace) -> int:
    package(needed=True)
    with files.Output(options.out, files.identities([options.trace])) as out:
        out.write(HEAD)
        for index, form, ssrc, block in sound_blocks(options.trace):
            if index:
                out.write("".join(f"{index},{time},{number},{mark},{ssrc}\r\n" for time, number, mark in records_in(block, form)).encode())
        out.commit()
    return WELL
