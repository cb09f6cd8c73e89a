"""One table of many traces: for each trace its last row, which is the whole trace, with the trace's name in front.

    ecn summary traces/*.trace -o night.csv -j 4

The columns are `trace` and those of ecntable. With --streams there is a row for each source of each trace, as
ecnstreams has them. The rows are the proved library's, byte for byte; the script puts the name in front, quoted as
RFC 4180 says. The last row of a trace counts from the last restart on (`restarts` says if there was one).

A trace with no arrivals has no row, and is named on standard error. A trace that is refused is named there too, and
then the summary is not put in place. With --sound it is, without that trace.

A trace `-` is standard input, and OUT `-` standard output, which gets the summary when it is whole and no byte before.

Exit status: 0 the summary is in place; 1 a trace is refused; 2 a read or a write failed, the library is not there, or
the arguments are wrong.
"""
import argparse
import csv
import functools
import io
import os
import re
from typing import List

from . import files, several
from .blocks import blocks_in
from .common import FAILED, REFUSED, WELL, Ended, refused_words, tell
from .library import package

LABEL = re.compile(rb'"(?:[^"]|"")*"|[^",]*')
COUNTS = rb"(?:,-?\d+){10}\r\n"
STRETCH = 1 << 16


def add_arguments(parser: argparse.ArgumentParser) -> None:
    several.add_arguments(parser)
    several.add_output(parser, "the summary")
    parser.add_argument("--streams", action="store_true", help="a row for each source: arrivals blocks may differ in SSRC")
    parser.add_argument("--sound", action="store_true", help="leave out a trace that is refused; the status is 1 all the same")


def last_row(rows: bytes) -> bytes:
    """The last of some rows of one trace, which all begin with its label."""
    label = LABEL.match(rows)[0]
    counts = re.search(COUNTS + rb"\Z", rows[-256:])
    return label + counts[0] if counts else b""


def rows_of(trace: str, streams: bool) -> bytes:
    """The last row of a trace, or the row of each of its sources; none where there are no arrivals."""
    flasknib = package(needed=True)
    try:
        with several.reading(trace) as file:
            return sources_in(flasknib, file) if streams else last_in(flasknib, file)
    except flasknib.Refused as refused:
        raise Ended(REFUSED, f"{files.shown(trace)}: {refused_words(refused.number, refused.block)}") from None


def last_in(flasknib, file) -> bytes:
    feed, rows = flasknib.Feed(), b""
    for stretch in iter(lambda: file.read(STRETCH), b""):
        rows = feed.feed(stretch) or rows
    feed.close()
    return last_row(rows) if rows else b""


def sources_in(flasknib, file) -> bytes:
    run = None
    for index, block in enumerate(blocks_in(file)):
        try:
            if run is None:
                run = flasknib.Streams(block)
            else:
                run.block(block)
        except flasknib.Refused as refused:
            raise flasknib.Refused(refused.number, block=index) from None
    return run.table()


def name_field(trace: str) -> bytes:
    """The name of a trace as a field of the table."""
    text = io.StringIO()
    csv.writer(text).writerow([trace])
    return os.fsencode(text.getvalue().removesuffix("\r\n"))


def named_rows(trace: str, rows: bytes) -> bytes:
    """Each row with the trace's name in front."""
    if not rows:
        tell(f"{files.shown(trace)}: no arrivals, so it has no row")
        return b""
    label, name = LABEL.match(rows)[0], name_field(trace)
    found: List[bytes] = re.findall(re.escape(label) + COUNTS, rows)
    if b"".join(found) != rows:
        raise Ended(FAILED, f"{files.shown(trace)}: the library gave something that is no row")
    return b"".join(name + b"," + row for row in found)


def run(options: argparse.Namespace) -> int:
    flasknib, status = package(needed=True), WELL
    with files.Output(options.out, files.identities(options.traces)) as out:
        out.write(b"trace," + flasknib.head_line())
        for trace, found in several.asked(options.traces, options.jobs, functools.partial(rows_of, streams=options.streams)):
            status = max(status, found.status)
            out.write(named_rows(trace, found.value) if found.value is not None else b"")
        if status == WELL or status == REFUSED and options.sound:
            out.commit()
        else:
            tell(f"{out.name}: the summary is not put in place" + ("; --sound leaves out what is refused" if status == REFUSED else ""))
    return status
