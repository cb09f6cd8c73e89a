"""Makes one page of a night of traces, to send to a colleague: the summary, each trace's picture, and what is refused.

    ecn page traces/*.trace -o night.html -j 4

The page is one HTML file. It needs no network and holds no script; a browser prints it as PDF. It has the summary of
all traces, and how it was made. For each trace it has the picture that `ecn plot` draws, and its refused blocks in
plain words with what to do. It gives the SHA-256 of the trace and of its table. Rows, verdicts and times are the proved
library's. The same command on the same traces writes the same page.

The counts and the picture of a trace end before its first refused block. With --salvage each refused block is left
out, as `ecn salvage` leaves it out, and marked in the picture: its packets count as lost.

With --streams the blocks of a trace may be of several sources: then each source has a row, and a bar in the picture.

A trace `-` is standard input; a trace is read once. OUT `-` is standard output, which gets the page when it is whole
and no byte before. A page with refused blocks is put in place, and says so. If a trace cannot be read none is.

Exit status: 0 no block is refused; 1 one is; 2 a read or a write failed, the library is not there, or the arguments are
wrong.
"""
import argparse
import functools
import os
import shlex
import sys
import tempfile
from typing import List

from . import files, pageread, pagetext, several
from .common import FAILED, REFUSED, WELL, Ended, file_name, refused_words, tell
from .layer import version
from .library import package
from .origins import sum_at
from .plot import NOT_BOTH


def add_arguments(parser: argparse.ArgumentParser) -> None:
    several.add_arguments(parser)
    parser.add_argument("-o", "--out", required=True, type=file_name, metavar="OUT.html", help="the page; - is standard output")
    parser.add_argument("--title", default="Link tests", metavar="TEXT", help="its title (Link tests)")
    parser.add_argument("--streams", action="store_true", help="arrivals blocks may differ in SSRC")
    parser.add_argument("--salvage", action="store_true", help="leave out each refused block, and mark it in the picture")


def tell_refused(trace: str, found: pageread.Found) -> None:
    if found.refused:
        first = found.refusals[0]
        more = f"; {found.refused:,} blocks are refused" if found.refused > 1 else ""
        tell(f"{files.shown(trace)}: {refused_words(first.number, first.first)}{more}; the page says what to do")


def written(out: files.Output, sections, rows: List[str], statuses: List[int], options: argparse.Namespace) -> None:
    """The summary, the sections that were kept until it was known, and how it was made."""
    whole = sum(status == WELL for status in statuses)
    out.write(pagetext.head(options.title, rows, len(statuses), whole).encode())
    sections.seek(0)
    for piece in iter(lambda: sections.read(1 << 18), b""):
        out.write(piece)
    library = package(needed=True).library_path
    made = pagetext.foot(shlex.join(["ecn", *sys.argv[1:]]), f"ecn {version()}", (os.path.basename(library), sum_at(library)))
    out.write(made.encode())


def run(options: argparse.Namespace) -> int:
    package(needed=True)
    if options.streams and options.salvage:
        raise Ended(FAILED, NOT_BOTH)
    twice = next((trace for trace in options.traces if options.traces.count(trace) > 1 and trace != "-"), None)
    if twice is not None:
        raise Ended(FAILED, f"{twice} is given twice: give each trace once")
    prefixes = {trace: f"t{at}-" for at, trace in enumerate(options.traces, 1)}
    ask = functools.partial(pageread.read, streams=options.streams, salvage=options.salvage, prefixes=prefixes)
    rows: List[str] = []
    statuses: List[int] = []
    with files.Output(options.out, files.identities(options.traces)) as out, tempfile.TemporaryFile() as sections:
        for at, (trace, found) in enumerate(several.asked(options.traces, options.jobs, ask), 1):
            statuses.append(found.status if found.value is None else REFUSED if found.value.refused else WELL)
            if found.value is not None:
                tell_refused(trace, found.value)
                rows.append(pagetext.summary_rows(files.shown(trace), at, found.value))
                sections.write(pagetext.section(files.shown(trace), at, found.value).encode())
        if FAILED in statuses:
            tell(f"{out.name}: the page is not put in place")
        else:
            written(out, sections, rows, statuses, options)
            out.commit()
    return max(statuses)
