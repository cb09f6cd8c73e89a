"""Checks traces: one line for each, with its label, form, sources, blocks, how many are refused, and the first refusal.

    ecn check traces/*.trace
    ecn check traces/*.trace --csv -j 4 -o checked.csv

The verdicts are the proved library's. Each block is judged at its place as ecntable and ecnsalvage do, the blocks
after a refused one too. With --streams it is judged as ecnstreams does, so that arrivals blocks may differ in SSRC.
After a refused block 0 there is nothing to go by: the rest of the trace is not judged, and the last columns say so.

`sources` counts the SSRCs of the blocks that are sound by themselves. If it is above 1 without --streams, the blocks
of the others are refused with 14: take --streams, or split the trace with `ecn split`.

With --csv the columns are trace, label, form, sources, blocks, refused, number, block: the last two are the first
refusal and its block, counted from 0. A trace `-` is standard input; a trace is read once. `ecn look --refused` shows
the blocks.

With --origin each TRACE is the origin of a table, which `ecn table --origin` wrote. The trace is looked for by its
name from the origin's folder, or in it, and the table beside the origin. The proved program makes the table again,
and a line says how each stands to its SHA-256 in the origin (same, differs, missing): the trace, the table, the table
made again, and the program. Another build of the program is well if it makes the same table.

    ecn check --origin night1.csv.origin

Exit status: 0 no block is refused, or each table is the same; 1 one is refused, differs or is missing; 2 a read or a
write failed, the library or the program is not there, or the arguments are wrong.
"""
import argparse
import csv
import functools
import io
import json
from typing import Any, Iterator, NamedTuple, Optional

from . import files, origins, several
from .blocks import BLOCK, FORMS, blocks_in, label_in
from .common import REFUSED, WELL, tell
from .layer import refusal_text
from .library import package
from .sheets import aligned

COLUMNS = ("trace", "label", "form", "sources", "blocks", "refused", "number", "block")


class Checked(NamedTuple):
    """What is found of a trace; the label and the form are None if block 0 is refused."""

    label: Optional[bytes]
    form: Optional[int]
    sources: int
    blocks: int
    refused: int
    number: Optional[int]  # the first refusal
    block: Optional[int]  # and its block


def add_arguments(parser: argparse.ArgumentParser) -> None:
    several.add_arguments(parser)
    several.add_output(parser, "where the lines go")
    parser.add_argument("--streams", action="store_true", help="arrivals blocks may differ in SSRC, as ecnstreams takes them")
    parser.add_argument("--origin", action="store_true", help="TRACE is the origin of a table: make the table again and compare")
    parser.add_argument("--csv", action="store_true", help="print CSV, for programs")


class Judge:
    """The proved verdict on each block of a trace, and what the sound ones say."""

    def __init__(self, flasknib: Any, streams: bool):
        self.flasknib, self.streams = flasknib, streams
        self.run: Any = None
        self.form, self.ssrc, self.sources = None, None, set()

    def refusal(self, block: bytes) -> Optional[int]:
        try:
            self.judged(block)
        except self.flasknib.Refused as refused:
            return refused.number
        return None

    def judged(self, block: bytes) -> None:
        found = self.flasknib.read_block(block)
        if self.form is None:
            self.run = self.flasknib.Streams(block)
            self.form, self.ssrc = next(form.number for form in FORMS.values() if form.label == found.kind), found.ssrc
            return
        if found.kind == FORMS[self.form].arrivals:
            self.sources.add(found.ssrc)
        if self.streams:
            self.run.block(block)
        else:
            self.flasknib.read_own(self.form, self.ssrc, block)


def checked(trace: str, streams: bool) -> Checked:
    judge, label, blocks, refused, first = Judge(package(needed=True), streams), None, 0, 0, None
    with several.reading(trace) as file:
        for index, block in enumerate(blocks_in(file)):
            blocks += bool(block)
            number = judge.refusal(block)
            if number is not None:
                refused, first = refused + 1, first or (number, index)
            elif index == 0:
                label = label_in(block)
            if judge.form is None:
                blocks += -(-sum(map(len, iter(lambda: file.read(1 << 18), b""))) // BLOCK)
                break
    return Checked(label, judge.form, len(judge.sources), blocks, refused, *(first or (None, None)))


def human_row(trace: str, found: Checked) -> tuple:
    first = "-" if found.number is None else f"block {found.block} with {found.number}: {refusal_text(found.number)}"
    label = "-" if found.label is None else json.dumps(found.label.decode("ascii"))
    known = [str(found.form), str(found.sources)] if found.form else ["-", "-"]
    more = "; the rest is not judged" if found.form is None and found.blocks > 1 else ""
    return (trace, label, *known, f"{found.blocks:,}", f"{found.refused:,}", first + more)


def traces_checked(options: argparse.Namespace, statuses: list) -> Iterator[tuple]:
    """The head line and a row for each trace."""
    package(needed=True)
    yield COLUMNS if options.csv else ("trace", "label", "form", "sources", "blocks", "refused", "first refusal")
    for trace, found in several.asked(options.traces, options.jobs, functools.partial(checked, streams=options.streams)):
        if found.value is None:
            statuses.append(found.status)
            continue
        statuses.append(REFUSED if found.value.refused else WELL)
        if found.value.sources > 1 and not options.streams:
            tell(f"{files.shown(trace)} has {found.value.sources} sources: check it with --streams, or split it with ecn split")
        label = None if found.value.label is None else found.value.label.decode("ascii")
        yield (trace, label, *found.value[1:]) if options.csv else human_row(trace, found.value)


def origins_checked(options: argparse.Namespace, statuses: list) -> Iterator[tuple]:
    """The same for each origin. One is compared at a time."""
    yield ("origin", *origins.Compared._fields)
    for path, found in several.asked(options.traces, 1, functools.partial(origins.compared, folder=options.bin)):
        statuses.append(found.status if found.value is None else WELL if found.value.well else REFUSED)
        if found.value is not None:
            yield (path, *found.value)


def printed(rows: list, options: argparse.Namespace) -> str:
    if not options.csv:
        return "".join(f"{line}\n" for line in aligned(rows, () if options.origin else {2, 3, 4, 5}))
    text = io.StringIO()
    csv.writer(text).writerows(rows)
    return text.getvalue()


def run(options: argparse.Namespace) -> int:
    statuses = [WELL]
    with files.Output(options.out, files.identities(options.traces)) as out:
        rows = list((origins_checked if options.origin else traces_checked)(options, statuses))
        out.write(printed(rows, options).encode("utf-8", "surrogateescape"))
        out.commit()
    return max(statuses)
