"""Splits traces by source: a trace of several scanners becomes one trace for each.

    ecn split ward3.trace -o sources/

For the source 7 of ward3.trace that is sources/ward3-7.trace (of standard input, trace-7.trace). It has the label,
the source's SSRC in the label block, and the source's blocks byte for byte and in their order. So ecntable takes it.
A file that is there is not replaced, and nothing is put in place until all of a trace is judged.

Each block is judged by the proved library, as ecntable judges it in a trace of that source. The library writes the
label block too. An old label with line breaks gets a space for each, since no new label may have them (19). That is
reported on standard error. At most 256 sources are taken of a trace.

Exit status: 0 all traces are in place; 1 a block is refused, or there is no source; 2 a read or a write failed, a file
is there already, the library is not there, or the arguments are wrong. With several traces the others go on, and the
highest status counts.
"""
import argparse
import contextlib
import os
from typing import Dict

from . import files
from .blocks import Form, label_in
from .common import FAILED, REFUSED, WELL, Ended, file_name, many, tell
from .library import package
from .runs import status_of
from .sound import sound_blocks

MOST_SOURCES = 256  # each has an open file


def add_arguments(parser: argparse.ArgumentParser) -> None:
    parser.add_argument("traces", nargs="+", type=file_name, metavar="TRACE", help="a trace of either form; - is standard input")
    parser.add_argument("-o", "--out", required=True, type=file_name, metavar="FOLDER", help="the folder of the new traces, made if it is missing")


class Split:
    """The traces that one trace is split into."""

    def __init__(self, trace: str, folder: str, inputs: set):
        self.trace, self.name, self.inputs = trace, files.shown(trace), inputs
        own = "trace" if trace == "-" else os.path.basename(trace).removesuffix(".trace")
        self.path = os.path.join(folder, own)
        self.outputs: Dict[int, files.Output] = {}
        self.replaced = 0

    def zeroth(self, form: Form, block: bytes, ssrc: int) -> bytes:
        """The label block of a source, by the proved writer."""
        flasknib = package(needed=True)
        spaced, self.replaced = flasknib.space_label(block)
        return flasknib.write_label(form.number, label_in(spaced), ssrc)

    def output(self, ssrc: int) -> files.Output:
        path = f"{self.path}-{ssrc}.trace"
        if os.path.lexists(path):
            raise Ended(FAILED, f"{path} is already there: name another folder, or remove it first")
        if len(self.outputs) == MOST_SOURCES:
            raise Ended(REFUSED, f"{self.name} has more than {MOST_SOURCES} sources, which is the most that split takes")
        return files.Output(path, self.inputs)

    def run(self) -> int:
        label = None
        with contextlib.ExitStack() as opened:
            for index, form, ssrc, block in sound_blocks(self.trace):
                if index == 0:
                    label = block
                    continue
                if ssrc not in self.outputs:
                    self.outputs[ssrc] = opened.enter_context(self.output(ssrc))
                    self.outputs[ssrc].write(self.zeroth(form, label, ssrc))
                self.outputs[ssrc].write(block)
            if not self.outputs:
                raise Ended(REFUSED, f"{self.name}: no arrivals, so there is no source")
            for each in self.outputs.values():
                each.commit()
        spaces = f"; {many(self.replaced, 'line break byte')} of the label became spaces" if self.replaced else ""
        tell(f"{self.name}: {many(len(self.outputs), 'source')}, in {self.path}-SSRC.trace{spaces}")
        return WELL


def run(options: argparse.Namespace) -> int:
    package(needed=True)
    if options.out == "-" or files.found(options.out, True) and not os.path.isdir(options.out):
        raise Ended(FAILED, f"split writes several traces and needs a folder, and {files.shown(options.out, True)} is none")
    os.makedirs(options.out, exist_ok=True)
    inputs = files.identities(options.traces)
    return max(status_of(trace, Split(trace, options.out, inputs).run) for trace in options.traces)
