"""Makes a trace from a CSV file of arrivals, or from what tshark prints of a capture.

    ecn make arrivals.csv --label "ward 3" --ssrc 7 -o ward3.trace

    tshark -r ward3.pcap -d udp.port==5004,rtp -Y rtp -T fields -E header=y -e frame.time_relative -e rtp.seq \\
        -e rtp.ssrc -e ip.dsfield.ecn -e ipv6.tclass.ecn | ecn make - --label "ward 3" -o ward3.trace

The first line names the columns, in any order; commas, semicolons or tabs separate them. Each value stands in one of
these columns, and others are passed over:

    time    time (whole ms); or seconds, frame.time_relative, frame.time_epoch (seconds, rounded down to ms)
    number  number, rtp.seq: the sequence number of the RTP packet, 0 to 65535
    mark    mark, ip.dsfield.ecn, ipv6.tclass.ecn: 0 to 3; or not-ECT, ECT(1), ECT(0), CE; or notect, ect1, ect0, ce
    source  ssrc, rtp.ssrc: whole, or 0x and hexadecimal digits; if there is no such column, --ssrc says it

Arrivals stand in the file in the order in which they came. Capture at the receiver: marks are set on the way. A trace
of several sources is for ecnstreams: each block has arrivals of one source in their order, and blocks are written as
they fill. Form 1 has times below 2^32 ms (49 days), so frame.time_epoch needs --form 2.

CSV `-` is standard input, and TRACE `-` standard output. Standard output, /dev/stdout, /dev/fd/N, a device or a pipe is
written to in its place and never replaced. It gets the trace when that is whole, and no byte before.

The blocks are written by the proved library (that of $FLASKNIB_LIBRARY, or of this installation, or of the system). If
it is not there the command says how to build it. The trace is put in place only when the proved program takes it:
ecntable for one source; for several ecnstreams, or if that is missing ecntable for each of them. What was used is
reported on standard error.

Exit status: 0 the trace is in place; 1 the CSV file or the label is outside the trace's rules, the label has a line
break, or the program refuses the trace; 2 a read or a write failed, the program or the library is missing, or the
arguments are wrong.
"""
import argparse
from typing import BinaryIO, Iterator, List, Optional

from . import files, programs, sheets
from .arrivals import Arrival, arrivals_in
from .blocks import BLOCK, FORMS, RETIRED, Form, Record, header
from .common import REFUSED, WELL, Ended, file_name, many, refused_words, ssrc, tell
from .library import file_of, package


def add_arguments(parser: argparse.ArgumentParser) -> None:
    parser.add_argument("csv", type=file_name, metavar="CSV", help="the arrivals; - is standard input")
    parser.add_argument("-o", "--out", required=True, type=file_name, metavar="TRACE", help="the trace; - is standard output")
    parser.add_argument("--label", default="", metavar="TEXT", help="the trace's label, 0 to 502 bytes of printable ASCII (empty)")
    parser.add_argument("--ssrc", type=ssrc, metavar="N", help="the source, if there is no column for it; 0x.. is hexadecimal")
    parser.add_argument("--form", type=int, choices=FORMS, default=1, help="1: times below 2^32 ms, 49 days (the default); 2: times below 2^48 ms")


def label_fault(number: int, label: bytes) -> Ended:
    """Why the library refuses a label, in words."""
    if number != 19:
        return Ended(REFUSED, "the label has to be 0 to 502 bytes of printable ASCII")
    place, byte = next((place, byte) for place, byte in enumerate(label, 1) if byte in RETIRED)
    which = f"its byte {place} is {byte} ({RETIRED[byte]})"
    return Ended(REFUSED, f"the label is refused with 19: {which}, and line breaks are retired; put a space there")


class Writer:
    """The proved library's writers of blocks."""

    def __init__(self, form: Form, label: str):
        self.library, self.form, self.label = package(needed=True), form, label.encode("utf-8", "surrogateescape")
        self.name = f"the proved writer in {file_of(self.library)}"

    def zeroth(self, ssrc: int) -> bytes:
        try:
            return self.library.write_label(self.form.number, self.label, ssrc)
        except self.library.Refused as refused:
            raise label_fault(refused.number, self.label) from refused

    def arrivals(self, records: List[Record], ssrc: int) -> bytes:
        return self.library.write_arrivals(self.form.number, *zip(*records), ssrc)


class Made:
    """A trace as it is written: block by block, with what it holds."""

    def __init__(self, writer: Writer):
        self.writer, self.form = writer, writer.form
        self.sources, self.blocks, self.records = {}, 0, 0

    def write(self, arrivals: Iterator[Arrival], ssrc: Optional[int], out: files.Output) -> None:
        """All blocks. The label has the SSRC of the first arrival, or the one that was given."""
        for ssrc, record in arrivals:
            if not self.blocks:
                self.put(out, self.writer.zeroth(ssrc))
            self.records += 1
            held = self.sources.setdefault(ssrc, [])
            held.append(record)
            if len(held) == self.form.most:
                self.put(out, self.writer.arrivals(held, ssrc))
                held.clear()
        if not self.blocks:
            if ssrc is None:
                raise Ended(REFUSED, "there are no arrivals, so the SSRC has to be given: leave out the column ssrc and give --ssrc")
            self.put(out, self.writer.zeroth(ssrc))
        for ssrc, held in self.sources.items():
            if held:
                self.put(out, self.writer.arrivals(held, ssrc))

    def put(self, out: files.Output, block: bytes) -> None:
        out.write(block)
        self.blocks += 1

    def only(self, file: BinaryIO, ssrc: int) -> Iterator[bytes]:
        """The trace of one source alone."""
        yield self.writer.zeroth(ssrc)
        file.seek(BLOCK)
        yield from (block for block in iter(lambda: file.read(BLOCK), b"") if header(block).ssrc == ssrc)

    def taken(self, file: BinaryIO, folder: Optional[str]) -> str:
        """Which program takes the trace; raises where it does not."""
        several = len(self.sources) > 1
        try:
            name = "ecnstreams" if several else "ecntable"
            path, sources = programs.program(name, folder), [None]
        except Ended:
            if not several:
                raise
            name, path, sources = "ecntable for each source", programs.program("ecntable", folder), list(self.sources)
        for ssrc in sources:
            file.seek(0)
            refusal = programs.asked(path, iter(lambda: file.read(1 << 18), b"") if ssrc is None else self.only(file, ssrc))
            if refusal:
                where = "" if ssrc is None else f" of source {ssrc}"
                raise Ended(REFUSED, f"the trace{where} is not sound: {refused_words(*refusal)}")
        return name


def run(options: argparse.Namespace) -> int:
    made = Made(Writer(FORMS[options.form], options.label))
    made.writer.zeroth(0)  # a label that is refused is told before the CSV file is read
    with files.Output(options.out, files.identities([options.csv])) as trace:
        with sheets.opened(options.csv) as rows:
            made.write(arrivals_in(rows, made.form, options.ssrc), options.ssrc, trace)
        trace.flush()
        program = made.taken(trace.file, options.bin)
        trace.commit()
    held = f"{many(made.blocks, 'block')}, {many(made.records, 'record')}, {many(len(made.sources), 'source')}"
    tell(f"{trace.name}: {held}; written by {made.writer.name}, taken by {program}")
    return WELL
