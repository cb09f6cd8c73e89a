"""Reads RTCP compounds for what they report about one source, and says by which rule one is refused.

    ecn rtcp packet.bin --media 7
    tshark -r link.pcap -Y rtcp -T fields -e udp.payload | ecn rtcp - --media 7 --csv

FILE is one compound, the payload of one UDP packet, as bytes. Or it is text with a compound in hexadecimal on each
line (bytes may be separated by spaces or colons). If a line has several columns, separated by tabs, semicolons or
commas, as from tshark, it is the first one. If the first line names the columns (tshark -E header=y), it is the
column udp.payload. Lines without it are passed over. FILE `-` is standard input.

Of each compound the first report block, the first ECN feedback packet and the first ECN summary entry about the source
are shown. With the block stands its reporter, the SSRC of who sent the SR or RR around it. All is read by the proved
library. Packets that do not begin with an SR or RR (reduced size, RFC 5506) are taken; with --strict they are refused
with 3.

A fault anywhere refuses the whole compound: 1 empty or a header cut off, 2 the version, 3 the first packet, 4 the
size of a packet; 5 the padding, 6 the size of an XR block, 10 over 65,507 bytes.

Exit status: 0 each compound is read; 1 one is refused, or a line is no hexadecimal, or there is none; 2 a read or a
write failed, the library is not there, or the arguments are wrong.
"""
import argparse
import csv
import io
import re
import string
import sys
from typing import Any, Iterator, NamedTuple, Optional

from . import several
from .common import REFUSED, WELL, Ended, file_name, many, printing, ssrc
from .files import shown
from .library import package
from .sheets import SEPARATORS

MOST_BYTES = 65_507  # of a compound; what is longer is the library's to refuse
MOST_LINE = 1_000_000  # bytes of a line
TEXT = frozenset(string.printable.encode())
TITLES = {"report": "report block", "feedback": "ECN feedback", "summary": "ECN summary"}


def add_arguments(parser: argparse.ArgumentParser) -> None:
    parser.add_argument("file", type=file_name, metavar="FILE", help="the compounds; - is standard input")
    parser.add_argument("--media", type=ssrc, required=True, metavar="SSRC", help="the source that is asked about; 0x.. is hexadecimal")
    parser.add_argument("--strict", action="store_true", help="take only compounds that begin with an SR or an RR (RFC 3550)")
    parser.add_argument("--bytes", action="store_true", help="FILE is bytes, whatever it looks like")
    parser.add_argument("--csv", action="store_true", help="print CSV, for programs")


class Packet(NamedTuple):
    line: Optional[int]  # None for a file of bytes
    data: bytes


def cells(line: bytes) -> list:
    separator = next((each for each in SEPARATORS if each.encode() in line), SEPARATORS[0])
    return [cell.strip(b' \r\n"') for cell in line.split(separator.encode())]


def in_hex(cell: bytes, where: str) -> bytes:
    text = re.sub(rb"[\s:]|^0x", b"", cell)
    if not re.fullmatch(rb"(?:[0-9a-fA-F]{2})*", text):
        raise Ended(REFUSED, f"{where}: {cell[:24].decode('ascii', 'replace')!r} is no packet in hexadecimal")
    return bytes.fromhex(text.decode())


def lines_in(file: io.BufferedReader, name: str) -> Iterator[Packet]:
    column = 0
    for number, line in enumerate(iter(lambda: file.readline(MOST_LINE), b""), 1):
        where, found = f"{name}, line {number}", cells(line)
        if len(line) == MOST_LINE and not line.endswith(b"\n"):
            raise Ended(REFUSED, f"{where} has {MOST_LINE:,} bytes or more: this is no packet in hexadecimal")
        if number == 1 and b"udp.payload" in found:
            column = found.index(b"udp.payload")
        elif column < len(found) and found[column]:
            yield Packet(number, in_hex(found[column], where))


def packets_in(path: str, as_bytes: bool) -> Iterator[Packet]:
    with several.reading(path) as file:
        if not as_bytes and TEXT.issuperset(file.peek(1)[:200]):
            yield from lines_in(file, shown(path))
        else:
            yield Packet(None, file.read(MOST_BYTES + 1))


class Read(NamedTuple):
    packet: Packet
    compound: Any
    refused: Any


def read(flasknib: Any, packet: Packet, options: argparse.Namespace) -> Read:
    profile = flasknib.Profile.COMPOUND if options.strict else flasknib.Profile.REDUCED_SIZE
    try:
        return Read(packet, flasknib.read_compound(packet.data, options.media, profile), None)
    except flasknib.Refused as refused:
        return Read(packet, None, refused)


def human(found: Read, name: str) -> Iterator[str]:
    where = name if found.packet.line is None else f"line {found.packet.line}"
    size = many(len(found.packet.data), "byte") if len(found.packet.data) <= MOST_BYTES else f"over {MOST_BYTES:,} bytes"
    if found.refused:
        yield f"{where}: {size}: REFUSED with {found.refused.number}: {found.refused.text}"
        return
    reports = [(title, getattr(found.compound, kind)) for kind, title in TITLES.items()]
    first = "with SR or RR" if found.compound.sr_or_rr else "no SR or RR"
    yield f"{where}: {size}, {first}" + ("" if any(each for _, each in reports) else ", nothing about this source")
    for title, report in reports:
        if report:
            yield f"    {title}: " + ", ".join(f"{name.replace('_', '-')} {value}" for name, value in report._asdict().items())


def columns_of(flasknib: Any) -> dict:
    """The values of each report, by the package's names."""
    return {"report": flasknib.ReportBlock._fields, "feedback": flasknib.Feedback._fields, "summary": flasknib.Summary._fields}


def machine_row(found: Read, columns: dict) -> list:
    row = [found.packet.line, len(found.packet.data), found.refused and found.refused.number, found.compound and int(found.compound.sr_or_rr)]
    for kind, names in columns.items():
        report = found.compound and getattr(found.compound, kind)
        row += [getattr(report, name) if report else None for name in names]
    return row


def run(options: argparse.Namespace) -> int:
    flasknib, status, seen = package(needed=True), WELL, 0
    columns, out = columns_of(flasknib), csv.writer(sys.stdout)
    with printing():
        if options.csv:
            out.writerow(["line", "bytes", "refused", "sr_or_rr", *(f"{kind}_{name}" for kind, names in columns.items() for name in names)])
        for packet in packets_in(options.file, options.bytes):
            found = read(flasknib, packet, options)
            seen, status = seen + 1, REFUSED if found.refused else status
            if options.csv:
                out.writerow(machine_row(found, columns))
            else:
                print(*human(found, shown(options.file)), sep="\n")
    if not seen:
        raise Ended(REFUSED, f"{shown(options.file)} has no packet")
    return status
