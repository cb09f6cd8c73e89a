"""Writes the ECN report of a trace (RFC 6679), as the receiver would have sent it at its end, by the proved writers.

    ecn report night1.trace --sender 9
    ecn report night1.trace --sender 9 --compound --bytes -o night1.rtcp

For each source of the trace, in rising order of SSRC, one line in hexadecimal: its ECN feedback packet of 32 bytes,
from the SSRC of --sender about the SSRC of the source. With --summary it is the XR ECN summary block of 24 bytes,
which goes into an XR packet and has no sender. With --compound it is one compound for all sources, an RR and the
feedback packets, as it is sent; `ecn rtcp` reads it. With --bytes the bytes themselves are written, one after the
other.

The counts are those of ecntable's last row, from the last restart on, modulo the widths of the packet. Blocks are
judged and counted by the proved library. A trace with a refused block has no report; a trace has at most 16 sources
(15).

TRACE `-` is standard input, and OUT `-` standard output, which gets the report when it is whole and no byte before.

Exit status: 0 the report is written; 1 a block is refused, or there are no arrivals or not of the source of --media;
2 a read or a write failed, the library is not there, or the arguments are wrong.
"""
import argparse
from typing import Any, Iterator, Optional

from . import files
from .blocks import header
from .common import FAILED, REFUSED, WELL, Ended, file_name, refused_words, ssrc
from .library import package
from .several import add_output
from .sound import sound_blocks


def add_arguments(parser: argparse.ArgumentParser) -> None:
    parser.add_argument("trace", type=file_name, metavar="TRACE", help="a trace of either form; - is standard input")
    add_output(parser, "the report")
    parser.add_argument("--sender", type=ssrc, metavar="SSRC", help="the SSRC of the receiver that reports; 0x.. is hexadecimal")
    parser.add_argument("--media", type=ssrc, metavar="SSRC", help="report only this source (all of them)")
    kind = parser.add_mutually_exclusive_group()
    kind.add_argument("--summary", action="store_true", help="the XR ECN summary block in place of the feedback packet")
    kind.add_argument("--compound", action="store_true", help="one compound: an RR and the feedback packet of each source")
    parser.add_argument("--bytes", action="store_true", help="write bytes and not hexadecimal")


def counted(flasknib: Any, trace: str, media: Optional[int]) -> Any:
    """The sources of a trace with their counts, or one of them."""
    sources = flasknib.Sources()
    for index, form, source, block in sound_blocks(trace):
        if index == 0 or media not in (None, source):
            continue
        width = form.time + 4
        try:
            sources.count_block(source, memoryview(block)[8 : 8 + width * header(block).count], width)
        except flasknib.Refused as refused:
            raise Ended(REFUSED, f"{files.shown(trace)}: {refused_words(refused.number, index)}") from None
    if next(iter(sources), None) is None:
        raise Ended(REFUSED, f"{files.shown(trace)}: no arrivals{'' if media is None else f' of the source {media}'}, so there is nothing to report")
    return sources


def packets(sources: Any, options: argparse.Namespace) -> Iterator[bytes]:
    if options.compound:
        yield sources.compound(options.sender)
        return
    for media, source in sources:
        yield source.summary(media) if options.summary else source.feedback(options.sender, media)


def run(options: argparse.Namespace) -> int:
    flasknib = package(needed=True)
    if options.sender is None and not options.summary:
        raise Ended(FAILED, "say who reports, as: ecn report night1.trace --sender 9 (only --summary has no sender)")
    with files.Output(options.out, files.identities([options.trace])) as out:
        for packet in packets(counted(flasknib, options.trace, options.media), options):
            out.write(packet if options.bytes else f"{packet.hex()}\n".encode())
        out.commit()
    return WELL
