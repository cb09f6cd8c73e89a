"""Answers the ECN lines of an offer: prints the lines a=ecn-capable-rtp of the answer.

    ecn answer --ours 'a=ecn-capable-rtp: ice,rtp mode=setread; ect=0' offer.sdp

Our abilities are the line that we would offer. The offer is a whole SDP or the one line, in a file or on standard
input. Each of its lines that begins with a=ecn-capable-rtp (RFC 6679) is read, answered and written by the proved
library. That is the one of $FLASKNIB_LIBRARY, or of this installation, or of the system. The script looks for the
lines and judges nothing. The answer has the first of our methods that the offer names, our mode and our ect. Put each
line below the m= line of the same stream, never above the first.

On standard error, lines counted from 1: `left out line I` if the answer has no such line, and `refused N line I`.

Exit status: 0 each line is answered or left out; 1 one of them or --ours is refused, or there is none; 2 a read or a
write failed, the library is not there, or the arguments are wrong.
"""
import argparse
import io
import os
import re
import sys

from .common import REFUSED, WELL, Ended, file_name, printing, say
from .files import Input, shown
from .library import package

OURS = "a=ecn-capable-rtp: ice,rtp mode=setread; ect=0"
LINE = re.compile(rb"a=ecn-capable-rtp(:.*)?", re.IGNORECASE | re.DOTALL)


def add_arguments(parser: argparse.ArgumentParser) -> None:
    parser.add_argument("sdp", nargs="?", default="-", type=file_name, metavar="SDP", help="the offer's file (else standard input)")
    parser.add_argument("--ours", required=True, metavar="LINE", help=f"the line that we would offer, as '{OURS}'")


def ended(line: bytes) -> bytes:
    """A line without its CR LF or LF."""
    return line[: -2 if line.endswith(b"\r\n") else -1] if line.endswith(b"\n") else line


def run(options: argparse.Namespace) -> int:
    flasknib = package(needed=True)
    try:
        ours = flasknib.read_attribute(os.fsencode(options.ours))
    except flasknib.Refused as refused:
        raise Ended(REFUSED, f"--ours is refused with {refused.number}") from refused
    seen, status = 0, WELL
    with io.BufferedReader(Input(options.sdp), 1 << 18) as offer, printing():
        for number, line in enumerate(map(ended, offer), 1):
            if not LINE.fullmatch(line):
                continue
            seen += 1
            try:
                answer = flasknib.answer(line, ours)
            except flasknib.Refused as refused:
                say(f"refused {refused.number} line {number}\n")
                status = REFUSED
                continue
            if answer is None:
                say(f"left out line {number}\n")
            else:
                sys.stdout.buffer.write(answer + b"\r\n")
    if not seen:
        raise Ended(REFUSED, f"{shown(options.sdp)} has no line a=ecn-capable-rtp")
    return status
