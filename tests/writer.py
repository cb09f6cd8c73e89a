"""Blocks of traces for the tests, written by docs/TRACE.md and judged by nobody: labels with the bytes that are retired among them, which the library
no longer writes."""
import struct

LABEL, ARRIVALS, TIME = {1: 1, 2: 3}, {1: 2, 2: 4}, {1: 4, 2: 6}  # by form: the kinds of its blocks, the bytes of a time


def block(kind, count, ssrc, body):
    front = struct.pack(">HHI", kind, count, ssrc) + body.ljust(502, b"\0")
    total = sum(struct.unpack(">255H", front))
    while total > 0xFFFF:
        total = (total & 0xFFFF) + (total >> 16)
    return front + struct.pack(">H", 0xFFFF - total)


def label(text, ssrc, form=1):
    return block(LABEL[form], len(text), ssrc, text)


def arrivals(records, ssrc, form=1):
    """A block of (time, number, mark)."""
    body = (time.to_bytes(TIME[form], "big") + struct.pack(">HBB", number, mark, 0) for time, number, mark in records)
    return block(ARRIVALS[form], len(records), ssrc, b"".join(body))
