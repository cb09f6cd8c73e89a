"""examples/count.c in Python, over the package flasknib: the same calls, the same output.

Run, in a clone after make: PYTHONPATH=python python3 examples/count.py
"""
import sys

from flasknib import Arrival, Refused, Source, head_line

LABEL, MEDIA, SENDER = b"probe 2, left", 1, 9
ARRIVALS = [(65534, 2), (65535, 2), (0, 3), (0, 3), (3, 1)]
REBOOTED = bytes.fromhex("75300200 75310200 75320300")  # 30000, 30001, 30002, in records of 4 bytes, big-endian


def spaced(packet: bytes) -> str:
    return packet.hex(" ", 4).upper()


def main() -> None:
    source, jumped, restarts = Source(), 0, 0
    for wire, mark in ARRIVALS:
        arrival = source.arrive(wire, mark)
        jumped, restarts = jumped + (arrival == Arrival.JUMP), restarts + (arrival == Arrival.RESTARTED)

    print("highest", source.highest)
    print("ECT(0)", source.ect0)
    print("ECT(1)", source.ect1)
    print("CE", source.ce)
    print("not-ECT", source.not_ect)
    print("duplicates", source.duplicates)
    print("feedback:", spaced(source.feedback(SENDER, MEDIA)))
    print("summary:", spaced(source.summary(MEDIA)))
    try:
        source.row(LABEL, MEDIA, jumped, restarts, out=bytearray())
    except Refused as refused:
        print(f"row in 0 bytes: refused {refused.number}, {refused.size} bytes", flush=True)
    sys.stdout.buffer.write(head_line() + source.row(LABEL, MEDIA, jumped, restarts))

    more = source.count_block(REBOOTED, width=4)
    sys.stdout.buffer.write(source.row(LABEL, MEDIA, jumped + more.jumps, restarts + more.restarts))


if __name__ == "__main__":
    main()
