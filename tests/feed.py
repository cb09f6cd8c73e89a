#!/usr/bin/env python3
"""tests/feed.py LIBRARY ECNTABLE [SEED]: examples/feed.py over a loopback socket.

Samples arrive in random cuts, and lines break off at random places: what the example prints is what ECNTABLE prints of the bytes that were sent. After a
reset some bytes may be lost on the way; then it is the table of bytes that came before them.
"""
import glob
import os
import random
import socket
import struct
import subprocess
import sys

TOP = os.path.dirname(os.path.dirname(os.path.abspath(__file__)))
EXAMPLE = os.path.join(TOP, "examples/feed.py")
BLOCK, SECONDS = 512, 60
WHOLE, BROKEN, RESET = 3, 5, 3  # lines for each sample


def table(ecntable, trace):
    return subprocess.run([ecntable], input=trace, stdout=subprocess.PIPE, check=True, timeout=SECONDS).stdout


def cuts(draw, trace):
    """Stretches of a trace, many of a few bytes."""
    while trace:
        length = draw.choice((1, draw.randint(1, 40), draw.randint(1, 1448), BLOCK, draw.randint(1, 16384)))
        yield trace[:length]
        trace = trace[length:]


def sent(port, stretches, reset):
    """Sends them, each in a packet of its own if it can, and ends, or breaks off with a reset. After a refusal nobody reads."""
    with socket.create_connection(("127.0.0.1", port), timeout=SECONDS) as line:
        line.setsockopt(socket.IPPROTO_TCP, socket.TCP_NODELAY, 1)
        if reset:
            line.setsockopt(socket.SOL_SOCKET, socket.SO_LINGER, struct.pack("ii", 1, 0))
        try:
            for stretch in stretches:
                line.sendall(stretch)
        except (BrokenPipeError, ConnectionResetError):
            pass


def fed(library, stretches, reset=False):
    """What the example prints."""
    environment = {**os.environ, "FLASKNIB_LIBRARY": library, "PYTHONPATH": os.path.join(TOP, "python"), "PYTHONDONTWRITEBYTECODE": "1"}
    with subprocess.Popen([sys.executable, EXAMPLE], env=environment, stdout=subprocess.PIPE, stderr=subprocess.PIPE) as example:
        said = example.stderr.readline().split()
        if said[:1] != [b"port"]:
            sys.exit(f"feed: FAILED, the example says no port: {said} {example.stderr.read()}")
        sent(int(said[1]), stretches, reset)
        printed, errors = example.communicate(timeout=SECONDS)
        if example.returncode != 0 or errors and not (reset and errors.startswith(b"the line broke off")):
            sys.exit(f"feed: FAILED, status {example.returncode}, {errors}")
        return printed


def main(library, ecntable, seed):
    draw = random.Random(seed)
    lines = 0

    def hold(printed, tables, what):
        nonlocal lines
        lines += 1
        if printed not in tables:
            sys.exit(f"feed: FAILED, seed {seed}: {what} prints {printed[-200:]}")

    hold(fed(library, []), [table(ecntable, b"")], "a line with nothing")
    for path in sorted(glob.glob(os.path.join(TOP, "samples/*.trace"))):
        name = os.path.basename(path)
        with open(path, "rb") as file:
            trace = file.read()
        for _ in range(WHOLE):
            hold(fed(library, cuts(draw, trace)), [table(ecntable, trace)], name)
        for _ in range(BROKEN):
            front = trace[: draw.randint(0, len(trace))]
            hold(fed(library, cuts(draw, front)), [table(ecntable, front)], f"{name}, broken off at {len(front)}")
        ends = sorted({end for whole in range(0, len(trace) + 1, BLOCK) for end in (whole, whole + 1)})
        tables = {table(ecntable, trace[:end]) for end in ends}
        for _ in range(RESET):
            hold(fed(library, cuts(draw, trace[: draw.randint(0, len(trace))]), reset=True), tables, f"{name}, reset")
    print(f"feed: {lines} lines of examples/feed.py, in random cuts, broken off and reset, seed {seed}: as ecntable")


if __name__ == "__main__":
    main(sys.argv[1], sys.argv[2], int(sys.argv[3]) if len(sys.argv) > 3 else 20260801)
