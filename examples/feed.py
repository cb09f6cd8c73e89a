"""A trace that arrives bit by bit over a line: its table, each row as soon as its block is there.

Run, in a clone after make: PYTHONPATH=python python3 examples/feed.py

It listens only on this computer, says on standard error at which port, and takes one connection, as that of: nc -N 127.0.0.1 PORT <samples/c1.trace
If the line breaks off, the table ends as that of the bytes that came.
"""
import socket
import sys
from typing import Iterator

from flasknib import Feed, Refused, head_line, refused_line


def stretches(connection: socket.socket) -> Iterator[bytes]:
    """What arrives, as it arrives, until the other side ends or the line breaks."""
    try:
        while stretch := connection.recv(65536):
            yield stretch
    except OSError as error:
        print(f"the line broke off: {error.strerror}", file=sys.stderr)


def show(text: bytes) -> None:
    sys.stdout.buffer.write(text)
    sys.stdout.buffer.flush()


def main() -> None:
    with socket.create_server(("127.0.0.1", 0)) as server:
        print("port", server.getsockname()[1], file=sys.stderr, flush=True)
        connection, _ = server.accept()
    show(head_line())
    feed = Feed()
    try:
        with connection:
            for stretch in stretches(connection):
                show(feed.feed(stretch))
        feed.close()
    except Refused as refused:
        show(refused.table + refused_line(refused.number, refused.block))


if __name__ == "__main__":
    main()
