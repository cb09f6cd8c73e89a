"""What the commands share: exit statuses, messages, and the three standard streams."""
import argparse
import contextlib
import os
import re
import sys
from typing import Iterator, Optional

from . import endings, layer

WELL, REFUSED, FAILED = 0, 1, 2


class Ended(Exception):
    """A command ends here, with a message and an exit status."""

    def __init__(self, status: int, message: str):
        super().__init__(message)
        self.status = status


@contextlib.contextmanager
def named(name: str) -> Iterator[None]:
    """What fails inside is told with this name."""
    try:
        yield
    except OSError as error:
        raise Ended(FAILED, f"{name}: {error.strerror or error}") from error


def say(text: str) -> None:
    """On standard error. Where that fails the exit status is left to say it."""
    try:
        print(text, end="", file=sys.stderr, flush=True)
    except OSError:
        forget(sys.stderr)


def tell(message: str) -> None:
    say(f"ecn: {message}\n")


def forget(stream) -> None:
    """What a stream still holds goes nowhere; else Python would try again at the end, and change the exit status."""
    nowhere = os.open(os.devnull, os.O_WRONLY)
    os.dup2(nowhere, stream.fileno())
    os.close(nowhere)


def fill_streams() -> None:
    """A standard stream that is closed gets one on which each read and write fails, so that no other file takes its number and no print is lost."""
    for number, flags in enumerate((os.O_WRONLY, os.O_RDONLY, os.O_RDONLY)):
        try:
            os.fstat(number)
        except OSError:
            os.open(os.devnull, flags)  # it takes the lowest number that is free
    sys.stdout = sys.stdout or open(1, "w", closefd=False)
    sys.stderr = sys.stderr or open(2, "w", closefd=False)


@contextlib.contextmanager
def printing() -> Iterator[None]:
    """Around what is printed on standard output. Where the reader of a pipe has seen enough nothing is told."""
    try:
        with endings.waiting():
            try:
                yield
            finally:
                if not endings.came:
                    sys.stdout.flush()
    except OSError as error:
        forget(sys.stdout)
        if isinstance(error, BrokenPipeError):
            raise
        raise Ended(FAILED, f"standard output: {error.strerror}") from error


def file_name(text: str) -> str:
    """An argument that names a file."""
    if not text:
        raise argparse.ArgumentTypeError("a file's name is empty")
    return text


def whole(text: str) -> int:
    """An argument that is a whole number."""
    if not (text.isascii() and text.isdecimal() and len(text) < 20):
        raise argparse.ArgumentTypeError(f"{text!r} is no whole number from 0 on")
    return int(text)


def ssrc_in(text: str) -> Optional[int]:
    """The SSRC that a text says, whole or in hexadecimal; None if it is none."""
    digits = re.fullmatch(r"0[xX]([0-9a-fA-F]{1,8})|([0-9]{1,10})", text)
    if not digits:
        return None
    number = int(digits[1], 16) if digits[1] else int(digits[2])
    return number if number < 2**32 else None


def ssrc(text: str) -> int:
    """An argument that is an SSRC."""
    number = ssrc_in(text)
    if number is None:
        raise argparse.ArgumentTypeError(f"{text!r} is no SSRC: that is a whole number from 0 to {2**32 - 1}, or 0x and up to 8 hexadecimal digits")
    return number


def many(count: int, word: str) -> str:
    return f"{count:,} {word}" + ("" if count == 1 else "s")


def refused_words(number: int, block: int) -> str:
    words = f"block {block} is refused with {number}: {layer.refusal_text(number)}"
    if number == 15:
        return f"{words}; ecn split makes a trace of each source"
    return words + ("; probably this is no trace at all" if block == 0 and number != 14 else "")
