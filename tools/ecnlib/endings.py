"""The signals that end ecn. One that comes while a command waits ends it there; at any other time it is kept until the next wait, so that no file
and no process that was made just then is left behind. A signal that was ignored when ecn began stays ignored (nohup, a script's background job)."""
import contextlib
import os
import signal
from typing import Iterator

ENDINGS = (signal.SIGINT, signal.SIGQUIT, signal.SIGTERM, signal.SIGHUP)

came: list = []
waits = 0


class Signalled(BaseException):
    """A signal ends the command here."""


def watch() -> None:
    for each in ENDINGS:
        if signal.getsignal(each) != signal.SIG_IGN:
            signal.signal(each, note)


def note(number: int, _) -> None:
    """Only the first one is raised: another must not disturb the clearing up."""
    came.append(number)
    if waits and len(came) == 1:
        raise Signalled


def check() -> None:
    if came:
        raise Signalled


@contextlib.contextmanager
def waiting() -> Iterator[None]:
    """Around what may take any time. Nothing that has to be cleared up may be made inside."""
    global waits
    waits += 1
    try:
        check()
        yield
    finally:
        waits -= 1


def leave() -> None:
    """Ends by the signal that came, as its sender expects."""
    signal.signal(came[0], signal.SIG_DFL)
    os.kill(os.getpid(), came[0])


def unwatch() -> None:
    """In a process that works for this one: a signal ends it at once."""
    for each in ENDINGS:
        if signal.getsignal(each) == note:
            signal.signal(each, signal.SIG_DFL)
