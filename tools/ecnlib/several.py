"""One question asked of several traces, some of them at a time. What is asked is a call of the proved library, in this process or in others."""
import argparse
import contextlib
import functools
import io
from typing import Any, Callable, Iterator, List, NamedTuple, Optional, Tuple

from . import endings, files
from .common import FAILED, WELL, Ended, file_name, tell
from .runs import Progress, jobs


class Outcome(NamedTuple):
    """What came of a trace: a value, or a message; and the status."""

    value: Any
    message: Optional[str]
    status: int


def add_arguments(parser: argparse.ArgumentParser) -> None:
    parser.add_argument("traces", nargs="+", type=file_name, metavar="TRACE", help="a trace of either form; - is standard input")
    parser.add_argument("-j", "--jobs", type=jobs, default=1, metavar="N", help="how many traces are read at a time (1)")


def add_output(parser: argparse.ArgumentParser, what: str) -> None:
    parser.add_argument("-o", "--out", default="-", type=file_name, metavar="OUT", help=f"{what} (standard output)")


class Taken(NamedTuple):
    """How much of a trace has been read, for the line on a terminal."""

    bytes: int

    def read(self) -> int:
        return self.bytes


class Watched(files.Input):
    """A file of which a terminal shows how far it is read, inside `watched`."""

    def __init__(self, path: str):
        super().__init__(path)
        self.got = 0

    def readinto(self, room) -> int:
        count = super().readinto(room)
        self.got += count
        if watching:
            watching.show([Taken(self.got)])
        return count


watching: Optional[Progress] = None


@contextlib.contextmanager
def watched(progress: Progress) -> Iterator[None]:
    global watching
    watching = progress
    try:
        yield
    finally:
        watching.clear()
        watching = None


def reading(trace: str) -> io.BufferedReader:
    """A trace that is read from where it stands to its end."""
    return io.BufferedReader(Watched(trace), 1 << 18)


def outcome(ask: Callable[[str], Any], trace: str) -> Outcome:
    try:
        return Outcome(ask(trace), None, WELL)
    except Ended as ended:
        return Outcome(None, str(ended), ended.status)
    except OSError as error:
        return Outcome(None, f"{files.shown(trace)}: {error.strerror}", FAILED)


@contextlib.contextmanager
def mapped(count: int) -> Iterator[Callable]:
    """A map, over so many processes if there is more than one. What they need takes a while to load."""
    if count < 2:
        yield map
        return
    from .workers import workers

    with workers(count) as map_of:
        yield map_of


def asked(traces: List[str], count: int, ask: Callable[[str], Any]) -> Iterator[Tuple[str, Outcome]]:
    """The outcome of each trace, in their order; what is wrong with one is said, and the others go on."""
    if traces.count("-") > 1:
        raise Ended(FAILED, "standard input can be read only once: give - once")
    progress, count = Progress(traces), min(count, len(traces))
    with mapped(count) as map_of, watched(progress) if count < 2 else contextlib.nullcontext():
        outcomes = map_of(functools.partial(outcome, ask), traces)
        for trace in traces:
            with endings.waiting():
                found = next(outcomes)
            progress.clear()
            if found.message:
                tell(found.message)
            yield trace, found
            progress.done.append(trace)
            progress.show([])
    progress.clear()
