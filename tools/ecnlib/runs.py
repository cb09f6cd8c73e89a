"""Runs of a proved program on traces. What a run prints is put in place only when it is whole."""
import argparse
import contextlib
import os
import stat
import subprocess
import sys
import tempfile
import time
from typing import Callable, List, NamedTuple, Optional

from . import endings, files, programs
from .common import FAILED, REFUSED, WELL, Ended, file_name, refused_words, say, tell


class Kind(NamedTuple):
    """What a run makes of a trace: its name for one and for several, and the name of its file in a folder, from the trace's."""

    one: str
    several: str
    named: Callable[[str], str]


def add_arguments(parser: argparse.ArgumentParser, kind: Kind, verb: str) -> None:
    one, several = kind.one, kind.several
    parser.add_argument("traces", nargs="+", type=file_name, metavar="TRACE", help="a trace of either form; - is standard input")
    out = f"the {one}, or the {several}' folder; - is standard output"
    parser.add_argument("-o", "--out", required=True, type=file_name, metavar="OUT", help=out)
    parser.add_argument("-j", "--jobs", type=jobs, default=1, metavar="N", help=f"how many traces are {verb} at a time (1)")


def jobs(text: str) -> int:
    if not (text.isascii() and text.isdecimal() and int(text) > 0):
        raise argparse.ArgumentTypeError(f"{text!r} is no whole number from 1 on")
    return int(text)


class Run:
    """One run of the program: a trace, and what becomes its output. What a whole one is, a command says in `fault`."""

    def __init__(self, path: str, trace: str, out: str, inputs: set):
        self.path, self.trace, self.name = path, trace, files.shown(trace)
        with contextlib.ExitStack() as opened:
            self.output = opened.enter_context(files.Output(out, inputs))
            self.handle = files.opened(trace)
            opened.callback(os.close, self.handle)
            self.began, self.before = self.place(), self.state()
            self.errors = opened.enter_context(tempfile.TemporaryFile())
            # The signals that Python ignores stay ignored, so that a file too large is an error with a name and no signal.
            self.child = subprocess.Popen([path], stdin=self.handle, stdout=self.output.file, stderr=self.errors, restore_signals=False)
            self.opened = opened.pop_all()

    def state(self) -> tuple:
        """What tells whether the trace has changed."""
        there = os.fstat(self.handle)
        return there.st_size, there.st_mtime_ns

    def place(self) -> Optional[int]:
        """The place in the trace's file, which the child shares; None for a pipe."""
        try:
            return os.lseek(self.handle, 0, os.SEEK_CUR)
        except OSError:
            return None

    def read(self) -> Optional[int]:
        """How many bytes of the trace the program has read."""
        return None if self.began is None else self.place() - self.began

    def fault(self) -> Optional[Ended]:
        """Why the output of a run that has ended is not put in place, if it is not."""
        raise NotImplementedError

    def told(self, refusals: List[programs.Refusal], rest: bytes) -> Optional[Ended]:
        """The fault that a program tells which lists refused blocks on standard error, and the rest of what it told."""
        where = f"{self.name}, block {refusals[0].block}" if refusals else self.name
        fault = programs.fault_by(self.path, self.child.returncode, rest)
        if fault:
            return Ended(FAILED, f"{where}: {fault}")
        return Ended(REFUSED, f"{self.name}: {refused_words(*refusals[0])}") if refusals else None

    def finish(self) -> Optional[int]:
        """Puts the output in place, or raises why not. Gives a status, or None for 0."""
        fault = self.fault()
        if fault:
            raise fault
        self.output.commit()
        return None

    def close(self) -> None:
        """Leaves nothing behind, whatever has become of the run."""
        programs.stop(self.child)
        self.opened.close()


class Progress:
    """A line on a terminal from the second second on."""

    def __init__(self, traces: list):
        there = {trace: files.found(trace) for trace in traces}
        self.sizes = {trace: each.st_size for trace, each in there.items() if each and stat.S_ISREG(each.st_mode)}
        self.count, self.after, self.shown, self.done = len(traces), time.monotonic() + 1, False, []

    def show(self, running: list) -> None:
        now = time.monotonic()
        if now < self.after or not sys.stderr.isatty():
            return
        self.after = now + 0.05
        read = sum(self.sizes.get(trace, 0) for trace in self.done) + sum(each.read() or 0 for each in running)
        size = sum(self.sizes.values())
        part = f", {100 * read // size} % of {size / 1e6:,.0f} MB" if size else ""
        say(f"\recn: {len(self.done)} of {self.count} traces{part}\033[K")
        self.shown = True

    def clear(self) -> None:
        if self.shown:
            say("\r\033[K")
            self.shown = False


def places(traces: list, out: str, kind: Kind) -> dict:
    """The place of what becomes of each trace."""
    folder = out != "-" and (os.path.isdir(out) or out.endswith("/"))
    if len(traces) == 1 and not folder:
        return {traces[0]: out}
    if out == "-" or not folder and files.found(out, True):
        raise Ended(FAILED, f"several traces need a folder for their {kind.several}, and {files.shown(out, True)} is none")
    if "-" in traces:
        raise Ended(FAILED, f"standard input has no name for a {kind.one} in a folder: give only it, and the {kind.one}'s file as OUT")
    found = {trace: os.path.join(out, kind.named(os.path.basename(trace))) for trace in traces}
    owners: dict = {}
    for trace in traces:
        place = os.path.realpath(found[trace])
        if place in owners:
            raise Ended(FAILED, f"{owners[place]} and {trace} would both have the {kind.one} {found[trace]}")
        owners[place] = trace
    os.makedirs(out, exist_ok=True)
    return found


def status_of(trace: str, action: Callable) -> int:
    """What an action for one trace ends with; a failure is told."""
    try:
        return action() or WELL
    except Ended as ended:
        tell(str(ended))
        return ended.status
    except OSError as error:
        tell(f"{error.filename or trace}: {error.strerror}")
        return FAILED


def run_all(options: argparse.Namespace, kind: Kind, program: str, run: Callable[..., Run]) -> int:
    """Runs the program on each trace, several at a time. The highest status counts."""
    path = programs.program(program, options.bin)
    left, inputs = list(places(options.traces, options.out, kind).items()), files.identities(options.traces)
    progress, statuses, running = Progress(options.traces), [WELL], []
    try:
        while left or running:
            endings.check()
            while left and len(running) < options.jobs:
                trace, out = left.pop(0)
                statuses.append(status_of(trace, lambda: running.append(run(path, trace, out, inputs))))
            if running:
                try:
                    running[0].child.wait(0.05)
                except subprocess.TimeoutExpired:
                    progress.show(running)
            for each in [each for each in running if each.child.poll() is not None]:
                progress.clear()
                statuses.append(status_of(each.name, each.finish))
                running.remove(each)
                each.close()
                progress.done.append(each.trace)
    finally:
        progress.clear()
        for each in running:
            each.close()
    return max(statuses)
