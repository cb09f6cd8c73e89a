"""The proved programs: where they are, and what one says of a trace."""
import contextlib
import os
import re
import shutil
import subprocess
import sys
import tempfile
import threading
from typing import BinaryIO, Iterable, List, NamedTuple, Optional, Tuple

from . import endings
from .common import FAILED, Ended

# The line of a refused block. It is the last one of a table and stands alone, so no row can be taken for it: a row ends with numbers.
REFUSED_LINE = re.compile(rb"refused (\d+) block (\d+)")
TOLD_LINE = re.compile(rb"refused (\d+) block (\d+)\r\n")  # the same line on standard error
TAIL = 100  # bytes, enough for that line
BESIDE = os.path.dirname(os.path.dirname(os.path.realpath(__file__)))


class Refusal(NamedTuple):
    number: int
    block: int


def program(name: str, folder: Optional[str]) -> str:
    """The program's path: in the folder of --bin, else of $ECN_BIN, else beside the script, in the repository's target/bin or where both are installed, else
    beside the command (where a wheel has put both), else on the path."""
    given = folder or os.environ.get("ECN_BIN")
    own = [BESIDE, *(os.path.join(BESIDE, "..", *below) for below in (("target", "bin"), ("..", "bin"))), os.path.dirname(os.path.realpath(sys.argv[0]))]
    for each in [given] if given else own:
        path = os.path.join(each, name)
        if os.path.isfile(path) and os.access(path, os.X_OK):
            return os.path.abspath(path)
    found = None if given else shutil.which(name)
    if found is None:
        where = f"in {given}" if given else "beside ecn, nor on the path; name its folder with --bin"
        raise Ended(FAILED, f"the program {name} is not found {where}")
    return found


def refusal_at_end(tail: bytes) -> Optional[Refusal]:
    """The refusal that a table ends with, by its last bytes."""
    line = REFUSED_LINE.fullmatch(tail.removesuffix(b"\r\n").rpartition(b"\r\n")[2]) if tail.endswith(b"\r\n") else None
    return Refusal(int(line[1]), int(line[2])) if line else None


class Tail(threading.Thread):
    """Reads a pipe to its end and keeps its last bytes."""

    def __init__(self, pipe: BinaryIO):
        super().__init__()
        self.pipe, self.kept = pipe, b""
        self.start()

    def run(self) -> None:
        with self.pipe:
            while piece := self.pipe.read(1 << 16):
                self.kept = (self.kept + piece)[-TAIL:]


def feed(child: subprocess.Popen, pieces: Iterable[bytes]) -> int:
    """The status with which a program ends that is given the pieces. At a refused block it ends before the last of them."""
    with endings.waiting():
        with contextlib.suppress(BrokenPipeError), child.stdin as pipe:
            for piece in pieces:
                pipe.write(piece)
        return child.wait()


def asked(path: str, pieces: Iterable[bytes]) -> Optional[Refusal]:
    """The first block that the program refuses of a trace that comes in pieces. Of its table only the end is kept."""
    with tempfile.TemporaryFile() as errors:
        child = subprocess.Popen([path], stdin=subprocess.PIPE, stdout=subprocess.PIPE, stderr=errors)
        try:
            tail = Tail(child.stdout)
            status = feed(child, pieces)
        finally:
            stop(child)
        tail.join()
        fault = fault_of(path, status, errors)
    if fault:
        raise Ended(FAILED, fault)
    return refusal_at_end(tail.kept)


def stop(child: subprocess.Popen) -> None:
    """Nothing of a program is left, whether it had ended or not."""
    if child.poll() is None:
        child.kill()
        child.wait()


def fault_of(path: str, status: int, errors: BinaryIO) -> str:
    """What has gone wrong in a run of the program: what it told on standard error, or how it ended."""
    errors.seek(0)
    return fault_by(path, status, errors.read())


def fault_by(path: str, status: int, told: bytes) -> str:
    """The same, from what it told."""
    ended = f"by signal {-status}" if status < 0 else f"with status {status}"
    return told.decode("utf-8", "replace").strip() or (f"{os.path.basename(path)} ended {ended}" if status else "")


def refusals_told(errors: BinaryIO) -> Tuple[List[Refusal], bytes]:
    """The refused blocks that a program lists on standard error, and what stands after their lines."""
    errors.seek(0)
    told, refusals, end = errors.read(), [], 0
    while line := TOLD_LINE.match(told, end):
        refusals.append(Refusal(int(line[1]), int(line[2])))
        end = line.end()
    return refusals, told[end:]
