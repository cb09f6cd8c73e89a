"""The origin of a table: a small file beside it that says of what it was made, so that anyone can make it again and compare."""
import hashlib
import json
import os
import subprocess
import tempfile
from typing import Any, BinaryIO, Dict, Iterator, NamedTuple, Optional

from . import endings, programs, several
from .common import FAILED, REFUSED, Ended
from .files import opened, shown
from .layer import version

ENDING = ".origin"
FORMAT = 1
MOST_BYTES = 1 << 20  # of an origin
PROGRAMS = ("ecntable", "ecnstreams")


class Sum(NamedTuple):
    bytes: int
    sha256: str


def sum_of(file: BinaryIO) -> Sum:
    """Of a file from where it stands to its end."""
    size, sha = 0, hashlib.sha256()
    for piece in iter(lambda: file.read(1 << 18), b""):
        size += len(piece)
        sha.update(piece)
    return Sum(size, sha.hexdigest())


def sum_at(path: str) -> Optional[Sum]:
    """Of the file at a path; None if there is none."""
    if not os.path.isfile(path):
        return None
    with several.reading(path) as file:
        return sum_of(file)


def made_again(path: str, trace: str) -> Sum:
    """Of what a program prints of a trace."""
    handle = opened(trace)
    try:
        with tempfile.TemporaryFile() as errors:
            child = subprocess.Popen([path], stdin=handle, stdout=subprocess.PIPE, stderr=errors)
            try:
                with endings.waiting(), child.stdout as table:
                    found, status = sum_of(table), child.wait()
            finally:
                programs.stop(child)
            fault = programs.fault_of(path, status, errors)
    finally:
        os.close(handle)
    if fault:
        raise Ended(FAILED, f"{trace}: {fault}")
    return found


def text_of(command: str, program: str, trace: tuple, table: tuple) -> bytes:
    """The origin of a table, by the paths and sums of the trace and the table. The trace is named from the table's folder, so that both can be
    moved together."""
    folder = os.path.dirname(os.path.realpath(table[0]))
    names = {"program": os.path.basename(program), "trace": os.path.relpath(os.path.realpath(trace[0]), folder), "table": os.path.basename(table[0])}
    sums = {"program": sum_at(program), "trace": trace[1], "table": table[1]}
    parts = {what: {"name": name, **sums[what]._asdict()} for what, name in names.items()}
    return (json.dumps({"origin": FORMAT, "made by": f"ecn {version()}", "command": command, **parts}, indent=2) + "\n").encode()


class Origin(NamedTuple):
    """What an origin says of the program, the trace and the table, and the folder that it stands in."""

    folder: str
    parts: Dict[str, Dict[str, Any]]

    def path(self, what: str) -> str:
        """Where the trace or the table is: by its name from this folder, else in this folder."""
        name = self.parts[what]["name"]
        place = os.path.join(self.folder, name)
        return place if os.path.exists(place) else os.path.join(self.folder, os.path.basename(name))

    def compared(self, what: str, found: Optional[Sum]) -> str:
        said = self.parts[what]
        return "missing" if found is None else "same" if found == (said["bytes"], said["sha256"]) else "differs"


def is_part(value: Any) -> bool:
    return isinstance(value, dict) and [type(value.get(each)) for each in ("name", "bytes", "sha256")] == [str, int, str] and "\0" not in value["name"]


def read(path: str) -> Origin:
    with several.reading(path) as file:
        text = file.read(MOST_BYTES)
    try:
        values = json.loads(text)
        parts = {what: values[what] for what in ("program", "trace", "table")}
        sound = values["origin"] == FORMAT and all(map(is_part, parts.values())) and parts["program"]["name"] in PROGRAMS
    except (ValueError, TypeError, KeyError, RecursionError):
        sound = False
    if not sound:
        raise Ended(REFUSED, f"{shown(path)} is no origin of a table, as ecn table --origin writes it")
    return Origin(os.path.dirname(os.path.realpath(path)), parts)


class Compared(NamedTuple):
    """How the trace, the table, the table made again, and the program stand to what the origin says."""

    trace: str
    table: str
    again: str
    program: str

    @property
    def well(self) -> bool:
        """The program may be of another build, if it makes the same table."""
        return (self.trace, self.table, self.again) == ("same",) * 3


def compared(path: str, folder: Optional[str]) -> Compared:
    """Makes a table again and compares it with its origin."""
    origin = read(path)
    program = programs.program(origin.parts["program"]["name"], folder)
    trace = origin.compared("trace", sum_at(origin.path("trace")))
    again = "missing" if trace == "missing" else origin.compared("table", made_again(program, origin.path("trace")))
    return Compared(trace, origin.compared("table", sum_at(origin.path("table"))), again, origin.compared("program", sum_at(program)))
