"""The files that a command is given. `-` is standard input or output. A path that names an open file of this process (/dev/stdout, /dev/fd/3, a
link to one) is that open file: it is read or written where it stands, and never opened anew, cut or replaced."""
import contextlib
import errno
import fcntl
import io
import os
import re
import select
import stat
import tempfile
from typing import BinaryIO, Iterable, Optional

from . import endings
from .common import FAILED, Ended, named

OPEN_FILES = re.compile(r"(/proc/\d+)(/task/\d+)?/fd")
MOST_LINKS = 40  # that the system follows in one path


def shown(path: str, writing: bool = False) -> str:
    return path if path != "-" else "standard output" if writing else "standard input"


def failure(number: int) -> OSError:
    return OSError(number, os.strerror(number))


def descriptor(path: str, writing: bool = False) -> Optional[int]:
    """The number of the open file that a path names; None where it names none."""
    if path == "-":
        return int(writing)
    for _ in range(MOST_LINKS):
        folder, name = os.path.split(path)
        process = OPEN_FILES.fullmatch(os.path.realpath(folder))
        if process and name.isdecimal():
            if process[1] == os.path.realpath("/proc/self"):
                return int(name)
            if writing:
                raise Ended(FAILED, f"{path} is an open file of another process")
        if not os.path.islink(path):
            return None
        path = os.path.join(folder, os.readlink(path))
    return None


def given(number: int, writing: bool) -> int:
    """A copy of the descriptor of an open file. One that is not inherited was opened by this script, and not given to it."""
    if not os.get_inheritable(number) or writing and fcntl.fcntl(number, fcntl.F_GETFL) & os.O_ACCMODE == os.O_RDONLY:
        raise failure(errno.EBADF)
    return os.dup(number)


def opened(path: str) -> int:
    with named(shown(path)), endings.waiting():
        number = descriptor(path)
        return os.open(path, os.O_RDONLY) if number is None else given(number, False)


def found(path: str, writing: bool = False) -> Optional[os.stat_result]:
    """What a path leads to; None where that is nothing. What cannot be seen is nothing to a reader, who is told when it is opened."""
    try:
        number = descriptor(path, writing)
        return os.stat(path if number is None else number)
    except OSError as error:
        if writing and error.errno != errno.ENOENT:
            raise
        return None


def identity(there: Optional[os.stat_result]) -> Optional[tuple]:
    """What tells a file or a pipe from every other, whatever its name. A device has none: one terminal may well be input and output."""
    return (there.st_dev, there.st_ino) if there and (stat.S_ISREG(there.st_mode) or stat.S_ISFIFO(there.st_mode)) else None


def identities(inputs: Iterable[str]) -> set:
    return {identity(found(each)) for each in inputs} - {None}


class Input(io.FileIO):
    """A file that is read. What fails is told with the file's name."""

    def __init__(self, path: str):
        self.told = shown(path)
        with named(self.told):
            super().__init__(opened(path), "rb")

    def readinto(self, room) -> int:
        with named(self.told), endings.waiting():
            while (count := super().readinto(room)) is None:  # it does not block, and nothing is there yet
                select.select([self], [], [])
            return count

    def seek(self, *place) -> int:
        with named(self.told):
            return super().seek(*place)


def put(handle: int, piece: bytes) -> None:
    """Writes all of a piece, also to a pipe that does not block."""
    rest = memoryview(piece)
    while rest:
        try:
            rest = rest[os.write(handle, rest) :]
        except BlockingIOError:
            select.select([], [handle], [])


class Output:
    """What is written to `file`, and comes to its place at `commit`.

    A file is written beside its place and takes it as a whole; until then, and behind `discard`, the place is as it was. An open file, a device
    and a pipe cannot be replaced: they get all bytes at `commit`, and none before.
    """

    def __init__(self, out: str, inputs: set):
        self.name, self.path, self.handle = shown(out, True), None, None
        with named(self.name):
            number, there = descriptor(out, True), found(out, True)
            if identity(there) in inputs:
                raise Ended(FAILED, f"{self.name} is given as input and as output")
            if out.endswith("/"):
                raise failure(errno.EISDIR)
            if number is not None:
                self.handle = given(number, True)
            elif there and not stat.S_ISREG(there.st_mode):
                with endings.waiting():
                    self.handle = os.open(out, os.O_WRONLY)
            self.place = os.path.realpath(out)
            self.file = self.beside(there) if self.handle is None else tempfile.TemporaryFile()

    def beside(self, there: Optional[os.stat_result]) -> BinaryIO:
        """A new file in the folder of the place, with the rights of the file that it is to replace, or of a new one."""
        if there and not os.access(self.place, os.W_OK):
            raise failure(errno.EACCES)
        folder, name = os.path.split(self.place)
        path, mode = os.path.join(folder, f".{name[:40]}.{os.urandom(8).hex()}.part"), stat.S_IMODE(there.st_mode) if there else 0o666
        handle = os.open(path, os.O_RDWR | os.O_CREAT | os.O_EXCL, mode)
        self.path = path
        if there:
            with contextlib.suppress(PermissionError):
                os.chmod(path, mode)
        return open(handle, "w+b")

    def write(self, data: bytes) -> None:
        with named(self.name):
            self.file.write(data)

    def flush(self) -> None:
        with named(self.name):
            self.file.flush()

    def commit(self) -> None:
        with named(self.name), self:
            self.flush()
            if self.handle is not None:
                self.copy()
                return
            os.fsync(self.file.fileno())  # a full disk may be told only here
            os.replace(self.path, self.place)
            self.path = None

    def copy(self) -> None:
        self.file.seek(0)
        with endings.waiting():
            for piece in iter(lambda: self.file.read(1 << 18), b""):
                put(self.handle, piece)
        handle, self.handle = self.handle, None
        os.close(handle)  # some file systems tell only here that there was no room

    def discard(self) -> None:
        """Leaves nothing that is not at its place."""
        with contextlib.suppress(OSError):  # what was not written yet may have no room
            self.file.close()
        if self.handle is not None:
            os.close(self.handle)
        if self.path is not None:
            with contextlib.suppress(FileNotFoundError):
                os.unlink(self.path)
        self.handle = self.path = None

    def __enter__(self) -> "Output":
        return self

    def __exit__(self, *_) -> None:
        self.discard()
