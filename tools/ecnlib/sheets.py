"""A text file of rows, with a head line that names its columns: CSV, or with semicolons or tabs between the columns."""
import contextlib
import csv
import io
from typing import Container, Iterable, Iterator, List, NamedTuple, Sequence, Tuple

from . import several
from .common import REFUSED, Ended, many
from .files import shown
from .runs import Progress

SEPARATORS = "\t;,"  # the first of them that the head line has
MOST_LINE = 100_000  # characters; a longer line is no row of numbers


class Cells(NamedTuple):
    """A row: its file, its line, and its cells by column, without the spaces around them."""

    name: str
    line: int
    cells: dict

    @property
    def where(self) -> str:
        return f"{self.name}, line {self.line}"

    def number(self, name: str, limit: int, least: int = 0) -> int:
        """A whole number below a limit."""
        text = self.cells[name]
        digits = text[1:] if least < 0 and text.startswith("-") else text
        if not (digits.isascii() and digits.isdecimal() and len(digits) < 100 and least <= int(text) < limit):
            raise Ended(REFUSED, f"{self.where}: {name} {text!r} is no whole number from {least} to {limit - 1}")
        return int(text)


class Sheet:
    """The rows of a file, read once."""

    def __init__(self, text: io.TextIOBase, name: str):
        self.name, self.text, self.read = name, text, 0
        with self.told():
            head = next(self.lines(), "")
            self.separator = next((each for each in SEPARATORS if each in head), ",")
            names = next(csv.reader([head], delimiter=self.separator, strict=True), [])
        self.columns = [column.strip().lower() for column in names]

    def lines(self) -> Iterator[str]:
        """The lines that are left. No more of a file is held than one line."""
        while line := self.text.readline(MOST_LINE):
            self.read += 1
            if len(line) == MOST_LINE and not line.endswith(("\n", "\r")):
                raise Ended(REFUSED, f"{self.name}, line {self.read} has {MOST_LINE:,} characters or more: this is no file of rows")
            yield line

    @contextlib.contextmanager
    def told(self) -> Iterator[None]:
        """What is no row is refused with its place."""
        try:
            yield
        except csv.Error as error:
            raise Ended(REFUSED, f"{self.name}, line {self.read}: {error}") from error
        except UnicodeDecodeError as error:
            raise Ended(REFUSED, f"{self.name}: this is no text in UTF-8") from error

    def need(self, *names: str, known: Sequence[str] = ()) -> None:
        """Each of these columns is there, and no known one twice."""
        missing = [name for name in names if name not in self.columns]
        if missing:
            hint = "; commas, semicolons or tabs separate the columns" if len(self.columns) == 1 else ""
            raise Ended(REFUSED, f"{self.name}, line 1: no column {' and no column '.join(missing)}{hint}")
        self.once(known or names)

    def once(self, names: Iterable[str]) -> None:
        twice = [name for name in names if self.columns.count(name) > 1]
        if twice:
            raise Ended(REFUSED, f"{self.name}, line 1: more than one column {' and more than one column '.join(twice)}")

    def __iter__(self) -> Iterator[Cells]:
        with self.told():
            for row in csv.reader(self.lines(), delimiter=self.separator, strict=True):
                if row:
                    yield self.cells(row)

    def cells(self, row: List[str]) -> Cells:
        more = len(row) - len(self.columns)
        found = Cells(self.name, self.read, dict(zip(self.columns, [*map(str.strip, row), *[""] * -more])))
        if more > 0:
            raise Ended(REFUSED, f"{found.where}: {more} more than the {many(len(self.columns), 'field')} of the head line")
        return found


@contextlib.contextmanager
def opened(path: str, watch: bool = True) -> Iterator[Sheet]:
    """A file of rows, of which a terminal shows how far it is read if `watch` says so."""
    with several.watched(Progress([path])) if watch else contextlib.nullcontext():
        with io.TextIOWrapper(several.reading(path), "utf-8-sig", newline="") as text:
            yield Sheet(text, shown(path))


def aligned(rows: Sequence[Tuple[str, ...]], right: Container[int]) -> Iterator[str]:
    """Rows as lines for people; the columns at these places are numbers, and stand at the right."""
    widths = [max(map(len, column)) for column in zip(*rows)]
    for row in rows:
        cells = (f"{cell:>{width}}" if at in right else f"{cell:<{width}}" for at, (cell, width) in enumerate(zip(row, widths)))
        yield "  ".join(cells).rstrip()
