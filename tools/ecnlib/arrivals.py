"""The arrivals in a file of rows: a CSV file that people or `ecn records` wrote, or tshark's own fields."""
import re
from typing import Dict, Iterator, List, NamedTuple, Optional, Tuple

from . import sheets
from .blocks import MARKS, Form, Record
from .common import REFUSED, Ended, ssrc_in

# The columns that say each value; those from tshark have its names of fields.
COLUMNS: Dict[str, Tuple[str, ...]] = {
    "time": ("time", "seconds", "frame.time_relative", "frame.time_epoch"),
    "number": ("number", "rtp.seq"),
    "mark": ("mark", "ip.dsfield.ecn", "ipv6.tclass.ecn"),
    "ssrc": ("ssrc", "rtp.ssrc"),
}
KNOWN = tuple(name for names in COLUMNS.values() for name in names)
SECONDS = re.compile(r"([0-9]{1,12})(?:\.([0-9]{0,18}))?")
TABLE_MARKS = {"notect": 0, "ect1": 1, "ect0": 2}  # as the table has them; ce is the same in both
MARK_NAMES = {name.lower(): mark for mark, name in enumerate(MARKS)} | TABLE_MARKS
MARK_NAMES |= {form.format(mark): mark for mark in range(4) for form in ("{}", "0x{}", "0x0{}")}


class Arrival(NamedTuple):
    ssrc: int
    record: Record


def said(row: sheets.Cells, names: List[str]) -> str:
    """The column that says a value in this row: the only one of its columns that is not empty."""
    cells = row.cells
    filled = [name for name in names if cells[name]]
    return filled[0] if len(filled) == 1 and "," not in cells[filled[0]] else doubtful(row, filled, names)


def doubtful(row: sheets.Cells, filled: List[str], names: List[str]) -> str:
    """The same if no column says it, or several do, or one has several values."""
    if len(filled) > 1:
        raise Ended(REFUSED, f"{row.where}: one thing stands in the column {' and in the column '.join(filled)}; leave out one of them")
    name = (filled or names)[0]
    if "." in name and not filled:
        raise Ended(REFUSED, f"{row.where}: {name} is empty, so this is no RTP packet over IP; -Y rtp in tshark's line leaves out others")
    if "." in name:
        raise Ended(REFUSED, f"{row.where}: {name} has several values, as in a tunnel; -E occurrence=l in tshark's line takes the last, innermost one")
    return name


def time_in(row: sheets.Cells, name: str, form: Form) -> int:
    """The time in ms; seconds are rounded down to it."""
    limit = 256**form.time
    text = row.cells[name]
    if name == "time":
        found = row.number(name, 2**64)
    else:
        parts = SECONDS.fullmatch(text)
        if not parts:
            raise Ended(REFUSED, f"{row.where}: {name} {text!r} is no number of seconds, as 12.345")
        found = int(parts[1]) * 1000 + int((parts[2] or "").ljust(3, "0")[:3])
    if found >= limit and form.number == 1:
        raise Ended(REFUSED, f"{row.where}: {name} {text!r} is 2^32 ms (49 days) or more and has no place in form 1: add --form 2")
    if found >= limit:
        raise Ended(REFUSED, f"{row.where}: {name} {text!r} is no time below 2^48 ms")
    return found


def mark_in(row: sheets.Cells, name: str) -> int:
    mark = MARK_NAMES.get(row.cells[name].lower())
    if mark is None:
        raise Ended(REFUSED, f"{row.where}: {name} {row.cells[name]!r} is not 0 to 3, nor one of {', '.join((*MARKS, *TABLE_MARKS))}")
    return mark


def source_in(row: sheets.Cells, name: str) -> int:
    number = ssrc_in(row.cells[name])
    if number is None:
        raise Ended(REFUSED, f"{row.where}: {name} {row.cells[name]!r} is no whole number from 0 to {2**32 - 1}, nor 0x and up to 8 hexadecimal digits")
    return number


def arrivals_in(rows: sheets.Sheet, form: Form, ssrc: Optional[int]) -> Iterator[Arrival]:
    """Each row's arrival; of the source that is given, or of that in the row."""
    there = {value: [name for name in names if name in rows.columns] for value, names in COLUMNS.items()}
    rows.need(*(value for value in ("time", "number", "mark") if not there[value]), known=KNOWN)
    if bool(there["ssrc"]) == (ssrc is not None):
        raise Ended(REFUSED, f"{rows.name}: give the source once, by a column {' or '.join(there['ssrc'] or ['ssrc'])} or by --ssrc")
    times, numbers, marks, sources = there.values()
    for row in rows:
        source = source_in(row, said(row, sources)) if ssrc is None else ssrc
        record = Record(time_in(row, said(row, times), form), row.number(said(row, numbers), 2**16), mark_in(row, said(row, marks)))
        yield Arrival(source, record)
