"""A replay of a link's reports: the rows of a file, and the call of the proved breaker for each."""
import argparse
from typing import Any, NamedTuple, Optional

from . import sheets
from .common import FAILED, REFUSED, Ended
from .rules import Call, Numbers, Record

KINDS = ("report", "heard", "tick")
COUNTS = ("lost", "marked", "expected")
REPORTED = ("highest", "rtt", "size", "rate")
COLUMNS = ("kind", "time", *REPORTED, "fraction", *COUNTS)
WORD = 2**64  # of the library; what is above the breaker's own limits is the breaker's to refuse


def call_in(row: sheets.Cells) -> Call:
    kind = row.cells["kind"].lower()
    if kind not in KINDS:
        raise Ended(REFUSED, f"{row.where}: kind {kind!r} is none of {', '.join(KINDS)}")
    time = row.number("time", WORD)
    if kind != "report":
        return Call(kind, time)
    missing = [name for name in REPORTED if name not in row.cells]
    if missing:
        raise Ended(REFUSED, f"{row.where}: a report needs the column {' and the column '.join(missing)}")
    counted, fraction = [bool(row.cells.get(name)) for name in COUNTS], bool(row.cells.get("fraction"))
    if all(counted) == fraction or any(counted) != all(counted):
        raise Ended(REFUSED, f"{row.where}: a report has either a fraction or all of {', '.join(COUNTS)}")
    numbers = {"highest": row.number("highest", 2**32), **{name: row.number(name, WORD) for name in REPORTED[1:]}}
    if fraction:
        return Call(kind, time, fraction=row.number("fraction", WORD), **numbers)
    counts = row.number("lost", 2**63, -(2**63)), row.number("marked", WORD), row.number("expected", WORD)
    return Call(kind, time, counts=counts, **numbers)


class Answered(NamedTuple):
    """A line's call, and what the breaker said: the answer or the refusal. The numbers are there if it was running and took the call."""

    line: int
    call: Call
    answer: Any
    refused: Any
    numbers: Optional[Numbers]
    record: Record

    @property
    def word(self) -> str:
        return "refused" if self.refused else "stop" if self.answer.stop else self.answer.name.lower()

    @property
    def rule(self) -> int:
        """The rule that decided, 0 for none; of a breaker that had stopped, the one that stopped it."""
        return self.numbers.rule if self.numbers else self.record.state


class Replay:
    """A breaker, and the calls that it is given one after the other."""

    def __init__(self, flasknib: Any, options: argparse.Namespace):
        self.flasknib = flasknib
        given = {name: getattr(options, name) for name in ("k", "m", "timeout") if getattr(options, name) is not None}
        try:
            self.breaker = flasknib.Breaker(options.start, reduce=options.reduce, full=options.full, **given)
        except (flasknib.Refused, OverflowError) as error:
            limits = "--k and --m are 1 to 32, --timeout is 1 to 600000 ms, and --start is below 2^48 ms"
            raise Ended(FAILED, f"the breaker cannot be started so: {limits}") from error

    def called(self, call: Call) -> Any:
        if call.kind == "tick":
            return self.breaker.tick(call.time)
        if call.kind == "heard":
            return self.breaker.heard(call.time)
        if call.counts is None:
            return self.breaker.report(call.time, call.highest, call.fraction, call.rtt, call.size, call.rate)
        return self.breaker.report_ecn(call.time, call.highest, *call.counts, call.rtt, call.size, call.rate)

    def answered(self, row: sheets.Cells) -> Answered:
        """The call of a row. Its numbers have to give the call's own answer."""
        call, record = call_in(row), Record.of(self.flasknib.header, self.breaker.words)
        try:
            answer = self.called(call)
        except self.flasknib.Refused as refused:
            return Answered(row.line, call, None, refused, None, record)
        numbers = None if record.state else record.numbers(call)
        said = record.answer(numbers, self.flasknib.header)
        if answer != said:
            raise Ended(FAILED, f"{row.where}: the call answers {int(answer)}, but by its numbers it would be {said}: {numbers}")
        return Answered(row.line, call, answer, None, numbers, record)
