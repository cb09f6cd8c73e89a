"""What a picture of a breaker's replay draws. Lines are added one by one, and what is kept does not grow with them."""
from typing import List, NamedTuple, Optional, Tuple

from .replay import Answered

MOST_POINTS, MOST_MARKS = 1000, 200


class Point(NamedTuple):
    """A line that the breaker took, or some of them one after the other: the highest rate, the lowest limit, the longest silence and run."""

    begin: int
    end: int
    rate: Optional[int]
    limit: Optional[int]
    since: int
    run: Optional[int]


def least(one: Optional[int], other: Optional[int]) -> Optional[int]:
    return min((each for each in (one, other) if each is not None), default=None)


def greatest(one: Optional[int], other: Optional[int]) -> Optional[int]:
    return max((each for each in (one, other) if each is not None), default=None)


def joined(one: Point, other: Point) -> Point:
    rate, run = greatest(one.rate, other.rate), greatest(one.run, other.run)
    return Point(one.begin, other.end, rate, least(one.limit, other.limit), max(one.since, other.since), run)


class Link:
    """The lines up to the stop, as points, with what is marked among them. Two points become one when there are twice as many as are drawn."""

    def __init__(self, start: int):
        self.start, self.end, self.each, self.lines, self.refused, self.total = start, start, 1, 0, 0, 0
        self.points: List[Point] = []
        self.open: Optional[Point] = None
        self.silences: List[Tuple[int, int]] = []  # from the last report or heard packet to the line that ended or showed the silence
        self.reductions: List[Tuple[int, int]] = []  # time and rate
        self.refusals: List[int] = []  # times
        self.stop: Optional[Answered] = None
        self.last: Optional[Answered] = None

    def noted(self, found: Answered) -> Answered:
        self.last, self.total = found, self.total + 1
        if found.refused:
            self.refused += 1
            if self.start <= found.call.time and len(self.refusals) < MOST_MARKS:
                self.refusals.append(found.call.time)
        elif found.numbers:
            self.add(found)
        self.end = max(self.end, found.call.time) if not found.refused else self.end
        return found

    def add(self, found: Answered) -> None:
        call, numbers = found.call, found.numbers
        report = call.kind == "report"
        limit = numbers.test.limit if numbers.test else None
        self.point(Point(call.time, call.time, call.rate if report else None, limit, numbers.since, numbers.run))
        self.silent(found.record.heard, call.time, found.record.timeout)
        if numbers.reduce and len(self.reductions) < MOST_MARKS:
            self.reductions.append((call.time, call.rate))
        if found.word == "stop":
            self.stop = found

    def point(self, new: Point) -> None:
        self.lines += 1
        self.open = joined(self.open, new) if self.open else new
        if self.lines % self.each == 0:
            self.points, self.open = [*self.points, self.open] if len(self.points) < 2 * MOST_POINTS else self.halved(), None

    def halved(self) -> List[Point]:
        pairs = [*self.points, self.open]
        self.each *= 2
        return [joined(*pairs[at : at + 2]) if at + 1 < len(pairs) else pairs[at] for at in range(0, len(pairs), 2)]

    def silent(self, heard: int, time: int, timeout: int) -> None:
        """A silence of half the timeout or longer; that of a tick and of the line after it are one."""
        if 2 * (time - heard) < timeout:
            return
        if self.silences and self.silences[-1][0] == heard:
            self.silences[-1] = (heard, time)
        elif len(self.silences) < MOST_MARKS:
            self.silences.append((heard, time))

    def drawn(self) -> List[Point]:
        return [*self.points, *([self.open] if self.open else [])]
