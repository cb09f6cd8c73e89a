"""What the blocks of a trace brought, as the bars of a picture. Rows are added one by one, and what is kept does not grow with them."""
import math
from fractions import Fraction
from typing import List, NamedTuple, Optional

MARKS = ("ce", "ect1", "ect0", "notect")
COUNTS = (*MARKS, "lost", "dup", "jumped", "restarts")
SINCE_RESTART = 6  # so many of them begin at 0 again where a sender restarted
LOST, RESTARTS = COUNTS.index("lost"), COUNTS.index("restarts")
NOTHING = (0,) * len(COUNTS)
MOST_BARS = 240
SECOND, MINUTE, HOUR, DAY = 1000, 60_000, 3_600_000, 86_400_000  # ms
UNITS = {"ms": 1, "s": SECOND, "min": MINUTE, "h": HOUR, "days": DAY}
STEPS = [times * 10**power for power in range(3) for times in (1, 2, 5)]
STEPS += [unit * times for unit in (SECOND, MINUTE) for times in (1, 2, 5, 10, 15, 30)] + [HOUR * times for times in (1, 2, 3, 6, 12)]
STEPS += [DAY * times * 10**power for power in range(8) for times in (1, 2, 5)]


class Bar(NamedTuple):
    """What some blocks, or a source, brought. On the axis it stands from its begin to its end: blocks, or ms since the first packet."""

    name: str
    begin: Fraction
    end: Fraction
    blocks: int
    ms: Optional[int]  # that it lasted, if times are on the axis
    counts: dict

    def rate(self, name: str, unit: int) -> Fraction:
        """What came in a unit of time of so many ms, or else in a block."""
        return Fraction(self.counts[name] * unit, self.ms) if self.ms else Fraction(self.counts[name], self.blocks)

    @property
    def received(self) -> int:
        return sum(self.counts[name] for name in MARKS)

    @property
    def share(self) -> Optional[Fraction]:
        """The packets with CE in percent of those received."""
        return Fraction(100 * self.counts["ce"], self.received) if self.received else None


class Part(NamedTuple):
    """Some blocks one after the other: what they brought, how many they are, and the clock at their end."""

    counts: tuple
    blocks: int
    clock: Optional[int]


def step_of(span: Fraction, about: int, least: int = 1) -> Fraction:
    """The step, 1, 2 or 5 times a power of ten and no less than the least, that cuts a span into about so many parts or fewer."""
    power = Fraction(10) ** math.floor(math.log10(max(span / about, least)))
    return next(power * times for times in (1, 2, 5, 10) if span / (power * times) <= about)


def time_words(ms: int) -> str:
    unit = next(name for name in reversed(UNITS) if ms % UNITS[name] == 0 and (ms or name == "ms"))
    return f"{ms // UNITS[unit]:,} {unit}"


def joined(parts: List[Part]) -> Part:
    return Part(tuple(map(sum, zip(*(part.counts for part in parts)))), sum(part.blocks for part in parts), parts[-1].clock)


def together(parts: List[Part], count: int) -> List[Part]:
    return [joined(parts[at : at + count]) for at in range(0, len(parts), count)]


class Clock:
    """The time of the first packet and the latest so far, and the greatest step back with its block."""

    def __init__(self) -> None:
        self.began = self.now = self.back_block = None
        self.back = 0

    def add(self, first: int, last: int, block: int) -> None:
        """The first and the last time of a block."""
        if self.began is None:
            self.began = self.now = first
        if self.now - last > self.back:
            self.back, self.back_block = self.now - last, block
        self.now = max(self.now, last)

    @property
    def span(self) -> int:
        return self.now - self.began if self.now is not None else 0

    def step(self, most: int) -> int:
        """How long a bar lasts at least."""
        return next(step for step in STEPS if step * most >= self.span)

    def fault(self, most: int) -> Optional[str]:
        """Why the times cannot be on the axis."""
        if self.span == 0:
            return "all packets have the same time"
        if self.back > self.step(most):
            return f"the clock goes back by {self.back:,} ms at block {self.back_block:,}"
        return None


class Blocks:
    """What the blocks brought, from rows that are totals so far. Ten parts become one when there are ten times as many as bars."""

    def __init__(self) -> None:
        self.parts: List[Part] = []
        self.each, self.rows, self.clock = 1, 0, Clock()
        self.part = self.since = self.last = NOTHING  # of this part: the counts up to `since`, which those of the last row go on from

    def add(self, row: tuple, times: Optional[tuple] = None) -> None:
        if row[RESTARTS] != self.last[RESTARTS]:
            self.part, self.since = self.counted(), NOTHING[:SINCE_RESTART] + self.last[SINCE_RESTART:]
        self.last = row
        self.rows += 1
        if times:
            self.clock.add(*times, self.rows)
        if self.rows % self.each == 0:
            self.close(self.each)

    def counted(self) -> tuple:
        return tuple(part + last - since for part, last, since in zip(self.part, self.last, self.since))

    def close(self, blocks: int) -> None:
        counts = self.counted()
        if min(counts[:LOST] + counts[LOST + 1 :]) < 0:
            raise ValueError("a count falls where no sender restarted")
        self.parts.append(Part(counts, blocks, self.clock.now))
        self.part, self.since = NOTHING, self.last
        if len(self.parts) == 10 * MOST_BARS:
            self.parts, self.each = together(self.parts, 10), 10 * self.each

    def ended(self) -> List[Part]:
        """The parts, with those blocks that are left as the last one."""
        left = self.rows - sum(part.blocks for part in self.parts)
        if left:
            self.close(left)
        return self.parts

    def bars(self, most: int = MOST_BARS) -> List[Bar]:
        """At most so many, each for 1, 2 or 5 times a power of ten of blocks, but the last for those that are left."""
        size, found, end = int(step_of(Fraction(self.rows), most)), [], 0
        for counts, blocks, _ in together(self.ended(), max(1, size // self.each)):
            first, end = end + 1, end + blocks
            name = f"block {first}" if first == end else f"blocks {first} to {end}"
            found.append(Bar(name, first - Fraction(1, 2), end + Fraction(1, 2), blocks, None, dict(zip(COUNTS, counts))))
        return found

    def timed_bars(self, most: int = MOST_BARS) -> List[Bar]:
        """The same over time: each lasts from the end of the one before it to that of its own last block, and the step of the clock or longer."""
        step, begun = self.clock.step(most), self.clock.began
        groups: List[List[Part]] = [[]]
        for part in self.ended():
            groups[-1].append(part)
            if part.clock - begun >= step:
                groups, begun = [*groups, []], part.clock
        rest = groups.pop()
        if rest and groups and 2 * (self.clock.now - begun) < step:
            groups[-1] += rest
        elif rest:
            groups.append(rest)
        return [*self.spans(map(joined, groups))]

    def spans(self, parts):
        begun, block = 0, 0
        for counts, blocks, clock in parts:
            end = clock - self.clock.began
            name = f"blocks {block + 1} to {block + blocks}, {begun:,} to {end:,} ms"
            yield Bar(name, Fraction(begun), Fraction(end), blocks, end - begun, dict(zip(COUNTS, counts)))
            begun, block = end, block + blocks
