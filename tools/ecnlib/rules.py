"""The numbers of the breaker's rules at one call, computed beside it from the words of its record (document 01, "The breaker"; docs/BREAKER.md).

The answer is the proved call's. What stands here says which rule the numbers would give, so that the two can be compared.
"""
import math
from typing import Any, List, NamedTuple, Optional, Tuple

MOST_LENGTH = 10_000_000  # ms; a longer interval counts as that
SCALE = 38_400_000_000  # 10² · 1000² · 256 · 3 / 2
TIMEOUT, MEDIA, CONGESTION = 1, 2, 3
NAMES = {0: "-", TIMEOUT: "timeout", MEDIA: "media", CONGESTION: "congestion"}


class Call(NamedTuple):
    """A line of the reports: a report, of which the losses are a fraction in 256ths or (lost, marked, expected), or a heard packet, or a tick."""

    kind: str
    time: int
    highest: int = 0
    fraction: int = 0
    counts: Optional[Tuple[int, int, int]] = None
    rtt: int = 0
    size: int = 0
    rate: int = 0


class Test(NamedTuple):
    """The congestion test: W and P of the window, and the greatest rate that is not above ten times the equation; None if there is no such limit."""

    w: int
    p: int
    limit: Optional[int]


class Numbers(NamedTuple):
    """What the rules look at. The rule that decides, 0 for none, and whether it asks for a reduction only."""

    since: int  # ms since the last report, heard packet or start
    run: Optional[int] = None
    used: Optional[int] = None  # intervals in the window, with the one that this report closes
    test: Optional[Test] = None
    rule: int = 0
    reduce: bool = False


def fraction_of(call: Call) -> int:
    """f, in 256ths: marked packets count as lost (document 02, L2)."""
    if call.counts is None:
        return call.fraction
    lost, marked, expected = call.counts
    return min(255, 256 * min(max(lost, 0) + marked, expected) // expected) if expected else 0


def simplified(w: int, p: int, rtt: int, size: int) -> Optional[int]:
    """rate² · Tr² · P > SCALE · s² · W holds for the rates above this one."""
    bound = rtt * rtt * p
    return math.isqrt(SCALE * size * size * w // bound) if bound else None


def full(w: int, p: int, rtt: int, size: int) -> Optional[int]:
    """rate · Tr · (A · 2^30 + 12 · B · n · (2^20 + 32 · n²)) > 10,000 · s · 2^50 holds for the rates above this one."""
    n = 4 * p // w
    a, b = math.isqrt(2**41 * n // 3072), math.isqrt(3 * 2**40 * n // 8192)
    bound = rtt * (a * 2**30 + 12 * b * n * (2**20 + 32 * n * n))
    return 10_000 * size * 2**50 // bound if bound else None


class Record(NamedTuple):
    """A breaker's record, by the names of the header."""

    k: int
    m: int
    timeout: int
    reduce: int
    full: int
    state: int
    last: int
    heard: int
    reported: int
    highest: int
    run: int
    trial: int
    used: int
    window: List[Tuple[int, ...]]  # length and fraction lost of each interval, the newest first

    @classmethod
    def of(cls, header: Any, words: Tuple[int, ...]) -> "Record":
        *names, _ = cls._fields
        values = [words[getattr(header, f"BREAKER_{name.upper()}")] for name in names]
        first = header.BREAKER_NEWEST
        return cls(*values, [words[at : at + 2] for at in range(first, first + 2 * values[-1], 2)])

    def numbers(self, call: Call) -> Numbers:
        """Of a call that a running breaker takes."""
        found = Numbers(call.time - self.heard)
        if call.kind != "report":
            return found._replace(rule=TIMEOUT if found.since >= self.timeout else 0)
        if call.rate == 0:
            return found._replace(run=0, used=0)
        found = found._replace(run=self.run_with(call))
        if found.since >= self.timeout:
            return found._replace(rule=TIMEOUT)
        if found.run >= self.m:
            return found._replace(rule=MEDIA)
        return self.tested(call, found)

    def run_with(self, call: Call) -> int:
        """Reports in a row whose number is not ahead of the last one."""
        ahead = (call.highest - self.highest) % 2**32
        return self.run + 1 if self.reported and not 0 < ahead < 2**31 else 0

    def tested(self, call: Call, found: Numbers) -> Numbers:
        if not self.reported:
            return found._replace(used=self.used)
        window = [(min(call.time - self.last, MOST_LENGTH), fraction_of(call)), *self.window][: self.k]
        found = found._replace(used=len(window))
        if found.used < self.k:
            return found
        w, p = sum(length for length, _ in window), sum(length * fraction for length, fraction in window)
        limit = (full if self.full else simplified)(w, p, call.rtt, call.size)
        above = limit is not None and call.rate > limit
        return found._replace(test=Test(w, p, limit), rule=CONGESTION if above else 0, reduce=bool(above and self.reduce and not self.trial))

    def answer(self, numbers: Optional[Numbers], header: Any) -> int:
        """What the numbers would have the call answer; those of a breaker that has stopped are not looked at."""
        if self.state or not numbers:
            return header.STOP + self.state
        if numbers.reduce:
            return header.REDUCE
        return header.STOP + numbers.rule if numbers.rule else header.GO
