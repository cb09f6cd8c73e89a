"""The panels of a picture, and the values that they show."""
from fractions import Fraction
from typing import List, NamedTuple, Optional, Tuple

from .bars import DAY, HOUR, MARKS, MINUTE, SECOND, Bar
from .plotscale import Scale

RATES = (("second", SECOND), ("minute", MINUTE), ("hour", HOUR), ("day", DAY))


class Panel(NamedTuple):
    title: str
    names: Tuple[str, ...]
    height: int


PANELS = (
    Panel("Packets{}", MARKS, 112),
    Panel("CE, % of the packets received", ("share",), 58),
    Panel("Lost{}", ("lost",), 58),
    Panel("Duplicates and jumps{}", ("dup", "jumped"), 48),
)


class Measured(NamedTuple):
    """A panel with its values: for each bar those of its names, one on the other."""

    panel: Panel
    title: str
    values: List[List[Optional[Fraction]]]
    scale: Scale

    @property
    def empty(self) -> bool:
        return not any(value for each in self.values for value in each)

    @property
    def height(self) -> int:
        return 14 if self.empty else self.panel.height

    def at(self, top: float) -> "Measured":
        self.scale.top = top
        return self


def unit_of(panel: Panel, bars: List[Bar]) -> Tuple[str, int]:
    """The shortest unit of time in which at some time a tenth or more came."""
    most = max(abs(bar.rate(name, 1)) for bar in bars for name in panel.names)
    return next((each for each in RATES if 10 * most * each[1] >= 1), RATES[-1] if most else RATES[0])


def measured(panel: Panel, bars: List[Bar], several: bool) -> Measured:
    title, whole = panel.title, False
    if panel.names == ("share",):
        values = [[bar.share] for bar in bars]
    else:
        unit, ms = unit_of(panel, bars) if bars[0].ms else ("block", 1)
        values = [[bar.rate(name, ms) for name in panel.names] for bar in bars]
        title, whole = panel.title.format("" if several else f" per {unit}"), max(bar.blocks for bar in bars) == 1 and not bars[0].ms
    sums = [sum(value or 0 for value in each) for each in values]
    low, high = min(0, *sums), max(0, *sums)
    if low < 0 and panel.names == ("lost",):
        title += " (below 0: late ones came in)"
    return Measured(panel, title, values, Scale(0, panel.height, Fraction(low), Fraction(high), whole))
