"""The picture of a breaker's replay: a panel for each rule, and the stop."""
import argparse
import math
from fractions import Fraction
from typing import List, Optional, Tuple

from .common import REFUSED, Ended, many
from .plotdraw import ALARM, FAINT, INK, Canvas
from .plotlink import Link, Point
from .plotscale import LARGE, LINE, Across, Scale, axis_text, printable, width_of, wrapped
from .rules import NAMES

EDGE, RIGHT, LIMIT, FEW = 6, 14, "#00508a", 60  # room; the colour of a limit; so many points are drawn as points
HEIGHTS = (130, 58, 44)
TITLES = ("Rate, bytes per second", "Since the last report or heard packet, {}", "Reports in a row with no new number")


class Powers:
    """Where values stand in a panel of which the lines are powers of ten."""

    def __init__(self, top: float, height: float, values: List[int], rates: List[int]):
        some, most = [each for each in values + rates if each] or [1], max(rates + [1])
        self.top, self.height, self.least = top, height, math.floor(math.log10(min(some)))
        self.most = max(self.least + 1, math.ceil(math.log10(min(max(some), 100 * most))))

    def y(self, value: float) -> float:
        """What is off the axis stands at its end."""
        at = math.log10(value) if value else self.least
        return self.top + self.height * (self.most - min(max(at, self.least), self.most)) / (self.most - self.least)

    def values(self) -> List[Fraction]:
        """Powers of ten; with two or fewer between the ends also twice and five times each."""
        decades = self.most - self.least
        powers = [Fraction(10) ** at for at in range(self.least, self.most + 1, -(-decades // 7))]
        return powers if decades > 2 else [power * times for power in powers[:-1] for times in (1, 2, 5)] + powers[-1:]

    def texts(self) -> List[str]:
        return [axis_text(value, value if value >= 10**4 else Fraction(1)) for value in self.values()]


class LinkPicture:
    """The panels of a link, so many mm wide."""

    def __init__(self, link: Link, name: str, mm: float, stop_words: str):
        self.link, self.name, self.canvas, self.words = link, name, Canvas(mm), stop_words
        self.points, self.record = link.drawn(), link.last.record
        longest = max([each.since for each in self.points] + [self.record.timeout])
        self.unit = (1000, "s") if longest >= 5000 else (1, "ms")
        runs = [each.run for each in self.points if each.run is not None]
        rates, limits = ([getattr(each, what) for each in self.points if getattr(each, what) is not None] for what in ("rate", "limit"))
        self.limits, self.clipped = bool(limits), bool(limits) and max(limits) > 100 * max(rates + [1])
        silence, run = Fraction(longest, self.unit[0]), Fraction(max([self.record.m, *runs]))
        zero = Fraction(0)
        self.scales = (Powers(0, HEIGHTS[0], limits, rates), Scale(0, HEIGHTS[1], zero, silence), Scale(0, HEIGHTS[2], zero, run, True))
        left = EDGE + 6 + max(width_of(text) for scale in self.scales for text in scale.texts())
        self.across = Across(left, self.canvas.width - RIGHT, Fraction(link.start), Fraction(max(link.end, link.start + 1)))

    def head(self, y: float) -> float:
        """The file, the settings, and by which rule it stopped."""
        room, record = self.canvas.width - 2 * EDGE, self.record
        _, y = self.canvas.bold(EDGE, y + 3, printable(self.name), room, LARGE, 2)
        equation = f"the {'full' if record.full else 'simplified'} equation, {'with' if record.reduce else 'without'} reductions"
        settings = f"{many(self.link.total, 'line')}; k {record.k}, m {record.m}, timeout {record.timeout:,} ms, {equation}."
        y = self.canvas.lines(EDGE, y + LINE, wrapped(settings, room))
        return self.canvas.lines(EDGE, y, wrapped(self.words, room), fill=ALARM if self.link.stop else INK)

    def keys(self) -> list:
        """What is drawn, each with its name: lines with their dashes, marks, and the silences."""
        found = [(lambda x, y: self.canvas.line(x, y - 3, x + 16, y - 3, INK, 1.4), "rate")]
        if self.limits:
            top = " (at the top: above it)" if self.clipped else ""
            found.append((lambda x, y: self.canvas.line(x, y - 3, x + 16, y - 3, LIMIT, 1.4, "5 2.5"), f"10 \u00d7 equation{top}"))
        found.append((lambda x, y: self.canvas.line(x, y - 3, x + 16, y - 3, LIMIT, 1.4, "1.5 2"), "timeout, m"))
        if self.link.reductions:
            found.append((lambda x, y: self.canvas.triangle(x + 8, y), f"reduce ({len(self.link.reductions)})"))
        if self.link.silences:
            found.append((lambda x, y: self.canvas.rect(x + 2, y - 8, 12, 9, "silent", INK), "no report for half the timeout or longer"))
        if self.link.refusals:
            found.append((lambda x, y: self.canvas.cross(x + 8, y - 3), f"line refused ({self.link.refused:,})"))
        if self.link.stop:
            found.append((lambda x, y: self.canvas.line(x + 8, y - 9, x + 8, y + 1, ALARM, 2.4), f"STOP, {NAMES[self.link.stop.rule]}"))
        return found

    def key(self, y: float) -> float:
        x = EDGE
        for draw, words in self.keys():
            wide = 20 + width_of(words)
            if x > EDGE and x + wide > self.canvas.width - EDGE:
                x, y = EDGE, y + LINE
            draw(x, y)
            self.canvas.text(x + 20, y, words)
            x += wide + 12
        return y + LINE

    def ground(self, at: int, y: float) -> float:
        """The title of a panel, its silences, its lines with their numbers, and the stop. Gives the place below."""
        scale, height = self.scales[at], HEIGHTS[at]
        _, y = self.canvas.bold(EDGE, y, TITLES[at].format(self.unit[1]), self.canvas.width - 2 * EDGE)
        scale.top = y + (16 if at == 0 and self.link.reductions else 8)
        for begin, end in self.link.silences:
            x = self.across.x(Fraction(begin))
            self.canvas.rect(x, scale.top, max(1.0, self.across.x(Fraction(end)) - x), height, "silent")
        for value, text in zip(scale.values(), scale.texts()):
            self.canvas.line(self.across.left, scale.y(value), self.across.right, scale.y(value), FAINT, 0.7)
            self.canvas.text(self.across.left - 5, scale.y(value) + 3.3, text, "end")
        self.canvas.line(self.across.left, scale.top + height, self.across.right, scale.top + height, INK, 0.7)
        if self.link.stop:
            x = self.across.x(Fraction(self.link.stop.call.time))
            self.canvas.line(x, scale.top, x, scale.top + height, ALARM, 2.4)
        return scale.top + height

    def curve(self, values: List[Tuple[Point, Optional[int]]], scale, stroke: str, dash: str = "") -> None:
        """A line through values; it has gaps where there is none, and points where there are few."""
        run: List[Tuple[float, float]] = []
        for point, value in [*values, (self.points[-1], None)]:
            if value is not None:
                run.append((self.across.x(Fraction(point.end)), scale.y(value)))
                continue
            if run:
                self.canvas.path(run, stroke, 1.4, dash)
            if len(values) <= FEW or len(run) == 1:
                self.dots(run, stroke, bool(dash))
            run = []

    def dots(self, places: List[Tuple[float, float]], stroke: str, hollow: bool) -> None:
        for x, y in places:
            ends = [(x - 2, y - 2), (x + 2, y - 2), (x + 2, y + 2), (x - 2, y + 2), (x - 2, y - 2)]
            self.canvas.path(ends, stroke, 1, fill="white" if hollow else stroke)

    def rates(self) -> None:
        reports, scale = [each for each in self.points if each.rate is not None], self.scales[0]
        if not reports:
            self.canvas.text(self.across.left + 4, scale.top + 12, "none reported")
        self.curve([(each, each.limit) for each in reports], scale, LIMIT, "5 2.5")
        self.curve([(each, each.rate) for each in reports], scale, INK)
        for time, rate in self.link.reductions:
            self.canvas.triangle(self.across.x(Fraction(time)), scale.y(rate) - 4)

    def silence(self) -> None:
        """From 0 at the last report or heard packet up to each line, if a point is a line; else the longest of each point."""
        scale, (unit, _) = self.scales[1], self.unit
        self.bound(scale, Fraction(self.record.timeout, unit))
        places, low, heard = [], scale.y(Fraction(0)), None
        for each in self.points:
            end, high = self.across.x(Fraction(each.end)), scale.y(Fraction(each.since, unit))
            if self.link.each > 1:
                places += [(self.across.x(Fraction(each.begin)), high), (end, high)]
                continue
            if heard != each.end - each.since:  # what came before was no tick
                places += [(self.across.x(Fraction(each.end - each.since)), low)]
            heard = each.end - each.since
            places += [(end, high)]
        self.canvas.path(places, INK, 1)

    def run(self) -> None:
        scale, places = self.scales[2], []
        self.bound(scale, Fraction(self.record.m))
        for each in self.points:
            if each.run is not None:
                x, y = self.across.x(Fraction(each.end)), scale.y(Fraction(each.run))
                places += [(x, places[-1][1] if places else y), (x, y)]
        if places:
            self.canvas.path(places, INK, 1.4)

    def bound(self, scale, value: Fraction) -> None:
        self.canvas.line(self.across.left, scale.y(value), self.across.right, scale.y(value), LIMIT, 1.4, "1.5 2")

    def refusals(self, bottom: float) -> None:
        for time in self.link.refusals:
            if time <= self.across.high:
                self.canvas.cross(self.across.x(Fraction(time)), bottom - 5)

    def axis(self, y: float) -> float:
        since = Across(self.across.left, self.across.right, Fraction(0), self.across.high - self.across.low)
        more = f", at {self.link.start} ms" if self.link.start else ""
        more += f" (a point is {self.link.each:,} lines)" if self.link.each > 1 else ""
        return self.canvas.axis(since, y, f"since the start{more}", True)

    def svg(self) -> str:
        y = self.key(self.head(LINE))
        for at, draw in enumerate((self.rates, self.silence, self.run)):
            y = self.ground(at, y + 5) + LINE
            draw()
        self.refusals(y - LINE)
        return self.canvas.svg(self.axis(y - LINE), printable(self.name))


def picture(link: Link, name: str, options: argparse.Namespace, stop_words: str) -> bytes:
    if not link.drawn():
        raise Ended(REFUSED, f"{name}: the breaker took no line, so there is nothing to draw")
    return LinkPicture(link, name, options.width or 180, stop_words).svg().encode("utf-8")
