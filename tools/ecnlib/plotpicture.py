"""The picture of a table: packets by mark, the share of CE, losses, duplicates and jumps, over time or over blocks."""
from fractions import Fraction
from typing import List, Tuple

from .bars import MARKS, MOST_BARS, Bar, time_words
from .common import many, refused_words
from .plotdraw import ALARM, FAINT, FILLS, INK, Canvas
from .plotpanels import PANELS, Measured, measured
from .plotrows import Rows
from .plotscale import LARGE, LINE, Across, printable, width_of, wrapped

TIED = "\u00a0"  # a space at which no line is broken
EDGE, RIGHT, MOST_LINES = 6, 14, 12  # room at the left and the right; more restarts than that get no lines


class Picture:
    """A picture of rows, so many mm wide."""

    def __init__(self, rows: Rows, mm: float, prefix: str = "", by_blocks: bool = False, bare: bool = False):
        self.rows, self.canvas, self.bare, self.note = rows, Canvas(mm, prefix), bare, ""
        most = min(MOST_BARS, int(self.canvas.width / 2.5))
        fault = rows.blocks.clock.fault(most) if rows.timed and not by_blocks else None
        self.timed = rows.timed and not by_blocks and not fault
        if fault:
            self.note = f"Blocks and not time are on the axis: {fault}."
        self.step = rows.blocks.clock.step(most) if self.timed else 0
        self.bars = rows.bars(most, self.timed)
        self.panels = [measured(panel, self.bars, rows.several) for panel in PANELS]
        left = EDGE + 6 + max(width_of(text) for each in self.panels for text in (["0"] if each.empty else each.scale.texts()))
        self.across = Across(left, self.canvas.width - RIGHT, self.bars[0].begin, self.bars[-1].end)

    def ends(self, bar: Bar) -> Tuple[float, float]:
        begin, end = self.across.x(bar.begin), self.across.x(bar.end)
        room = min((end - begin) * 0.14, 30) if self.rows.several else 0
        return begin + room, end - room

    def heading(self) -> Tuple[str, str]:
        last = {name: printable(str(value)) for name, value in self.rows.last.items()}
        label, ssrc = last.pop("label"), last.pop("ssrc")
        if self.rows.several:
            return label, many(self.rows.rows, "source")
        return label, f"SSRC {ssrc}, {many(self.rows.rows, 'block')}. Last row: {', '.join(f'{name}{TIED}{value}' for name, value in last.items())}."

    def head(self, y: float) -> float:
        """The label, the last row, and what a reader has to be told first."""
        room = self.canvas.width - 2 * EDGE
        label, below = self.heading()
        if not self.bare:
            _, y = self.canvas.bold(EDGE, y + 3, label, room, LARGE, 2)
            y = self.canvas.lines(EDGE, y + LINE, wrapped(below, room))
        y = self.canvas.lines(EDGE, y, wrapped(self.refused(), room), fill=ALARM)
        return self.canvas.lines(EDGE, y, wrapped(self.note, room))

    def refused(self) -> str:
        if self.rows.refusal:
            return f"Not the whole trace: {refused_words(*self.rows.refusal)}."
        if not self.rows.left:
            return ""
        out = "it is left out, and its packets count as lost" if self.rows.left_out == 1 else "they are left out, and their packets count as lost"
        more = "" if self.rows.left_out == 1 else f", and {many(self.rows.left_out - 1, 'more block')}"
        return f"Not the whole trace: {refused_words(*self.rows.left[0].refusal)}{more}; {out}."

    def key(self, x: float, y: float, names: Tuple[str, ...]) -> float:
        """The fills with their names, from a place on, or on the next line if they have no room there. Gives the line."""
        widths = [23 + width_of(FILLS[name].name) for name in names]
        if len(names) > 1 and x + sum(widths) > self.canvas.width:
            x, y = self.across.left, y + LINE
        for name, wide in zip(names, widths) if len(names) > 1 else ():
            if x + wide - 8 > self.canvas.width - EDGE:
                x, y = self.across.left, y + LINE
            self.canvas.rect(x, y - 8, 10, 9, name, INK)
            self.canvas.text(x + 13, y, FILLS[name].name)
            x += wide
        return y

    def panel(self, each: Measured, y: float) -> float:
        """A title with its key, an axis with its lines, and the steps. Gives the place below."""
        x, y = self.canvas.bold(EDGE, y, each.title, self.canvas.width - 2 * EDGE)
        y = self.key(x + 12, y, () if each.empty else each.panel.names)
        y += 17 if self.marked and each is self.panels[0] else 8
        each.at(y)
        if each.empty:
            self.canvas.text(self.across.left + 4, y + 10, "none")
            self.canvas.line(self.across.left, y + each.height, self.across.right, y + each.height)
            return y + each.height
        for value, text in zip(each.scale.values(), each.scale.texts()):
            self.canvas.line(self.across.left, each.scale.y(value), self.across.right, each.scale.y(value), FAINT if value else INK, 0.7)
            self.canvas.text(self.across.left - 5, each.scale.y(value) + 3.3, text, "end")
        self.stacks(each)
        return y + each.height

    def stacks(self, each: Measured) -> None:
        """The values as areas one on the other. Between sources, and where a value is not known, there is a gap."""
        base = [Fraction(0)] * len(self.bars)
        for at, name in enumerate(each.panel.names):
            tops = [None if values[at] is None else low + values[at] for values, low in zip(each.values, base)]
            for run in self.runs(tops):
                self.area(each, name, run, base, tops)
            base = [low if top is None else top for low, top in zip(base, tops)]
        if each.panel.names == MARKS:
            for run in self.runs(base):
                self.canvas.path(self.edge(each, run, base), INK, 0.6)

    def edge(self, each: Measured, run: range, values: list) -> List[Tuple[float, float]]:
        return [(x, each.scale.y(values[at])) for at in run for x in self.ends(self.bars[at])]

    def runs(self, tops: list) -> List[range]:
        """The bars that stand beside each other and have a value."""
        found: List[range] = []
        for at, top in enumerate(tops):
            if top is None:
                continue
            if found and found[-1].stop == at and not self.rows.several:
                found[-1] = range(found[-1].start, at + 1)
            else:
                found.append(range(at, at + 1))
        return found

    def area(self, each: Measured, name: str, run: range, lows: list, highs: list) -> None:
        if all(lows[at] == highs[at] for at in run) and name != "share":
            return
        top = self.edge(each, run, highs)
        self.canvas.shape(name, [*top, *reversed(self.edge(each, run, lows))])
        if name == "share":
            self.canvas.path(top, FILLS["ce"].colour, 1.2)

    @property
    def marked(self) -> bool:
        return bool(self.rows.refusal or self.rows.left or any(bar.counts["restarts"] for bar in self.bars))

    def marks(self) -> None:
        """Restarts: a triangle, and a dashed line where there are few. The refused block: a cross, and a line."""
        again, first = [sum(self.ends(bar)) / 2 for bar in self.bars if bar.counts["restarts"]], self.panels[0].scale.top
        for x in again:
            if len(again) <= MOST_LINES and not self.rows.several:
                self.upright(x, INK, 1, "4 3")
            self.canvas.triangle(x, first - 1)
        for x in self.refusals():
            if len(self.rows.left) <= MOST_LINES:
                self.upright(x, ALARM, 1.3)
            self.canvas.cross(x, first - 5)

    def refusals(self) -> List[float]:
        """Where the refused blocks are: between two steps, or at the end."""
        ended = [self.across.right] if self.rows.refusal else []
        places = [each.clock - self.rows.blocks.clock.began if self.timed and each.clock else each.rows + Fraction(1, 2) for each in self.rows.left]
        return [self.across.x(max(self.across.low, Fraction(place))) for place in places] + ended

    def upright(self, x: float, stroke: str, width: float, dash: str = "") -> None:
        """A line through all panels, and through no text between them."""
        for each in self.panels:
            self.canvas.line(x, each.scale.top, x, each.scale.top + each.height, stroke, width, dash)

    def mark_key(self, y: float) -> float:
        """What the marks mean, if there are any."""
        x, restarts = EDGE + 4, sum(bar.counts["restarts"] for bar in self.bars)
        if restarts:
            self.canvas.triangle(x, y)
            words = f"the sender restarted ({restarts:,})"
            self.canvas.text(x + 9, y, words)
            x += width_of(words) + 28
        if self.refused():
            one = self.rows.refusal or self.rows.left[0].refusal
            words = f"refused block ({self.rows.left_out:,})" if self.rows.left_out > 1 else f"block {one.block:,} is refused"
            if x + 9 + width_of(words) > self.canvas.width - EDGE:
                x, y = EDGE + 4, y + LINE
            self.canvas.cross(x, y - 3.5)
            self.canvas.text(x + 9, y, words)
        return y + LINE if restarts or self.refused() else y

    def step_words(self) -> str:
        if self.timed:
            return f" (steps of {time_words(self.step)} or more)" if max(bar.blocks for bar in self.bars) > 1 else " (a step is a block)"
        return f" (a step is the mean of {self.bars[0].blocks:,} blocks)" if self.bars[0].blocks > 1 else ""

    def source_axis(self, y: float) -> float:
        names = [bar.name.replace("SSRC ", "") for bar in self.bars]
        upright = max(map(width_of, names)) + 6 > (self.across.right - self.across.left) / len(names)
        for bar, name in zip(self.bars, names):
            x = sum(self.ends(bar)) / 2
            if upright:
                self.canvas.text(0, 0, name, "end", more=f' transform="translate({x + 3.3:.1f} {y + 5:.1f}) rotate(-90)"')
            else:
                self.canvas.text(x, y + 14, name, "middle")
        y += (max(map(width_of, names)) if upright else LINE) + 16
        self.canvas.text((self.across.left + self.across.right) / 2, y, "Source (SSRC)", "middle")
        return y + 8

    def svg(self) -> str:
        y = self.mark_key(self.head(LINE))
        tops = []
        for each in self.panels:
            y = self.panel(each, y + 6) + LINE
            tops.append(each.scale.top)
        bottom = y - LINE
        self.marks()
        words = f"since the first packet{self.step_words()}" if self.timed else f"Block of the trace{self.step_words()}"
        y = self.source_axis(bottom) if self.rows.several else self.canvas.axis(self.across, bottom, words, self.timed)
        for bar in self.bars:
            begin, end = self.ends(bar)
            self.canvas.tip(begin, tops[0], end - begin, bottom - tops[0], tip_of(bar))
        label, _ = self.heading()
        return self.canvas.svg(y, label)


def tip_of(bar: Bar) -> str:
    counts = ", ".join(f"{name} {count}" for name, count in bar.counts.items())
    return f"{bar.name}{', together' if bar.blocks > 1 else ''}: {counts}"
