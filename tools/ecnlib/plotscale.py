"""Texts that fit, and axes with round numbers. Lengths are in 1/96 inch."""
import math
from fractions import Fraction
from typing import Iterator, List, Optional, Tuple

from .bars import DAY, HOUR, MINUTE, SECOND, step_of

SIZE, LARGE, LINE = 9.6, 11.5, 13  # of text (7 pt), of a title, and from line to line
BOLD = 1.13  # so much wider is text that is bold
# From so many ms on, the unit of an axis of time
AXES = ((150 * HOUR, DAY, "Days"), (150 * MINUTE, HOUR, "Hours"), (150 * SECOND, MINUTE, "Minutes"), (2 * SECOND, SECOND, "Seconds"), (0, 1, "Milliseconds"))
WIDTHS = {each: width for width, some in ((0.3, "ijl|'"), (0.36, " .,:;!-/"), (0.42, "tfr()[]"), (0.84, "w<>=+"), (1.0, "mMW@%\u2026")) for each in some}


def printable(text: str) -> str:
    """XML has no place for some of the other characters."""
    return "".join(each if each.isprintable() else " " for each in text.replace("\r\n", " "))


def width_of(text: str, size: float = SIZE) -> float:
    """About as wide as the widest of the usual fonts has it."""
    return size * sum(WIDTHS.get(each, 0.75 if each.isupper() else 0.64) for each in text)


def shortened(text: str, room: float, size: float = SIZE) -> str:
    if width_of(text, size) <= room:
        return text
    while text and width_of(text + "\u2026", size) > room:
        text = text[:-1]
    return text + "\u2026"


def wrapped(text: str, room: float, size: float = SIZE, most: Optional[int] = None) -> List[str]:
    """The lines of a text, broken at its spaces. A word that is wider than a line, and what is left after the last line, is cut short."""
    lines: List[str] = []
    for word in filter(None, text.split(" ")):
        longer = f"{lines[-1]} {word}" if lines else word
        if lines and (width_of(longer, size) <= room or len(lines) == most):
            lines[-1] = longer
        else:
            lines.append(word)
    return [shortened(line, room, size) for line in lines]


def axis_text(value: Fraction, step: Fraction) -> str:
    """A number at an axis, with as many places after the point as its step has."""
    power, letter = next(((power, letter) for power, letter in ((9, "G"), (6, "M"), (3, "k")) if value and step >= 10 ** (power + (power == 3))), (0, ""))
    places = next(places for places in range(99) if (step * 10**places / 10**power).denominator == 1)
    return f"{float(value / 10**power):,.{places}f}{letter}".replace("-", "\u2212")


class Scale:
    """Where values from low to high stand in a panel. Its lines are a step apart."""

    def __init__(self, top: float, height: float, low: Fraction, high: Fraction, whole: bool = False):
        self.top, self.height = top, height
        self.step = step_of(high - low, max(2, int(height // 18)), 1 if whole or high == low else 0)
        self.least, self.most = math.floor(low / self.step), math.ceil(high / self.step)
        self.most += self.most == self.least

    def y(self, value: Fraction) -> float:
        return self.top + self.height * float(self.most - value / self.step) / (self.most - self.least)

    def values(self) -> Iterator[Fraction]:
        return (at * self.step for at in range(self.least, self.most + 1))

    def texts(self) -> List[str]:
        return [axis_text(value, self.step) for value in self.values()]


class Across:
    """Where values from low to high stand from left to right."""

    def __init__(self, left: float, right: float, low: Fraction, high: Fraction):
        self.left, self.right, self.low, self.high = left, right, low, high

    def x(self, value: Fraction) -> float:
        return self.left + (self.right - self.left) * float((value - self.low) / (self.high - self.low))

    def ticks(self, unit: int, whole: bool) -> List[Tuple[Fraction, str]]:
        """Round numbers of a unit, as many as have room beside each other."""
        span, room = (self.high - self.low) / unit, self.right - self.left
        for about in range(10, 0, -1):
            step = step_of(span, about, 1 if whole else 0)
            found = [(at * step, axis_text(at * step, step)) for at in range(math.ceil(self.low / unit / step), math.floor(self.high / unit / step) + 1)]
            if max((width_of(text) for _, text in found), default=0) + 10 <= room * float(step / span):
                break
        return [(value * unit, text) for value, text in found]
