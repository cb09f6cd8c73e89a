"""The parts of a picture as SVG, with fills that differ in grey print. Lengths are in 1/96 inch."""
import argparse
import html
from typing import Iterable, NamedTuple, Optional, Sequence, Tuple

from .plotscale import AXES, BOLD, LINE, SIZE, Across, width_of, wrapped

MM = 96 / 25.4
INK, FAINT, ALARM = "#1a1a1a", "#d4d4d4", "#8a0020"
MILLIMETRES = range(60, 1001)
Point = Tuple[float, float]


def millimetres(text: str) -> int:
    """An argument that is the width of a picture."""
    if not (text.isascii() and text.isdecimal() and int(text) in MILLIMETRES):
        raise argparse.ArgumentTypeError(f"{text!r} is no width: that is a whole number of mm from 60 to 1000, as 85 for a column")
    return int(text)


class Fill(NamedTuple):
    """A colour, and the lines or dots over it. In grey the colours are far apart: each is read without its hue."""

    name: str
    colour: str
    hatch: str = ""


FILLS = {
    "ce": Fill("CE", "#7a2400"),
    "ect1": Fill("ECT(1)", "#cfe6f5", '<path d="M-1 1L1 -1M0 6L6 0M5 7L7 5" stroke="#1a5276" stroke-width="1"/>'),
    "ect0": Fill("ECT(0)", "#5b9fd0"),
    "notect": Fill("not-ECT", "#f1f1f1", '<circle cx="2" cy="2" r="0.8" fill="#555"/>'),
    "lost": Fill("lost", "#3d3d3d"),
    "dup": Fill("duplicates", "#8a5a9e"),
    "jumped": Fill("jumps", "#f3dfa6", '<path d="M0 0V6" stroke="#7a5b00" stroke-width="1.6"/>'),
    "share": Fill("CE share", "#e3b49d"),
    "silent": Fill("no report", "#e9e9e9", '<path d="M-1 1L1 -1M0 6L6 0M5 7L7 5" stroke="#999" stroke-width="0.8"/>'),
}


class Canvas:
    """The picture's elements, in order. The names of its patterns begin with a prefix, so that a page can hold many pictures."""

    def __init__(self, mm: float, prefix: str = ""):
        self.width, self.prefix, self.elements, self.used = mm * MM, prefix, [], {}  # type: float, str, list, dict

    def text(self, x: float, y: float, text: str, anchor: str = "start", size: float = SIZE, fill: str = INK, more: str = "") -> None:
        own = (f' font-size="{size}"' if size != SIZE else "") + (f' fill="{fill}"' if fill != INK else "") + more
        own += f' text-anchor="{anchor}"' if anchor != "start" else ""
        self.elements.append(f'<text x="{x:.1f}" y="{y:.1f}"{own}>{html.escape(text)}</text>')

    def bold(self, x: float, y: float, text: str, room: float, size: float = SIZE, most: Optional[int] = None) -> Tuple[float, float]:
        """A text in bold, and where its last line ends."""
        lines = wrapped(text, room, size * BOLD, most)
        end = self.lines(x, y, lines, size=size, more=' font-weight="bold"')
        return (x + width_of(lines[-1], size * BOLD), end - LINE) if lines else (x, y)

    def lines(self, x: float, y: float, lines: Iterable[str], **how) -> float:
        """Texts one below the other, and where the next one would stand."""
        for line in lines:
            self.text(x, y, line, **how)
            y += LINE
        return y

    def line(self, x1: float, y1: float, x2: float, y2: float, stroke: str = INK, width: float = 1, dash: str = "") -> None:
        more = f' stroke-dasharray="{dash}"' if dash else ""
        self.elements.append(f'<path d="M{x1:.1f} {y1:.1f}L{x2:.1f} {y2:.1f}" stroke="{stroke}" stroke-width="{width}" fill="none"{more}/>')

    def path(self, points: Sequence[Point], stroke: str = INK, width: float = 1, dash: str = "", fill: str = "none") -> None:
        more = f' stroke-dasharray="{dash}"' if dash else ""
        d = "M" + "L".join(f"{x:.2f} {y:.2f}" for x, y in points)
        self.elements.append(f'<path d="{d}" stroke="{stroke}" stroke-width="{width}" fill="{fill}"{more} stroke-linejoin="round"/>')

    def paint(self, name: str) -> str:
        """What fills a shape: a colour, or the pattern of its name."""
        if not FILLS[name].hatch:
            return FILLS[name].colour
        self.used[name] = FILLS[name]
        return f"url(#{self.prefix}{name})"

    def shape(self, name: str, points: Sequence[Point], edge: str = "none") -> None:
        d = "M" + "L".join(f"{x:.2f} {y:.2f}" for x, y in points) + "Z"
        self.elements.append(f'<path class="{name}" d="{d}" fill="{self.paint(name)}" stroke="{edge}" stroke-width="0.5"/>')

    def rect(self, x: float, y: float, width: float, height: float, name: str, edge: str = "none") -> None:
        place = f'x="{x:.2f}" y="{y:.2f}" width="{width:.2f}" height="{height:.2f}"'
        self.elements.append(f'<rect class="{name}" {place} fill="{self.paint(name)}" stroke="{edge}" stroke-width="0.5"/>')

    def tip(self, x: float, y: float, width: float, height: float, text: str) -> None:
        """What the pointer shows on a part of the picture."""
        place = f'x="{x:.2f}" y="{y:.1f}" width="{width:.2f}" height="{height:.1f}"'
        self.elements.append(f'<rect {place} fill="transparent"><title>{html.escape(text)}</title></rect>')

    def triangle(self, x: float, y: float) -> None:
        """It points to this place from above."""
        self.path([(x - 4, y - 7), (x + 4, y - 7), (x, y), (x - 4, y - 7)], fill=INK)

    def cross(self, x: float, y: float) -> None:
        for up in (-3.5, 3.5):
            self.line(x - 3.5, y - up, x + 3.5, y + up, ALARM, 1.7)

    def axis(self, across: Across, y: float, words: str, timed: bool) -> float:
        """Numbers and words below the last panel, of time in its unit. Gives the place below."""
        unit, name = next((unit, name) for least, unit, name in AXES if across.high - across.low >= least) if timed else (1, "")
        for value, text in across.ticks(unit, not timed):
            self.line(across.x(value), y, across.x(value), y + 4)
            self.text(across.x(value), y + 14, text, "middle")
        for line in wrapped(f"{name} {words}", across.right - across.left):
            self.text((across.left + across.right) / 2, y + 28, line, "middle")
            y += LINE
        return y + 20

    def patterns(self) -> str:
        found = (
            f'<pattern id="{self.prefix}{name}" width="6" height="6" patternUnits="userSpaceOnUse">'
            f'<rect width="6" height="6" fill="{each.colour}"/>{each.hatch}</pattern>'
            for name, each in self.used.items()
        )
        return f"<defs>{''.join(found)}</defs>" if self.used else ""

    def svg(self, height: float, title: str) -> str:
        size = f'viewBox="0 0 {self.width:.1f} {height:.1f}" width="{self.width / MM:.1f}mm" height="{height / MM:.1f}mm"'
        opening = f'<svg xmlns="http://www.w3.org/2000/svg" {size} role="img" font-family="Helvetica, Arial, sans-serif" font-size="{SIZE}" fill="{INK}">'
        ground = f'<title>{html.escape(title)}</title>{self.patterns()}<rect width="{self.width:.1f}" height="{height:.1f}" fill="white"/>'
        return "\n".join([opening, ground, *self.elements, "</svg>", ""])
