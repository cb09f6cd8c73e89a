"""The words of a page in HTML. What comes from a trace or a name is escaped; nothing is loaded from elsewhere."""
import html
from fractions import Fraction
from typing import Iterable, Iterator, List, Optional, Tuple

from .bars import MARKS
from .common import many
from .layer import refusal_text
from .origins import Sum
from .pageread import Found
from .plotscale import printable

STYLE = """
body { font: 15px/1.45 Helvetica, Arial, sans-serif; color: #1a1a1a; background: white; max-width: 74em; margin: 2em auto; padding: 0 1em }
h1 { font-size: 1.5em } h2 { font-size: 1.15em; margin: 2.2em 0 .3em; border-top: 1px solid #bbb; padding-top: .8em; overflow-wrap: anywhere }
.wide { overflow-x: auto } table { border-collapse: collapse; font-size: .82em }
th, td { padding: .2em .5em; border-bottom: 1px solid #ddd; text-align: left; vertical-align: top }
th { border-bottom: 2px solid #777 } .n { text-align: right; white-space: nowrap }
.name { min-width: 9em; max-width: 18em; overflow-wrap: anywhere } .bad { color: #8a0020; font-weight: bold }
svg { width: 100%; max-width: 900px; height: auto }
.sum { font-family: monospace; font-size: .85em; overflow-wrap: anywhere } .small { font-size: .87em }
@media print {
  @page { margin: 14mm } body { max-width: none; margin: 0; padding: 0; font-size: 9.5pt } section { break-inside: avoid }
  a { color: inherit; text-decoration: none }
  table { font-size: 7pt } th, td { padding: .15em .3em } .name { min-width: 6em } .wide { overflow: visible }
}
"""
POLICY = "default-src 'none'; style-src 'unsafe-inline'"
COLUMNS = ("Trace", "Label", "Verdict", "SSRC", "Blocks", "Packets", "CE", "CE, %", "Lost", "Lost, %", "Dup.", "Jumps", "Restarts")
WORDS, MOST_LABEL = 3, 80  # so many columns are words; so many characters of a label stand in the summary
ADVICE = {
    1: "The file was cut off, or its writer was stopped. Copy it again. What is shown is what came before.",
    13: "The block is damaged. Copy the file again from where it was written; if it is damaged there, <code>ecn salvage</code> saves the other blocks.",
    14: "Whoever wrote the trace broke its format here: docs/TRACE.md says what to look for. <code>ecn salvage</code> saves the other blocks.",
    15: "Only 16 sources can be counted together. <code>ecn split</code> makes a trace of each.",
}
EMPTY = "The file is empty, or was cut off in its first block. Copy it again."
NO_TRACE = "Probably this file is no trace at all. If it is one, its label block is damaged: copy the file again, or see docs/PROGRAMS.md, A damaged trace."
EXPLAINED = """<p class="small">Packets are those received, duplicates too. CE is in percent of them. Lost packets are in percent of those
expected; the number is below 0 if packets from before the first one came. Jumps are packets left out because their number was
too far away. After a restart of the sender the counts begin again: a row then counts from the last restart on, but jumps and
restarts are of the whole trace. Counts and verdicts are those of the proved library; percents are their quotients. A picture
shows what each stretch of time brought, and the counts of a step at the pointer.</p>"""


def safe(text: str) -> str:
    """A text as HTML; bytes of a name that are no UTF-8 are shown as such."""
    return html.escape(printable(text.encode("utf-8", "surrogateescape").decode("utf-8", "replace")))


def percent(part: int, whole: int) -> str:
    return f"{float(Fraction(100 * part, whole)):.2f}".replace("-", "\u2212") if whole > 0 else "\u2013"


def counts(row) -> List[str]:
    """The cells of a row of the table from the packets on."""
    received = sum(getattr(row, name) for name in MARKS)
    expected = received - row.dup + row.lost
    cells = [f"{received:,}", f"{row.ce:,}", percent(row.ce, received), f"{row.lost:,}", percent(row.lost, expected)]
    return [cell.replace("-", "\u2212") for cell in [*cells, f"{row.dup:,}", f"{row.jumped:,}", f"{row.restarts:,}"]]


def verdict(found: Found) -> str:
    if found.form is None:
        return '<span class="bad">block 0 is refused</span>'
    if found.refused:
        return f'<span class="bad">{many(found.refused, "block")} refused{", left out" if found.salvaged else ""}</span>'
    return "whole" if found.rows else "whole, with no packets"


def label_of(found: Found, most: int) -> str:
    if found.label is None:
        return "\u2013"
    text = found.label.decode("ascii")
    return safe(text if len(text) <= most else text[: most - 1] + "\u2026")


def summary_rows(name: str, at: int, found: Found) -> str:
    """A row for the trace, or one for each of its sources."""
    front = f'<tr><td class="name"><a href="#t{at}">{safe(name)}</a></td><td class="name">{label_of(found, MOST_LABEL)}</td><td>{verdict(found)}</td>'
    lines = [[f"{row.ssrc}", f"{found.blocks:,}", *counts(row)] for row in found.rows] or [["\u2013", f"{found.blocks:,}", *["\u2013"] * 8]]
    return "".join(front + "".join(f'<td class="n">{cell}</td>' for cell in cells) + "</tr>\n" for cells in lines)


def sum_line(what: str, found: Sum) -> str:
    return f'<li>{what}: {found.bytes:,} bytes, SHA-256 <span class="sum">{found.sha256}</span></li>\n'


def refused_line(number: int, first: int, last: int) -> str:
    blocks = f"Block {first:,} is" if first == last else f"Blocks {first:,} to {last:,} are"
    return f"<li>{blocks} refused with {number}: {html.escape(refusal_text(number))}.</li>"


def advice_on(found: Found) -> Iterator[str]:
    """What to do, once for each number."""
    if not found.form:
        yield EMPTY if found.refusals[0].number == 1 else NO_TRACE
        return
    if found.others:
        some = ", ".join(map(str, found.others[:16]))
        yield f"Blocks are of other sources than the label's (SSRC {some}): make the page with <code>--streams</code>, or <code>ecn split</code> the trace."
    numbers = sorted({each.number for each in found.refusals})
    yield from (f"For {number}: {ADVICE[number]}" for number in numbers if number != 14 or not found.others)


def refused_part(found: Found) -> str:
    """The refused blocks in plain words, and what to do."""
    lines = [refused_line(*each) for each in found.refusals]
    more = found.refused - sum(each.last - each.first + 1 for each in found.refusals)
    lines += [f"<li>And {many(more, 'more block')}: <code>ecn look --refused</code> lists them all.</li>"] if more else []
    rest = "<p>The rest of the file was not judged.</p>\n" if found.only else ""
    advice = "".join(f"<li>{each}</li>" for each in advice_on(found))
    rest = "<p>They are left out of the counts and the picture: their packets count as lost.</p>\n" if found.salvaged else rest
    return f'<p class="bad">Not the whole trace.</p><ul>{"".join(lines)}</ul>\n{rest}<p>What to do:</p><ul>{advice}</ul>\n'


def section(name: str, at: int, found: Found) -> str:
    """A trace: what it is, its picture, what is refused, and its sums."""
    label = "No label" if found.label is None else f"Label \u201c{label_of(found, 502)}\u201d"
    form = f", form {found.form}" if found.form else ""
    text = f'<section id="t{at}"><h2>{safe(name)}</h2>\n<p>{label}{form}, {many(found.blocks, "block")}, {verdict(found)}.</p>\n'
    text += refused_part(found) if found.refused else ""
    text += f"{found.picture}\n" if found.picture else "<p>There are no packets to draw.</p>\n"
    text += '<ul class="small">\n' + sum_line("Trace", found.trace)
    made = f"Table, as <code>ecn table{' --streams' if found.several else ''}</code> makes it"
    text += sum_line(made, found.table) if found.table else ""
    return f"{text}</ul></section>\n"


def head(title: str, rows: Iterable[str], traces: int, whole: int) -> str:
    cells = "".join(f"<th{'' if at < WORDS else ' class=n'}>{name}</th>" for at, name in enumerate(COLUMNS))
    meta = f'<meta charset="utf-8"><meta http-equiv="Content-Security-Policy" content="{POLICY}"><meta name="viewport" content="width=device-width">'
    state = f"{many(traces, 'trace')}, {whole:,} whole" + (f', <span class="bad">{traces - whole:,} not whole</span>' if whole < traces else "")
    top = f"<!DOCTYPE html>\n<html lang=en><head>{meta}<title>{safe(title)}</title><style>{STYLE}</style></head><body>\n"
    table = f'<div class="wide"><table><thead><tr>{cells}</tr></thead><tbody>\n{"".join(rows)}</tbody></table></div>\n'
    return f"{top}<h1>{safe(title)}</h1>\n<p>{state}.</p>\n{table}{EXPLAINED}\n"


def foot(command: str, made_by: str, library: Tuple[str, Optional[Sum]]) -> str:
    name, found = library
    return (
        f'<section><h2>How this page was made</h2>\n<ul class="small"><li>{safe(made_by)}: <code>{safe(command)}</code></li>\n'
        f"{sum_line(f'Library {safe(name)}', found) if found else f'<li>Library {safe(name)}</li>'}"
        "<li>The same command on the same traces writes the same page.</li></ul></section>\n</body></html>\n"
    )
