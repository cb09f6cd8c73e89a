"""Replays the reports of a link through the proved circuit breaker: at each line the answer, the rule, and its numbers.

REPORTS is a CSV file (semicolons or tabs will do) with a head line that names its columns, in any order:

    kind      report, heard (an RTCP packet that is no report) or tick (a timer that asks)
    time      ms of a clock that does not go back
    highest   the highest sequence number of a report, with its wraps
    fraction  the fraction lost in 256ths; or in its place the three columns
              lost, marked, expected: packets since the last report that were lost, marked with CE, and sent
    rtt       the round trip in ms
    size      the bytes of a packet
    rate      the bytes sent per second

A heard packet and a tick have only a time. Other columns are passed over. `-` is standard input.

Each answer is a call of the proved library. The numbers are computed beside it from the breaker's record, exactly:
ms since the last report or heard packet (or the start), against the timeout; the run of reports with no new number,
against m; the intervals in the window, against k; the rate, against the greatest rate that is not above ten times the
throughput equation. If they would give another rule than the call, ecn says so and ends with 2.

    ecn breaker link.csv --k 3 --timeout 15000
    ecn breaker link.csv --full --csv > answers.csv
    ecn breaker link.csv --plot link.svg --width 85

--plot draws it: the rate and ten times the equation, the silence against the timeout, the run against m, each as far
as the breaker ran. The stop is marked with its rule, and so are reductions, refused lines, and silences of half the
timeout or longer. With more than 2,000 lines a point stands for several: the highest rate and the lowest limit among
them.

A stop is an answer and no failure. A line that the breaker refuses counts for nothing, and the next lines go on.

Exit status: 0 each line has its answer; 1 a line is refused, by the breaker (10, 11) or since it is no such row; 2 a
read or a write failed, the library is not there, the numbers differ from the call, or the arguments are wrong.
"""
import argparse
import csv
import sys
from typing import Any, Callable, Iterator, Optional

from . import files, sheets
from .common import FAILED, REFUSED, WELL, Ended, file_name, printing, tell, whole
from .library import package
from .plotdraw import millimetres
from .plotlink import Link
from .replay import COLUMNS, Answered, Replay
from .rules import CONGESTION, MEDIA, NAMES, TIMEOUT, Numbers

# The columns for programs, and for people with their widths (those of words are negative)
MACHINE = ("line", "kind", "time", "answer", "rule", "refused", "since", "timeout", "run", "m", "intervals", "k", "w", "p", "rate", "limit")
HUMAN = {"line": 6, "kind": -6, "time": 13, "answer": -7, "rule": -10, "ms since": 15, "run": 8, "intervals": 9, "rate": 9, "10 x equation": 13}


def add_arguments(parser: argparse.ArgumentParser) -> None:
    parser.add_argument("reports", type=file_name, metavar="REPORTS", help="the reports; - is standard input")
    parser.add_argument("--start", type=whole, default=0, metavar="MS", help="the time at which the breaker was started (0)")
    parser.add_argument("--k", type=whole, metavar="K", help="intervals over which losses are taken, 1 to 32 (3)")
    parser.add_argument("--m", type=whole, metavar="M", help="reports in a row with no new number that stop, 1 to 32 (3)")
    parser.add_argument("--timeout", type=whole, metavar="MS", help="ms without a report or heard packet that stop, 1 to 600000 (15000)")
    parser.add_argument("--reduce", action="store_true", help="a reduction to a tenth of the rate is tried before a stop")
    parser.add_argument("--full", action="store_true", help="take the full throughput equation in place of the simplified one")
    parser.add_argument("--csv", action="store_true", help="print CSV, for programs")
    parser.add_argument("--plot", type=file_name, metavar="OUT.svg", help="draw it, too")
    parser.add_argument("--width", type=millimetres, metavar="MM", help="how wide the picture is (180)")


def machine_row(found: Answered) -> list:
    """What does not apply is empty."""
    call, record, numbers = found.call, found.record, found.numbers or Numbers(None)
    w, p, limit = numbers.test or (None, None, None)
    row = [found.line, call.kind, call.time, found.word, found.rule or None, found.refused and found.refused.number]
    row += [numbers.since, record.timeout, numbers.run, record.m, numbers.used, record.k]
    return row + [w, p, call.rate if call.kind == "report" else None, limit]


def human_line(cells: list) -> str:
    return "  ".join(f"{cell:<{-width}}" if width < 0 else f"{cell:>{width}}" for cell, width in zip(cells, HUMAN.values())).rstrip()


def human_row(found: Answered) -> str:
    call, record, numbers = found.call, found.record, found.numbers or Numbers(None)
    rule = f"refused {found.refused.number}" if found.refused else NAMES[found.rule]
    parts = ((numbers.since, record.timeout), (numbers.run, record.m), (numbers.used, record.k))
    row = [found.line, call.kind, call.time, found.word, rule, *("" if part is None else f"{part} of {whole}" for part, whole in parts)]
    limit = "" if numbers.test is None else "none" if numbers.test.limit is None else numbers.test.limit
    return human_line([*row, call.rate if call.kind == "report" else "", limit])


def timeout_words(found: Answered) -> str:
    record = found.record
    first = not record.reported and record.heard == record.last
    what, hint = ("start", " (--start says when that was)") if first else ("last report or heard packet", "")
    return f"{found.numbers.since:,} ms since the {what}, at {record.heard}{hint}; the timeout is {record.timeout:,} ms"


def media_words(found: Answered) -> str:
    return f"{found.numbers.run} in a row had no new highest number, the last one was {found.record.highest}; m is {found.record.m}"


def congestion_words(found: Answered) -> str:
    call, (w, p, limit) = found.call, found.numbers.test
    equation = f"ten times the {'full' if found.record.full else 'simplified'} equation, {limit:,}"
    over = f"over {found.record.k} intervals, {w:,} ms, {p / w:.2f} of 256 packets were lost or marked"
    return f"{call.rate:,} bytes/s is above {equation}; {over}; round trip {call.rtt:,} ms, packets of {call.size:,} bytes"


WORDS = {TIMEOUT: timeout_words, MEDIA: media_words, CONGESTION: congestion_words}


def refusal_words(found: Answered, header: Any) -> str:
    """Why a line is refused, with the numbers that it is about."""
    call, record = found.call, found.record
    if found.refused.number == header.REFUSAL_TIME:
        if call.kind == "report" and call.time <= record.last:
            return f"it is not later than the last report or the start, at {record.last}"
        return f"it is earlier than the last report, heard packet or start, at {record.heard}"
    limits = {"time": header.BREAKER_MOST_TIME}
    if call.kind == "report":
        limits |= {name: getattr(header, f"BREAKER_MOST_{name.upper()}") for name in ("fraction", "rtt", "size", "rate")}
    above = [f"{name} is at most {most}" for name, most in limits.items() if getattr(call, name) > most]
    return " and ".join(above or ["size is 1 or more, and lost, marked and expected are at most 2^31"])


def explained(found: Answered, header: Any) -> Optional[str]:
    """A sentence on a line that is refused, stops the breaker or asks for a reduction."""
    if found.refused:
        return f"refused with {found.refused.number}: {refusal_words(found, header)}"
    if not found.numbers or not found.rule:
        return None
    return f"{'reduce' if found.numbers.reduce else 'STOP'} by rule {found.rule}, {NAMES[found.rule]}: {WORDS[found.rule](found)}"


def machine(answers: Iterator[Answered]) -> int:
    out, refused = csv.writer(sys.stdout), 0
    out.writerow(MACHINE)
    for found in answers:
        out.writerow(machine_row(found))
        refused += found.word == "refused"
    return refused


def human(answers: Iterator[Answered], header: Any) -> int:
    print(human_line(list(HUMAN)))
    lines, refused, stop = 0, 0, None
    for found in answers:
        print(human_row(found))
        words = explained(found, header)
        if words:
            print(f"{'':>8}{words}")
        lines, refused = lines + 1, refused + (found.word == "refused")
        stop = stop or (found if found.word == "stop" else None)
    ending = f"stopped at line {stop.line} by rule {stop.rule}, {NAMES[stop.rule]}" if stop else "not stopped"
    print(f"{lines:,} lines, {refused:,} refused; {ending}")
    return refused


def replayed(flasknib: Any, options: argparse.Namespace, noted: Callable[[Answered], Answered]) -> int:
    """Prints the answers, each of which is noted. Gives how many lines are refused."""
    replay = Replay(flasknib, options)
    with sheets.opened(options.reports, not sys.stdout.isatty()) as rows, printing():
        rows.need("kind", "time", known=COLUMNS)
        answers = (noted(replay.answered(row)) for row in rows)
        refused = machine(answers) if options.csv else human(answers, flasknib.header)
    if refused:
        tell(f"{rows.name}: the breaker refuses {refused:,} of the lines")
    return refused


def drawn(flasknib: Any, options: argparse.Namespace) -> int:
    """The same, and the picture."""
    from .plotbreaker import picture

    link = Link(options.start)
    with files.Output(options.plot, files.identities([options.reports])) as out:
        refused = replayed(flasknib, options, link.noted)
        words = explained(link.stop, flasknib.header) if link.stop else "not stopped"
        out.write(picture(link, files.shown(options.reports), options, f"{words[0].upper()}{words[1:]}."))
        out.commit()
    return refused


def run(options: argparse.Namespace) -> int:
    flasknib = package(needed=True)
    if options.width and not options.plot:
        raise Ended(FAILED, "--width is that of a picture: name its file, as: ecn breaker link.csv --plot link.svg --width 85")
    if options.plot and files.descriptor(options.plot, True) == 1:
        raise Ended(FAILED, "the answers are printed on standard output: give --plot a file for the picture")
    refused = drawn(flasknib, options) if options.plot else replayed(flasknib, options, lambda found: found)
    return REFUSED if refused else WELL
