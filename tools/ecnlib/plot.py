"""Draws a trace or a table: packets by mark, the share of CE, losses, duplicates and jumps, as one SVG picture.

    ecn plot night1.trace -o night1.svg
    ecn plot night1.csv -o night1.svg --width 85
    ecn plot traces/*.trace -o pictures/ -j 4

Of a trace the picture has time on its axis, from the first packet on. The rows are those that the proved library
makes of it. Of a table, which has no times, it has blocks. What is drawn is what each stretch brought, a row less the
row before, and no running total: packets per second (or minute, hour, day; of a table per block), CE in percent of
the packets received, losses, which fall below 0 if late packets come in, duplicates, and jumps. A long trace is
drawn in 240 steps at most, each the mean of its stretch. A restart of the sender is marked, and so is the block that
is refused.

The marks differ in shade and hatching, so the picture can be read in grey print. Text has 7 points at any --width: 85
mm is a column of a journal, 180 mm its page. A browser prints the picture as PDF. It shows a step's counts at the
pointer.

The picture ends before the first refused block, as a table does. With --salvage each refused block of a trace is left
out, as `ecn salvage` leaves it out, and marked: its packets count as lost.

If the clock of a trace goes back, or all packets have one time, blocks are on the axis, and the picture says so.
--blocks asks for them. With --streams the blocks of a trace may be of several sources: if they are, a bar is a
source.

With one GIVEN, OUT is the picture's file; if OUT is a folder, ends with a slash, or there are several, it is a
folder (made if it is missing) and each picture is OUT/NAME.svg, NAME being the file's name without `.trace` or
`.csv`.

GIVEN `-` is standard input, and OUT `-` standard output, for one picture. Standard output, /dev/stdout, /dev/fd/N, a
device or a pipe is written to where it stands and never replaced: it gets the picture when that is whole, and no byte
before.

Exit status: 0 drawn; 1 a block is refused (the rows before it are drawn, and the picture says so), there are no rows,
or it is neither a table nor a trace; 2 a read or a write failed, the library is not there (for a trace), or the
arguments are wrong. With several the others go on, and the highest status counts.
"""
import argparse
import functools
from typing import NamedTuple, Optional

from . import files, plotrows, runs, several
from .common import FAILED, REFUSED, WELL, Ended, file_name, many, refused_words, tell
from .plotdraw import millimetres
from .plotpicture import Picture
from .programs import Refusal

PICTURES = runs.Kind("picture", "pictures", lambda name: name.removesuffix(".trace").removesuffix(".csv") + ".svg")
NOT_BOTH = "--salvage is for traces of one source, as ecn salvage is: split the trace with ecn split, and leave out --streams"


class Drawn(NamedTuple):
    picture: bytes
    refusal: Optional[Refusal]  # the first
    left_out: int


def add_arguments(parser: argparse.ArgumentParser) -> None:
    parser.add_argument("given", nargs="+", type=file_name, metavar="GIVEN", help="a trace, or a table of ecntable or ecnstreams; - is standard input")
    parser.add_argument("-o", "--out", required=True, type=file_name, metavar="OUT", help="the picture, or the pictures' folder; - is standard output")
    parser.add_argument("-j", "--jobs", type=runs.jobs, default=1, metavar="N", help="how many pictures are drawn at a time (1)")
    parser.add_argument("--width", type=millimetres, default=180, metavar="MM", help="how wide a picture is (180)")
    parser.add_argument("--blocks", action="store_true", help="blocks on the axis, also if times are known")
    parser.add_argument("--bare", action="store_true", help="no heading, for a paper that has a caption")
    parser.add_argument("--streams", action="store_true", help="the blocks of a trace may differ in SSRC")
    parser.add_argument("--salvage", action="store_true", help="leave out each refused block of a trace, and mark it")


def drawn(given: str, options: argparse.Namespace) -> Drawn:
    rows = plotrows.read(given, options.streams, options.salvage)
    picture = Picture(rows, options.width, by_blocks=options.blocks, bare=options.bare)
    return Drawn(picture.svg().encode("utf-8"), rows.left[0].refusal if rows.left else rows.refusal, rows.left_out)


def put(given: str, found: Drawn, place: str, inputs: set) -> int:
    with files.Output(place, inputs) as out:
        out.write(found.picture)
        out.commit()
    if found.refusal:
        drawn_too = f"{many(found.left_out, 'block')} left out" if found.left_out else "the rows before it are drawn"
        tell(f"{files.shown(given)}: {refused_words(*found.refusal)}; {drawn_too}")
        return REFUSED
    return WELL


def run(options: argparse.Namespace) -> int:
    if options.streams and options.salvage:
        raise Ended(FAILED, NOT_BOTH)
    places, inputs, statuses = runs.places(options.given, options.out, PICTURES), files.identities(options.given), []
    asking = argparse.Namespace(**{name: getattr(options, name) for name in ("streams", "salvage", "width", "blocks", "bare")})
    for given, found in several.asked(options.given, options.jobs, functools.partial(drawn, options=asking)):
        action = functools.partial(put, given, found.value, places[given], inputs)
        statuses.append(found.status if found.value is None else runs.status_of(files.shown(given), action))
    return max(statuses)
