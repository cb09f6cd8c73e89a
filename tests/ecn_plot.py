"""ecn_plot.py [NAME..]: ecn plot: what the pictures of tables and traces draw, and that their texts have room. The last line is 'N passed, M failed'."""
import itertools
import os
import pathlib
import pty
import random
import re
import resource
import select
import shutil
import subprocess
import sys
import unittest
import xml.etree.ElementTree as xml
from fractions import Fraction

import tools
import writer
from tools import BIN, HEAD, SAMPLES, Tried, arrivals, label, needs_library

from ecnlib import bars, plotdraw, plotpanels, plotpicture, plotrows, plotscale
from ecnlib.common import Ended

SVG = "{http://www.w3.org/2000/svg}"
ALARM = plotdraw.ALARM


class Drawn:
    """A picture that was drawn: its texts, the counts that the pointer shows on each step, and the shapes of each fill."""

    def __init__(self, text: str):
        self.root = xml.fromstring(text)
        self.wide, self.high = map(float, self.root.get("viewBox").split()[2:])
        self.texts = [each.text or "" for each in self.root.iter(f"{SVG}text")]
        tips = [tip.text for box in self.root.iter(f"{SVG}rect") for tip in box.iter(f"{SVG}title")]
        self.steps = [{name: int(count) for name, count in re.findall(r"([a-z]+[01]?) (-?\d+)(?:,|$)", tip.rpartition(": ")[2])} for tip in tips]

    def count(self, name: str) -> int:
        """How many shapes have this fill, or lines this colour and the width of the stop."""
        return sum(each.get("class") == name or (each.get("stroke"), each.get("stroke-width")) == (name, "2.4") for each in self.root.iter())

    def heights(self, name: str) -> list:
        """How high the area of a fill is at each of its corners, of which there are two to a step."""
        found = []
        for shape in self.root.iter(f"{SVG}path"):
            if shape.get("class") == name:
                ys = [float(point.split()[1]) for point in shape.get("d").strip("MZ").split("L")]
                half = len(ys) // 2
                found += [round(low - top, 1) for top, low in zip(ys[:half], reversed(ys[half:]))]
        return found

    def boxes(self):
        """Where each text that stands upright is, by the width that it is reckoned with."""
        for each in self.root.iter(f"{SVG}text"):
            if not each.get("transform"):
                size = float(each.get("font-size", plotscale.SIZE))
                bold = plotscale.BOLD if each.get("font-weight") else 1
                wide, x, y = bold * plotscale.width_of(each.text or "", size), float(each.get("x")), float(each.get("y"))
                left = {"start": x, "middle": x - wide / 2, "end": x - wide}[each.get("text-anchor", "start")]
                yield each.text, left, left + wide, y - 0.75 * size, y + 0.2 * size


class Pictures(Tried):
    def drawn(self, given, *words, status=0, **kept) -> Drawn:
        out = self.folder / "out.svg"
        self.told = self.ecn("plot", given, "-o", out, *words, status=status, **kept).stderr
        return Drawn(out.read_text())

    def table(self, *rows) -> pathlib.Path:
        """A table of these counts, in the order of the columns."""
        self.out.write_bytes((HEAD + "".join(f"x,7,9,{','.join(map(str, row))}\r\n" for row in rows)).encode())
        return self.out

    def room(self, found: Drawn) -> None:
        """Each text stands in the picture, and on no other one."""
        boxes = list(found.boxes())
        for text, left, right, top, bottom in boxes:
            self.assertTrue(left >= 0 and right <= found.wide + 0.1 and top >= 0 and bottom <= found.high + 0.1, (text, right, found.wide))
        for one, other in itertools.combinations(boxes, 2):
            apart = one[2] <= other[1] or other[2] <= one[1] or one[4] <= other[3] or other[4] <= one[3]
            self.assertTrue(apart, (one, other))


class Tables(Pictures):
    def test_differences(self):
        found = self.drawn(SAMPLES / "reboot.csv")
        self.assertEqual(found.texts[0], "cart 7, rebooted")
        self.assertLess({"CE", "ECT(0)", "ECT(1)", "not-ECT", "duplicates", "jumps", "the sender restarted (3)", "Block of the trace"}, set(found.texts))
        for name, counts in (
            ("ect0", [4, 2, 2, 2, 1, 2]),
            ("jumped", [0, 1, 0, 2, 1, 2]),
            ("lost", [0, 0, 1, 0, 0, -1]),
            ("dup", [0, 0, 0, 0, 0, 1]),
            ("restarts", [0, 0, 1, 0, 1, 1]),
        ):
            self.assertEqual([step[name] for step in found.steps], counts)
        self.assertIn("Lost per block (below 0: late ones came in)", found.texts)

    def test_refused_table(self):
        found = self.drawn(SAMPLES / "damaged.csv", status=1)
        self.assertIn("Not the whole trace: block 5 is refused with 13: the block's checksum does not fit.", found.texts)
        self.assertIn("block 5 is refused", found.texts)
        self.assertEqual(len(found.steps), 4)
        self.assertIn("damaged.csv: block 5 is refused with 13", self.told)
        self.assertNotIn("block 5 is refused", self.drawn(SAMPLES / "c1.csv").texts)

    def test_hostile_labels(self):
        for text in ('</svg><a "b" & c', "refused 13 block 1", "a\r\nrefused 13 block 1\r\nb", "x" * 502, ""):
            with open(self.out, "wb") as table:
                subprocess.run([BIN / "ecntable"], input=label(text.encode()) + arrivals(), stdout=table)
            found = self.drawn(self.out)
            self.assertTrue(text == "" or found.texts[0].startswith(text.replace("\r\n", " ")[:20]), found.texts[0])
            self.assertEqual(len(found.steps), 1)

    def test_many_blocks(self):
        self.ecn("table", self.trace(label(), *(arrivals(first=3 * n) for n in range(1000))), "-o", self.out)
        found = self.drawn(self.out)
        self.assertLess({"Block of the trace (a step is the mean of 5 blocks)", "Packets per block", "Lost per block", "1,000"}, set(found.texts))
        self.assertEqual((len(found.steps), sum(step["ect0"] for step in found.steps), sum(step["notect"] for step in found.steps)), (200, 1000, 1000))

    def test_steps_are_means(self):
        """The last step, of 3 blocks, is as high as those of 5 where each block brought the same; so is what it says."""
        found = self.drawn(self.table(*((20 * n, 0, n, 0, n, n, n, 0) for n in range(1, 1004))))
        self.assertEqual(found.heights("ce"), [round(112 / 25, 1)] * 402)
        for name, height in (("ect0", 112 * 20 / 25), ("lost", 58), ("dup", 24), ("jumped", 24)):
            self.assertEqual(set(found.heights(name)), {round(height, 1)})
        self.assertEqual((found.steps[0]["ect0"], found.steps[200]["ect0"], found.steps[200]["lost"]), (100, 60, 3))

    def test_share_of_ce(self):
        """In percent of what the step itself received, with an axis of its own; where nothing was received there is none."""
        found = self.drawn(self.table([9, 0, 1, 0, 0, 0, 0, 0], [9, 0, 1, 0, 5, 0, 0, 0], [10, 0, 4, 0, 5, 0, 0, 0]))
        self.assertEqual(found.heights("share"), [round(58 * share / 100, 1) for share in (10, 10, 75, 75)])
        self.assertLess({"100", "CE, % of the packets received"}, set(found.texts))

    def test_every_length(self):
        """However many rows there are, and wherever a sender restarts, the steps hold what their blocks brought and no other."""
        draw = random.Random(32)
        for count in (1, 240, 241, 481, 1201, 2399, 2400, 2401, 24001):
            rows, brought, now = [], [], [0] * 8
            for _ in range(count):
                if draw.random() < 0.01:
                    now = [0] * 6 + [now[6], now[7] + 1]
                more = [draw.randrange(3) for _ in range(4)] + [draw.randrange(-1, 3), draw.randrange(2), draw.randrange(2), 0]
                now = [old + new for old, new in zip(now, more)]
                brought.append(more[:7] + [now[7] - (rows[-1][7] if rows else 0)])
                rows.append(now)
            found = plotrows.read(str(self.table(*rows))).bars(240, False)
            size = found[0].blocks
            self.assertTrue(len(found) <= 240 < 2.5 * len(found) or size == 1)
            for at, bar in enumerate(found):
                part = brought[size * at : size * (at + 1)]
                ect0, ect1, ce, notect, *others = map(sum, zip(*part))
                self.assertEqual((bar.blocks, tuple(bar.counts.values())), (len(part), (ce, ect1, ect0, notect, *others)))
            self.assertEqual(sum(bar.blocks for bar in found), count)

    def test_a_long_table_in_little_memory(self):
        table = self.table(*((20 * n, 0, 0, 0, n, 0, 0, 0) for n in range(1, 60001)))
        limit = lambda: resource.setrlimit(resource.RLIMIT_DATA, (40 << 20, 40 << 20))  # noqa: E731
        found = self.drawn(table, preexec_fn=limit)
        self.assertIn("Block of the trace (a step is the mean of 500 blocks)", found.texts)
        self.assertEqual(len(found.steps), 120)

    def test_sources(self):
        self.out.write_bytes((HEAD + "a,5,9,1,2,3,4,-5,6,7,0\r\na,17,9,2,3,4,5,6,7,8,1\r\n").encode())
        found = self.drawn(self.out)
        self.assertLess({"5", "17", "Source (SSRC)", "2 sources", "Packets", "Lost (below 0: late ones came in)"}, set(found.texts))
        self.assertEqual(found.steps[1], {"ce": 4, "ect1": 3, "ect0": 2, "notect": 5, "lost": 6, "dup": 7, "jumped": 8, "restarts": 1})

    def test_failures(self):
        self.assertIn("No such file", self.ecn("plot", self.folder / "missing", "-o", self.out, status=2).stderr)
        self.assertIn("No space left", self.ecn("plot", SAMPLES / "c1.csv", "-o", "/dev/full", status=2).stderr)
        refused = HEAD + "refused 1 block 0\r\n"
        row = "x,7,12,1,1,0,1,0,0,0,0\r\n"
        for text, told in (
            (HEAD, "no rows"),
            ("", "this is no table, its first line does not name the columns, and no trace"),
            (refused, "no rows to draw; block 0 is refused with 1"),
            ("a,b\n1,2\n", "this is no table, its first line does not name the columns, and no trace"),
            ("\1\x80", "this is neither a table nor a trace"),
            (HEAD + row + HEAD + row, "row 2 is no row of a table"),
            (HEAD + row + row[:-4] + "\r\n", "row 2 is no row of a table"),
            (HEAD + row + row.replace("1,1,0,1", "1,0,0,1"), "row 3 is no row of a table"),
            (HEAD + row * 2405 + row.replace("1,1,0,1", "1,0,0,1"), "row 2407 is no row of a table"),
            (HEAD + row + row[:-2], "the last line has no end, so the table is cut short"),
            (HEAD + row + "refused 13 block 2\r\n" + row, "something stands after the line of the refused block 2"),
            (HEAD + row * 240 + row.replace("7", "8", 1), "more than 240 rows of several sources"),
        ):
            self.out.write_bytes(text.encode("latin-1"))
            self.assertRaisesRegex(Ended, re.escape(told), plotrows.read, str(self.out))
        self.assertIn(told, self.ecn("plot", self.out, "-o", self.folder / "o.svg", status=1).stderr)
        self.assertIn("ecn: /proc/self/mem: ", self.ecn("plot", "/proc/self/mem", "-o", self.folder / "o.svg", status=2).stderr)
        told = "'5' is no width: that is a whole number of mm from 60 to 1000"
        self.assertIn(told, self.ecn("plot", self.out, "-o", self.out, "--width", "5", status=2).stderr)
        self.assertIn("--streams is for a trace", self.ecn("plot", SAMPLES / "c1.csv", "-o", "-", "--streams", status=2).stderr)
        self.alone("out.csv")


def night(draw: random.Random, count: int, form=1, gap=lambda draw: 20) -> bytes:
    """A trace of so many blocks, with marks and losses at random, and the ms between two packets as `gap` draws them."""
    time, number, blocks = 1000, 0, [label(form=form)]
    for _ in range(count):
        records = []
        for _ in range(draw.randrange(1, 50)):
            time, number = time + gap(draw), (number + draw.choice((1, 1, 1, 2))) % 65536
            records.append((time, number, draw.randrange(4)))
        blocks.append(writer.arrivals(records, 7, form))
    return b"".join(blocks)


@needs_library
class Traces(Pictures):
    def drawn(self, given, *words, status=0, **kept) -> Drawn:
        return super().drawn(given, *words, status=status, library=True, **kept)

    def test_as_the_table(self):
        """With blocks on the axis the picture of a trace is that of its table, byte for byte."""
        for path in sorted(SAMPLES.glob("*.trace")):
            ended = 1 if path.stem == "damaged" else 0
            of_table = self.ecn("plot", path.with_suffix(".csv"), "-o", "-", status=ended).stdout
            of_trace = self.ecn("plot", path, "-o", "-", "--blocks", status=ended, library=True).stdout
            self.assertEqual(of_trace, of_table, path)

    def test_time(self):
        """The steps follow each other from the first packet to the last, each as long as said or longer, and hold all that came."""
        draw = random.Random(42)
        for at in range(30):
            pause = draw.choice((0, 1, 5000, 9_000_000))
            given = night(draw, draw.choice((1, 2, 30, 700)), 2, lambda draw, pause=pause: pause if draw.random() < 0.01 else draw.choice((1, 20)))
            rows = plotrows.read(str(self.trace(given)))
            clock, most = rows.blocks.clock, draw.choice((20, 240))
            steps = rows.bars(most, True)
            self.assertEqual((steps[0].begin, steps[-1].end), (0, clock.span))
            self.assertTrue(all(one.end == other.begin for one, other in zip(steps, steps[1:])))
            self.assertTrue(all(step.ms == step.end - step.begin >= clock.step(most) for step in steps[:-1]) and len(steps) <= most + 1)
            totals = tuple(sum(step.counts[name] for step in steps) for name in bars.COUNTS)
            self.assertEqual(totals, tuple(rows.last[name] for name in bars.COUNTS))
            self.assertEqual(sum(step.blocks for step in steps), rows.rows)
            for step in steps:
                self.assertEqual(step.rate("ce", 1000) * step.ms, 1000 * step.counts["ce"])

    def test_rates(self):
        """50 packets each second, and 30 lost in one minute of ten."""
        numbers = [n + (30 if n >= 15000 else 0) for n in range(30000)]
        blocks = (numbers[at : at + 50] for at in range(0, 30000, 50))
        records = ([(20 * (at * 50 + n), number % 65536, 2) for n, number in enumerate(each)] for at, each in enumerate(blocks))
        found = self.drawn(self.trace(label(), *(writer.arrivals(each, 7) for each in records)), "--width", "100")
        self.assertEqual(len(set(found.heights("ect0")[2:])), 1)
        self.assertLess({"Packets per second", "Lost per second", "Minutes since the first packet (steps of 5 s or more)", "50", "0", "10"}, set(found.texts))
        self.assertEqual([step["lost"] for step in found.steps if step["lost"]], [30])
        self.assertEqual({step["ect0"] for step in found.steps[1:-1]}, {250})

    def test_clocks(self):
        back = [writer.arrivals([(time + n, n, 2) for n in range(9)], 7) for time in (9000, 500)]
        found = self.drawn(self.trace(label(), *back))
        self.assertIn("Blocks and not time are on the axis: the clock goes back by 8,500 ms at block 2.", found.texts)
        self.assertIn("Block of the trace", found.texts)
        found = self.drawn(self.trace(label(), writer.arrivals([(5, 5, 3)], 7)))
        self.assertIn("Blocks and not time are on the axis: all packets have the same time.", found.texts)
        little = [writer.arrivals([(time + n, n, 2) for n in range(9)], 7) for time in (9000, 20000, 19995)]
        self.assertIn("Seconds since the first packet (steps of 50 ms or more)", self.drawn(self.trace(label(), *little)).texts)

    def test_refused_and_empty(self):
        sound = [arrivals(first=10 * at) for at in range(3)]
        found = self.drawn(self.trace(label(), *sound[:2], b"\0" * 512, sound[2]), status=1)
        self.assertEqual([step["ect1"] for step in found.steps], [2])
        self.assertIn("made.trace: block 3 is refused with 13: the block's checksum does not fit; the rows before it are drawn", self.told)
        found = self.drawn(self.trace(label(), *sound[:2], sound[2][:-1]), status=1)
        self.assertIn("block 3 is refused", found.texts)
        for blocks, told in (([label()], "no rows to draw\n"), ([b"\0" * 512, sound[0]], "no rows to draw; block 0 is refused with 13")):
            self.assertIn(told, self.ecn("plot", self.trace(*blocks), "-o", self.out, status=1, library=True).stderr)
        self.assertIn("libflasknib.so is not there", self.ecn("plot", SAMPLES / "c1.trace", "-o", self.out, status=2).stderr)
        self.alone("out.svg", "made.trace")

    def test_salvage(self):
        """The rows are those of ecntable on what ecnsalvage copies, and each refused block is marked at its place."""
        found = self.drawn(SAMPLES / "damaged.trace", "--blocks", "--salvage", status=1)
        self.assertIn("damaged.trace: block 5 is refused with 13: the block's checksum does not fit; 2 blocks left out", self.told)
        self.assertEqual(found.steps, self.drawn(SAMPLES / "salvaged.csv").steps)
        self.assertIn("refused block (2)", found.texts)
        self.assertIn("and 1 more block; they are left out, and their packets count as lost.", " ".join(found.texts))
        draw = random.Random(8)
        for _ in range(12):
            blocks = [label(), *(writer.arrivals([(1000 * at, 9 * at, 2)], 7) for at in range(1, draw.choice((3, 40, 400))))]
            wrong = sorted(draw.sample(range(1, len(blocks)), min(len(blocks) - 2, draw.choice((1, 2, 9)))))
            bad = [b"\0" * 512, arrivals(ssrc=8), arrivals(form=2), label()]
            given = self.trace(*(draw.choice(bad) if at in wrong else block for at, block in enumerate(blocks)), b"x" * draw.choice((0, 0, 1, 511)))
            rows = plotrows.read(str(given), salvage=True)
            kept = self.folder / "kept.trace"
            told = subprocess.run([BIN / "ecnsalvage"], stdin=open(given, "rb"), stdout=open(kept, "wb"), stderr=subprocess.PIPE).stderr.decode()
            same = plotrows.read(str(kept))
            self.assertEqual((rows.rows, rows.last, rows.bars(240, True)), (same.rows, same.last, same.bars(240, True)))
            self.assertEqual([tuple(map(str, each.refusal)) for each in rows.left], re.findall(r"refused (\d+) block (\d+)", told))
            self.assertEqual([each.rows for each in rows.left], [each.refusal.block - 1 - at for at, each in enumerate(rows.left)])

    def test_no_salvage(self):
        for blocks, told in (([b"\0" * 512, arrivals()], "no rows to draw; block 0 is refused with 13"), ([label(), b"\0" * 512], "no rows to draw; block 1 is")):
            self.assertIn(told, self.ecn("plot", self.trace(*blocks), "--salvage", "-o", "-", status=1, library=True).stderr)
        self.assertIn("--salvage is for a trace", self.ecn("plot", SAMPLES / "c1.csv", "--salvage", "-o", "-", status=2).stderr)
        told = self.ecn("plot", SAMPLES / "c1.trace", "--salvage", "--streams", "-o", "-", status=2, library=True).stderr
        self.assertIn("--salvage is for traces of one source", told)

    def test_several_sources(self):
        scanners = SAMPLES / "streams/scanners.trace"
        wanted = self.ecn("plot", scanners.with_suffix(".csv"), "-o", "-").stdout
        self.assertEqual(self.ecn("plot", scanners, "-o", "-", "--streams", library=True).stdout, wanted)
        self.assertIn("no rows to draw; block 1 is refused with 14", self.ecn("plot", scanners, "-o", "-", status=1, library=True).stderr)
        one = [self.ecn("plot", SAMPLES / "c1.trace", "-o", "-", *words, library=True).stdout for words in ([], ["--streams"])]
        self.assertEqual(one[0], one[1])
        many = self.trace(label(), *(arrivals(ssrc=ssrc) for ssrc in range(17)))
        self.assertIn("no rows to draw; block 17 is refused with 15", self.ecn("plot", many, "-o", "-", "--streams", status=1, library=True).stderr)
        damaged = [self.ecn("plot", SAMPLES / "damaged.trace", "-o", "-", *words, status=1, library=True).stdout for words in ([], ["--streams"])]
        self.assertEqual(damaged[0], damaged[1])

    def test_a_long_trace_in_little_memory(self):
        path = self.folder / "made.trace"
        with open(path, "wb") as trace:
            trace.write(label(form=2))
            for at in range(20000):
                trace.write(writer.arrivals([(1000 * at, at % 65536, 2)], 7, 2))
        limit = lambda: resource.setrlimit(resource.RLIMIT_DATA, (60_000_000, 60_000_000))  # noqa: E731
        found = self.drawn(path, preexec_fn=limit)
        self.assertIn("Hours since the first packet (steps of 2 min or more)", found.texts)
        self.assertEqual(sum(step["ect0"] for step in found.steps), 20000)

    def test_several(self):
        """Each picture is the one that is drawn alone; what is wrong with one is told, and the others go on."""
        out, given = self.folder / "pictures", [SAMPLES / "c1.trace", SAMPLES / "damaged.trace", SAMPLES / "long.csv"]
        for jobs in ("1", "3"):
            told = self.ecn("plot", *given, self.folder / "missing", "-o", out, "-j", jobs, status=2, library=True).stderr
            self.assertIn("missing: No such file", told)
            self.assertIn("damaged.trace: block 5 is refused with 13", told)
            for path in given:
                alone = self.ecn("plot", path, "-o", "-", status=1 if path.stem == "damaged" else 0, library=True).stdout
                self.assertEqual((out / f"{path.stem}.svg").read_text(), alone)
            self.assertEqual(len(os.listdir(out)), 3)
            shutil.rmtree(out)
        both = self.ecn("plot", SAMPLES / "c1.trace", SAMPLES / "c1.csv", "-o", out, status=2, library=True).stderr
        self.assertIn("would both have the picture", both)

    def test_progress(self):
        """On a terminal a line says how far a trace is read, from the second second on, and is gone at the end."""
        try:
            controller, terminal = pty.openpty()
        except OSError as error:
            self.skipTest(f"no pseudo-terminal: {error}")
        shown = b""
        for command in ("plot", "records"):
            child = self.begun(command, "-", "-o", self.folder / command, stdin=subprocess.PIPE, stderr=terminal)
            with child.stdin as pipe:
                for block in [label(), *[arrivals()] * 300]:
                    pipe.write(block)
                    pipe.flush()
                    select.select([controller], [], [], 0.1)  # until the line is there
            self.assertEqual(child.wait(tools.LONG), 0)
            shown += os.read(controller, 1 << 16)
        os.close(terminal)
        os.close(controller)
        once = rb"(?:\recn: 0 of 1 traces\x1b\[K)+\r\x1b\[K(?:\recn: 1 of 1 traces\x1b\[K\r\x1b\[K)?"
        self.assertRegex(shown, b"^" + once + once + b"$")

    def test_texts_have_room(self):
        """In pictures of all kinds, from the narrowest to a wide one."""
        draw, scanners = random.Random(7), [writer.arrivals([(n, n, 2)], 2**32 - 1 - ssrc) for ssrc in range(16) for n in range(3)]
        given = [
            (label(b"W" * 502), arrivals()),
            (label(b"ward 3"), *(arrivals(first=30000 * (at // 2) % 65536) for at in range(30)), b"x"),
            (label(b"scanners"), *scanners),
            (night(draw, 200),),
            (night(draw, 50, 2, lambda draw: draw.randrange(2**36)),),
            (label(), *(writer.arrivals([(time * n, 2900 * (n + k) % 65536, 3) for n in range(40)], 7) for k, time in enumerate((1, 7)))),
        ]
        for blocks, width in itertools.product(given, (60, 85, 180, 400)):
            path = str(self.trace(*blocks))
            rows = plotrows.read(path, streams=True)
            for bare, by_blocks in itertools.product((False, True), repeat=2):
                self.room(Drawn(plotpicture.Picture(rows, width, by_blocks=by_blocks, bare=bare).svg()))
            self.room(Drawn(plotpicture.Picture(plotrows.read(str(self.table([10**11] * 8))), width).svg()))


class Drawing(unittest.TestCase):
    def test_ticks(self):
        """At round numbers, two or more where there is room, and never on each other."""
        draw = random.Random(5)
        for _ in range(3000):
            span, unit, right = draw.randrange(1, 10 ** draw.randrange(1, 13)), draw.choice((1, 1000, 60000)), draw.randrange(150, 900)
            across = plotscale.Across(30, right, Fraction(0), Fraction(span))
            found = across.ticks(unit, False)
            for (one, left), (other, text) in zip(found, found[1:]):
                self.assertGreater(across.x(other) - across.x(one), (plotscale.width_of(left) + plotscale.width_of(text)) / 2)
                self.assertIn(str(Fraction(other - one, unit) * 10**12).strip("0"), ("1", "2", "5"))
            self.assertGreaterEqual(len(found), 2)

    def test_grey(self):
        """Fills that stand on each other are told apart without their hue: by a third of the way from black to white, or by their lines."""
        for names in (bars.MARKS, ("dup", "jumped")):
            for one, other in itertools.combinations([plotdraw.FILLS[name] for name in names], 2):
                greys = [sum(part * int(fill.colour[at : at + 2], 16) for part, at in ((0.299, 1), (0.587, 3), (0.114, 5))) for fill in (one, other)]
                self.assertTrue(abs(greys[0] - greys[1]) > 80 or one.hatch != other.hatch, (one.name, other.name, greys))

    def test_units(self):
        """A rate is per second, minute, hour or day, so that a tenth or more came in one at some time."""
        for count, ms, unit in ((1, 10000, "second"), (1, 10001, "minute"), (1, 600000, "minute"), (1, 600001, "hour"), (1, 10**9, "day"), (0, 5, "second")):
            bar = bars.Bar("", Fraction(0), Fraction(ms), 1, ms, dict.fromkeys(bars.COUNTS, 0) | {"lost": -count})
            self.assertEqual(plotpanels.unit_of(plotpanels.PANELS[2], [bar])[0], unit)

    def test_axis_texts(self):
        half = Fraction(1, 2)
        for value, step, text in ((0, 5, "0"), (1500, 500, "1,500"), (20000, 10000, "20k"), (3 * 10**6, 10**6, "3M"), (-2, 1, "\u22122"), (half, half, "0.5")):
            self.assertEqual(plotscale.axis_text(Fraction(value), Fraction(step)), text)


if __name__ == "__main__":
    sys.exit(tools.main(sys.argv[1:], __name__, "ecn plot"))
