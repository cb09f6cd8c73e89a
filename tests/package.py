"""package.py [NAME..]: python/flasknib, held to the examples in C, the samples, document 01 and the header. The last line is 'N passed, M failed'.

It uses the programs of target/bin and the library of target/staticlib/libcapi.a, which it links with a C compiler in a folder of its own.
"""
import contextlib
import copy
import csv
import doctest
import importlib
import io
import mmap
import os
import pathlib
import pickle
import pkgutil
import random
import re
import shutil
import subprocess
import sys
import tempfile
import textwrap
import threading
import tracemalloc
import types
import typing
import unittest
import unittest.mock
from array import array

TOP = pathlib.Path(__file__).resolve().parent.parent
SAMPLES, EXAMPLES, PACKAGE, PROGRAMS = TOP / "samples", TOP / "examples", TOP / "python", TOP / "target/bin"
ARCHIVE = TOP / "target/staticlib/libcapi.a"
BUILT = tempfile.TemporaryDirectory(prefix="a folder ü ")
SHARED = pathlib.Path(BUILT.name) / "libflasknib.so"

if not ARCHIVE.exists() or not shutil.which("cc"):
    sys.exit("package: FAILED, no target/staticlib/libcapi.a or no cc")
subprocess.run(["cc", "-shared", "-o", SHARED, "-Wl,--whole-archive", ARCHIVE, "-Wl,--no-whole-archive", "-Wl,-z,defs"], check=True)
os.environ["FLASKNIB_LIBRARY"] = str(SHARED)
sys.dont_write_bytecode = True  # the repository may not be ours to write to
sys.path[:0] = [str(PACKAGE), str(TOP / "tests")]
import flasknib  # noqa: E402
from flasknib import Arrival, Breaker, Feed, Mark, Refused, Source, Sources, header  # noqa: E402
from flasknib import _lend, _library, _version  # noqa: E402
import writer  # noqa: E402

LABEL, BLOCK = flasknib.write_label(1, b"ward 3", 7), header.BLOCK_BYTES
ARRIVALS = flasknib.write_arrivals(1, [0, 20], [5, 6], [2, 3], 7)
C1 = [(65534, 2), (65535, 2), (0, 3), (0, 3), (3, 1)]
TRACES = sorted(path for path in SAMPLES.glob("*.trace"))


def counted(arrivals) -> Source:
    source = Source()
    for wire, mark in arrivals:
        source.arrive(wire, mark)
    return source


def table_of(trace) -> bytes:
    """What ecntable prints of a trace, by the package."""
    feed = Feed()
    printed = [flasknib.head_line()]
    try:
        printed.append(feed.feed(trace))
        feed.close()
    except Refused as refused:
        printed += [refused.table, flasknib.refused_line(refused.number, refused.block)]
    return b"".join(printed)


def drawn(draw: random.Random) -> bytes:
    """A trace of up to 12 blocks of one source or several, perhaps damaged."""
    form, sources = draw.choice((1, 2)), draw.choice(([7], [7], [7, 8, 9], list(range(20))))
    blocks, wire = [writer.label(b"ward 3", 7, form)], draw.randrange(65536)
    for _ in range(draw.choice((0, 1, 3, 12, 40))):
        records, ssrc = [], draw.choice(sources)
        for _ in range(draw.randint(1, 62 if form == 1 else 50)):
            wire = draw.choice((wire + 1, wire + 1, wire + 1, wire, wire + 5, wire - 3, wire + 9000)) % 65536
            records.append((draw.choice((5, 2**32 - 1, 2 ** (32 if form == 1 or draw.random() < 0.9 else 48) - 1)), wire, draw.randrange(4)))
        blocks.append(writer.arrivals(records, ssrc, form))
    trace = bytearray(b"".join(blocks))
    for _ in range(draw.choice((0, 0, 1, 3))):
        trace[draw.randrange(len(trace))] ^= 1 << draw.randrange(8)
    return bytes(trace[: draw.choice((len(trace), len(trace), draw.randint(0, len(trace))))])


def ran(program: str, trace: bytes) -> tuple:
    """What a proved program prints of a trace, on standard output and on standard error."""
    done = subprocess.run([PROGRAMS / program], input=trace, capture_output=True, check=True)
    return done.stdout, done.stderr


def streams_of(trace: bytes) -> bytes:
    """What ecnstreams prints."""
    head = flasknib.head_line()
    try:
        found = flasknib.streams(trace)
    except Refused as refused:
        return head + flasknib.refused_line(refused.number, refused.block)
    return head + b"".join((",".join(map(str, row)) + "\r\n").encode() for row in found)


def form_of(trace: bytes) -> tuple:
    """What ecnforms prints."""
    blocks = []
    try:
        for each in flasknib.other_form(trace):
            blocks.append(each)
    except Refused as refused:
        return b"".join(blocks), flasknib.refused_line(refused.number, refused.block)
    return b"".join(blocks), b""


def salvage_of(trace: bytes) -> tuple:
    """What ecnsalvage prints."""
    found = list(flasknib.salvage(trace))
    copied = b"".join(each.block for each in found if not each.refused)
    return copied, b"".join(flasknib.refused_line(each.refused.number, each.index) for each in found if each.refused)


class Tried(unittest.TestCase):
    def refuses(self, number: int, call, *words, **named) -> Refused:
        with self.assertRaises(Refused) as caught:
            call(*words, **named)
        self.assertEqual(caught.exception.number, number)
        return caught.exception


class Printed(Tried):
    """The examples in C, said with the package."""

    def prints(self, name: str, lines: list) -> None:
        self.assertEqual("".join(f"{line}\n" for line in lines), (EXAMPLES / f"{name}.expected").read_bytes().decode().replace("\r\n", "\n"))

    def test_count(self):
        source = counted(C1)
        lines = [f"highest {source.highest}", f"ECT(0) {source.ect0}", f"ECT(1) {source.ect1}", f"CE {source.ce}"]
        lines += [f"not-ECT {source.not_ect}", f"duplicates {source.duplicates}"]
        lines.append("feedback: " + source.feedback(9, 1).hex(" ", 4).upper())
        lines.append("summary: " + source.summary(1).hex(" ", 4).upper())
        refused = self.refuses(12, source.row, b"probe 2, left", 1, out=bytearray())
        lines.append(f"row in 0 bytes: refused 12, {refused.size} bytes")
        rows = [source.row(b"probe 2, left", 1)]
        rebooted = source.count_block(bytes.fromhex("75300200 75310200 75320300"), 4)
        rows.append(source.row(b"probe 2, left", 1, *rebooted))
        self.prints("count", lines + (flasknib.head_line() + b"".join(rows)).decode().splitlines())

    def test_answer(self):
        text = (EXAMPLES / "answer.c").read_text()
        ours, *offers = [line.encode() for line in re.findall(r'"(a=ecn-capable-rtp[^"\\]*)"', text)]
        lines = []
        for offered in offers:
            try:
                lines.append((flasknib.answer(offered, ours) or b"left out").decode())
            except Refused as refused:
                lines.append(f"refused {refused.number}")
        self.prints("answer", lines)

    def said(self, call, *words, **named) -> str:
        try:
            answer = call(*words, **named)
        except Refused as refused:
            return f"refused, {refused.number}"
        if answer is None or isinstance(answer, Breaker):
            return "go"
        return f"stop, reason {answer - header.STOP}" if answer.stop else answer.name.lower()

    def worked(self) -> list:
        def report(breaker, time, rate):
            return breaker.report(time, time // 5, 64, 100, 1000, rate)

        def full(rate):
            breaker = Breaker(0, k=2, full=True)
            return [report(breaker, time, rate) for time in (5000, 10000, 15000)][-1]

        breaker = Breaker(0, k=2)
        lines = ["start at 0: go"]
        lines += [f"report at {time}: {self.said(report, breaker, time, 244948)}" for time in (5000, 10000)]
        faster = copy.copy(breaker)
        lines += [f"report at 15000, {rate} bytes/s: {self.said(report, each, 15000, rate)}" for each, rate in ((breaker, 244948), (faster, 244949))]
        lines.append(f"heard at 29000: {self.said(breaker.heard, 29000)}")
        lines.append(f"report at 28999: {self.said(report, breaker, 28999, 244948)}")
        lines += [f"tick at {time}: {self.said(breaker.tick, time)}" for time in (43999, 44000)]
        lines.append(f"tick after the stop: {self.said(faster.tick, 30000)}")
        lines += [f"full equation, {rate} bytes/s: {self.said(full, rate)}" for rate in (31606, 31607)]
        words = list(faster.words)
        words[header.BREAKER_STATE] = 4
        return [*lines, f"tick in state 4: {self.said(Breaker.of(words).tick, 30000)}"]

    def test_breaker(self):
        """All lines but those of the calls themselves, which `Breaker.packet` keeps to itself."""
        lines, path = self.worked(), Path(100, 125000)
        lines.append(f"a path that marks every packet: {self.said(Breaker, 0)}")
        lines += [f"its compound: {self.said(path.packet, 1000 * second, path.marked())}" for second in range(1, 5)]
        path = Path(70000, 200000000)
        lines.append(f"the same path: {self.said(Breaker, 0)}")
        lines.append(f"a round trip of 70000 ms, 200000000 bytes/s: {self.said(path.packet, 1000, path.marked())}")
        compound = path.marked()
        lines.append(f"a second compound in the same ms: {self.said(path.packet, 1000, compound)}")
        lines.append(f"its feedback without the RR: {self.said(path.packet, 1500, compound[8:])}")
        compound = path.marked()
        lines.append(f"the next compound: {self.said(path.packet, 2000, compound)}")
        lines.append(f"a packet that is cut off: {self.said(path.packet, 2500, compound[:-1])}")
        path.breaker = Breaker.of(path.breaker.words, (2, 0, 0, 0))
        lines.append(f"words that are no receiver's: {self.said(path.packet, 3000, compound)}")
        expected = (EXAMPLES / "breaker.expected").read_text().splitlines()
        self.assertEqual(lines, [line for line in expected if not line.startswith("  ")])


class Path:
    """A path that marks every packet, its sender and its receiver."""

    def __init__(self, rtt, rate):
        self.breaker, self.table, self.next, self.rtt, self.rate = Breaker(0), Sources(1), 0, rtt, rate

    def marked(self) -> bytes:
        for _ in range(125):
            self.table.arrive(1, self.next, Mark.CE)
            self.next += 1
        return self.table.compound(9)

    def packet(self, time: int, compound: bytes):
        return self.breaker.packet(compound, 1, time, self.rtt, 1000, self.rate)


class Worked(Tried):
    """Document 01's examples, C1 to C12."""

    def test_c1_to_c3(self):
        source = counted(C1)
        found = source.highest, source.ect0, source.ect1, source.ce, source.not_ect, source.lost, source.duplicates
        self.assertEqual(found, (65539, 2, 1, 2, 0, 2, 1))
        feedback = bytes.fromhex("88CD0007 00000009 00000001 00010003 00000002 00000001 00020000 00020001")
        self.assertEqual(flasknib.feedback(source, 9, 1), feedback)
        self.assertEqual(flasknib.summary(source, 1), bytes.fromhex("0D000005 00000001 00000002 00000001 00020000 00020001"))

    def test_c4(self):
        source = counted([(10, 0), (9, 0)])
        self.assertEqual(source.lost, -1)
        self.assertEqual(source.feedback(9, 1)[28:30], b"\xff\xff")

    def test_c5_to_c8(self):
        for wire, arrival in ((7999, Arrival.COUNTED), (8000, Arrival.JUMP), (4901, Arrival.COUNTED), (4900, Arrival.JUMP)):
            self.assertEqual(counted([(5000, 0)]).arrive(wire, 0), arrival)

    def stops(self, rate: int, **settings) -> bool:
        breaker = Breaker(0, k=2)
        return [breaker.report(time, time, rate=rate, size=1000, **settings) for time in (5000, 10000, 15000)][-1].stop

    def test_c9_to_c12(self):
        for settings, rate in (({"fraction": 64, "rtt": 100}, 244948), ({"fraction": 150, "rtt": 16}, 1000000)):
            self.assertFalse(self.stops(rate, **settings))
            self.assertTrue(self.stops(rate + 1, **settings))


def receiver_report(*block: int) -> bytes:
    """An RR of SSRC 9, with a report block about SSRC 1 if there are words for it."""
    words = [0x80C90001 + (0x01000006 if block else 0), 9, *([1, *block] if block else [])]
    return b"".join(word.to_bytes(4, "big") for word in words)


class Packets(Tried):
    """What a packet says, and which of the breaker's calls it is for."""

    SENDING = {"rtt": 100, "size": 1000, "rate": 1000}

    def test_report_block(self):
        found = flasknib.read_compound(receiver_report(0x40FFFFFF, 70000, 5, 6, 7), 1)
        self.assertEqual(found.report, flasknib.ReportBlock(fraction=64, lost=-1, highest=70000, jitter=5, lsr=6, dlsr=7, reporter=9))
        self.assertEqual((found.feedback, found.summary, found.sr_or_rr, len(found.words)), (None, None, True, header.COMPOUND_WORDS))
        self.assertEqual(found.receiver, 9)

    def test_summary_entry(self):
        source = counted(C1)
        extended = (0x80CF0007).to_bytes(4, "big") + (9).to_bytes(4, "big") + source.summary(1)
        found = flasknib.read_compound(receiver_report() + extended, 1)
        self.assertEqual(found.summary, flasknib.Summary(ect0=2, ect1=1, ce=2, not_ect=0, lost=2, duplicates=1))

    def same(self, given: list, calls: list) -> None:
        """The breaker ends in the same words by packets, and by the calls that they are for."""
        by_packets, by_calls = Breaker(0), Breaker(0)
        for at, (packet, call) in enumerate(zip(given, calls), 1):
            by_packets.packet(packet, 1, 1000 * at, **self.SENDING)
            call(by_calls, 1000 * at)
            self.assertEqual(by_packets.words, by_calls.words)

    def test_reports_and_heard_packets(self):
        report = lambda breaker, time: breaker.report(time, 70000, 64, **self.SENDING)  # noqa: E731
        self.same([receiver_report(0x40000003, 70000, 0, 0, 0), receiver_report()], [report, Breaker.heard])

    def test_reports_with_counts(self):
        """Lost, and found again: the second interval has losses, the third a negative number of them."""
        sources, packets, calls = Sources(), [], []
        for numbers, lost, marked in (([10, 11], 0, 0), ([20, 21], 8, 2), ([12, 13, 14, 22], -3, 4)):
            for number in numbers:
                sources.arrive(1, number, Mark.CE)
            expected = numbers[-1] - (0, 11, 21)[len(calls)] if calls else 0
            packets.append(sources.compound(9))
            counts = numbers[-1], lost, marked, expected
            calls.append(lambda breaker, time, counts=counts: breaker.report_ecn(time, *counts, **self.SENDING))
        self.same(packets, calls)
        first, second, third = (flasknib.read_compound(packet, 1).feedback for packet in packets)
        self.assertEqual(flasknib.ecn_between(second, first), flasknib.Between(8, 2, 10))
        self.assertEqual(flasknib.ecn_between(third, second), flasknib.Between(-3, 4, 1))
        self.refuses(10, flasknib.ecn_between, first, second)
        self.assertEqual((flasknib.since16(3, 65535), flasknib.since32(0, 1), flasknib.lost_since(0, 3)), (4, 2**32 - 1, -3))

    def test_attributes(self):
        Method, Mode, Ect = flasknib.Method, flasknib.Mode, flasknib.Ect
        given = flasknib.Attribute((Method.LEAP, Method.RTP, Method.ICE), Mode.READONLY, Ect.RANDOM)
        line = flasknib.offer(*given)
        self.assertEqual((line, flasknib.read_attribute(line)), (b"a=ecn-capable-rtp: leap,rtp,ice mode=readonly; ect=random", given))
        self.assertEqual(flasknib.answer(given, given), None)
        self.assertEqual(flasknib.answer(line, flasknib.Attribute((Method.ICE,))), b"a=ecn-capable-rtp: ice")
        for methods, mode, ect, number in (([], 0, 0, 10), ([1] * 9, 0, 0, 10), ([4], 0, 0, 9), ([1], 4, 0, 9), ([1], 0, 4, 9)):
            self.refuses(number, flasknib.offer, methods, mode, ect)
        self.refuses(10, flasknib.answer, flasknib.Attribute((1,) * 9), given)


class Samples(Tried):
    def test_tables(self):
        """Byte for byte, in one stretch and in stretches of several sizes."""
        self.assertGreaterEqual(len(TRACES), 8)
        for path in TRACES:
            trace, wanted = path.read_bytes(), path.with_suffix(".csv").read_bytes()
            self.assertEqual(table_of(trace), wanted)
            for most in (1, 511, 512, 1448, 65536, 70000):
                feed, printed = Feed(), [flasknib.head_line()]
                try:
                    for at in range(0, len(trace), most):
                        printed.append(feed.feed(trace[at : at + most]))
                    feed.close()
                except Refused as refused:
                    printed += [refused.table, flasknib.refused_line(refused.number, refused.block)]
                self.assertEqual(b"".join(printed), wanted)

    def values(self, path: pathlib.Path) -> list:
        """The rows of a table, as csv has them, and its refused line or None."""
        with open(path, newline="") as file:
            _, *lines = csv.reader(file)
        refused = lines.pop()[0] if lines and len(lines[-1]) == 1 else None
        return [(label, *map(int, counts)) for label, *counts in lines], refused

    def test_rows(self):
        for path in TRACES:
            wanted, refused = self.values(path.with_suffix(".csv"))
            found = []
            try:
                for row in flasknib.rows(path):
                    found.append(row)
                self.assertIsNone(refused)
            except Refused as fault:
                self.assertEqual(f"refused {fault.number} block {fault.block}", refused)
            self.assertEqual([tuple(row) for row in found], wanted)
        head = flasknib.head_line().decode().rstrip("\r\n").split(",")
        self.assertEqual(list(flasknib.Row._fields), head)

    def test_hostile_labels(self):
        """Labels come back as they are, those with retired bytes too."""
        for label in (b"", b" ", b",", b'"', b'""', b'","', b"\r", b"\n", b"\r\n", b"a\rb", b'a\n"b",1\nc', b"\n" * 502, b'"' * 502, b"refused 13 block 1"):
            trace = writer.label(label, 7) + writer.arrivals([(0, 5, 3)], 7) + writer.arrivals([(0, 6, 0)], 7)
            self.assertEqual([(row.label.encode(), row.highest) for row in flasknib.rows(trace)], [(label, 5), (label, 6)])

    def test_programs(self):
        """On traces that are sound and damaged the package prints what the programs print."""
        draw = random.Random(20261117)
        for _ in range(60):
            trace = drawn(draw)
            self.assertEqual(table_of(trace), ran("ecntable", trace)[0])
            self.assertEqual(streams_of(trace), ran("ecnstreams", trace)[0])
            self.assertEqual(form_of(trace), ran("ecnforms", trace))
            self.assertEqual(salvage_of(trace), ran("ecnsalvage", trace))

    def test_streams(self):
        found = flasknib.streams(SAMPLES / "streams/scanners.trace")
        self.assertEqual([tuple(row) for row in found], self.values(SAMPLES / "streams/scanners.csv")[0])
        self.assertEqual(self.refuses(13, flasknib.streams, LABEL + ARRIVALS + bytes(512)).block, 2)
        zeroth = bytearray(LABEL)
        run = flasknib.Streams(zeroth)
        zeroth[8:14] = b"ward 4"
        run.block(ARRIVALS)
        self.assertEqual((len(run), run.rows()[0].label), (1, "ward 3"))
        many = LABEL + b"".join(flasknib.write_arrivals(1, [0], [0], [0], ssrc) for ssrc in range(17))
        self.assertEqual(self.refuses(15, flasknib.streams, many).block, 17)
        self.assertEqual(len(flasknib.streams(many[:-512])), 16)

    def test_forms(self):
        """There and back. A trace of full blocks comes out the same; any other with the same rows at its end."""
        for name in ("c1", "long", "reboot"):
            path = SAMPLES / f"{name}.trace"
            second = b"".join(flasknib.other_form(path))
            self.assertEqual(list(flasknib.rows(second))[-1], list(flasknib.rows(path))[-1])
            back = b"".join(flasknib.other_form(second))
            self.assertEqual(b"".join(flasknib.other_form(back)), second)
        late = flasknib.write_label(2, b"", 7) + flasknib.write_arrivals(2, [5, 2**32], [1, 2], [0, 0], 7)
        blocks = []
        with self.assertRaises(Refused) as caught:
            for block in flasknib.other_form(late):
                blocks.append(block)
        self.assertEqual((caught.exception.number, caught.exception.block, b"".join(blocks)), (17, 1, flasknib.write_label(1, b"", 7)))

    def test_salvage(self):
        copied, refused = b"", []
        for index, block, fault in flasknib.salvage(SAMPLES / "damaged.trace"):
            copied += b"" if fault else block
            refused += [(fault.number, fault.block, index)] if fault else []
        self.assertEqual(copied, (SAMPLES / "salvaged.trace").read_bytes())
        self.assertEqual(refused, [(13, 5, 5), (1, 9, 9)])
        for wrong, number in ((b"", 1), (ARRIVALS, 14), (bytes(1024), 13)):
            self.assertEqual([each.refused.number for each in flasknib.salvage(wrong)], [number])

    def test_label(self):
        trace, spaced = (SAMPLES / "returns.trace").read_bytes(), (SAMPLES / "spaced.trace").read_bytes()
        self.assertEqual(flasknib.space_label(trace[:512]), (spaced[:512], 3))

    def test_pandas(self):
        try:
            import pandas
        except ImportError:
            self.skipTest("pandas is not installed")
        frame = pandas.DataFrame(flasknib.rows(SAMPLES / "c1.trace"))
        self.assertEqual(list(frame.columns), list(flasknib.Row._fields))
        self.assertEqual(frame.highest.tolist(), [65539])


class Given(Tried):
    """What a trace, a packet and an output may be."""

    def test_traces(self):
        path, whole = SAMPLES / "long.trace", (SAMPLES / "long.trace").read_bytes()
        wanted = list(flasknib.rows(whole))
        with open(path, "rb") as file, open(path, "rb") as again, open(path, "rb", buffering=0) as raw:
            with mmap.mmap(file.fileno(), 0, access=mmap.ACCESS_READ) as mapped:
                kinds = [str(path), path, bytearray(whole), memoryview(whole), array("B", whole), mapped, again, raw, io.BytesIO(whole)]
                for trace in kinds:
                    self.assertEqual(list(flasknib.rows(trace)), wanted)
                del kinds, trace
        with open(path, "rb") as file:
            file.seek(0)
            self.assertEqual([bytes(each.block) for each in flasknib.salvage(file)], [whole[at : at + 512] for at in range(0, len(whole), 512)])

    def test_a_file_that_reads_little(self):
        class Slow(io.RawIOBase):
            def __init__(self, data):
                self.data, self.draw = data, random.Random(3)

            def read(self, size=-1):
                length = self.draw.randint(1, 700)
                piece, self.data = self.data[:length], self.data[length:]
                return piece

        whole = (SAMPLES / "reboot.trace").read_bytes()
        self.assertEqual(list(flasknib.rows(Slow(whole))), list(flasknib.rows(whole)))
        self.assertEqual(b"".join(flasknib.other_form(Slow(whole))), b"".join(flasknib.other_form(whole)))

    def test_a_file_without_bytes_yet(self):
        reader, writer = os.pipe()
        os.set_blocking(reader, False)
        with open(reader, "rb", buffering=0) as file, open(writer, "wb"):
            with self.assertRaises(BlockingIOError):
                list(flasknib.rows(file))

    def test_what_is_no_trace(self):
        for wrong in (None, 7, io.StringIO("x"), ["x"]):
            with self.assertRaises((TypeError, AttributeError)):
                list(flasknib.rows(wrong))
        with self.assertRaises(FileNotFoundError):
            list(flasknib.rows("no such file"))

    def test_packets(self):
        sources = Sources()
        sources.arrive(1, 5, 3)
        packet = sources.compound(9)
        wanted = flasknib.read_compound(packet, 1)
        for kind in (bytearray, memoryview, lambda data: array("B", data), lambda data: memoryview(b"xx" + data + b"x")[2:-1]):
            self.assertEqual(flasknib.read_compound(kind(packet), 1), wanted)

    def test_nothing_is_copied(self):
        """The library is lent the memory of the object itself, and one that is large is read without another of its size."""
        held = bytearray(b"0123456789")
        at = (_lend.u8 * len(held)).from_buffer(held)
        self.assertEqual(_lend.read(held).at, _lend.ctypes.addressof(at))
        self.assertEqual(_lend.read(memoryview(held)[3:5]).at, _lend.ctypes.addressof(at) + 3)
        large = memoryview(bytes(50_000_000))
        tracemalloc.start()
        self.refuses(2, flasknib.read_compound, large[:60000], 1)
        self.refuses(13, Feed().feed, large)
        most = tracemalloc.get_traced_memory()[1]
        tracemalloc.stop()
        self.assertLess(most, 1_000_000)

    def test_no_address_is_null(self):
        """Also of what is empty, whatever the object says."""
        for empty in (b"", bytearray(), memoryview(b""), array("B")):
            self.refuses(1, flasknib.read_block, empty)
        with unittest.mock.patch.object(_lend, "get_buffer"):
            self.assertNotIn(_lend.read(bytearray()).at, (0, None))

    def test_memory_is_given_back(self):
        held = bytearray(LABEL)
        flasknib.read_block(held)
        self.refuses(13, flasknib.read_block, bytearray(512))
        held += b"x"  # not possible while it is lent
        with self.assertRaises(OverflowError):
            flasknib.write_label(300, b"", 1, out=held)
        held += b"x"

    def test_out(self):
        source, out = counted(C1), bytearray(b"\xff" * 40)
        view = source.feedback(9, 1, out=out)
        self.assertEqual((bytes(view), out[32:]), (source.feedback(9, 1), b"\xff" * 8))
        self.assertEqual(bytes(source.summary(1, memoryview(out)[8:])), source.summary(1))
        self.assertEqual(self.refuses(12, source.feedback, 9, 1, bytearray(31)).size, 32)
        self.assertEqual(self.refuses(12, flasknib.write_label, 1, b"", 1, bytearray()).size, 512)
        with self.assertRaises(BufferError):
            source.feedback(9, 1, out=bytes(32))
        with self.assertRaises(BufferError):
            source.feedback(9, 1, out=memoryview(bytearray(64))[::2])

    def test_what_overlaps(self):
        """Memory that is written and read in one call, or written twice, is no call."""
        block = bytearray(LABEL)
        for out in (block, memoryview(block)[511:]):
            with self.assertRaises(ValueError):
                flasknib.write_label(1, memoryview(block)[505:], 7, out=out)
        words = (_lend.u64 * 100)()
        memory = memoryview(words).cast("B")
        for call in (
            lambda: header.feed((_lend.u64 * 18)(), block, b"", block),
            lambda: header.lost(words, words),
            lambda: header.answer(words, words, words),
            lambda: header.write_feedback(words, 9, 1, memory[792:]),
            lambda: header.read_compound(memory[:8], 1, 0, words),
            lambda: header.streams_block(words, (_lend.u64 * 2).from_buffer(words, 792), b""),
        ):
            self.assertRaises(ValueError, call)
        self.assertEqual((block, sum(words)), (LABEL, 0))
        two = bytearray(1024)
        flasknib.write_label(1, memoryview(two)[:0], 7, out=memoryview(two)[512:])
        self.assertEqual(two[512:], flasknib.write_label(1, b"", 7))

    def test_lists(self):
        wanted = flasknib.write_arrivals(2, [5, 2**48 - 1], [1, 65535], [0, 3], 7)
        times, numbers = array("Q", [5, 2**48 - 1]), array("H", [1, 65535])
        for marks in (b"\0\3", bytearray(b"\0\3"), (0, 3), array("B", [0, 3]), [Mark.NOT_ECT, Mark.CE]):
            self.assertEqual(flasknib.write_arrivals(2, times, numbers, marks, 7), wanted)
        for text in (b"", b"ward 3"):
            self.refuses(14, lambda: list(flasknib.records(flasknib.write_label(2, text, 7))))
        records = [flasknib.Record(5, 1, 0), flasknib.Record(2**48 - 1, 65535, 3)]
        self.assertEqual(list(flasknib.records(wanted)), records)
        self.assertEqual(flasknib.write_records(2, wanted[8:28], 7), wanted)
        for times, numbers, marks in (([], [], []), ([1], [1, 2], [0]), (range(51), range(51), bytes(51)), ([2**48], [1], [0]), ([1], [1], [4])):
            self.refuses(10, flasknib.write_arrivals, 2, times, numbers, marks, 7)
        for times, numbers, marks in (([-1], [1], [0]), ([2**64], [1], [0]), ([1], [65536], [0]), ([1], [1], [256])):
            with self.assertRaises(OverflowError):
                flasknib.write_arrivals(2, times, numbers, marks, 7)


class Refusing(Tried):
    def test_each_refusal(self):
        """Every refusal of the header can be had, with its name and text, and leaves the state as it was."""
        full = list(counted([(1, 0)]).words)
        full[header.SOURCE_NOT_ECT] = full[header.SOURCE_HIGHEST] = 2**48
        full[header.SOURCE_HIGHEST] = full[header.SOURCE_BASE]
        two = Sources(1)
        two.arrive(1, 1, 1)
        late = flasknib.write_label(2, b"", 7), flasknib.write_arrivals(2, [2**32], [1], [0], 7)
        report = bytes.fromhex("80c90001 00000009")
        calls = {
            1: lambda: flasknib.read_compound(b"", 1),
            2: lambda: flasknib.read_compound(bytes(8), 1),
            3: lambda: flasknib.read_compound(bytes.fromhex("81cd0002 00000009 00000001"), 1, flasknib.Profile.COMPOUND),
            4: lambda: flasknib.read_compound(report[:-1], 1),
            5: lambda: flasknib.read_compound(b"\xa0" + report[1:], 1),
            6: lambda: flasknib.read_compound(report + bytes.fromhex("80cf0002 00000009 0d000005"), 1),
            8: lambda: Source.of(full).arrive(1, 0),
            9: lambda: Source.of([0] * 9).arrive(1, 0),
            10: lambda: Source().arrive(1, 4),
            11: lambda: Breaker(5).tick(4),
            12: lambda: Source().feedback(9, 1, bytearray(31)),
            13: lambda: flasknib.read_block(bytes(512)),
            14: lambda: list(flasknib.records(LABEL)),
            15: lambda: two.arrive(2, 1, 1),
            16: lambda: Sources(17).arrive(1, 1, 1),
            17: lambda: flasknib.Forms(late[0]).block(late[1]),
            18: lambda: flasknib.read_attribute(b"a=ecn-capable-rtp"),
            19: lambda: flasknib.write_label(1, b"a\nb", 1),
        }
        self.assertEqual({*calls, 7}, set(header.REFUSALS))
        for number, call in calls.items():
            refused = self.refuses(number, call)
            self.assertEqual((refused.name, refused.text), header.REFUSALS[number])
            self.assertIn(f"refused {number}: {refused.text}", str(refused))
            self.assertEqual(str(pickle.loads(pickle.dumps(refused))), str(refused))

    def test_texts(self):
        """The texts are the library's."""
        for number in range(256):
            out = bytearray(header.REFUSAL_TEXT_MOST_BYTES)
            length = header.refusal_text(number, out)
            found = out[:length].decode() if length >= 0 else None
            self.assertEqual(found, header.REFUSALS.get(number, (None, None))[1])

    def test_a_jump_is_an_arrival(self):
        source = counted([(5000, 0)])
        before = source.words
        self.assertEqual(source.arrive(9000, 0), Arrival.JUMP)
        self.assertEqual(source.words, (*before[:-1], 9002))
        self.assertEqual((source.arrive(9001, 3), source.highest, source.ce), (Arrival.RESTARTED, 9001, 1))

    def test_numbers_that_do_not_fit(self):
        """No number is cut to its type: the library never sees it, and the state stays."""
        source, sources, breaker = counted(C1), Sources(), Breaker(0)
        before = source.words
        for call in (
            lambda bad: source.arrive(bad, 0),
            lambda bad: source.arrive(0, bad),
            lambda bad: source.feedback(bad, 1),
            lambda bad: source.feedback(1, bad),
            lambda bad: source.row(b"", bad),
            lambda bad: sources.arrive(bad, 0, 0),
            lambda bad: breaker.tick(bad),
            lambda bad: breaker.report(1, bad, 0, 0, 1, 1),
            lambda bad: Breaker(bad),
            lambda bad: flasknib.read_compound(b"", bad),
            lambda bad: flasknib.since16(bad, 0),
            lambda bad: flasknib.write_label(bad, b"", 1),
            lambda bad: flasknib.record_at(ARRIVALS, bad),
        ):
            for bad in (-1, 2**64, 2**64 + 1):
                with self.assertRaises(OverflowError):
                    call(bad)
            for bad in ("1", 1.0, None, b"1"):
                with self.assertRaises(TypeError):
                    call(bad)
        self.assertEqual(source.words, before)
        for most, call in ((2**16, source.arrive), (2**16, lambda wire, mark: sources.arrive(1, wire, mark))):
            with self.assertRaises(OverflowError):
                call(most, 0)

    def test_every_number_of_the_header(self):
        """Of each function, each number at both ends of its type and one past them."""
        pattern = re.compile(r"^def (\w+)\(.*\n(?:.*\n)*?    return ", re.M)
        text = (PACKAGE / "flasknib/header.py").read_text()
        seen = 0
        for found in pattern.finditer(text):
            kinds = dict(re.findall(r"^    (\w+) = fits\(\w+, (\w+)\)$", found[0], re.M))
            lent = re.findall(r"(\w+): (Words|Numbers|Buffer)", found[0].partition("\n")[0])
            plain = {name: {"Words": (_lend.u64 * 1)(), "Numbers": (_lend.u16 * 1)(), "Buffer": bytearray(1)}[kind] for name, kind in lent}
            call = getattr(header, found[1])
            for name, kind in kinds.items():
                least, most = _lend.LIMITS[getattr(_lend, kind)]
                for value, wrong in ((least, False), (most, False), (least - 1, True), (most + 1, True)):
                    given = {**plain, **{other: 0 for other in kinds}, name: value}
                    if wrong:
                        self.assertRaises(OverflowError, call, **given)
                    else:
                        self.assertIsInstance(call(**given), int)
                    seen += 1
        self.assertGreater(seen, 200)

    def test_what_is_no_memory(self):
        for wrong in ("text", None, 7, [1, 2]):
            for call in (flasknib.read_block, lambda bad: flasknib.read_compound(bad, 1), Feed().feed, flasknib.read_attribute):
                with self.assertRaises(TypeError):
                    call(wrong)
        for wrong in ([0] * 10, bytes(80), None):
            with self.assertRaises((TypeError, _lend.ctypes.ArgumentError)):
                header.arrive(wrong, 0, 0)
        with self.assertRaises(OverflowError):
            Source.of([2**64])

    def test_cut_traces(self):
        """A trace cut at every byte has the rows of its whole blocks and, but at the end of one, refusal 1."""
        trace = LABEL + ARRIVALS + flasknib.write_arrivals(1, [40], [7], [1], 7)
        rows = list(flasknib.rows(trace))
        for end in range(len(trace) + 1):
            found, refused = [], None
            try:
                for row in flasknib.rows(trace[:end]):
                    found.append(row)
            except Refused as fault:
                refused = fault.number, fault.block
            self.assertEqual(found, rows[: max(0, end // 512 - 1)])
            self.assertEqual(refused, (1, end // 512) if end % 512 or not end else None)

    def test_broken_traces(self):
        """One byte changed anywhere is refused at its block, by every way to read a trace."""
        trace, draw = LABEL + ARRIVALS + flasknib.write_arrivals(1, [40], [7], [1], 7), random.Random(20261117)
        for _ in range(300):
            at, bit = draw.randrange(len(trace)), 1 << draw.randrange(8)
            broken = bytearray(trace)
            broken[at] ^= bit
            for call in (lambda: list(flasknib.rows(broken)), lambda: list(flasknib.other_form(broken)), lambda: flasknib.streams(broken)):
                refused = self.refuses(13, call)
                self.assertEqual(refused.block, at // 512)
            self.assertEqual([each.index for each in flasknib.salvage(broken) if each.refused], [at // 512])

    def test_cut_packets(self):
        sources = Sources()
        for ssrc in range(16):
            sources.arrive(ssrc, 5, 3)
        packet = sources.compound(9)
        for end in range(len(packet)):
            with self.subTest(end=end):
                if end in range(8, len(packet), 32):
                    self.assertTrue(flasknib.read_compound(packet[:end], 1).sr_or_rr)
                else:
                    self.assertIn(self.refuses_any(flasknib.read_compound, packet[:end], 1), (1, 4))

    def refuses_any(self, call, *words) -> int:
        with self.assertRaises(Refused) as caught:
            call(*words)
        return caught.exception.number

    def test_a_refused_block_is_repeated(self):
        feed = Feed()
        self.assertEqual(feed.feed(LABEL + ARRIVALS), table_of(LABEL + ARRIVALS)[header.HEAD_BYTES :])
        first = self.refuses(13, feed.feed, ARRIVALS + bytes(512) + ARRIVALS)
        self.assertEqual((first.block, first.table.count(b"\r\n")), (3, 1))
        for call in (lambda: feed.feed(ARRIVALS), lambda: feed.feed(b""), feed.close):
            again = self.refuses(13, call)
            self.assertEqual((again.block, again.table), (3, b""))

    def test_words_that_are_no_feed(self):
        for words in ([2**64 - 1] * 18, [0] * 17, [5] * 18, [9] * 18):
            for stretch in (b"", b"x", LABEL):
                refused = self.refuses(9, Feed.of(words).feed, stretch)
                self.assertEqual((refused.block, refused.table), (None, b""))
            self.assertIsNone(self.refuses(9, Feed.of(words).close).block)
        self.refuses(9, Feed.of([0] * 18, bytes(1023)).feed, b"")

    def test_a_long_stretch(self):
        """Longer than what is taken at a time, refused in the middle: all rows before it, once."""
        blocks = [flasknib.write_arrivals(1, [n], [n], [n % 4], 7) for n in range(500)]
        trace = LABEL + b"".join(blocks)
        self.assertEqual(table_of(trace).count(b"\r\n"), 501)
        broken = trace[: 400 * 512] + bytes(512) + trace[401 * 512 :]
        self.assertEqual(table_of(broken), table_of(trace[: 400 * 512]) + b"refused 13 block 400\r\n")


class States(Tried):
    def states(self):
        feed, breaker, sources = Feed(), Breaker(0, k=2), Sources(3)
        feed.feed(LABEL + ARRIVALS[:100])
        sources.arrive(7, 1, 3)
        breaker.packet(sources.compound(9), 7, 5, 100, 1000, 1000)
        return [counted(C1), sources, breaker, feed]

    def test_copies(self):
        for state in self.states():
            for other in (copy.copy(state), copy.deepcopy(state), pickle.loads(pickle.dumps(state))):
                self.assertEqual((other, type(other)), (state, type(state)))
                self.assertIsNot(other._words, state._words)
            self.assertNotEqual(state, type(state).of(state.words[:-1]))
            with self.assertRaises(TypeError):
                hash(state)

    def test_a_copy_goes_its_own_way(self):
        source = counted(C1)
        other = copy.copy(source)
        other.arrive(4, 3)
        self.assertEqual((source.ce, other.ce), (2, 3))
        feed = Feed()
        feed.feed(LABEL[:100])
        other = copy.deepcopy(feed)
        other.feed(LABEL[100:])
        self.assertEqual((feed.kept_bytes, other.kept_bytes, other.blocks), (100, 0, 1))
        feed.feed(LABEL[100:])
        self.assertEqual(feed, other)

    def test_a_refused_packet_counts_for_nothing(self):
        path = Path(100, 1000)
        path.packet(1000, path.marked())
        before = path.breaker.words, path.breaker.kept
        compound = path.marked()
        self.refuses(11, path.packet, 1000, compound)
        for wrong in (2**64, -1, 1.5):
            with self.assertRaises((OverflowError, TypeError)):
                path.packet(wrong, compound)
        self.assertEqual((path.breaker.words, path.breaker.kept), before)
        path.packet(2000, compound)
        self.assertNotEqual(path.breaker.kept, before[1])

    def test_places(self):
        sources = Sources(0)
        self.assertEqual((list(sources), len(sources.compound(9))), ([], 8))
        self.refuses(15, sources.arrive, 1, 1, 1)
        sources = Sources(16)
        for ssrc in (30, 10, 20):
            sources.count_block(ssrc, bytes.fromhex("75300200 75310300"), 4)
        self.assertEqual([(ssrc, source.ce) for ssrc, source in sources], [(10, 1), (20, 1), (30, 1)])
        self.refuses(10, sources.place, 3)
        self.refuses(16, list, Sources.of([*sources.words, 0]))
        words = list(sources.words)
        words[header.PLACE_SOURCE + header.SOURCE_REMEMBERED] = 2**17
        self.refuses(9, list, Sources.of(words))
        strays = bytes.fromhex("75300200 86c40200 98580200")
        self.assertEqual(counted([(5, 0)]).count_block(strays, 4), (3, 0))
        sources.count_block(10, strays[:4], 4)
        self.assertEqual(sources.count_block(10, strays[4:], 4), (2, 0))

    def test_threads(self):
        """A call is whole: threads that share a source lose no packet."""
        source, count = Source(), 2000

        def arrive(first):
            for n in range(count):
                source.arrive(0, Mark.CE)

        threads = [threading.Thread(target=arrive, args=(n,)) for n in range(4)]
        for thread in threads:
            thread.start()
        for thread in threads:
            thread.join()
        self.assertEqual((source.ce, source.duplicates), (4 * count, 4 * count - 1))
        self.assertIsInstance(_library.library, _lend.ctypes.PyDLL)  # which holds the lock


class Whole(Tried):
    """The package and the header, its documents, and what it says where the library is not there."""

    def test_every_function_is_used(self):
        text = "".join(path.read_text() for path in (PACKAGE / "flasknib").glob("*.py") if path.name != "header.py")
        functions = [name for name, value in vars(header).items() if getattr(value, "__module__", "") == "flasknib.header"]
        self.assertGreaterEqual(len(functions), 44)
        left = {"breaker_start_preset", "run_block", "refusal_text"}  # Breaker() has the preset, Feed the rows of a run, the header the texts
        unused = {name for name in functions if not re.search(rf"header\.{name}\b|import .*\b{name}\b", text)}
        self.assertEqual(unused, left)
        self.assertEqual(header.breaker_start_preset(5, words := (_lend.u64 * header.BREAKER_WORDS)()), 0)
        self.assertEqual(tuple(words), Breaker(5).words)

    def test_docstrings(self):
        tried = 0
        for each in pkgutil.iter_modules(flasknib.__path__, "flasknib."):
            result = doctest.testmod(importlib.import_module(each.name))
            self.assertEqual(result.failed, 0)
            tried += result.attempted
        self.assertGreater(tried, 90)

    def test_page(self):
        """The pieces of docs/LIBRARY.md, and its first program, which has 20 lines and prints what stands below it."""
        page = (TOP / "docs/LIBRARY.md").read_text().partition("\n## Python\n")[2].partition("\n## ")[0]
        pieces = [textwrap.dedent(piece).strip() + "\n" for piece in re.findall(r"(?:^(?: {4}.*)?\n)+", page, re.M) if piece.strip()]
        program = next(at for at, piece in enumerate(pieces) if piece.startswith("import flasknib\n"))
        self.assertLessEqual(sum(map(bool, pieces[program].splitlines())), 20)
        printed = io.StringIO()
        with contextlib.redirect_stdout(printed):
            exec(pieces[program].replace("samples/", f"{SAMPLES}/"), {})
        self.assertEqual(printed.getvalue(), pieces[program + 1])
        examples = "\n".join(piece for piece in pieces if piece.startswith(">>> "))
        test = doctest.DocTestParser().get_doctest(examples, {}, "LIBRARY.md", None, 0)
        self.assertEqual((doctest.DocTestRunner().run(test).failed, len(test.examples) >= 7), (0, True))

    def test_names(self):
        self.assertEqual(flasknib.__version__, (TOP / "VERSION").read_text().strip())
        for name in flasknib.__all__:
            self.assertTrue(getattr(flasknib, name).__doc__, name)

    def test_hints(self):
        """Each argument and each answer of what is public has a type, and the names of the types are there."""
        seen = 0
        for name in flasknib.__all__:
            thing = getattr(flasknib, name)
            members = [each for each in vars(thing).values() if isinstance(each, types.FunctionType)] if isinstance(thing, type) else [thing]
            for each in members:
                if isinstance(each, types.FunctionType) and each.__module__.startswith("flasknib"):
                    wanted = {*each.__code__.co_varnames[: each.__code__.co_argcount + each.__code__.co_kwonlyargcount], "return"} - {"self", "cls"}
                    self.assertEqual(set(typing.get_type_hints(each)) - {"self", "cls"}, wanted, each)
                    seen += 1
        self.assertGreater(seen, 60)

    def ran(self, library, text="import flasknib") -> subprocess.CompletedProcess:
        environment = {name: value for name, value in os.environ.items() if not name.startswith("PYTHON")}
        environment |= {"FLASKNIB_LIBRARY": str(library), "PYTHONPATH": str(PACKAGE), "PYTHONDONTWRITEBYTECODE": "1"}
        return subprocess.run([sys.executable, "-S", "-c", text], env=environment, cwd=BUILT.name, capture_output=True, text=True)

    def test_the_library_is_not_there(self):
        self.assertEqual(self.ran(SHARED).returncode, 0)
        self.assertIn("ImportError: the library libflasknib.so is not there: in a clone `make` builds it", self.ran("").stderr)
        for wrong in (os.devnull, BUILT.name, "/no/such/library.so"):
            self.assertIn(f"ImportError: the library {wrong} cannot be used: ", self.ran(wrong).stderr)
        _version.check(header.VERSION + 1)
        major, minor, patch = header.VERSION_MAJOR, header.VERSION_MINOR, header.VERSION_PATCH
        for found, told in ((header.VERSION + 256, f"{major}.{minor + 1}.{patch}"), (header.VERSION + 65536, f"{major + 1}.{minor}.{patch}")):
            with self.assertRaisesRegex(ImportError, f"it is of version {told}, and this package is for {flasknib.__version__}$") as caught:
                _version.check(found)
            self.assertEqual(caught.exception.path, str(SHARED))
        other = pathlib.Path(BUILT.name) / "libother.so"
        subprocess.run(["cc", "-shared", "-fPIC", "-x", "c", "-", "-o", other], input=b"int flasknib_arrive(void) { return 0; }\n", check=True)
        self.assertIn("cannot be used, it is of another version", self.ran(other).stderr)


def main(names: list) -> int:
    loader = unittest.defaultTestLoader
    suite = loader.loadTestsFromNames(names, sys.modules[__name__]) if names else loader.loadTestsFromModule(sys.modules[__name__])
    result = unittest.TextTestRunner(stream=io.StringIO()).run(suite)
    wrong = result.failures + result.errors
    for test, why in wrong:
        print(f"package: FAILED, {test.id()}: {why}")
    for test, why in result.skipped:
        print(f"package: skipped, {test.id().partition('.')[2]}: {why}")
    print(f"package: {result.testsRun} tests of python/flasknib with Python {sys.version_info[0]}.{sys.version_info[1]}, its docstrings among them")
    print(f"{result.testsRun - len(wrong) - len(result.skipped)} passed, {len(wrong)} failed")
    return 1 if wrong else 0


if __name__ == "__main__":
    sys.exit(main(sys.argv[1:]))
