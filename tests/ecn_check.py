"""ecn_check.py [NAME..]: ecn check, ecn summary and look --refused against the proved programs. The last line is 'N passed, M failed'."""
import csv
import io
import os
import random
import re
import signal
import subprocess
import sys
import time

import tools
import writer
from tools import BIN, HEAD, SAMPLES, TOP, Tried, arrivals, label, needs_library

TRACES = sorted(SAMPLES.glob("*.trace"))
SCANNERS = SAMPLES / "streams/scanners.trace"


def program(name: str, trace) -> subprocess.CompletedProcess:
    with open(trace, "rb") as file:
        return subprocess.run([BIN / name], stdin=file, capture_output=True, check=False)


def last_line(trace) -> str:
    """The last row of ecntable's table, as fields."""
    return list(csv.reader(io.StringIO(program("ecntable", trace).stdout.decode(), newline="")))[-1]


def gone(group: int) -> bool:
    """Whether no process of a group is left."""
    try:
        os.killpg(group, 0)
    except ProcessLookupError:
        return True
    return False


def damaged(draw: random.Random) -> bytes:
    """A trace of which some blocks are wrong in some way."""
    form = draw.choice((1, 2))
    blocks = [label(b'a, "b"\r\n', 7, form)]
    for at in range(draw.randrange(1, 12)):
        block = bytearray(arrivals(draw.randrange(1, 40), draw.choice((7, 7, 7, 8, 9)), draw.choice((form, form, form, 3 - form)), 100 * at))
        if draw.random() < 0.2:
            block[draw.randrange(512)] ^= 1 << draw.randrange(8)
        blocks.append(bytes(block))
    blocks += [blocks[0]] * (draw.random() < 0.1)
    whole = b"".join(blocks)
    return whole[: len(whole) - draw.choice((0, 0, 0, 1, 300, 511))]


@needs_library
class Check(Tried):
    def check(self, *words, status=0, **kept):
        return self.ecn("check", *words, status=status, **{"library": True, **kept})

    def rows(self, *words, status=0, **kept) -> list:
        with self.subTest(words):
            return list(csv.DictReader(io.StringIO(self.check(*words, "--csv", status=status, **kept).stdout, newline="")))

    def test_samples(self):
        rows = self.rows(*TRACES, status=1)
        self.assertEqual([row["trace"] for row in rows], [str(path) for path in TRACES])
        wrong = [row for row in rows if row["refused"] != "0"]
        found = [(os.path.basename(row["trace"]), *(row[name] for name in ("blocks", "refused", "number", "block"))) for row in wrong]
        self.assertEqual(found, [("damaged.trace", "10", "2", "13", "5")])
        self.assertEqual([row["form"] for row in rows if "weeks" in row["trace"]], ["2"])
        text = self.check(SAMPLES / "c1.trace").stdout
        self.assertRegex(text, r'^trace .*first refusal\n.*c1.trace +"probe 2, left" +1 +1 +2 +0 +-\n$')
        self.assertIn("block 5 with 13: the block's checksum does not fit", self.check(SAMPLES / "damaged.trace", status=1).stdout)

    def test_as_ecnsalvage_judges(self):
        """Of traces with wrong blocks of all kinds, the count and the first refusal are the program's."""
        draw, paths = random.Random(44), []
        for at in range(60):
            paths.append(self.trace(damaged(draw), name=f"{at}.trace"))
        for path, row in zip(paths, self.rows(*paths, "-j", "3", status=1)):
            told = re.findall(r"refused (\d+) block (\d+)", program("ecnsalvage", path).stderr.decode())
            found = (row["number"], row["block"]) if row["number"] else None
            self.assertEqual((int(row["refused"]), found), (len(told), told[0] if told else None), path)
            self.assertEqual(int(row["blocks"]), -(-path.stat().st_size // 512))

    def test_several_sources(self):
        (row,) = self.rows(SCANNERS, status=1)
        self.assertEqual((row["sources"], row["refused"], row["number"], row["block"]), ("3", "4", "14", "1"))
        self.assertIn("has 3 sources: check it with --streams, or split it with ecn split", self.check(SCANNERS, status=1).stderr)
        (row,) = self.rows(SCANNERS, "--streams")
        self.assertEqual((row["sources"], row["refused"]), ("3", "0"))
        many = self.trace(label(), *(arrivals(ssrc=ssrc) for ssrc in range(18)))
        (row,) = self.rows(many, "--streams", status=1)
        self.assertEqual((row["sources"], row["refused"], row["number"], row["block"]), ("18", "2", "15", "17"))

    def test_foreign_files(self):
        for path, number, blocks in ((os.devnull, 1, 0), (TOP / "README.md", 13, -(-(TOP / "README.md").stat().st_size // 512)), (self.trace(b"x" * 300), 1, 1)):
            (row,) = self.rows(path, status=1)
            self.assertEqual((row["form"], row["number"], row["block"], row["blocks"]), ("", str(number), "0", str(blocks)))
        self.assertIn("the rest is not judged", self.check(TOP / "README.md", status=1).stdout)
        ran = self.check(self.folder / "missing", SAMPLES / "c1.trace", self.folder, status=2)
        self.assertIn("missing: No such file", ran.stderr)
        self.assertIn("Is a directory", ran.stderr)
        self.assertIn("c1.trace", ran.stdout)

    def test_files(self):
        with open(SAMPLES / "c1.trace", "rb") as trace:
            self.assertRegex(self.check("-", stdin=trace).stdout, "\n- +.probe 2")
        self.check(SAMPLES / "c1.trace", "-o", self.out, "--csv")
        self.assertEqual(self.out.read_bytes().count(b"\r\n"), 2)
        self.assertIn("standard input can be read only once", self.check("-", "-", status=2).stderr)
        copy = self.trace(label(), arrivals())
        self.assertIn("given as input and as output", self.check(copy, "-o", copy, status=2).stderr)
        self.assertIn("No space left", self.check(SAMPLES / "c1.trace", "-o", "/dev/full", status=2).stderr)
        self.assertIn("libflasknib.so is not there", self.check(SAMPLES / "c1.trace", status=2, library=False).stderr)

    def test_no_process_is_left(self):
        """A signal ends a check that waits for its traces, and the processes that read them."""
        fifos = [self.folder / name for name in ("a", "b")]
        for fifo in fifos:
            os.mkfifo(fifo)
        child = self.begun("check", *fifos, "-j", "2")
        held = [os.open(fifo, os.O_WRONLY) for fifo in fifos]
        time.sleep(0.2)
        child.send_signal(signal.SIGTERM)
        self.assertEqual(child.wait(tools.LONG), -signal.SIGTERM)
        self.until(lambda: gone(child.pid))
        for each in held:
            os.close(each)


@needs_library
class Summary(Tried):
    def summary(self, *words, status=0, **kept):
        return self.ecn("summary", *words, status=status, **{"library": True, **kept})

    def rows(self, *words, status=0) -> list:
        self.summary(*words, "-o", self.out, status=status)
        with open(self.out, newline="") as table:
            return list(csv.reader(table))

    def test_last_rows(self):
        """Each row is ecntable's last one, with the name in front, in the order of the traces."""
        sound = [path for path in TRACES if path.stem != "damaged"]
        for jobs in ("1", "3"):
            head, *rows = self.rows(*sound, "-j", jobs)
            self.assertEqual(head, ["trace", *HEAD.strip().split(",")])
            self.assertEqual(rows, [[str(path), *last_line(path)] for path in sound])

    def test_bytes(self):
        """The row's bytes are the program's, also of labels with quotes and line breaks and of many blocks."""
        for text in (b"", b'"', b'",",', b'"\r\n",1,2,3,4,5,6,7,8,9,0\r\n', b"1,2\n", b"x" * 502):
            path = self.trace(label(text), *(arrivals(2, first=2 * at) for at in range(300)))
            table = program("ecntable", path).stdout
            with open(self.out, "wb") as file:
                self.summary(path, stdout=file)
            row = self.out.read_bytes().partition(b"\r\n")[2].partition(b".trace,")[2]
            self.assertTrue(table.endswith(b"\r\n" + row) and row, (text, row))

    def test_sources(self):
        _, *rows = self.rows(SCANNERS, SAMPLES / "c1.trace", "--streams")
        wanted = [list(csv.reader(io.StringIO(program("ecnstreams", path).stdout.decode(), newline="")))[1:] for path in (SCANNERS, SAMPLES / "c1.trace")]
        self.assertEqual(rows, [[str(SCANNERS), *row] for row in wanted[0]] + [[str(SAMPLES / "c1.trace"), *row] for row in wanted[1]])

    def test_names(self):
        names = ['a, "b".trace', "c\nd.trace", "=1+1", "\udcff.trace"]
        paths = [self.trace(label(), arrivals(), name=name) for name in names]
        with open(self.out, "wb") as file:
            self.summary(*paths, stdout=file)
        with open(self.out, newline="", encoding="utf-8", errors="surrogateescape") as table:
            self.assertEqual([row[0] for row in csv.reader(table)][1:], [str(path) for path in paths])

    def test_refused_and_empty(self):
        self.out.write_text("as it was")
        given = [SAMPLES / "c1.trace", SAMPLES / "damaged.trace", self.trace(label())]
        ran = self.summary(*given, "-o", self.out, status=1)
        self.assertIn("damaged.trace: block 5 is refused with 13", ran.stderr)
        self.assertIn("made.trace: no arrivals, so it has no row", ran.stderr)
        self.assertIn("the summary is not put in place; --sound leaves out", ran.stderr)
        self.assertEqual(self.out.read_text(), "as it was")
        self.assertEqual(len(self.rows(*given, "--sound", status=1)), 2)
        self.assertIn("block 1 is refused with 1:", self.summary(self.trace(label(), b"x"), status=1).stderr)
        self.assertIn("block 1 is refused with 14", self.summary(SCANNERS, status=1).stderr)
        self.assertIn("block 0 is refused with 13", self.summary(sys.executable, status=1).stderr)
        self.assertIn("block 0 is refused with 13", self.summary(sys.executable, "--streams", status=1).stderr)
        self.assertIn("block 0 is refused with 1:", self.summary(os.devnull, status=1).stderr)
        self.alone("out.csv", "made.trace")

    def test_failures(self):
        ran = self.summary(self.folder / "missing", SAMPLES / "c1.trace", "-o", self.out, "--sound", status=2)
        self.assertIn("missing: No such file", ran.stderr)
        self.assertIn("the summary is not put in place\n", ran.stderr)
        self.alone()
        self.assertIn("libflasknib.so is not there", self.summary(SAMPLES / "c1.trace", status=2, library=False).stderr)

    def test_little_memory(self):
        """A trace of 40,000 blocks is read in little memory, and not kept."""
        import resource

        path = self.folder / "made.trace"
        with open(path, "wb") as trace:
            trace.write(label(form=2))
            for at in range(400):
                trace.write(writer.arrivals([(0, (100 * at + n) % 65536, 2) for n in range(50)], 7, 2) * 100)
        for command in ("summary", "check"):
            limit = lambda: resource.setrlimit(resource.RLIMIT_DATA, (60_000_000, 60_000_000))  # noqa: E731
            self.assertIn("made.trace", self.ecn(command, path, library=True, preexec_fn=limit).stdout)


class Look(Tried):
    def test_refused_only(self):
        lines = self.ecn("look", SAMPLES / "damaged.trace", "--refused", status=1).stdout.splitlines()
        self.assertEqual([line.split(":")[0] for line in lines], ["block 5", "block 9", "10 blocks, 2 refused; judged by ecntable"])
        self.assertEqual(self.ecn("look", SAMPLES / "damaged.trace", "--refused", "--block", "0-7", status=1).stdout.splitlines(), [lines[0], lines[2]])
        self.assertEqual(len(self.ecn("look", SAMPLES / "c1.trace", "--refused").stdout.splitlines()), 1)


if __name__ == "__main__":
    sys.exit(tools.main(sys.argv[1:], __name__, "ecn check and ecn summary"))
