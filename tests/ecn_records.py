"""ecn_records.py [NAME..]: ecn records, ecn split and ecn forms, held to the proved programs. The last line is 'N passed, M failed'."""
import csv
import os
import subprocess
import sys

import tools
import writer
from tools import BIN, SAMPLES, Tried, arrivals, label, needs_library

SOUND = sorted(path for path in SAMPLES.glob("*.trace") if path.stem != "damaged")
SCANNERS = SAMPLES / "streams/scanners.trace"


def run_program(name: str, data: bytes) -> subprocess.CompletedProcess:
    return subprocess.run([BIN / name], input=data, capture_output=True, check=False)


def blocks_of(path) -> list:
    data = path.read_bytes()
    return [data[at : at + 512] for at in range(0, len(data), 512)]


@needs_library
class Records(Tried):
    def records(self, path, *words, status=0, **kept):
        return self.ecn("records", path, "-o", self.out, *words, status=status, **{"library": True, **kept})

    def rows(self, path) -> list:
        self.records(path)
        with open(self.out, newline="") as text:
            return list(csv.DictReader(text))

    def test_each_record(self):
        """They are those that the proved library gives one by one."""
        import flasknib

        for path in (*SOUND, SCANNERS):
            wanted = []
            for index, block in enumerate(blocks_of(path)[1:], 1):
                ssrc = flasknib.read_block(block).ssrc
                wanted += [[index, *record, ssrc] for record in flasknib.records(block)]
            self.assertEqual([[int(each) for each in row.values()] for row in self.rows(path)], wanted)
        self.assertEqual(list(self.rows(SCANNERS)[0]), ["block", "time", "number", "mark", "ssrc"])

    def test_make_gives_the_same_records_back(self):
        made = self.folder / "made.trace"
        for path in (*SOUND, SCANNERS):
            first = [{**row, "block": ""} for row in self.rows(path)]
            self.ecn("make", self.out, "-o", made, "--form", "2" if path.stem == "weeks" else "1", library=True)
            again = [{**row, "block": ""} for row in self.rows(made)]
            order = lambda row: row["ssrc"]  # noqa: E731
            self.assertEqual(sorted(again, key=order), sorted(first, key=order), path)
        rows = self.rows(SAMPLES / "c1.trace")
        self.assertEqual(len(rows), 5)
        self.ecn("make", self.out, "--label", "probe 2, left", "-o", made, library=True)
        self.assertEqual(made.read_bytes(), (SAMPLES / "c1.trace").read_bytes())

    def test_refused(self):
        self.out.write_text("as it was")
        for data, number, block in (
            ((SAMPLES / "damaged.trace").read_bytes(), 13, 5),
            (b"", 1, 0),
            (label() + arrivals()[:300], 1, 1),
            (label() + label(), 14, 1),
            (arrivals(), 14, 0),
            (label() + arrivals(form=2), 14, 1),
            (b"#!/bin/sh\n" * 100, 13, 0),
        ):
            ran = self.records(self.trace(data), status=1)
            self.assertIn(f"made.trace: block {block} is refused with {number}", ran.stderr)
            self.assertEqual(self.out.read_text(), "as it was")
        self.alone("made.trace", "out.csv")

    def test_files(self):
        with open(SAMPLES / "c1.trace", "rb") as trace:
            self.assertEqual(self.ecn("records", "-", stdin=trace, library=True).stdout.count("\n"), 6)
        copy = self.trace(label())
        self.assertEqual(self.ecn("records", copy, library=True).stdout, "block,time,number,mark,ssrc\n")
        self.assertIn("given as input and as output", self.ecn("records", copy, "-o", copy, status=2, library=True).stderr)
        self.assertIn("missing: No such file", self.records(self.folder / "missing", status=2).stderr)
        self.assertIn("Is a directory", self.records(self.folder, status=2).stderr)
        self.assertIn("No space left", self.ecn("records", copy, "-o", "/dev/full", status=2, library=True).stderr)
        self.assertIn("libflasknib.so is not there", self.records(copy, status=2, library=False).stderr)


@needs_library
class Split(Tried):
    def split(self, *words, status=0, **kept):
        return self.ecn("split", *words, "-o", self.folder / "parts", status=status, **{"library": True, **kept})

    def parts(self) -> dict:
        return {path.name: path for path in sorted((self.folder / "parts").iterdir())}

    def test_each_source(self):
        """ecntable takes each part and has its row of ecnstreams; the blocks are the trace's own."""
        self.assertIn("scanners.trace: 3 sources, in ", self.split(SCANNERS).stderr)
        parts = self.parts()
        self.assertEqual(list(parts), ["scanners-100.trace", "scanners-500.trace", "scanners-900.trace"])
        rows = run_program("ecnstreams", SCANNERS.read_bytes()).stdout.split(b"\r\n")[1:-1]
        self.assertEqual([run_program("ecntable", path.read_bytes()).stdout.split(b"\r\n")[-2] for path in parts.values()], rows)
        held = [block for path in parts.values() for block in blocks_of(path)[1:]]
        self.assertEqual(sorted(held), sorted(blocks_of(SCANNERS)[1:]))

    def test_more_sources_than_ecnstreams_takes(self):
        path = self.trace(label(form=2), *(arrivals(ssrc=ssrc, form=2) for ssrc in (*range(40), *range(40))))
        self.assertTrue(run_program("ecnstreams", path.read_bytes()).stdout.endswith(b"refused 15 block 17\r\n"))
        self.split(path)
        self.assertEqual(len(self.parts()), 40)
        for part in self.parts().values():
            self.assertNotIn(b"refused", run_program("ecntable", part.read_bytes()).stdout)
            self.assertEqual(part.stat().st_size, 3 * 512)

    def test_a_trace_of_one_source_comes_out_as_it_is(self):
        for name in ("c1", "reboot", "weeks", "spaced"):
            self.split(SAMPLES / f"{name}.trace")
        self.assertEqual(len(self.parts()), 4)
        for name, path in self.parts().items():
            self.assertEqual(path.read_bytes(), (SAMPLES / f"{name.partition('-')[0]}.trace").read_bytes())

    def test_line_breaks_in_a_label(self):
        self.assertIn("1 source, in ", ran := self.split(SAMPLES / "returns.trace").stderr)
        self.assertIn("3 line break bytes of the label became spaces", ran)
        (part,) = self.parts().values()
        self.assertEqual(part.read_bytes(), (SAMPLES / "spaced.trace").read_bytes())

    def test_nothing_is_replaced(self):
        self.split(SCANNERS)
        there = self.folder / "parts" / "scanners-500.trace"
        there.write_text("as it was")
        (self.folder / "parts" / "scanners-900.trace").unlink()
        self.assertRegex(self.split(SCANNERS, status=2).stderr, r"scanners-\d+.trace is already there: name another folder, or remove it first")
        self.assertEqual((there.read_text(), list(self.parts())), ("as it was", ["scanners-100.trace", "scanners-500.trace"]))

    def test_refused(self):
        """Nothing is put in place of a trace that is refused, and the others go on."""
        bad = self.trace(label(), arrivals(), bytes(512))
        self.assertIn("made.trace: block 2 is refused with 13", self.split(bad, SCANNERS, status=1).stderr)
        self.assertEqual(len(self.parts()), 3)
        self.assertIn("no arrivals, so there is no source", self.split(self.trace(label()), status=1).stderr)
        self.assertIn("block 0 is refused with 1", self.split(os.devnull, status=1).stderr)
        self.assertIn("block 0 is refused with 13", self.split(sys.executable, status=1).stderr)
        many = self.trace(label(), *(writer.arrivals([(0, 1, 2)], ssrc, 1) for ssrc in range(257)))
        self.assertIn("has more than 256 sources, which is the most that split takes", self.split(many, status=1).stderr)
        self.assertEqual(len(self.parts()), 3)

    def test_files(self):
        with open(SCANNERS, "rb") as trace:
            self.split("-", stdin=trace)
        self.assertIn("trace-900.trace", self.parts())
        for out in ("-", SCANNERS):
            self.assertIn("needs a folder", self.ecn("split", SCANNERS, "-o", out, status=2, library=True).stderr)
        self.assertIn("missing: No such file", self.split(self.folder / "missing", status=2).stderr)
        self.assertIn("libflasknib.so is not there", self.split(SCANNERS, status=2, library=False).stderr)


class Forms(Tried):
    def test_as_the_program_does(self):
        for path in (*SOUND, SAMPLES / "c1.trace"):
            wanted = run_program("ecnforms", path.read_bytes())
            if not wanted.stderr:
                self.ecn("forms", path, "-o", self.out)
                self.assertEqual(self.out.read_bytes(), wanted.stdout)
        with open(SAMPLES / "c1.trace", "rb") as trace, subprocess.Popen([BIN / "ecnforms"], stdin=trace, stdout=subprocess.PIPE) as second:
            self.ecn("forms", "-", "-o", self.out, stdin=second.stdout)
        self.assertEqual(self.out.read_bytes(), (SAMPLES / "c1.trace").read_bytes())

    def test_refused(self):
        self.out.write_text("as it was")
        for path, told in (
            (SAMPLES / "weeks.trace", "block 1 is refused with 17: a time of 2^32 ms or more needs form 2"),
            (SAMPLES / "damaged.trace", "block 5 is refused with 13"),
            (SCANNERS, "block 1 is refused with 14"),
            (os.devnull, "block 0 is refused with 1:"),
            (sys.executable, "block 0 is refused with 13"),
        ):
            self.assertIn(told, self.ecn("forms", path, "-o", self.out, status=1).stderr)
        self.assertEqual(self.out.read_text(), "as it was")
        self.alone("out.csv")

    def test_failures(self):
        self.assertIn("Is a directory", self.ecn("forms", self.folder, "-o", self.out, status=2).stderr)
        self.assertIn("No space left", self.ecn("forms", SAMPLES / "c1.trace", "-o", "/dev/full", status=2).stderr)
        for text, told in (("kill -9 $$", "ended by signal 9"), ("cat >/dev/null", "wrote 0 bytes; the copy is not whole"), ("head -c 700", "wrote 700 bytes")):
            ran = self.ecn("forms", SAMPLES / "c1.trace", "-o", self.out, "--bin", self.program(text, "ecnforms"), status=2)
            self.assertIn(told, ran.stderr)
        self.alone()

    def test_several(self):
        self.ecn("forms", SAMPLES / "c1.trace", SAMPLES / "weeks.trace", SAMPLES / "reboot.trace", "-o", self.folder / "to", "-j", "2", status=1)
        self.assertEqual(sorted(os.listdir(self.folder / "to")), ["c1.trace", "reboot.trace"])


if __name__ == "__main__":
    sys.exit(tools.main(sys.argv[1:], __name__, "ecn records, ecn split and ecn forms"))
