"""ecn_report.py [NAME..]: ecn report and ecn rtcp, held to the worked examples, to real captures and to each other. The last line is 'N passed, M failed'."""
import csv
import io
import os
import random
import shutil
import subprocess
import sys
import unittest

import capture
import tools
from tools import SAMPLES, TOP, Tried, arrivals, label, needs_library

SCANNERS = SAMPLES / "streams/scanners.trace"
C2 = "88cd000700000009000000010001000300000002000000010002000000020001"
C3 = "0d0000050000000100000002000000010002000000020001"
RECEIVED = TOP / "tests/received"


@needs_library
class Report(Tried):
    def report(self, *words, status=0, **kept):
        return self.ecn("report", *words, status=status, **{"library": True, **kept})

    def test_worked_examples(self):
        self.assertEqual(self.report(SAMPLES / "c1.trace", "--sender", "9").stdout, C2 + "\n")
        self.assertEqual(self.report(SAMPLES / "c1.trace", "--summary").stdout, C3 + "\n")
        self.report(SAMPLES / "c1.trace", "--sender", "0x9", "--bytes", "-o", self.out)
        self.assertEqual(self.out.read_bytes().hex(), C2)

    def test_counts_of_the_last_row(self):
        """What is reported is the last row, modulo the widths of the packet."""
        import flasknib

        for path in sorted(SAMPLES.glob("*.trace")):
            if path.stem == "damaged":
                continue
            *_, row = flasknib.rows(path)
            self.report(path, "--sender", "1", "--compound", "--bytes", "-o", self.out)
            found = flasknib.read_compound(self.out.read_bytes(), row.ssrc).feedback
            wide, narrow = 2**32, 2**16
            wanted = (1, row.highest % wide, row.ect0 % wide, row.ect1 % wide, row.ce % narrow, row.notect % narrow, row.lost % narrow, row.dup % narrow)
            self.assertEqual(tuple(found), wanted, path)

    def test_several_sources(self):
        lines = self.report(SCANNERS, "--sender", "9").stdout.split()
        self.assertEqual([int(line[16:24], 16) for line in lines], [100, 500, 900])
        self.assertEqual(self.report(SCANNERS, "--sender", "9", "--media", "500").stdout.split(), [lines[1]])
        self.assertTrue(self.report(SCANNERS, "--sender", "9", "--compound").stdout.startswith("80c9000100000009" + lines[0]))
        self.assertEqual(len(self.report(SCANNERS, "--summary").stdout.split()), 3)
        many = self.trace(label(), *(arrivals(ssrc=ssrc) for ssrc in range(17)))
        self.assertIn("block 17 is refused with 15", self.report(many, "--sender", "9", status=1).stderr)
        self.assertEqual(len(self.report(many, "--sender", "9", "--media", "16").stdout), 65)

    def test_refused(self):
        self.out.write_text("as it was")
        for path, told in (
            (SAMPLES / "damaged.trace", "block 5 is refused with 13"),
            (os.devnull, "block 0 is refused with 1:"),
            (sys.executable, "block 0 is refused with 13"),
            (self.trace(label(), arrivals()[:400]), "block 1 is refused with 1:"),
        ):
            self.assertIn(told, self.report(path, "--sender", "9", "-o", self.out, status=1).stderr)
        self.assertIn("no arrivals, so there is nothing to report", self.report(self.trace(label()), "--sender", "9", status=1).stderr)
        self.assertIn("no arrivals of the source 3", self.report(SCANNERS, "--sender", "9", "--media", "3", status=1).stderr)
        self.assertEqual(self.out.read_text(), "as it was")

    def test_wrong_words(self):
        self.assertIn("say who reports, as: ecn report", self.report(SCANNERS, status=2).stderr)
        for wrong in ("x", "-1", "4294967296", "0x123456789", ""):
            self.assertIn("is no SSRC: that is a whole number", self.report(SCANNERS, f"--sender={wrong}", status=2).stderr)
        self.assertIn("missing: No such file", self.report(self.folder / "missing", "--sender", "9", status=2).stderr)
        self.assertIn("libflasknib.so is not there", self.report(SCANNERS, "--sender", "9", status=2, library=False).stderr)
        self.assertIn("No space left", self.report(SCANNERS, "--sender", "9", "-o", "/dev/full", status=2).stderr)


@needs_library
class Rtcp(Tried):
    def rtcp(self, text, *words, status=0, media="1", **kept):
        return self.ecn("rtcp", "-", "--media", media, *words, status=status, **{"library": True, "input": text, **kept})

    def rows(self, path, media: int, *words, status=0) -> list:
        text = self.ecn("rtcp", path, "--media", str(media), "--csv", *words, status=status, library=True).stdout
        return list(csv.DictReader(io.StringIO(text)))

    def test_captures(self):
        """Of real compounds each report block is the one that tshark shows, beside it in the file."""
        seen = 0
        for name, media in (("gstreamer-avp", 0x12345678), ("gstreamer-avp", 0xF0000001), ("gstreamer-reduced", 0x12345678)):
            path = RECEIVED / f"{name}.tsv"
            rows = self.rows(path, media)
            lines = [line.split("\t") for line in path.read_text().splitlines()]
            self.assertEqual(len(rows), len(lines))
            for row, (payload, types, blocks) in zip(rows, lines):
                wanted = next((block.split(",")[1:] for block in blocks.split() if block.startswith(f"{media},")), [""] * 6)
                self.assertEqual([row[f"report_{each}"] for each in ("fraction", "lost", "highest", "jitter", "lsr", "dlsr")], wanted)
                # GStreamer sends one SR or RR in a compound, in front: its sender stands behind the header.
                self.assertEqual(row["report_reporter"], str(int(payload[8:16], 16)) if wanted[0] else "")
                self.assertEqual(row["sr_or_rr"], str(int("200" in types.split() or "201" in types.split())))
                self.assertEqual(int(row["bytes"]), len(payload) // 2)
                seen += wanted[0] != ""
        self.assertGreater(seen, 300)

    def test_strict(self):
        path = RECEIVED / "gstreamer-reduced.tsv"
        rows = self.rows(path, 1, "--strict", status=1)
        self.assertEqual([row["refused"] for row in rows].count("3"), 951)
        self.assertIn("REFUSED with 3: ", self.ecn("rtcp", path, "--media", "1", "--strict", status=1, library=True).stdout)

    def test_what_a_report_says(self):
        packet = self.ecn("report", SAMPLES / "c1.trace", "--sender", "9", "--compound", library=True).stdout
        text = self.rtcp(packet).stdout
        self.assertEqual(text, "line 1: 40 bytes, with SR or RR\n    ECN feedback: sender 9, highest 65539, ect0 2, ect1 1, ce 2, not-ect 0, lost 2, duplicates 1\n")
        xr = "80c9000100000009" + "80cf000700000009" + C3
        self.assertIn("    ECN summary: ect0 2, ect1 1, ce 2, not-ect 0, lost 2, duplicates 1\n", self.rtcp(xr).stdout)
        self.assertIn("line 1: 40 bytes, with SR or RR, nothing about this source\n", self.rtcp(packet, media="2").stdout)
        parted = [separator.join(packet[at : at + size] for at in range(0, 80, size)) for separator, size in ((":", 2), (" ", 8))]
        for other in (*parted, f"{packet.strip()}\t5\tx", f"0x{packet.upper()}", f'"{packet.strip()}"', f"\n\n{packet}"):
            self.assertEqual(self.rtcp(other).stdout.partition(":")[2], text.partition(":")[2])
        named = f"frame.number\tudp.payload\n5\t{packet.strip()}\n6\t\n7\t{packet.strip()}\n"
        self.assertEqual(self.rtcp(named).stdout.count("ECN feedback"), 2)
        (self.folder / "packet").write_bytes(bytes.fromhex(packet))
        self.assertEqual(self.ecn("rtcp", self.folder / "packet", "--media", "1", library=True).stdout.partition(": ")[2], text.partition(": ")[2])

    @unittest.skipUnless(shutil.which("tshark"), "tshark is not installed")
    def test_from_tshark(self):
        """The line of the command's help, on a capture."""
        packets = [bytes.fromhex("80c9000100000009" + C2)] * 3
        capture.write_pcap(self.folder / "link.pcap", packets)
        fields = ["tshark", "-r", self.folder / "link.pcap", "-d", f"udp.port=={capture.PORT},rtcp", "-Y", "rtcp", "-T", "fields", "-e", "udp.payload"]
        for more in ([], ["-e", "frame.number", "-E", "header=y"]):
            text = subprocess.run([*fields, *more], capture_output=True, text=True, check=True).stdout
            self.assertEqual(self.rtcp(text).stdout.count("ECN feedback: sender 9, highest 65539"), 3)

    def test_each_cut_and_many_changes(self):
        """The refusal of each packet is that of the library, and none ends the run."""
        import flasknib

        packet, draw = bytes.fromhex("80c9000100000009" + C2), random.Random(46)
        given = [packet[:at] for at in range(1, len(packet))]
        for _ in range(400):
            changed = bytearray(packet)
            changed[draw.randrange(len(packet))] ^= 1 << draw.randrange(8)
            given.append(bytes(changed))
        path = self.folder / "hex"
        path.write_text("".join(f"{each.hex()}\n" for each in given))
        for row, data in zip(self.rows(path, 1, status=1), given):
            try:
                flasknib.read_compound(data, 1)
                wanted = ""
            except flasknib.Refused as refused:
                wanted = str(refused.number)
            self.assertEqual(row["refused"], wanted)

    def test_foreign(self):
        self.assertIn("has no packet", self.rtcp("", status=1).stderr)
        self.assertIn("REFUSED with 1: ", self.rtcp("", "--bytes", status=1).stdout)
        self.assertIn("line 2: 'hello' is no packet in hexadecimal", self.rtcp("80c9000100000009\nhello\n", status=1).stderr)
        self.assertIn("'80c' is no packet in hexadecimal", self.rtcp("80c\n", status=1).stderr)
        self.assertIn("1,000,000 bytes or more", self.rtcp("00" * 600000, status=1).stderr)
        self.assertIn("over 65,507 bytes: REFUSED with 10", self.ecn("rtcp", "/dev/zero", "--media", "1", status=1, library=True).stdout)
        self.assertIn("REFUSED with 10", self.rtcp("00" * 65508, status=1).stdout)
        self.assertIn("missing: No such file", self.ecn("rtcp", self.folder / "missing", "--media", "1", status=2, library=True).stderr)
        self.assertIn("Is a directory", self.ecn("rtcp", self.folder, "--media", "1", status=2, library=True).stderr)
        self.assertIn("libflasknib.so is not there", self.rtcp("80", status=2, library=False).stderr)
        self.assertIn("--media", self.ecn("rtcp", "-", status=2, library=True).stderr)


if __name__ == "__main__":
    sys.exit(tools.main(sys.argv[1:], __name__, "ecn report and ecn rtcp"))
