"""ecn_make.py [NAME..]: ecn make on the columns of others: tshark's fields, seconds, SSRCs in hexadecimal, the table's marks. If tshark is
installed it reads captures of IPv4 and IPv6 that are written here. The last line is 'N passed, M failed'."""
import random
import re
import shutil
import struct
import subprocess
import sys
import unittest

import tools
from tools import BIN, TOP, Tried, needs_library

PORT = 5004
SOURCES = (0xF0000001, 0x12345678)
TSHARK = shutil.which("tshark")


def checksum(header: bytes) -> int:
    total = sum(struct.unpack(f"!{len(header) // 2}H", header))
    while total > 0xFFFF:
        total = (total & 0xFFFF) + (total >> 16)
    return 0xFFFF - total


def in_udp(payload: bytes, source: bytes, target: bytes) -> bytes:
    size = 8 + len(payload)
    ports = struct.pack("!HHH", PORT, PORT, size)
    padded = payload + bytes(len(payload) % 2)
    check = checksum(source + target + struct.pack("!HH", 17, size) + ports + bytes(2) + padded)
    return ports + struct.pack("!H", check or 0xFFFF) + payload


def over_ipv4(payload: bytes, mark: int) -> bytes:
    """Between documentation addresses (RFC 5737); the other six bits of the byte are set, to be told from the mark."""
    source, target = bytes([192, 0, 2, 1]), bytes([192, 0, 2, 2])
    packet = in_udp(payload, source, target)
    header = struct.pack("!BBHHHBBH", 0x45, 0xB8 | mark, 20 + len(packet), 0, 0, 64, 17, 0) + source + target
    return header[:10] + struct.pack("!H", checksum(header)) + header[12:] + packet


def over_ipv6(payload: bytes, mark: int) -> bytes:
    """Between documentation addresses (RFC 3849)."""
    source, target = (bytes.fromhex("20010db8") + bytes(11) + bytes([last]) for last in (1, 2))
    packet = in_udp(payload, source, target)
    return struct.pack("!IHBB", 6 << 28 | (0xB8 | mark) << 20 | 0x12345, len(packet), 17, 64) + source + target + packet


def capture(path, arrivals: list) -> None:
    """A pcap file with times in nanoseconds: (ns, number, mark, ssrc, how it is carried) of each packet."""
    with open(path, "wb") as file:
        file.write(struct.pack("!IHHiIII", 0xA1B23C4D, 2, 4, 0, 0, 65535, 101))
        for time, number, mark, ssrc, carried in arrivals:
            packet = carried(struct.pack("!BBHII", 0x80, 96, number, time // 1000 % 2**32, ssrc) + bytes(20), mark)
            file.write(struct.pack("!IIII", *divmod(time, 10**9), len(packet), len(packet)) + packet)


def drawn(count: int, carriers: tuple, seed: int) -> list:
    draw, start = random.Random(seed), 1_700_000_000 * 10**9
    return [(start + 20_400_000 * n + draw.randrange(10**6), (65000 + n // 2) % 65536, draw.randrange(4), SOURCES[n % 2], draw.choice(carriers)) for n in range(count)]


@needs_library
class Made(Tried):
    def make(self, text, *words, status=0, **kept):
        return self.ecn("make", "-", *words, "-o", self.folder / "made.trace", status=status, **{"library": True, "input": text, **kept})

    def rows(self) -> list:
        """(time, number, mark, ssrc) of each record, by source and in order."""
        text = self.ecn("records", self.folder / "made.trace", library=True).stdout
        return sorted(([int(each) for each in line.split(",")[1:]] for line in text.splitlines()[1:]), key=lambda row: row[3])


class Columns(Made):
    def test_names_of_others(self):
        wanted = [[12345, 7, 2, 255], [12346, 8, 0, 255]]
        for text in (
            "time,number,mark,ssrc\n12345,7,ect0,255\n12346,8,notect,0xff\n",
            "seconds;number;mark;ssrc\n12.345;7;ECT0;0xFF\n12.346999;8;NotECT;0x000000ff\n",
            "frame.time_relative\trtp.seq\trtp.ssrc\tip.dsfield.ecn\tipv6.tclass.ecn\n12.345678901\t7\t0xff\t2\t\n12.346\t8\t0xff\t\t0x00\n",
            "rtp.ssrc,frame.time_relative,frame.len,number,mark\n255,12.345,99,7,0x02\n255,12.346,9,8,not-ECT\n",
        ):
            self.make(text)
            self.assertEqual(self.rows(), wanted)

    def test_seconds(self):
        for text, time in (("0", 0), ("5", 5000), ("5.", 5000), ("5.1", 5100), ("5.12", 5120), ("5.0019999999", 5001), ("4294967.295999999", 2**32 - 1)):
            self.make(f"seconds,number,mark\n{text},1,2\n", "--ssrc", "1")
            self.assertEqual(self.rows()[0][0], time)

    def test_form_2_is_said_to_be_needed(self):
        text = "frame.time_epoch,number,mark\n1700000000.123456,1,2\n"
        told = "line 2: frame.time_epoch '1700000000.123456' is 2^32 ms (49 days) or more and has no place in form 1: add --form 2"
        self.assertIn(told, self.make(text, "--ssrc", "1", status=1).stderr)
        self.make(text, "--ssrc", "1", "--form", "2")
        self.assertEqual(self.rows()[0][0], 1700000000123)

    def test_wrong_rows(self):
        head = "frame.time_relative,rtp.seq,rtp.ssrc,ip.dsfield.ecn,ipv6.tclass.ecn\n"
        for text, words, told in (
            (head + "0.1,,0x1,2,\n", [], "line 2: rtp.seq is empty, so this is no RTP packet over IP; -Y rtp in tshark's line leaves out others"),
            (head + "0.1,5,0x1,,\n", [], "ip.dsfield.ecn is empty"),
            (head + "0.1,5,0x1,2,2\n", [], "one thing stands in the column ip.dsfield.ecn and in the column ipv6.tclass.ecn; leave out one"),
            (head.replace(",", "\t") + "0.1\t5\t0x1\t0,2\t\n", [], "ip.dsfield.ecn has several values, as in a tunnel; -E occurrence=l"),
            (head + "0.1,5,0x123456789,2,\n", [], "rtp.ssrc '0x123456789' is no whole number from 0 to 4294967295, nor 0x"),
            (head + "Jan 5,5,0x1,2,\n", [], "frame.time_relative 'Jan 5' is no number of seconds, as 12.345"),
            (head + "-0.1,5,0x1,2,\n", [], "frame.time_relative '-0.1' is no number of seconds"),
            (head + "0.1,5,0x1,4,\n", [], "ip.dsfield.ecn '4' is not 0 to 3, nor one of not-ECT, ECT(1), ECT(0), CE, notect, ect1, ect0"),
            (head, ["--ssrc", "1"], "give the source once, by a column rtp.ssrc or by --ssrc"),
            ("time,seconds,number,mark\n1,1,1,1\n", ["--ssrc", "1"], "one thing stands in the column time and in the column seconds"),
            ("rtp.seq,mark\n", ["--ssrc", "1"], "no column time"),
            ("frame.time_relative,rtp.seq,rtp.seq,mark\n", ["--ssrc", "1"], "more than one column rtp.seq"),
            (f"time,number,mark\n{2**48},1,2\n", ["--ssrc", "1", "--form", "2"], "is no time below 2^48 ms"),
            (f"time,number,mark\n{'9' * 30},1,2\n", ["--ssrc", "1"], "is no whole number from 0 to"),
            ("x" * 200000, ["--ssrc", "1"], "line 1 has 100,000 characters or more: this is no file of rows"),
        ):
            self.assertIn(told, self.make(text, *words, status=1).stderr)
        self.alone()
        for wrong in ("-1", "4294967296", "0x", "one"):
            self.assertIn("is no SSRC: that is a whole number from 0", self.make("", f"--ssrc={wrong}", status=2).stderr)
        self.assertIn("this is no text in UTF-8", self.ecn("make", sys.executable, "--ssrc", "1", "-o", self.out, status=1, library=True).stderr)
        self.assertIn("100,000 characters or more", self.ecn("make", "/dev/zero", "--ssrc", "1", "-o", self.out, status=1, library=True).stderr)


@unittest.skipUnless(TSHARK, "tshark is not installed")
class Captures(Made):
    """The line of docs/TRACE.md, "From a capture", as it is printed there."""

    def piped(self, arrivals: list) -> list:
        capture(self.folder / "ward3.pcap", arrivals)
        page = (TOP / "docs/TRACE.md").read_text().partition("## From a capture")[2]
        line = re.search(r"(?m)^    (tshark (?:.*\\\n)*.*)$", page)[1]
        self.assertIn("| tools/ecn make - ", line)
        environment = tools.OURS | {"FLASKNIB_LIBRARY": str(tools.SHARED), "PATH": f"/usr/sbin:/usr/bin:/bin:{BIN}"}
        line = line.replace("tools/ecn ", f"'{sys.executable}' '{tools.ECN}' ")
        ran = subprocess.run(["sh", "-c", line], cwd=self.folder, env=environment, capture_output=True, text=True, timeout=tools.LONG)
        self.assertEqual(ran.returncode, 0, ran.stderr)
        (self.folder / "ward3.trace").rename(self.folder / "made.trace")
        return self.rows()

    def wanted(self, arrivals: list) -> list:
        start = arrivals[0][0]
        return sorted(([(time - start) // 10**6, number, mark, ssrc] for time, number, mark, ssrc, _ in arrivals), key=lambda row: row[3])

    def test_ipv4_and_ipv6(self):
        for carriers in ((over_ipv4,), (over_ipv6,), (over_ipv4, over_ipv6)):
            arrivals = drawn(300, carriers, 47)
            self.assertEqual(self.piped(arrivals), self.wanted(arrivals))


if __name__ == "__main__":
    sys.exit(tools.main(sys.argv[1:], __name__, "ecn make on the columns of others"))
