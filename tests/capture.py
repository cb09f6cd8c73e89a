"""capture.py LINES PCAP: reports that the library wrote, sent over UDP in a capture file, read by tshark where it is installed.

Each line has a compound (RR, ECN feedback, XR with an ECN summary block) in hexadecimal, its sender SSRC and its media SSRC.
"""
import itertools
import shutil
import struct
import subprocess
import sys

PORT = 5005
RR_SSRC = 7  # also the XR packet's


def udp(payload):
    """The payload in UDP (no checksum) over IPv4, between documentation addresses (RFC 5737)."""
    header = struct.pack("!BBHHHBBH4s4s", 0x45, 0, 28 + len(payload), 0, 0, 64, 17, 0, bytes([192, 0, 2, 1]), bytes([192, 0, 2, 2]))
    total = sum(struct.unpack("!10H", header))
    total = (total & 0xFFFF) + (total >> 16)
    header = header[:10] + struct.pack("!H", 0xFFFF - total) + header[12:]
    return header + struct.pack("!HHHH", PORT, PORT, 8 + len(payload), 0) + payload


def write_pcap(path, payloads, captured=()):
    """Link type 101: each packet begins with its IP header. Of the first packets so many bytes are captured, of the others all."""
    with open(path, "wb") as file:
        file.write(struct.pack("!IHHiIII", 0xA1B2C3D4, 2, 4, 0, 0, 65535, 101))
        for second, (packet, most) in enumerate(itertools.zip_longest(map(udp, payloads), captured)):
            there = packet[:most]
            file.write(struct.pack("!IIII", second, 0, len(there), len(packet)) + there)


def tshark(*words):
    return subprocess.run(["tshark", *words], capture_output=True, check=True, text=True).stdout.splitlines()


def packets(path, *words):
    """What tshark shows of the capture, read as RTCP."""
    return tshark("-r", path, "-d", f"udp.port=={PORT},rtcp", *words)


def expected(sender, media):
    return {
        "rtcp.pt": [201, 205, 207],
        "rtcp.length": [1, 7, 7],
        "rtcp.rtpfb.fmt": [8],
        "rtcp.senderssrc": [RR_SSRC, sender, RR_SSRC],
        "rtcp.mediassrc": [media],
        "rtcp.xr.bt": [13],
        "rtcp.xr.bl": [5],
    }


def compare(path, wanted):
    """Gives the fields that tshark names and shows; each has the values that were written."""
    known = {line.split("\t")[2] for line in tshark("-G", "fields") if line.startswith("F\t")}
    names = [name for name in wanted[0] if name in known]
    words = [word for name in names for word in ("-e", name)]
    rows = packets(path, "-T", "fields", "-E", "occurrence=a", "-E", "aggregator=,", "-E", "separator=|", *words)
    if len(rows) != len(wanted):
        sys.exit(f"capture: FAILED, tshark shows {len(rows)} packets of {len(wanted)}")
    shown = set()
    for number, (row, fields) in enumerate(zip(rows, wanted), 1):
        for name, text in zip(names, row.split("|")):
            if text and [int(value, 0) for value in text.split(",")] != fields[name]:
                sys.exit(f"capture: FAILED, packet {number}: {name} is {text}, not {fields[name]}")
            shown.update([name] if text else [])
    if "rtcp.pt" not in shown:
        sys.exit("capture: FAILED, tshark shows no RTCP packet types")
    return sorted(shown)


def main(lines, path):
    written = [line.split() for line in open(lines)]
    write_pcap(path, [bytes.fromhex(compound) for compound, _, _ in written])
    if shutil.which("tshark") is None:
        print(f"capture: {len(written)} compounds written; SKIPPED, tshark is not installed, nothing read them")
        return
    marked = packets(path, "-Y", "_ws.malformed")
    if marked:
        sys.exit(f"capture: FAILED, tshark marks {len(marked)} packets as malformed: {marked[0]}")
    shown = compare(path, [expected(int(sender), int(media)) for _, sender, media in written])
    print(f"capture: {len(written)} compounds, tshark marks none as malformed and shows what was written in {', '.join(shown)}")


if __name__ == "__main__":
    main(*sys.argv[1:])
