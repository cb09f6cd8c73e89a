"""A link on this computer, tried from outside: RTP of ffmpeg and RTCP of GStreamer through the library, and the library's RTCP
through tshark.

Run, in a clone after make, with ffmpeg, gst-launch-1.0 and tshark on the path and the right to capture on lo (as root):

    PYTHONPATH=python python3 examples/link.py link.pcapng

ffmpeg sends a test picture as RTP. A path here, between two sockets, sets ECN bits, drops, repeats and delays packets; after
some seconds it marks every packet. Two receivers get them: ours, which counts each packet by its number and the ECN bits that
came with it and reports once a second, and GStreamer, whose RTCP knows nothing of ECN. Whatever RTCP comes back goes through
the reader into a breaker for its receiver, and the first that stops ends the sender. At the end tshark counts what it captured
at our receiver, and reads our reports with tools/wireshark/ecn.lua. The status is 0 if it counts as we do.
"""
import collections
import pathlib
import selectors
import shutil
import signal
import socket
import subprocess
import sys
import time
from typing import Callable, Dict, Iterator, List

import flasknib

HERE, SSRC, SENDER, RTT, SIZE = "127.0.0.1", 7, 9, 100, 600  # RTT in ms: the round trip that the breaker is given; loopback has none
CALM, MOST = 6.0, 20.0  # seconds until every packet is marked, and until the picture ends
DISSECTOR = pathlib.Path(__file__).resolve().parent.parent / "tools/wireshark/ecn.lua"


def opened(port: int = 0) -> socket.socket:
    here = socket.socket(socket.AF_INET, socket.SOCK_DGRAM)
    here.setsockopt(socket.IPPROTO_IP, socket.IP_RECVTOS, 1)
    here.bind((HERE, port))
    return here


def free_port() -> int:
    with opened() as here:
        return here.getsockname()[1]


class Path:
    """What the network does: it marks, drops, repeats and delays by a packet's place in the stream."""

    def __init__(self, out: socket.socket, receivers: List[tuple]) -> None:
        self.out, self.receivers, self.count, self.held = out, receivers, 0, b""

    def send(self, packet: bytes, mark: int) -> None:
        self.out.setsockopt(socket.IPPROTO_IP, socket.IP_TOS, mark)
        for receiver in self.receivers:
            self.out.sendto(packet, receiver)

    def carry(self, packet: bytes, calm: bool) -> None:
        self.count += 1
        mark = flasknib.Mark.CE if not calm or self.count % 8 == 3 else flasknib.Mark.ECT0
        mark = {30: flasknib.Mark.ECT1, 50: flasknib.Mark.NOT_ECT}.get(self.count % 60, mark) if calm else mark
        if self.count % 200 == 17:
            return
        if self.count % 90 == 60:
            self.held = packet
            return
        for _ in range(2 if self.count % 70 == 35 else 1):
            self.send(packet, mark)
        if self.held:
            self.held = self.send(self.held, mark) or b""


class Link:
    """Sender's side, path and our receiver, in one loop."""

    def __init__(self, theirs: int, theirs_rtcp: int) -> None:
        self.media, self.rtcp, self.out, self.control, self.ours, self.back = (opened() for _ in range(6))
        self.path = Path(self.out, [self.ours.getsockname(), (HERE, theirs)])
        self.reports = [self.back.getsockname(), (HERE, theirs_rtcp)]  # where the sender's RTCP goes
        self.sources, self.began, self.sent = flasknib.Sources(), time.monotonic(), collections.deque()
        self.breakers = {name: flasknib.Breaker(0) for name in ("ours", "GStreamer")}
        self.answers: Dict[str, collections.Counter] = {name: collections.Counter() for name in self.breakers}
        self.stopped = ""
        self.loop = selectors.DefaultSelector()
        for each, act in ((self.media, self.carry), (self.rtcp, self.forward), (self.ours, self.arrive), (self.back, self.heard), (self.control, self.answer)):
            self.loop.register(each, selectors.EVENT_READ, act)

    def now(self) -> float:
        return time.monotonic() - self.began

    def carry(self, packet: bytes, *_) -> None:
        self.sent.append((self.now(), len(packet)))
        self.path.carry(packet, self.now() < CALM)

    def forward(self, packet: bytes, *_) -> None:
        for receiver in self.reports:
            self.control.sendto(packet, receiver)

    def arrive(self, packet: bytes, mark: int, _) -> None:
        """A packet at our receiver: its number and SSRC from the RTP header, its mark from the IP header."""
        self.sources.arrive(int.from_bytes(packet[8:12], "big"), int.from_bytes(packet[2:4], "big"), mark)

    def heard(self, packet: bytes, *_) -> None:
        """The sender's own report, at our receiver: it is read as any other."""
        self.answers["ours"]["sender reports read"] += flasknib.read_compound(packet, SSRC).sr_or_rr

    def rate(self) -> int:
        while self.sent and self.sent[0][0] < self.now() - 1:
            self.sent.popleft()
        return sum(size for _, size in self.sent)

    def answer(self, packet: bytes, _, address: tuple) -> None:
        """RTCP that comes back: through the reader into the receiver's breaker."""
        name, at = "ours" if address == self.back.getsockname() else "GStreamer", int(1000 * self.now())
        try:
            found = flasknib.read_compound(packet, SSRC)
            answer = self.breakers[name].compound(found, at, RTT, SIZE, self.rate())
        except flasknib.Refused as refused:
            self.answers[name][f"refused {refused.number}"] += 1
            return
        self.answers[name][answer.name] += 1
        if found.feedback:
            print(f"{at / 1000:6.2f} s  ours: ECN feedback, highest {found.feedback.highest} CE {found.feedback.ce} lost {found.feedback.lost}: {answer.name}")
        elif found.report:
            print(f"{at / 1000:6.2f} s  GStreamer: report block, highest {found.report.highest} lost {found.report.lost}: {answer.name}")
        if answer.stop and not self.stopped:
            self.stopped = f"{name}, {answer.name}"

    def run(self, goes_on: Callable[[], bool], stop: Callable[[], None]) -> None:
        """Until the sender has ended or a breaker stops it, and half a second more for what is on the way."""
        due, end = 1.0, None
        while end is None or self.now() < end:
            for key, _ in self.loop.select(0.05):
                packet, told, _, address = key.fileobj.recvmsg(2048, 64)
                key.data(packet, told[0][2][0] & 3 if told else 0, address)
            if end is None and (self.stopped or not goes_on()):
                stop()
                end = self.now() + 0.5
            if end is None and self.now() >= due:
                due += 1
                self.back.sendto(self.sources.compound(SENDER), self.control.getsockname())
        self.back.sendto(self.sources.compound(SENDER), self.control.getsockname())


# ---- the tools of others


def started(words: List[str], **more) -> subprocess.Popen:
    return subprocess.Popen(words, stdin=subprocess.DEVNULL, stdout=subprocess.DEVNULL, **more)


def ended(process: subprocess.Popen) -> None:
    """Asks a process to end, and after two seconds makes it: one that waits for packets may not hear the first."""
    process.send_signal(signal.SIGINT)
    try:
        process.wait(2)
    except subprocess.TimeoutExpired:
        process.kill()
        process.wait()


def sending(link: Link) -> List[str]:
    to = f"rtp://{HERE}:{link.media.getsockname()[1]}?rtcpport={link.rtcp.getsockname()[1]}&pkt_size={SIZE}"
    words = ["ffmpeg", "-v", "error", "-re", "-f", "lavfi", "-i", "testsrc2=size=640x480:rate=25", "-t", str(MOST), "-c:v", "mpeg4"]
    return [*words, "-b:v", "1M", "-minrate", "1M", "-maxrate", "1M", "-bufsize", "200k", "-ssrc", str(SSRC), "-seq", "65000", "-f", "rtp", to]


def receiving(link: Link, theirs: int, theirs_rtcp: int) -> List[str]:
    """GStreamer's RTP session, which reports to us about once a second and drops the picture."""
    caps = "application/x-rtp,media=video,clock-rate=90000,encoding-name=MP4V-ES,payload=96"
    words = f"gst-launch-1.0 -q rtpsession name=session rtcp-min-interval=1000000000 udpsrc port={theirs} caps={caps}"
    words += f" ! session.recv_rtp_sink session.recv_rtp_src ! fakesink sync=false udpsrc port={theirs_rtcp} ! session.recv_rtcp_sink"
    return f"{words} session.send_rtcp_src ! udpsink host={HERE} port={link.control.getsockname()[1]} sync=false async=false".split()


def shown(capture: str, link: Link, wanted: str, fields: List[str]) -> Iterator[List[str]]:
    """The fields of the packets of a capture that tshark shows."""
    ports = {link.ours: "rtp", link.control: "rtcp", link.back: "rtcp"}
    decode = [word for each, kind in ports.items() for word in ("-d", f"udp.port=={each.getsockname()[1]},{kind}")]
    words = ["tshark", "-X", f"lua_script:{DISSECTOR}", "-r", capture, *decode, "-Y", wanted, "-T", "fields"]
    ran = subprocess.run([*words, *(word for field in fields for word in ("-e", field))], capture_output=True, check=True, text=True)
    return (line.split("\t") for line in ran.stdout.splitlines())


# ---- the comparison


def counted(capture: str, link: Link) -> Dict[str, int]:
    """What tshark counts at our receiver's port: packets by ECN bits, and their sequence numbers."""
    rows = list(shown(capture, link, f"rtp && udp.dstport == {link.ours.getsockname()[1]}", ["rtp.seq", "ip.dsfield.ecn"]))
    marks, numbers = collections.Counter(int(mark) for _, mark in rows), [int(number) for number, _ in rows]
    found = {"packets": len(rows), "ect0": marks[2], "ect1": marks[1], "ce": marks[3], "not_ect": marks[0]}
    different = {(number - numbers[0]) % 65536 for number in numbers}  # the stream has fewer packets than one wrap
    return {**found, "lost": max(different) + 1 - len(different), "duplicates": len(rows) - len(different), "highest": max(different)}


def compare(capture: str, link: Link) -> bool:
    (ssrc, source), *others = list(link.sources)
    names = ["ect0", "ect1", "ce", "not_ect", "lost", "duplicates"]
    ours = {name: getattr(source, name) for name in names}
    ours = {"packets": sum(ours[name] for name in names[:4]), **ours, "highest": source.highest - source.base}
    fields = ["highest", "ect0", "ect1", "ce", "not_ect", "lost", "duplication"]
    reports = list(shown(capture, link, "rtpecn.feedback", [f"rtpecn.{name}" for name in ["media_source", *fields]]))
    last = dict(zip(["ssrc", "highest", *names], (int(value, 0) for value in reports[-1])))
    read = {**last, "packets": sum(last[name] for name in names[:4]), "highest": last["highest"] - source.base}
    theirs = counted(capture, link)
    print(f"\nsource {ssrc}      {'our receiver':>14}{'tshark, RTP':>14}{'tshark, our last report':>26}")
    for name in ours:
        print(f"{name:14}{ours[name]:>14}{theirs[name]:>14}{read[name]:>26}")
    print(f"tshark shows {len(reports)} of our reports; highest is counted from the first number, {source.base}")
    return not others and ours == theirs == {name: read[name] for name in ours}


def main(capture: str) -> int:
    for tool in ("ffmpeg", "gst-launch-1.0", "tshark"):
        if not shutil.which(tool):
            sys.exit(f"link.py: {tool} is not on the path")
    theirs = free_port(), free_port()
    link = Link(*theirs)
    ports = " or ".join(f"port {each.getsockname()[1]}" for each in (link.ours, link.back, link.control))
    watching = started(["tshark", "-q", "-i", "lo", "-f", f"udp and ({ports})", "-w", capture], stderr=subprocess.DEVNULL)
    receiver = started(receiving(link, *theirs))
    time.sleep(3)  # until both are ready
    sender = started(sending(link))
    try:
        link.began = time.monotonic()
        link.run(lambda: sender.poll() is None, lambda: ended(sender))
    finally:
        ended(sender)
        ended(receiver)
        time.sleep(1)  # until tshark has the last report
        ended(watching)
    print("stopped by", link.stopped or "nobody")
    for name, answers in link.answers.items():
        print(f"RTCP of {name}:", ", ".join(f"{count} {what}" for what, count in sorted(answers.items())))
    if not pathlib.Path(capture).exists():
        sys.exit(f"link.py: tshark wrote no {capture}: it needs the right to capture on lo, and to write there")
    same = compare(capture, link)
    print("the counts are the same" if same else "the counts differ")
    return 0 if same else 1


if __name__ == "__main__":
    sys.exit(main(*sys.argv[1:]) if len(sys.argv) == 2 else "usage: link.py CAPTURE")
