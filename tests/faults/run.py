"""run.py BIN FAULTS.so FOLDER: the programs in BIN if a read or a write fails, is interrupted, is not ready or moves few bytes, and if a trace comes bit by bit.

A trace of 800 arrivals blocks, and for ecnlabel and ecnsalvage of 1,150; that of ecnsalvage has damaged ones. If the calls can be made again, both outputs
are those of an undisturbed run: on standard error the number of ecnlabel, the list of ecnsalvage, and else nothing. If a read fails, the output is that of
the whole blocks before it, and `refused 1 block I` follows, on standard output by ecntable and ecnstreams and on standard error by the others; if a write
fails, standard output is cut off. Both say so in one line on standard error, and then ecnlabel prints no number. If a trace comes through a pipe, what its
whole blocks give is there before the next bytes are sent. dd copies a file of which reads fail, and ecnsalvage takes the image. Each check that does not hold
is printed; the last line says how many runs there were.
"""
import errno
import functools
import itertools
import os
import pathlib
import resource
import select
import signal
import struct
import subprocess
import sys
import threading
import time

BLOCK = 512
LABEL = b"ward 3, bed 12: " + b"x" * 300
# By form: the records of a full block, and how the first part of one, its time, is packed
FORMS = {1: (62, lambda time: struct.pack(">I", time)), 2: (50, lambda time: struct.pack(">HI", time >> 32, time & 0xFFFFFFFF))}


def block(kind, count, ssrc, body):
    """A block of document 01: kind, count, SSRC, body, and the word that makes the ones' complement sum 65,535."""
    data = struct.pack(">HHI", kind, count, ssrc) + body.ljust(502, b"\0")
    total = sum(struct.unpack(">255H", data))
    while total > 0xFFFF:
        total = (total & 0xFFFF) + (total >> 16)
    return data + struct.pack(">H", 0xFFFF - total)


@functools.lru_cache(maxsize=64)
def trace(form, records, ssrcs=(7,), label=LABEL):
    """A trace of so many records, each block full but perhaps the last; the blocks have these SSRCs in turn."""
    most, packed_time = FORMS[form]
    blocks = [block(2 * form - 1, len(label), ssrcs[0], label)]
    for first in range(0, records, most):
        numbers = range(first, min(first + most, records))
        body = (packed_time(20 * n) + struct.pack(">HBB", n % 65536, n % 4, 0) for n in numbers)
        blocks.append(block(2 * form, len(numbers), ssrcs[len(blocks) % len(ssrcs)], b"".join(body)))
    return b"".join(blocks)


class Ecntable:
    """What is printed behind so many whole blocks, and where a read fails there."""

    name, form, usage = "ecntable", 1, b"usage: ecntable <TRACE >TABLE\n"
    # What stands on standard error after an undisturbed run.
    told = b""
    # How many blocks the trace has.
    blocks = 801
    # How many blocks are read at a time behind block 0; a write that brings more than 1,000 bytes, and what those before it bring; the last.
    piece, write, before, last = 256, 1, 0, 2
    # Reads of at most 700 bytes that fail before anything is printed, and the whole blocks before each.
    early = ((20, 25),)
    ssrcs, label = (7,), LABEL

    def given(self):
        """The trace."""
        return trace(self.form, (self.blocks - 1) * FORMS[self.form][0], self.ssrcs, self.label)

    def learn(self, table):
        self.rows = table.splitlines(keepends=True)

    def printed(self, whole):
        return b"".join(self.rows[: max(whole, 1)])

    def unread(self, whole):
        return self.printed(whole) + b"refused 1 block %d\r\n" % whole, b""

    def sent(self, whole):
        """What is printed before more than so many whole blocks have come."""
        return self.printed(whole) if whole else b""


class Ecnforms(Ecntable):
    name, usage, told = "ecnforms", b"usage: ecnforms <TRACE >TRACE\n", b""
    piece, write, before, last = 256, 2, 512 * BLOCK, 2
    def __init__(self, form):
        self.form = form

    def learn(self, converted):
        pass

    def printed(self, whole):
        return trace(3 - self.form, (whole - 1) * FORMS[self.form][0]) if whole else b""

    def unread(self, whole):
        return self.printed(whole), b"refused 1 block %d\r\n" % whole

    def sent(self, whole):
        """A block of the other form is there when it is full."""
        ours, other = FORMS[self.form][0], FORMS[3 - self.form][0]
        return trace(3 - self.form, (whole - 1) * ours // other * other) if whole else b""


class Ecnlabel(Ecnforms):
    """Block 0 is a write of its own, and so is what each read gives."""

    name, usage, told = "ecnlabel", b"usage: ecnlabel <TRACE >TRACE\n", b"3\r\n"
    blocks, piece = 1_151, 1_024
    write, before, last, early = 2, BLOCK, 2, ()
    label = LABEL[:100] + b"\r\n" + LABEL[100:] + b"\n"

    def printed(self, whole):
        spaced = self.label.replace(b"\r", b" ").replace(b"\n", b" ")
        return trace(self.form, (whole - 1) * FORMS[self.form][0], label=spaced) if whole else b""

    sent = Ecntable.sent


class Ecnsalvage(Ecnforms):
    """A byte of these blocks is changed: single ones, two in a row, and those around the ends of pieces. A list that is short is printed at the end, so that
    nothing of it stands before a write that fails."""

    name, usage = "ecnsalvage", b"usage: ecnsalvage <TRACE >TRACE\n"
    blocks, piece = 1_151, 1_024
    write, before, last, early = 2, BLOCK, 2, ()
    DAMAGED = (30, 100, 101, 400, 512, 513, 1_023, 1_024, 1_025, 1_026, 1_150)
    sent = Ecntable.sent

    def lines(self, numbers):
        return b"".join(b"refused 13 block %d\r\n" % number for number in numbers)

    @property
    def told(self):
        return self.lines(self.DAMAGED)

    def given(self):
        data = bytearray(super().given())
        for number in self.DAMAGED:
            data[BLOCK * number + 100] ^= 1
        return bytes(data)

    def printed(self, whole):
        data = self.given()
        return b"".join(data[BLOCK * number : BLOCK * (number + 1)] for number in range(whole) if number not in self.DAMAGED)

    def unread(self, whole):
        return self.printed(whole), self.lines(number for number in self.DAMAGED if number < whole) + b"refused 1 block %d\r\n" % whole


class Ecnstreams(Ecntable):
    """Rows come behind the last block alone."""

    name, usage = "ecnstreams", b"usage: ecnstreams <TRACE >TABLE\n"
    last, ssrcs = 1, tuple(range(100, 116))

    def printed(self, whole):
        return b"".join(self.rows if whole == self.blocks else self.rows[:1])

    def unread(self, whole):
        return self.printed(0) + b"refused 1 block %d\r\n" % whole, b""


class Tried:
    """The runs of a program on a trace, and the checks that did not hold."""

    def __init__(self, program, path, library, folder):
        self.program, self.command, self.library = program, os.path.abspath(path), os.path.abspath(library)
        self.path, self.out = pathlib.Path(folder, "faults.trace"), pathlib.Path(folder, "faults.out")
        self.path.write_bytes(program.given())
        self.runs, self.wrong = 0, []
        self.whole, told = self.run("undisturbed")
        program.learn(self.whole)
        self.hold("undisturbed", self.whole, told, program.printed(program.blocks), program.told)
        if len(self.whole) < 5_000 or b"refused" in self.whole:
            self.wrong.append("undisturbed: not the whole trace")

    def run(self, name, faults="", words=(), **kept):
        """Standard output and error of a run; a file as standard input and a pipe as output unless the caller says otherwise."""
        self.runs += 1
        with open(self.path, "rb") as opened:
            options = dict(dict(stdin=opened, stdout=subprocess.PIPE, stderr=subprocess.PIPE), **self.preloaded(faults), **kept)
            with subprocess.Popen([self.command, *words], **options) as child:
                try:
                    out, told = child.communicate(timeout=30)
                except subprocess.TimeoutExpired:
                    child.kill()
                    self.wrong.append(f"{name}: it does not end")
                    return b"", b""
            if words and opened.tell() != 0:
                self.wrong.append(f"{name}: {opened.tell()} bytes were read")
        if child.returncode != 0:
            self.wrong.append(f"{name}: ends with status {child.returncode}")
        return out, told

    def preloaded(self, faults):
        """How a program is started with faults. The loader parts its list at spaces and colons: the library is named from its own folder."""
        folder, library = os.path.split(self.library)
        return dict(cwd=folder, env=dict(os.environ, LC_ALL="C", LD_PRELOAD=os.path.join(os.curdir, library), FAULTS=faults))

    def hold(self, name, out, told, wanted, line):
        if out != wanted:
            self.wrong.append(f"{self.program.name}, {name}: {len(out)} bytes in place of {len(wanted)}, or others")
        if told != line:
            self.wrong.append(f"{self.program.name}, {name}: on standard error {told[-300:]!r} in place of {line[-300:]!r}")

    def told(self, what, error):
        return f"{self.program.name}: {what}: {os.strerror(error)}\n".encode()

    def same(self, name, faults="", **kept):
        self.hold(name, *self.run(name, faults, **kept), self.whole, self.program.told)

    def read_fails(self, name, whole, error, faults="", **kept):
        """A read fails behind so many whole blocks."""
        out, refused = self.program.unread(whole)
        self.hold(name, *self.run(name, faults, **kept), out, refused + self.told("reading standard input", error))

    def write_fails(self, name, size, error, faults="", **kept):
        """A write fails behind so many bytes of the output."""
        out, line = self.run(name, faults, **kept)
        self.hold(name, self.whole[:size] if out is None else out, line, self.whole[:size], self.told("writing standard output", error))


def injected_reads(tried):
    for again in (errno.EINTR, errno.EAGAIN):
        for call in (1, 2, 3, 5):
            tried.same(f"read {call} gives errno {again} five times", f"read fail {call} {again} 5")
    for call in (1, 3):
        tried.same(f"from read {call} on nothing is there for 0.3 s", f"read wait {call} {errno.EAGAIN} 300")
    for size in (1, 511, 700):
        tried.same(f"each read brings at most {size} bytes", f"read short 1 0 {size}")
    tried.same("short reads, interrupted and not ready", f"read short 1 0 700; read fail 9 {errno.EINTR} 3; read wait 30 {errno.EAGAIN} 50")
    piece, blocks = tried.program.piece, tried.program.blocks
    for call, whole in enumerate([0, *range(1, blocks, piece), blocks], 1):
        for error in (errno.EIO, errno.EISDIR):
            tried.read_fails(f"read {call} fails with errno {error}", whole, error, f"read fail {call} {error} 1")
    tried.read_fails("read 20 of 700 bytes fails", (BLOCK + 18 * 700) // BLOCK, errno.EIO, f"read short 1 0 700; read fail 20 {errno.EIO} 1")
    tried.read_fails("interrupted, and then it fails", min(1 + piece, blocks), errno.EIO, f"read fail 3 {errno.EINTR} 2; read fail 5 {errno.EIO} 1")


def injected_writes(tried):
    for again in (errno.EINTR, errno.EAGAIN):
        for call in (1, 2):
            tried.same(f"write {call} gives errno {again} five times", f"write fail {call} {again} 5")
    tried.same("write 2 is not taken for 0.3 s", f"write wait 2 {errno.EAGAIN} 300")
    for size in (1, 700):
        tried.same(f"each write takes at most {size} bytes", f"write short 1 0 {size}")
    for error in (errno.ENOSPC, errno.EIO):
        tried.write_fails(f"write 1 fails with errno {error}", 0, error, f"write fail 1 {error} 1")
        size, call = tried.program.before + 1000, tried.program.write
        tried.write_fails(f"a write fails with errno {error} behind {size} bytes", size, error, f"write cut {call} {error} 1000")
    both_fail(tried)
    out, line = tried.run("no write takes anything", f"write zero {tried.program.last} 0 0")
    if not tried.whole.startswith(out) or line.count(b"\n") != 1 or not line.startswith(f"{tried.program.name}: writing standard output: ".encode()):
        tried.wrong.append(f"no write takes anything: {len(out)} bytes, on standard error {line!r}")


def both_fail(tried):
    """A read fails behind whole blocks of its piece, and then the write of what they give: each is told with its own error."""
    program = tried.program
    for call, whole in program.early:
        name = f"read {call} and then a write fails"
        faults = f"read short 1 0 700; read fail {call} {errno.EIO} 1; write fail 1 {errno.ENOSPC} 1"
        line = program.unread(whole)[1] + tried.told("reading standard input", errno.EIO) + tried.told("writing standard output", errno.ENOSPC)
        tried.hold(name, *tried.run(name, faults), b"", line)


def copies_fail(tried):
    """What the blocks of each read give is written before the next: reads 2 to 19 bring 700 bytes, and writes 2 to 19 follow them. If the last of these is
    interrupted or not ready, and then a read fails, the read is told with its own error. If it fails, nothing more is read."""
    call, whole = 20, 25
    for again in (errno.EINTR, errno.EAGAIN):
        faults = f"read short 1 0 700; read fail {call} {errno.EIO} 1; write fail {call - 1} {again} 2"
        tried.read_fails(f"a write gives errno {again} twice, and then a read fails", whole, errno.EIO, faults)
    faults = f"read short 1 0 700; read fail {call} {errno.EIO} 1; write fail {call - 1} {errno.ENOSPC} 1"
    tried.write_fails("a write fails before a read would", BLOCK * (whole - 1), errno.ENOSPC, faults)


def watch(tried, name, sizes, faults=""):
    """Sends 40 blocks and a part of one in stretches of these sizes in turn, and waits after each for what the whole blocks give; then the line breaks off."""
    tried.runs += 1
    data, at, out = tried.program.given()[: 40 * BLOCK + 77], 0, b""
    sent = [tried.program.sent(whole) for whole in range(41)]
    pipes = dict(stdin=subprocess.PIPE, stdout=subprocess.PIPE, stderr=subprocess.PIPE, bufsize=0)
    with subprocess.Popen([tried.command], **pipes, **tried.preloaded(faults)) as child:
        for size in itertools.cycle(sizes):
            child.stdin.write(data[at : at + size])
            at = min(at + size, len(data))
            wanted = sent[at // BLOCK]
            while len(out) < len(wanted) and select.select([child.stdout], [], [], 20)[0]:
                more = os.read(child.stdout.fileno(), 1 << 20)
                if not more:
                    break
                out += more
            if out != wanted:
                tried.wrong.append(f"{tried.program.name}, {name}: after {at} bytes {len(out)} are printed in place of {len(wanted)}, or others")
            if out != wanted or at == len(data):
                break
        rest, told = child.communicate(timeout=30)
    tried.hold(f"{name}, and it breaks off", out + rest, told, *tried.program.unread(at // BLOCK))


def watched(tried):
    """A trace comes through a pipe, cut at the blocks and inside them."""
    for sizes in ((BLOCK,), (100, 412), (511, 1), (1, 511, 513, 1448, 3), (5000, 77), (1,)):
        watch(tried, f"in stretches of {', '.join(map(str, sizes))} bytes", sizes)
    watch(tried, "interrupted reads", (300,), f"read fail 3 {errno.EINTR} 2; read fail 40 {errno.EAGAIN} 3")


def limited():
    """The size of a file is limited to 100,000 bytes, and the signal that says so is ignored."""
    signal.signal(signal.SIGXFSZ, signal.SIG_IGN)
    resource.setrlimit(resource.RLIMIT_FSIZE, (100_000, 100_000))


def file_too_large(tried):
    with open(tried.out, "wb") as out:
        tried.write_fails("the file grows too large", 100_000, errno.EFBIG, stdout=out, preexec_fn=limited)
    if tried.out.read_bytes() != tried.whole[:100_000]:
        tried.wrong.append(f"the file grows too large: {tried.out.stat().st_size} bytes that are not the output's")


def real_files(tried):
    folder = os.open("/", os.O_RDONLY)
    tried.read_fails("a folder is read", 0, errno.EISDIR, stdin=folder)
    os.close(folder)
    tried.read_fails("standard input is closed", 0, errno.EBADF, preexec_fn=lambda: os.close(0))
    with open("/dev/full", "wb") as full:
        tried.write_fails("the disk is full", 0, errno.ENOSPC, stdout=full)
    if len(tried.whole) > 100_000:
        file_too_large(tried)
    reading, writing = os.pipe()
    os.close(reading)
    tried.write_fails("nobody reads", 0, errno.EPIPE, stdout=writing, preexec_fn=lambda: signal.signal(signal.SIGPIPE, signal.SIG_IGN))
    os.close(writing)
    tried.write_fails("standard output is closed", 0, errno.EBADF, preexec_fn=lambda: os.close(1))
    with open("/dev/full", "wb") as full:
        out, _ = tried.run("both outputs are full", stdout=full, stderr=full)


def real_pipes(tried):
    """Pipes that do not block, and have nothing to read or no room for 0.3 s."""
    reading, writing = os.pipe()
    os.set_blocking(reading, False)

    def feed():
        whole = tried.path.read_bytes()
        try:
            with open(writing, "wb", buffering=0) as pipe:
                for piece in (whole[:70_000], whole[70_000:]):
                    time.sleep(0.3)
                    pipe.write(piece)
        except BrokenPipeError:
            pass  # a run that ends too early is told from its output

    feeder = threading.Thread(target=feed)
    feeder.start()
    tried.same("a pipe is empty for 0.3 s", stdin=reading)
    os.close(reading)
    feeder.join()

    reading, writing = os.pipe()
    os.set_blocking(writing, False)
    drained = []

    def drain():
        time.sleep(0.3)
        with open(reading, "rb") as pipe:
            drained.append(pipe.read())

    drainer = threading.Thread(target=drain)
    drainer.start()
    _, line = tried.run("a pipe is full for 0.3 s", stdout=writing)
    os.close(writing)
    drainer.join()
    tried.hold("a pipe is full for 0.3 s", drained[0], line, tried.whole, tried.program.told)


def arguments(tried):
    for words in (["x"], [""], ["--help"], ["a", "b"], [str(tried.path)]):
        name = f"started with {words}"
        tried.hold(name, *tried.run(name, words=words), b"", tried.program.usage)


def bad_sticks(tried):
    """The dd of docs/PROGRAMS.md over a file of which some reads fail, and which ends in the middle of a block: their blocks are zeros in the image, and the end is filled up
    with zeros. All of these are listed with 13, and the others are copied."""
    data, image = tried.program.given(), tried.path.with_suffix(".image")
    for faults, unread in (("", ()), ("read fail 6 5 1; read fail 500 5 3", (5, 499, 500, 501)), ("read fail 1 5 1", (0,)), ("read fail 2 5 800", range(1, 801))):
        blocks = tried.program.blocks
        tried.runs += 1
        tried.path.write_bytes(data + data[-BLOCK:][:300])
        words = ["dd", f"if={tried.path.absolute()}", f"of={image.absolute()}", "bs=512", "conv=noerror,sync"]
        subprocess.run(words, stdout=subprocess.DEVNULL, stderr=subprocess.DEVNULL, timeout=60, **tried.preloaded(faults))
        left_out = sorted({*tried.program.DAMAGED, *unread, blocks})
        wanted = [data[BLOCK * number : BLOCK * (number + 1)] for number in range(blocks)]
        got = image.read_bytes()
        if len(got) != BLOCK * (blocks + 1) or any(any(got[BLOCK * number : BLOCK * (number + 1)]) for number in unread):
            tried.wrong.append(f"dd with {faults!r}: not the image that the page says")
        out, line = b"".join(each for number, each in enumerate(wanted) if number not in left_out), tried.program.lines(left_out)
        with open(image, "rb") as opened:
            told = tried.run(f"an image of dd with {faults!r}", stdin=opened)
        tried.hold(f"an image of dd with {faults!r}", *told, *((b"", tried.program.lines([0])) if 0 in unread else (out, line)))
    image.unlink()


def main(bin, library, folder):
    runs, wrong = 0, []
    parts = (injected_reads, injected_writes, real_files, real_pipes, arguments, watched)
    copies = (*parts, copies_fail)
    programs = ((Ecntable(), parts), (Ecnforms(1), parts), (Ecnforms(2), parts[:2]), (Ecnstreams(), parts), (Ecnlabel(1), copies), (Ecnlabel(2), parts[:2]),
                (Ecnsalvage(1), (*copies, bad_sticks)), (Ecnsalvage(2), parts[:2]))
    for program, tries in programs:
        tried = Tried(program, os.path.join(bin, program.name), library, folder)
        for part in tries:
            part(tried)
        runs, wrong = runs + tried.runs, wrong + tried.wrong
    for line in wrong:
        print("faults: FAILED,", line)
    if wrong:
        return 1
    print(f"faults: {runs} runs with calls that fail, are interrupted, are not ready or move few bytes, or with a trace that comes bit by bit: no cut of an output is unseen")
    return 0


if __name__ == "__main__":
    sys.exit(main(*sys.argv[1:]))
