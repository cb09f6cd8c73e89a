"""The traces that the gate runs the programs on (`stdin` of the programs' crates): each longer than a piece that a program reads.

What ecntable and ecnforms print of theirs is longer than what they keep for output. ecntable's trace ends in a block whose check is wrong and one block
more; ecnstreams' has several sources, and is whole. ecnsalvage's has damaged blocks and a tail, and ecnlabel's an old label: of these two the copies are made here
too, `stdout`. With --write they are written; without it the files are held to what this writes.
"""
import pathlib
import struct
import sys

from faults.run import block

CRATES = pathlib.Path(__file__).resolve().parent.parent / "crates"


def record(time, number, mark):
    return struct.pack(">IHBB", time, number % 65536, mark, 0)


def lossy(n):
    """Numbers with a gap now and then, a duplicate, a packet that comes late, and every mark."""
    number = n + n // 7 - (2 if n % 11 == 5 else 0)
    return record(20 * n, number, (n // 3) % 4)


def ecntable():
    """580 blocks of 1 to 5 records behind a label of quotes and commas, which makes long rows; a jump at block 300, confirmed; then a wrong check."""
    label = (b'"ward 3", bed 12; ' + b'"' * 502)[:502]
    blocks, n = [block(1, len(label), 0x6B287B, label)], 0
    for i in range(1, 581):
        count = 1 + i % 5
        body = b"".join(lossy(n + k + (20_000 if i >= 300 else 0)) for k in range(count))
        blocks.append(block(2, count, 0x6B287B, body))
        n += count
    wrong = bytearray(blocks[-1])
    wrong[-1] ^= 1
    return b"".join(blocks) + bytes(wrong) + blocks[1]


def ecnforms():
    """720 full blocks of form 1 and one of 17 records, which fill 893 of form 2."""
    label = b"probe 2, left\r\nsecond line"
    blocks = [block(1, len(label), 7, label)]
    for first in range(0, 720 * 62 + 17, 62):
        count = min(62, 720 * 62 + 17 - first)
        blocks.append(block(2, count, 7, b"".join(lossy(first + k) for k in range(count))))
    return b"".join(blocks)


def ecnstreams():
    """300 blocks of five sources in turn, of which one begins again."""
    label = b"five probes"
    blocks = [block(1, len(label), 0, label)]
    for i in range(300):
        ssrc, turn = 100 + 7 * (i % 5), i // 5
        first = 30 * turn + (9_000 if ssrc == 114 and turn >= 40 else 0)
        blocks.append(block(2, 30, ssrc, b"".join(lossy(first + k) for k in range(30))))
    return b"".join(blocks)


def own(ssrc, i):
    """An arrivals block of form 1 with 1 to 62 records."""
    count = 1 + i % 62
    return block(2, count, ssrc, b"".join(lossy(40 * i + k) for k in range(count)))


def wrong_check(whole):
    return whole[:100] + bytes([whole[100] ^ 4]) + whole[101:]


def ecnsalvage():
    """After an old label 1,150 blocks, of which every 97th is damaged, in turn: a byte is changed, it is zeros, another source's, another form's, a
    label, or has a count of 63; two stand at the end of a piece, and two after one another; then a tail. The copy is what is left of them."""
    label = b"probe 2, left\r\nsecond line"
    zeroth = block(1, len(label), 9, label)
    damaged = (
        wrong_check,
        lambda whole: bytes(512),
        lambda whole: own(8, 1),
        lambda whole: block(4, 1, 9, struct.pack(">HIHBB", 0, 5, 6, 0, 0)),
        lambda whole: zeroth,
        lambda whole: block(2, 63, 9, whole[8:510]),
    )
    trace, copy = [zeroth], [zeroth]
    for i in range(1, 1_151):
        whole = own(9, i)
        if i % 97 == 0 or i in (700, 701, 1_024, 1_025):
            trace.append(damaged[i % len(damaged)](whole))
        else:
            trace.append(whole)
            copy.append(whole)
    return b"".join(trace) + zeroth[:511], b"".join(copy)


def ecnlabel():
    """An old label with four retired bytes, and 1,150 blocks."""
    label = b"probe 2,\r\nleft\n\rsecond line"
    blocks = [own(9, i) for i in range(1, 1_151)]
    spaced = label.replace(b"\r", b" ").replace(b"\n", b" ")
    return b"".join([block(1, len(label), 9, label), *blocks]), b"".join([block(1, len(spaced), 9, spaced), *blocks])


def files():
    """(name in crates/, bytes)."""
    for program in (ecntable, ecnforms, ecnstreams):
        yield f"{program.__name__}/stdin", program()
    for program in (ecnsalvage, ecnlabel):
        for name, made in zip(("stdin", "stdout"), program()):
            yield f"{program.__name__}/{name}", made


def main(words):
    wrong = []
    for name, made in files():
        path = CRATES / name
        if words == ["--write"]:
            path.write_bytes(made)
        elif path.read_bytes() != made:
            wrong.append(f"crates/{name} is not what tests/samples.py writes")
    for line in wrong:
        print("samples: FAILED,", line)
    return 1 if wrong else 0


if __name__ == "__main__":
    sys.exit(main(sys.argv[1:]))
