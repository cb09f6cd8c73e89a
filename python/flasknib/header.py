"""The functions and the numbers of flasknib.h, without `flasknib_` and `FLASKNIB_` in front.

Made from include/flasknib.h by packaging/declarations; `make declarations` makes it anew.

A pointer of the header and the count after it are one argument here: words are an array of c_uint64, bytes
any bytes-like object, which is not copied. The answers are those of the header. A number that its type in C
has no room for is an OverflowError, and memory that is written and read in one call a ValueError; any other
verdict is the library's.
"""
# fmt: off
# flake8: noqa: E501
from ._lend import Buffer, Numbers, Words, apart, bind, fits, i16, i64, memory, pointer, read, u8, u16, u32, u64, usize, written

VERSION_MAJOR = 0
VERSION_MINOR = 2
VERSION_PATCH = 0
VERSION_STRING = '0.2.0'
REFUSAL_INCOMPLETE = 1
REFUSAL_VERSION = 2
REFUSAL_FIRST_PACKET = 3
REFUSAL_PACKET_SIZE = 4
REFUSAL_PADDING = 5
REFUSAL_BLOCK_SIZE = 6
REFUSAL_JUMP = 7
REFUSAL_FULL = 8
REFUSAL_MALFORMED = 9
REFUSAL_LIMITS = 10
REFUSAL_TIME = 11
REFUSAL_ROOM = 12
REFUSAL_CHECKSUM = 13
REFUSAL_CONTENTS = 14
REFUSAL_PLACES = 15
REFUSAL_RULES = 16
REFUSAL_FORM_TWO = 17
REFUSAL_ATTRIBUTE = 18
REFUSAL_RETIRED = 19
VERSION = 512
REFUSAL_TEXT_MOST_BYTES = 80
SOURCE_WORDS = 10
SOURCE_BASE = 0
SOURCE_HIGHEST = 1
SOURCE_NOT_ECT = 2
SOURCE_ECT1 = 3
SOURCE_ECT0 = 4
SOURCE_CE = 5
SOURCE_DUPLICATES = 6
SOURCE_HISTORY = 7
SOURCE_REMEMBERED = 9
MARK_NOT_ECT = 0
MARK_ECT1 = 1
MARK_ECT0 = 2
MARK_CE = 3
RESTARTED = 128
LOST_WORDS = 1
FEEDBACK_BYTES = 32
SUMMARY_BYTES = 24
PLACE_WORDS = 11
SOURCES_MOST_PLACES = 16
PLACE_SSRC = 0
PLACE_SOURCE = 1
SOURCES_COMPOUND_MOST_BYTES = 520
COMPOUND_WORDS = 25
COMPOUND_REPORT = 0
COMPOUND_REPORT_FRACTION = 1
COMPOUND_REPORT_LOST = 2
COMPOUND_REPORT_HIGHEST = 3
COMPOUND_REPORT_JITTER = 4
COMPOUND_REPORT_LSR = 5
COMPOUND_REPORT_DLSR = 6
COMPOUND_FEEDBACK = 7
COMPOUND_FEEDBACK_SENDER = 8
COMPOUND_FEEDBACK_HIGHEST = 9
COMPOUND_FEEDBACK_ECT0 = 10
COMPOUND_FEEDBACK_ECT1 = 11
COMPOUND_FEEDBACK_CE = 12
COMPOUND_FEEDBACK_NOT_ECT = 13
COMPOUND_FEEDBACK_LOST = 14
COMPOUND_FEEDBACK_DUPLICATES = 15
COMPOUND_SUMMARY = 16
COMPOUND_SUMMARY_ECT0 = 17
COMPOUND_SUMMARY_ECT1 = 18
COMPOUND_SUMMARY_CE = 19
COMPOUND_SUMMARY_NOT_ECT = 20
COMPOUND_SUMMARY_LOST = 21
COMPOUND_SUMMARY_DUPLICATES = 22
COMPOUND_SR_OR_RR = 23
COMPOUND_REPORT_REPORTER = 24
COMPOUND_MOST_BYTES = 65507
PROFILE_COMPOUND = 0
PROFILE_REDUCED_SIZE = 1
ECN_WORDS = 3
ECN_LOST = 0
ECN_MARKED = 1
ECN_EXPECTED = 2
BREAKER_WORDS = 77
BREAKER_K = 0
BREAKER_M = 1
BREAKER_TIMEOUT = 2
BREAKER_REDUCE = 3
BREAKER_FULL = 4
BREAKER_STATE = 5
BREAKER_LAST = 6
BREAKER_HEARD = 7
BREAKER_REPORTED = 8
BREAKER_HIGHEST = 9
BREAKER_RUN = 10
BREAKER_TRIAL = 11
BREAKER_USED = 12
BREAKER_NEWEST = 13
BREAKER_MOST_K = 32
BREAKER_MOST_M = 32
BREAKER_MOST_TIMEOUT = 600000
BREAKER_MOST_TIME = 281474976710655
BREAKER_MOST_FRACTION = 255
BREAKER_MOST_RTT = 60000
BREAKER_MOST_SIZE = 65535
BREAKER_MOST_RATE = 125000000
BREAKER_MOST_PACKETS = 2147483648
PRESET_K = 3
PRESET_M = 3
PRESET_TIMEOUT = 15000
PRESET_REDUCE = 0
PRESET_FULL = 0
REASON_TIMEOUT = 1
REASON_MEDIA = 2
REASON_CONGESTION = 3
GO = 0
REDUCE = 1
STOP = 256
REFUSED = 512
KEPT_WORDS = 4
KEPT_THERE = 0
KEPT_HIGHEST = 1
KEPT_CE = 2
KEPT_LOST = 3
CALL_WORDS = 6
CALL_WHICH = 0
CALL_HIGHEST = 1
CALL_FRACTION = 2
CALL_LOST = 3
CALL_MARKED = 4
CALL_EXPECTED = 5
WHICH_HEARD = 0
WHICH_REPORT = 1
WHICH_REPORT_ECN = 2
ATTRIBUTE_WORDS = 11
ATTRIBUTE_MOST_METHODS = 8
ATTRIBUTE_USED = 0
ATTRIBUTE_METHODS = 1
ATTRIBUTE_MODE = 9
ATTRIBUTE_ECT = 10
METHOD_RTP = 1
METHOD_ICE = 2
METHOD_LEAP = 3
MODE_ABSENT = 0
MODE_SETONLY = 1
MODE_READONLY = 2
MODE_SETREAD = 3
ECT_ABSENT = 0
ECT_ONE = 1
ECT_ZERO = 2
ECT_RANDOM = 3
LEFT_OUT = 129
ATTRIBUTE_MOST_BYTES = 84
FORM_ONE = 1
FORM_TWO = 2
BLOCK_WORDS = 3
BLOCK_KIND = 0
BLOCK_HELD = 1
BLOCK_SSRC = 2
KIND_LABEL_ONE = 1
KIND_ARRIVALS_ONE = 2
KIND_LABEL_TWO = 3
KIND_ARRIVALS_TWO = 4
BLOCK_BYTES = 512
LABEL_MOST_BYTES = 502
RECORD_ONE_BYTES = 8
RECORD_TWO_BYTES = 10
ARRIVALS_ONE_MOST = 62
ARRIVALS_TWO_MOST = 50
BLOCK_BODY_AT = 8
RECORD_WORDS = 3
RECORD_TIME = 0
RECORD_WIRE = 1
RECORD_MARK = 2
HEAD_BYTES = 65
ROW_MOST_BYTES = 1228
REFUSED_MOST_BYTES = 40
RUN_WORDS = 15
RUN_FORM = 0
RUN_LABEL_LENGTH = 1
RUN_SSRC = 2
RUN_SOURCE = 3
RUN_JUMPED = 13
RUN_RESTARTS = 14
UPLOAD_WORDS = 18
UPLOAD_KEPT_BYTES = 1024
UPLOAD_FORM = 0
UPLOAD_LABEL_LENGTH = 1
UPLOAD_SSRC = 2
UPLOAD_SOURCE = 3
UPLOAD_JUMPED = 13
UPLOAD_RESTARTS = 14
UPLOAD_BLOCKS = 15
UPLOAD_KEPT = 16
UPLOAD_REFUSAL = 17
FORMS_WORDS = 3
FORMS_PART_BYTES = 502
FORMS_FORM = 0
FORMS_SSRC = 1
FORMS_HELD = 2
STREAMS_WORDS = 3
LINE_WORDS = 13
STREAMS_MOST_LINES = 16
STREAMS_FORM = 0
STREAMS_LABEL_LENGTH = 1
STREAMS_HELD = 2
LINE_SSRC = 0
LINE_SOURCE = 1
LINE_JUMPED = 11
LINE_RESTARTS = 12

# The refusals: name and text of each.
REFUSALS = {
    1: ('INCOMPLETE', 'the input is empty, or ends in the middle of a block or a header'),
    2: ('VERSION', 'the version in an RTCP header is not 2'),
    3: ('FIRST_PACKET', 'the first packet is no SR or RR'),
    4: ('PACKET_SIZE', "a packet passes the end, or does not have its body's size"),
    5: ('PADDING', 'the padding is wrong, or not in the last packet'),
    6: ('BLOCK_SIZE', 'an XR block passes its packet'),
    7: ('JUMP', 'the sequence number is too far from the highest: a jump'),
    8: ('FULL', '2^48 arrivals are counted'),
    9: ('MALFORMED', 'the record is malformed'),
    10: ('LIMITS', 'a number, a label, records or a size is outside the limits'),
    11: ('TIME', 'the time is earlier than a call before it allows'),
    12: ('ROOM', 'the output is too small'),
    13: ('CHECKSUM', "the block's checksum does not fit"),
    14: ('CONTENTS', 'the block breaks the format, or has a wrong kind, form or SSRC for its place'),
    15: ('PLACES', 'a source is new, and every place of the table is held (at most 16)'),
    16: ('RULES', 'the table breaks its rules, or has over 16 places'),
    17: ('FORM_TWO', 'a time of 2^32 ms or more needs form 2'),
    18: ('ATTRIBUTE', 'the attribute is malformed'),
    19: ('RETIRED', 'a new label has a retired byte, 10 or 13'),
}

_version = bind("flasknib_version", u32)


def version() -> int:
    """The version of the library that is linked. Gives 65,536 * major + 256 * minor + patch, as
    FLASKNIB_VERSION has it."""
    return _version()


_refusal_text = bind("flasknib_refusal_text", i64, u8, memory, usize)


def refusal_text(number: int, out: Buffer) -> int:
    """Writes what a refusal means, in ASCII, not ended by a zero byte. Gives its length. Refusals, as minus
    the number: 10 a number that is no refusal's (1 to 19), 12 with its size. Changes the front of `out`."""
    number = fits(number, u8)
    lent_out = written(out)
    return _refusal_text(number, lent_out, len(lent_out))


_arrive = bind("flasknib_arrive", u8, pointer(u64), usize, u16, u8)


def arrive(source: Words, wire: int, mark: int) -> int:
    """Counts one arrival, of the wire number `wire` with the mark `mark`. Gives 0, or FLASKNIB_RESTARTED.
    Refusals: 9; 10 for a mark above 3; 8; 7. Changes `source` to the next record; refusal 7 too, in which
    only the remembered number differs."""
    wire = fits(wire, u16)
    mark = fits(mark, u8)
    return _arrive(source, len(source), wire, mark)


_count_block = bind("flasknib_count_block", i64, pointer(u64), usize, memory, usize, usize)


def count_block(source: Words, records: Buffer, width: int) -> int:
    """Counts the 1 to 62 records of one arrivals block in order. Each has `width` bytes: a time, which is not
    looked at, and then the wire number (2, big-endian), the mark and a byte that is not judged here; so a
    width of FLASKNIB_RECORD_ONE_BYTES or FLASKNIB_RECORD_TWO_BYTES, or 4 without a time, or any other from 4
    on. A record that is a jump, or that comes when 2^48 are counted, is left out, and the next one is taken.
    The first packet of the pair that makes a restart is a jump, the second is counted only as a restart.
    Gives 256 * restarts + jumps: flasknib_block_jumps and flasknib_block_restarts take it apart. Refusals, as
    minus the number: 9; 10 for a width below 4, a length that is no multiple of it, no record, more than 62
    or a mark above 3 in any of them. Changes `source` to the next record."""
    width = fits(width, usize)
    lent_records = read(records)
    apart(source, lent_records)
    return _count_block(source, len(source), lent_records, len(lent_records), width)


_lost = bind("flasknib_lost", u8, pointer(u64), usize, pointer(u64), usize)


def lost(source: Words, found: Words) -> int:
    """The packets lost: highest - base + 1, less the different numbers that arrived. Negative if packets from
    before the base came, and 0 in the fresh record. Gives 0, and 1 word, signed. Refusals: 9; 12 if `found`
    has no word. Changes the front of `found`."""
    apart(found, source)
    return _lost(source, len(source), found, len(found))


_write_feedback = bind("flasknib_write_feedback", i64, pointer(u64), usize, u32, u32, memory, usize)


def write_feedback(source: Words, sender: int, media: int, out: Buffer) -> int:
    """Writes the ECN feedback packet of RFC 6679, 32 bytes, from the SSRC `sender` about the SSRC `media`. It
    has highest, ECT(0) and ECT(1) modulo 2^32, and CE, not-ECT, lost and duplicates modulo 65,536. Gives its
    length. Refusals, as minus the number: 9; 12 with its size. Changes the front of `out`."""
    sender = fits(sender, u32)
    media = fits(media, u32)
    lent_out = written(out)
    apart(lent_out, source)
    return _write_feedback(source, len(source), sender, media, lent_out, len(lent_out))


_write_summary = bind("flasknib_write_summary", i64, pointer(u64), usize, u32, memory, usize)


def write_summary(source: Words, media: int, out: Buffer) -> int:
    """Writes the XR ECN summary block of RFC 6679 with one entry, 24 bytes, about the SSRC `media`: the same
    counters, without highest. The caller puts it into an XR packet. Gives its length. Refusals, as minus the
    number: 9; 12 with its size. Changes the front of `out`."""
    media = fits(media, u32)
    lent_out = written(out)
    apart(lent_out, source)
    return _write_summary(source, len(source), media, lent_out, len(lent_out))


_sources_arrive = bind("flasknib_sources_arrive", u8, pointer(u64), usize, u32, u16, u8)


def sources_arrive(sources: Words, ssrc: int, wire: int, mark: int) -> int:
    """Counts one arrival of the source `ssrc`, as flasknib_arrive does. Gives 0, or FLASKNIB_RESTARTED.
    Refusals: 16; 9; 10 for a mark above 3; 15; 8; 7. Changes `sources` to the next table; refusal 7 too, in
    which only the remembered number of that source's place differs."""
    ssrc = fits(ssrc, u32)
    wire = fits(wire, u16)
    mark = fits(mark, u8)
    return _sources_arrive(sources, len(sources), ssrc, wire, mark)


_sources_count_block = bind("flasknib_sources_count_block", i64, pointer(u64), usize, u32, memory, usize, usize)


def sources_count_block(sources: Words, ssrc: int, records: Buffer, width: int) -> int:
    """Counts the records of one arrivals block of the source `ssrc`, as flasknib_count_block does. Gives 256
    * restarts + jumps: flasknib_block_jumps and flasknib_block_restarts take it apart. Refusals, as minus the
    number: 16; 9; 10 as in flasknib_count_block; 15. Changes `sources` to the next table."""
    ssrc = fits(ssrc, u32)
    width = fits(width, usize)
    lent_records = read(records)
    apart(sources, lent_records)
    return _sources_count_block(sources, len(sources), ssrc, lent_records, len(lent_records), width)


_sources_write_compound = bind("flasknib_sources_write_compound", i64, pointer(u64), usize, u32, memory, usize)


def sources_write_compound(sources: Words, sender: int, out: Buffer) -> int:
    """Writes a compound from the SSRC `sender`: an RR without report blocks (RFC 3550) and one ECN feedback
    packet for each held place, in order; 8 bytes and 32 for each. Gives its length. Refusals, as minus the
    number: 16; 9; 12 with its size. Changes the front of `out`."""
    sender = fits(sender, u32)
    lent_out = written(out)
    apart(lent_out, sources)
    return _sources_write_compound(sources, len(sources), sender, lent_out, len(lent_out))


_sources_place = bind("flasknib_sources_place", u8, pointer(u64), usize, usize, pointer(u64), usize)


def sources_place(sources: Words, place: int, found: Words) -> int:
    """The words of one held place, counted from 0. Gives 0, and 11 words. Refusals: 16; 9; 10 for a place
    that is not held; 12 if `found` has fewer words. Changes the front of `found`."""
    place = fits(place, usize)
    apart(found, sources)
    return _sources_place(sources, len(sources), place, found, len(found))


_sources_held = bind("flasknib_sources_held", i64, pointer(u64), usize)


def sources_held(sources: Words) -> int:
    """The number of held places, which are the first ones. Gives 0 to 16. Refusals, as minus the number: 16;
    9. Changes nothing."""
    return _sources_held(sources, len(sources))


_read_compound = bind("flasknib_read_compound", u8, memory, usize, u32, u8, pointer(u64), usize)


def read_compound(bytes: Buffer, media: int, profile: int, found: Words) -> int:
    """Reads a compound, the payload of one UDP packet, for what it reports about the SSRC `media`. A fault
    anywhere in the compound refuses all of it. Gives 0, and 25 words. Refusals: 10 for another profile than
    the two; 1 for no bytes; 10 for too many; the first of 1 to 6, packet by packet; 12 if `found` has fewer
    words. Changes the front of `found`."""
    media = fits(media, u32)
    profile = fits(profile, u8)
    lent_bytes = read(bytes)
    apart(found, lent_bytes)
    return _read_compound(lent_bytes, len(lent_bytes), media, profile, found, len(found))


_ecn_between = bind("flasknib_ecn_between", u8, u32, u16, u16, u32, u16, u16, pointer(u64), usize)


def ecn_between(later_highest: int, later_ce: int, later_lost: int, earlier_highest: int, earlier_ce: int, earlier_lost: int, counts: Words) -> int:
    """What came between two ECN reports of one receiver about one source, the later and the earlier one, each
    with the highest number, the packets marked with CE and the packets lost as the packets carry them: of ECN
    feedback words 9, 12 and 14 of the compound; of a summary entry words 19 and 21, with the highest number
    of the report block beside it, word 3. They are the true numbers if at most 65,535 packets were marked and
    -32,768 to 32,767 lost in between; not if the receiver began to count anew. Gives 0, and 3 words, as
    flasknib_breaker_report_ecn takes them. Refusals: 10 if the highest number went back (a difference of 2^31
    or more); 12 if `counts` has fewer words. Changes the front of `counts`."""
    later_highest = fits(later_highest, u32)
    later_ce = fits(later_ce, u16)
    later_lost = fits(later_lost, u16)
    earlier_highest = fits(earlier_highest, u32)
    earlier_ce = fits(earlier_ce, u16)
    earlier_lost = fits(earlier_lost, u16)
    return _ecn_between(later_highest, later_ce, later_lost, earlier_highest, earlier_ce, earlier_lost, counts, len(counts))


_since16 = bind("flasknib_since16", u16, u16, u16)


def since16(later: int, earlier: int) -> int:
    """What came between two reports, of a counter that they carry in 16 bits: CE, not-ECT, duplicates. Gives
    the later minus the earlier, modulo 2^16: the true count if that is from 0 to 2^16 - 1."""
    later = fits(later, u16)
    earlier = fits(earlier, u16)
    return _since16(later, earlier)


_since32 = bind("flasknib_since32", u32, u32, u32)


def since32(later: int, earlier: int) -> int:
    """What came between two reports, of a counter that they carry in 32 bits: the highest number, ECT(0),
    ECT(1). Gives the later minus the earlier, modulo 2^32: the true count if that is from 0 to 2^32 - 1."""
    later = fits(later, u32)
    earlier = fits(earlier, u32)
    return _since32(later, earlier)


_lost_since = bind("flasknib_lost_since", i16, u16, u16)


def lost_since(later: int, earlier: int) -> int:
    """What came between two reports, of packets lost, which can fall: they carry it in 16 bits. Gives the
    later minus the earlier, modulo 2^16 and read as signed, -32,768 to 32,767."""
    later = fits(later, u16)
    earlier = fits(earlier, u16)
    return _lost_since(later, earlier)


_breaker_start = bind("flasknib_breaker_start", u16, u64, u64, u64, u8, u8, u64, pointer(u64), usize)


def breaker_start(k: int, m: int, timeout: int, reduce: int, full: int, time: int, breaker: Words) -> int:
    """Starts a breaker. With `full` the congestion rule takes the full throughput equation (RFC 8083, section
    4.3, with b = 1 and t_RTO = 4 * Tr), which reacts earlier if much is lost; without, the simplified one.
    Gives FLASKNIB_GO, and the record. Refusals: 9 for another number of words than 77; 10, also for a
    `reduce` or `full` that is not 0 or 1. Changes `breaker`."""
    k = fits(k, u64)
    m = fits(m, u64)
    timeout = fits(timeout, u64)
    reduce = fits(reduce, u8)
    full = fits(full, u8)
    time = fits(time, u64)
    return _breaker_start(k, m, timeout, reduce, full, time, breaker, len(breaker))


_breaker_start_preset = bind("flasknib_breaker_start_preset", u16, u64, pointer(u64), usize)


def breaker_start_preset(time: int, breaker: Words) -> int:
    """Starts a breaker with the preset settings: k = 3, m = 3, a timeout of 15,000 ms, no reductions, the
    simplified equation. Gives FLASKNIB_GO, and the record. Refusals: 9 for another number of words than 77;
    10 for a time of 2^48 ms or more. Changes `breaker`."""
    time = fits(time, u64)
    return _breaker_start_preset(time, breaker, len(breaker))


_breaker_report = bind("flasknib_breaker_report", u16, pointer(u64), usize, u64, u32, u64, u64, u64, u64)


def breaker_report(breaker: Words, time: int, highest: int, fraction: int, rtt: int, size: int, rate: int) -> int:
    """Takes a report that came at `time`: its extended highest sequence number and its fraction lost, in
    256ths, 0 to 255. Gives FLASKNIB_GO, FLASKNIB_REDUCE or a stop. A stopped breaker answers its stop, after
    9 only. Refusals: 9; 10; 11. Changes `breaker` to the next record; a stopped one stays as it is."""
    time = fits(time, u64)
    highest = fits(highest, u32)
    fraction = fits(fraction, u64)
    rtt = fits(rtt, u64)
    size = fits(size, u64)
    rate = fits(rate, u64)
    return _breaker_report(breaker, len(breaker), time, highest, fraction, rtt, size, rate)


_breaker_report_ecn = bind("flasknib_breaker_report_ecn", u16, pointer(u64), usize, u64, u32, i64, u64, u64, u64, u64, u64)


def breaker_report_ecn(breaker: Words, time: int, highest: int, lost: int, marked: int, expected: int, rtt: int, size: int, rate: int) -> int:
    """Takes a report with ECN counts in the place of the fraction lost: of the `expected` packets of its
    interval, `lost` were lost (negative if some came that were counted as lost before) and `marked` were
    marked with CE. The fraction is 256 * min(lost + marked, expected) / expected rounded down, at most 255; a
    negative `lost` is 0 there, and if none were expected the fraction is 0. Gives FLASKNIB_GO,
    FLASKNIB_REDUCE or a stop. A stopped breaker answers its stop, after 9 only. Refusals: 9; 10, also for a
    `marked` or `expected` above 2^31, or a `lost` outside -2^31 to 2^31; 11. Changes `breaker` to the next
    record; a stopped one stays as it is."""
    time = fits(time, u64)
    highest = fits(highest, u32)
    lost = fits(lost, i64)
    marked = fits(marked, u64)
    expected = fits(expected, u64)
    rtt = fits(rtt, u64)
    size = fits(size, u64)
    rate = fits(rate, u64)
    return _breaker_report_ecn(breaker, len(breaker), time, highest, lost, marked, expected, rtt, size, rate)


_breaker_tick = bind("flasknib_breaker_tick", u16, pointer(u64), usize, u64)


def breaker_tick(breaker: Words, time: int) -> int:
    """Takes a tick, as from a timer: only whether the timeout has passed at `time`. Gives FLASKNIB_GO or a
    stop. A stopped breaker answers its stop, after 9 only. Refusals: 9; 10; 11. Changes `breaker` only if it
    stops now."""
    time = fits(time, u64)
    return _breaker_tick(breaker, len(breaker), time)


_breaker_heard = bind("flasknib_breaker_heard", u16, pointer(u64), usize, u64)


def breaker_heard(breaker: Words, time: int) -> int:
    """Takes a packet that was heard and is no report: a Go moves the time from which the timeout is measured
    to `time`, and nothing else. Gives FLASKNIB_GO or a stop. A stopped breaker answers its stop, after 9
    only. Refusals: 9; 10; 11. Changes `breaker` to the next record; a stopped one stays as it is."""
    time = fits(time, u64)
    return _breaker_heard(breaker, len(breaker), time)


_breaker_call = bind("flasknib_breaker_call", u8, pointer(u64), usize, pointer(u64), usize, pointer(u64), usize)


def breaker_call(found: Words, kept: Words, call: Words) -> int:
    """Says which call a packet is for, by the 25 words that flasknib_read_compound gave of it and the 4 words
    kept of its receiver: flasknib_compound_receiver says who that is. What the reader gave and an earlier
    call kept is never refused with 9, and the breaker takes the losses that this call gives: time, round
    trip, packet size and rate are the caller's. flasknib_breaker_take makes the call. Gives 0, the 6 words of
    the call, and what is kept then. Refusals: 9; 12 if `call` has fewer than 6 words. 9 is for - another
    number of words than 25 or 4; a word 0, 7, 16 or 23 of the compound, or a first one of what is kept, above
    1; - if a report block is there, a fraction past 8 bits or a highest number past 32; if feedback is there,
    a highest number past 32 bits, CE or lost past 16; if a summary entry is there, CE or lost past 16; the
    same of what is kept; - kept words that are not 0 if none is kept. No other word is looked at. Changes the
    front of `call`, and `kept`. If the breaker then refuses the call, put the kept words back to what they
    were before, so that the next report counts from there."""
    apart(kept, call, found)
    apart(call, found)
    return _breaker_call(found, len(found), kept, len(kept), call, len(call))


_read_attribute = bind("flasknib_read_attribute", u8, memory, usize, pointer(u64), usize)


def read_attribute(line: Buffer, found: Words) -> int:
    """Reads a line. Gives 0, and 11 words. Refusals: 10 for over 255 bytes; 18 for a line that is not well
    formed, an empty one too; 10 for over 8 methods or 8 parameters, known or not; 12 if `found` has fewer
    words. Changes the front of `found`."""
    lent_line = read(line)
    apart(found, lent_line)
    return _read_attribute(lent_line, len(lent_line), found, len(found))


_write_attribute = bind("flasknib_write_attribute", i64, pointer(u64), usize, memory, usize)


def write_attribute(attribute: Words, out: Buffer) -> int:
    """Writes the line of a record, 22 to 84 bytes, in lower case and with no CR LF: the methods, then the
    mode, then the ect. What it writes reads back to the same words, but for 0 after the last method. Gives
    its length. Refusals, as minus the number: 9; 10 for no method or over 8; 12 with its size. Changes the
    front of `out`."""
    lent_out = written(out)
    apart(lent_out, attribute)
    return _write_attribute(attribute, len(attribute), lent_out, len(lent_out))


_answer = bind("flasknib_answer", u8, pointer(u64), usize, pointer(u64), usize, pointer(u64), usize)


def answer(offer: Words, ours: Words, found: Words) -> int:
    """Answers an offer by our abilities, the record that we would offer: the first of our methods that the
    offer names, our mode and our ect. Gives 0, and 11 words; or FLASKNIB_LEFT_OUT, whatever `words` is, if no
    method is common, or both modes are setonly or both readonly. Refusals: 9 for either record; 10 for over 8
    methods in either; 12 if `found` has fewer words. Changes the front of `found`, and no word of it for
    FLASKNIB_LEFT_OUT."""
    apart(found, offer, ours)
    return _answer(offer, len(offer), ours, len(ours), found, len(found))


_read_block = bind("flasknib_read_block", u8, memory, usize, pointer(u64), usize)


def read_block(block: Buffer, found: Words) -> int:
    """Reads a block of 512 bytes, of either form. Gives 0, and 3 words. Refusals: 1 for another length than
    512; 13; 14 for contents against the rules above; 12 if `found` has fewer words. Changes the front of
    `found`."""
    lent_block = read(block)
    apart(found, lent_block)
    return _read_block(lent_block, len(lent_block), found, len(found))


_read_own = bind("flasknib_read_own", u8, u8, u32, memory, usize)


def read_own(form: int, ssrc: int, block: Buffer) -> int:
    """Judges a later block at its place: it must hold arrivals of the form and the SSRC of block 0, which
    flasknib_read_block gives (kind 1 is form 1, kind 3 form 2). So ecntable judges each later block. The
    program ecnsalvage copies block 0 and each later block for which this is 0, and lists the others. Gives 0.
    Refusals: 10 for another form than the two; 1 for another length than 512; 13; 14 for contents against the
    rules above, a label, or another form or SSRC. Changes nothing."""
    form = fits(form, u8)
    ssrc = fits(ssrc, u32)
    lent_block = read(block)
    return _read_own(form, ssrc, lent_block, len(lent_block))


_record_at = bind("flasknib_record_at", u8, memory, usize, usize, pointer(u64), usize)


def record_at(block: Buffer, i: int, found: Words) -> int:
    """The record `i`, counted from 0, of an arrivals block of either form. Nothing else of the block is
    judged: flasknib_read_block does that, once a block. Gives 0, and 3 words. Refusals: 1 for another length
    than 512; 14 for a kind that is not arrivals or a count outside its form's limits; 10 for an `i` not below
    the count; 12 if `found` has fewer words. Changes the front of `found`."""
    i = fits(i, usize)
    lent_block = read(block)
    apart(found, lent_block)
    return _record_at(lent_block, len(lent_block), i, found, len(found))


_write_label = bind("flasknib_write_label", i64, u8, memory, usize, u32, memory, usize)


def write_label(form: int, label: Buffer, ssrc: int, out: Buffer) -> int:
    """Writes the label block of a new label, 512 bytes. Gives its length. Refusals, as minus the number: 10
    for another form than the two or a label against the rules above; 19 for a label with a retired byte; 12
    with its size. Changes the front of `out`."""
    form = fits(form, u8)
    ssrc = fits(ssrc, u32)
    lent_label = read(label)
    lent_out = written(out)
    apart(lent_out, lent_label)
    return _write_label(form, lent_label, len(lent_label), ssrc, lent_out, len(lent_out))


_space_label = bind("flasknib_space_label", i64, memory, usize, memory, usize)


def space_label(zeroth: Buffer, out: Buffer) -> int:
    """Writes block 0 of a trace again, 512 bytes, with one space in the place of each retired byte of its
    label. Form, length and SSRC stay, and the checksum is the one that fits. The program ecnlabel does this
    to block 0 and copies the others. Gives the number of bytes replaced, 0 to 502. Refusals, as minus the
    number: 1, 13 or 14 for the block (14 for arrivals too); 12 with its size. Changes the front of `out`."""
    lent_zeroth = read(zeroth)
    lent_out = written(out)
    apart(lent_out, lent_zeroth)
    return _space_label(lent_zeroth, len(lent_zeroth), lent_out, len(lent_out))


_write_arrivals = bind("flasknib_write_arrivals", i64, u8, pointer(u64), usize, pointer(u16), usize, memory, usize, u32, memory, usize)


def write_arrivals(form: int, times: Words, numbers: Numbers, marks: Buffer, ssrc: int, out: Buffer) -> int:
    """Writes an arrivals block, 512 bytes, of three lists, one entry to a record: times in ms, wire numbers
    and marks, as numbers of the machine. Gives its length. Refusals, as minus the number: 10 for another form
    than the two, lists of unequal length, no record or more than the form has to a block, a time that the
    form has no bytes for or a mark above 3; 12 with its size. Changes the front of `out`."""
    form = fits(form, u8)
    ssrc = fits(ssrc, u32)
    lent_marks = read(marks)
    lent_out = written(out)
    apart(lent_out, times, numbers, lent_marks)
    return _write_arrivals(form, times, len(times), numbers, len(numbers), lent_marks, len(lent_marks), ssrc, lent_out, len(lent_out))


_write_records = bind("flasknib_write_records", i64, u8, memory, usize, u32, memory, usize)


def write_records(form: int, records: Buffer, ssrc: int, out: Buffer) -> int:
    """Writes the same block as flasknib_write_arrivals from the bytes of its records, each as a block has it,
    big-endian. Gives its length. Refusals, as minus the number: 10 for another form than the two, a record
    that is not whole, no record or more than the form has to a block, a mark above 3 or a last byte that is
    not 0; 12 with its size. Changes the front of `out`."""
    form = fits(form, u8)
    ssrc = fits(ssrc, u32)
    lent_records = read(records)
    lent_out = written(out)
    apart(lent_out, lent_records)
    return _write_records(form, lent_records, len(lent_records), ssrc, lent_out, len(lent_out))


_write_head = bind("flasknib_write_head", i64, memory, usize)


def write_head(out: Buffer) -> int:
    """Writes the table's head line, 65 bytes with its CR LF. Gives its length. Refusals, as minus the number:
    12 with its size. Changes the front of `out`."""
    lent_out = written(out)
    return _write_head(lent_out, len(lent_out))


_write_row = bind("flasknib_write_row", i64, memory, usize, u32, pointer(u64), usize, u64, u64, memory, usize)


def write_row(label: Buffer, ssrc: int, source: Words, jumped: int, restarts: int, out: Buffer) -> int:
    """Writes a row of the table, at most 1,228 bytes with its CR LF, of the values of one source's record.
    Gives its length. Refusals, as minus the number: 9; 10 for a label against the rules above or for `jumped`
    or `restarts` above 2^48; 12 with its size. Changes the front of `out`."""
    ssrc = fits(ssrc, u32)
    jumped = fits(jumped, u64)
    restarts = fits(restarts, u64)
    lent_label = read(label)
    lent_out = written(out)
    apart(lent_out, lent_label, source)
    return _write_row(lent_label, len(lent_label), ssrc, source, len(source), jumped, restarts, lent_out, len(lent_out))


_write_refused = bind("flasknib_write_refused", i64, u8, u64, memory, usize)


def write_refused(number: int, block: int, out: Buffer) -> int:
    """Writes the line `refused N block I`, at most 40 bytes with its CR LF, of any refusal's number and any
    block's. Gives its length. Refusals, as minus the number: 12 with its size. Changes the front of `out`."""
    number = fits(number, u8)
    block = fits(block, u64)
    lent_out = written(out)
    return _write_refused(number, block, lent_out, len(lent_out))


_run_start = bind("flasknib_run_start", u8, memory, usize, pointer(u64), usize)


def run_start(zeroth: Buffer, run: Words) -> int:
    """Takes block 0, which must be a label block of either form. Gives 0, and 15 words. Refusals: 9 for
    another number of words; 1, 13 or 14 for the block (14 for arrivals too). Changes `run`."""
    lent_zeroth = read(zeroth)
    apart(run, lent_zeroth)
    return _run_start(lent_zeroth, len(lent_zeroth), run, len(run))


_run_block = bind("flasknib_run_block", i64, pointer(u64), usize, memory, usize, memory, usize, memory, usize)


def run_block(run: Words, zeroth: Buffer, block: Buffer, out: Buffer) -> int:
    """Takes a later block, which must hold arrivals of the label's form and SSRC, and writes the row after
    it, at most FLASKNIB_ROW_MOST_BYTES. `zeroth` is block 0, from which the row has its label: lend the same
    bytes to every call. Of block 0 nothing is compared but what 9 names, neither its label nor its checksum:
    with another label of the same length the row has that one. Gives the row's length. Refusals, as minus the
    number: 9, also for a block 0 that is not 512 bytes, has another form, length of the label or SSRC than
    the run, or a label against the rules; 1, 13 or 14 for the block; 12 with the row's size. Changes `run` to
    the next run, and the front of `out`."""
    lent_zeroth = read(zeroth)
    lent_block = read(block)
    lent_out = written(out)
    apart(run, lent_out, lent_zeroth, lent_block)
    apart(lent_out, lent_zeroth, lent_block)
    return _run_block(run, len(run), lent_zeroth, len(lent_zeroth), lent_block, len(lent_block), lent_out, len(lent_out))


_feed = bind("flasknib_feed", i64, pointer(u64), usize, memory, usize, memory, usize, memory, usize)


def feed(upload: Words, kept: Buffer, stretch: Buffer, out: Buffer) -> int:
    """Takes a stretch of a trace, and writes the rows of all blocks that it completes, each at most
    FLASKNIB_ROW_MOST_BYTES. Gives the rows' length. Refusals, as minus the number: 9; the kept one; 10 for
    more than 2^48 bytes in all; 12 with the rows' size; 13 or 14 for a block. That one comes with the length
    of the rows before it, which are written, as 12 with its size: flasknib_writer_size gives it. It is kept,
    and every later call repeats it with length 0. Changes `upload` and `kept` to the next upload, and the
    front of `out`; so does refusal 13 or 14 of a block. Any other refusal changes nothing."""
    lent_kept = written(kept)
    lent_stretch = read(stretch)
    lent_out = written(out)
    apart(upload, lent_kept, lent_out, lent_stretch)
    apart(lent_kept, lent_out, lent_stretch)
    apart(lent_out, lent_stretch)
    return _feed(upload, len(upload), lent_kept, len(lent_kept), lent_stretch, len(lent_stretch), lent_out, len(lent_out))


_feed_close = bind("flasknib_feed_close", u8, pointer(u64), usize, memory, usize)


def feed_close(upload: Words, kept: Buffer) -> int:
    """Ends a trace, or asks how it would end. Gives 0, and feeding may go on. Refusals: 9; the kept one; 1
    for a partial block, or for block 0 of an empty trace, which is kept. Changes the kept refusal in `upload`
    for that 1, and nothing otherwise."""
    lent_kept = read(kept)
    apart(upload, lent_kept)
    return _feed_close(upload, len(upload), lent_kept, len(lent_kept))


_forms_start = bind("flasknib_forms_start", i64, memory, usize, pointer(u64), usize, memory, usize)


def forms_start(zeroth: Buffer, forms: Words, out: Buffer) -> int:
    """Takes block 0, which must be a label block of either form, and writes it in the other form, 512 bytes.
    Gives its length, and the 3 words of a conversion that holds no record. Refusals, as minus the number: 9
    for another number of words than 3; 1, 13 or 14 for the block (14 for arrivals too); 12 with its size.
    Changes `forms` and the front of `out`."""
    lent_zeroth = read(zeroth)
    lent_out = written(out)
    apart(forms, lent_out, lent_zeroth)
    apart(lent_out, lent_zeroth)
    return _forms_start(lent_zeroth, len(lent_zeroth), forms, len(forms), lent_out, len(lent_out))


_forms_block = bind("flasknib_forms_block", i64, pointer(u64), usize, memory, usize, memory, usize, memory, usize)


def forms_block(forms: Words, part: Buffer, block: Buffer, out: Buffer) -> int:
    """Takes a later block, which must hold arrivals of the label's form and SSRC, and writes the blocks that
    are full with its records: 0, 512 or 1,024 bytes. The records left over are held in the part. Gives the
    blocks' length. Refusals, as minus the number: 9; 1, 13 or 14 for the block; 17 for a time of 2^32 ms or
    more, which only form 2 has bytes for; 12 with the blocks' size. Changes `forms` and `part` to the next
    conversion, and the front of `out`."""
    lent_part = written(part)
    lent_block = read(block)
    lent_out = written(out)
    apart(forms, lent_part, lent_out, lent_block)
    apart(lent_part, lent_out, lent_block)
    apart(lent_out, lent_block)
    return _forms_block(forms, len(forms), lent_part, len(lent_part), lent_block, len(lent_block), lent_out, len(lent_out))


_forms_close = bind("flasknib_forms_close", i64, pointer(u64), usize, memory, usize, memory, usize)


def forms_close(forms: Words, part: Buffer, out: Buffer) -> int:
    """Writes the records that are held as a last block, 512 bytes, or nothing if there are none. Gives its
    length. Refusals, as minus the number: 9; 12 with its size. Changes the front of `out`."""
    lent_part = read(part)
    lent_out = written(out)
    apart(lent_out, forms, lent_part)
    return _forms_close(forms, len(forms), lent_part, len(lent_part), lent_out, len(lent_out))


_streams_start = bind("flasknib_streams_start", u8, memory, usize, pointer(u64), usize)


def streams_start(zeroth: Buffer, run: Words) -> int:
    """Takes block 0, which must be a label block of either form; its SSRC binds nothing. Gives 0, and 3
    words, of a run that holds no line. Refusals: 9 for another number of words than 3; 1, 13 or 14 for the
    block (14 for arrivals too). Changes `run`."""
    lent_zeroth = read(zeroth)
    apart(run, lent_zeroth)
    return _streams_start(lent_zeroth, len(lent_zeroth), run, len(run))


_streams_block = bind("flasknib_streams_block", u8, pointer(u64), usize, pointer(u64), usize, memory, usize)


def streams_block(run: Words, lines: Words, block: Buffer) -> int:
    """Takes a later block, which must hold arrivals of the label's form, and counts them in the line of their
    SSRC; a new SSRC gets a line. Gives 0. Refusals: 16; 9; 1, 13 or 14 for the block; 15 for a seventeenth
    SSRC. Changes `run` to the next run, and `lines`."""
    lent_block = read(block)
    apart(run, lines, lent_block)
    apart(lines, lent_block)
    return _streams_block(run, len(run), lines, len(lines), lent_block, len(lent_block))


_streams_row = bind("flasknib_streams_row", i64, pointer(u64), usize, usize, pointer(u64), usize, memory, usize, memory, usize)


def streams_row(run: Words, i: int, lines: Words, zeroth: Buffer, out: Buffer) -> int:
    """Writes the row of line i, counted from 0, at most FLASKNIB_ROW_MOST_BYTES. `zeroth` is block 0, from
    which the row has its label. Gives the row's length. Refusals, as minus the number: 16; 9, also for a
    block 0 that is not 512 bytes, has another form or length of the label than the run, or a label against
    the rules (nothing else of it is compared); 10 for no such line; 12 with the row's size. Changes the front
    of `out`."""
    i = fits(i, usize)
    lent_zeroth = read(zeroth)
    lent_out = written(out)
    apart(lent_out, run, lines, lent_zeroth)
    return _streams_row(run, len(run), i, lines, len(lines), lent_zeroth, len(lent_zeroth), lent_out, len(lent_out))
