//! The functions and the numbers of flasknib.h, without `flasknib_` and `FLASKNIB_` in front.
//! Made from include/flasknib.h by packaging/declarations; `make declarations` makes it anew.
//!
//! A pointer of the header and the count after it are one slice here, which is never null, is aligned and has
//! its length, and a `&mut` one overlaps nothing else: that is all that the header asks of a caller.

pub const VERSION_MAJOR: usize = 0;
pub const VERSION_MINOR: usize = 2;
pub const VERSION_PATCH: usize = 0;
pub const VERSION_STRING: &str = "0.2.0";
pub const REFUSAL_INCOMPLETE: usize = 1;
pub const REFUSAL_VERSION: usize = 2;
pub const REFUSAL_FIRST_PACKET: usize = 3;
pub const REFUSAL_PACKET_SIZE: usize = 4;
pub const REFUSAL_PADDING: usize = 5;
pub const REFUSAL_BLOCK_SIZE: usize = 6;
pub const REFUSAL_JUMP: usize = 7;
pub const REFUSAL_FULL: usize = 8;
pub const REFUSAL_MALFORMED: usize = 9;
pub const REFUSAL_LIMITS: usize = 10;
pub const REFUSAL_TIME: usize = 11;
pub const REFUSAL_ROOM: usize = 12;
pub const REFUSAL_CHECKSUM: usize = 13;
pub const REFUSAL_CONTENTS: usize = 14;
pub const REFUSAL_PLACES: usize = 15;
pub const REFUSAL_RULES: usize = 16;
pub const REFUSAL_FORM_TWO: usize = 17;
pub const REFUSAL_ATTRIBUTE: usize = 18;
pub const REFUSAL_RETIRED: usize = 19;
pub const VERSION: usize = 512;
pub const REFUSAL_TEXT_MOST_BYTES: usize = 80;
pub const SOURCE_WORDS: usize = 10;
pub const SOURCE_BASE: usize = 0;
pub const SOURCE_HIGHEST: usize = 1;
pub const SOURCE_NOT_ECT: usize = 2;
pub const SOURCE_ECT1: usize = 3;
pub const SOURCE_ECT0: usize = 4;
pub const SOURCE_CE: usize = 5;
pub const SOURCE_DUPLICATES: usize = 6;
pub const SOURCE_HISTORY: usize = 7;
pub const SOURCE_REMEMBERED: usize = 9;
pub const MARK_NOT_ECT: usize = 0;
pub const MARK_ECT1: usize = 1;
pub const MARK_ECT0: usize = 2;
pub const MARK_CE: usize = 3;
pub const RESTARTED: usize = 128;
pub const LOST_WORDS: usize = 1;
pub const FEEDBACK_BYTES: usize = 32;
pub const SUMMARY_BYTES: usize = 24;
pub const PLACE_WORDS: usize = 11;
pub const SOURCES_MOST_PLACES: usize = 16;
pub const PLACE_SSRC: usize = 0;
pub const PLACE_SOURCE: usize = 1;
pub const SOURCES_COMPOUND_MOST_BYTES: usize = 520;
pub const COMPOUND_WORDS: usize = 25;
pub const COMPOUND_REPORT: usize = 0;
pub const COMPOUND_REPORT_FRACTION: usize = 1;
pub const COMPOUND_REPORT_LOST: usize = 2;
pub const COMPOUND_REPORT_HIGHEST: usize = 3;
pub const COMPOUND_REPORT_JITTER: usize = 4;
pub const COMPOUND_REPORT_LSR: usize = 5;
pub const COMPOUND_REPORT_DLSR: usize = 6;
pub const COMPOUND_FEEDBACK: usize = 7;
pub const COMPOUND_FEEDBACK_SENDER: usize = 8;
pub const COMPOUND_FEEDBACK_HIGHEST: usize = 9;
pub const COMPOUND_FEEDBACK_ECT0: usize = 10;
pub const COMPOUND_FEEDBACK_ECT1: usize = 11;
pub const COMPOUND_FEEDBACK_CE: usize = 12;
pub const COMPOUND_FEEDBACK_NOT_ECT: usize = 13;
pub const COMPOUND_FEEDBACK_LOST: usize = 14;
pub const COMPOUND_FEEDBACK_DUPLICATES: usize = 15;
pub const COMPOUND_SUMMARY: usize = 16;
pub const COMPOUND_SUMMARY_ECT0: usize = 17;
pub const COMPOUND_SUMMARY_ECT1: usize = 18;
pub const COMPOUND_SUMMARY_CE: usize = 19;
pub const COMPOUND_SUMMARY_NOT_ECT: usize = 20;
pub const COMPOUND_SUMMARY_LOST: usize = 21;
pub const COMPOUND_SUMMARY_DUPLICATES: usize = 22;
pub const COMPOUND_SR_OR_RR: usize = 23;
pub const COMPOUND_REPORT_REPORTER: usize = 24;
pub const COMPOUND_MOST_BYTES: usize = 65507;
pub const PROFILE_COMPOUND: usize = 0;
pub const PROFILE_REDUCED_SIZE: usize = 1;
pub const ECN_WORDS: usize = 3;
pub const ECN_LOST: usize = 0;
pub const ECN_MARKED: usize = 1;
pub const ECN_EXPECTED: usize = 2;
pub const BREAKER_WORDS: usize = 77;
pub const BREAKER_K: usize = 0;
pub const BREAKER_M: usize = 1;
pub const BREAKER_TIMEOUT: usize = 2;
pub const BREAKER_REDUCE: usize = 3;
pub const BREAKER_FULL: usize = 4;
pub const BREAKER_STATE: usize = 5;
pub const BREAKER_LAST: usize = 6;
pub const BREAKER_HEARD: usize = 7;
pub const BREAKER_REPORTED: usize = 8;
pub const BREAKER_HIGHEST: usize = 9;
pub const BREAKER_RUN: usize = 10;
pub const BREAKER_TRIAL: usize = 11;
pub const BREAKER_USED: usize = 12;
pub const BREAKER_NEWEST: usize = 13;
pub const BREAKER_MOST_K: usize = 32;
pub const BREAKER_MOST_M: usize = 32;
pub const BREAKER_MOST_TIMEOUT: usize = 600000;
pub const BREAKER_MOST_TIME: usize = 281474976710655;
pub const BREAKER_MOST_FRACTION: usize = 255;
pub const BREAKER_MOST_RTT: usize = 60000;
pub const BREAKER_MOST_SIZE: usize = 65535;
pub const BREAKER_MOST_RATE: usize = 125000000;
pub const BREAKER_MOST_PACKETS: usize = 2147483648;
pub const PRESET_K: usize = 3;
pub const PRESET_M: usize = 3;
pub const PRESET_TIMEOUT: usize = 15000;
pub const PRESET_REDUCE: usize = 0;
pub const PRESET_FULL: usize = 0;
pub const REASON_TIMEOUT: usize = 1;
pub const REASON_MEDIA: usize = 2;
pub const REASON_CONGESTION: usize = 3;
pub const GO: usize = 0;
pub const REDUCE: usize = 1;
pub const STOP: usize = 256;
pub const REFUSED: usize = 512;
pub const KEPT_WORDS: usize = 4;
pub const KEPT_THERE: usize = 0;
pub const KEPT_HIGHEST: usize = 1;
pub const KEPT_CE: usize = 2;
pub const KEPT_LOST: usize = 3;
pub const CALL_WORDS: usize = 6;
pub const CALL_WHICH: usize = 0;
pub const CALL_HIGHEST: usize = 1;
pub const CALL_FRACTION: usize = 2;
pub const CALL_LOST: usize = 3;
pub const CALL_MARKED: usize = 4;
pub const CALL_EXPECTED: usize = 5;
pub const WHICH_HEARD: usize = 0;
pub const WHICH_REPORT: usize = 1;
pub const WHICH_REPORT_ECN: usize = 2;
pub const ATTRIBUTE_WORDS: usize = 11;
pub const ATTRIBUTE_MOST_METHODS: usize = 8;
pub const ATTRIBUTE_USED: usize = 0;
pub const ATTRIBUTE_METHODS: usize = 1;
pub const ATTRIBUTE_MODE: usize = 9;
pub const ATTRIBUTE_ECT: usize = 10;
pub const METHOD_RTP: usize = 1;
pub const METHOD_ICE: usize = 2;
pub const METHOD_LEAP: usize = 3;
pub const MODE_ABSENT: usize = 0;
pub const MODE_SETONLY: usize = 1;
pub const MODE_READONLY: usize = 2;
pub const MODE_SETREAD: usize = 3;
pub const ECT_ABSENT: usize = 0;
pub const ECT_ONE: usize = 1;
pub const ECT_ZERO: usize = 2;
pub const ECT_RANDOM: usize = 3;
pub const LEFT_OUT: usize = 129;
pub const ATTRIBUTE_MOST_BYTES: usize = 84;
pub const FORM_ONE: usize = 1;
pub const FORM_TWO: usize = 2;
pub const BLOCK_WORDS: usize = 3;
pub const BLOCK_KIND: usize = 0;
pub const BLOCK_HELD: usize = 1;
pub const BLOCK_SSRC: usize = 2;
pub const KIND_LABEL_ONE: usize = 1;
pub const KIND_ARRIVALS_ONE: usize = 2;
pub const KIND_LABEL_TWO: usize = 3;
pub const KIND_ARRIVALS_TWO: usize = 4;
pub const BLOCK_BYTES: usize = 512;
pub const LABEL_MOST_BYTES: usize = 502;
pub const RECORD_ONE_BYTES: usize = 8;
pub const RECORD_TWO_BYTES: usize = 10;
pub const ARRIVALS_ONE_MOST: usize = 62;
pub const ARRIVALS_TWO_MOST: usize = 50;
pub const BLOCK_BODY_AT: usize = 8;
pub const RECORD_WORDS: usize = 3;
pub const RECORD_TIME: usize = 0;
pub const RECORD_WIRE: usize = 1;
pub const RECORD_MARK: usize = 2;
pub const HEAD_BYTES: usize = 65;
pub const ROW_MOST_BYTES: usize = 1228;
pub const REFUSED_MOST_BYTES: usize = 40;
pub const RUN_WORDS: usize = 15;
pub const RUN_FORM: usize = 0;
pub const RUN_LABEL_LENGTH: usize = 1;
pub const RUN_SSRC: usize = 2;
pub const RUN_SOURCE: usize = 3;
pub const RUN_JUMPED: usize = 13;
pub const RUN_RESTARTS: usize = 14;
pub const UPLOAD_WORDS: usize = 18;
pub const UPLOAD_KEPT_BYTES: usize = 1024;
pub const UPLOAD_FORM: usize = 0;
pub const UPLOAD_LABEL_LENGTH: usize = 1;
pub const UPLOAD_SSRC: usize = 2;
pub const UPLOAD_SOURCE: usize = 3;
pub const UPLOAD_JUMPED: usize = 13;
pub const UPLOAD_RESTARTS: usize = 14;
pub const UPLOAD_BLOCKS: usize = 15;
pub const UPLOAD_KEPT: usize = 16;
pub const UPLOAD_REFUSAL: usize = 17;
pub const FORMS_WORDS: usize = 3;
pub const FORMS_PART_BYTES: usize = 502;
pub const FORMS_FORM: usize = 0;
pub const FORMS_SSRC: usize = 1;
pub const FORMS_HELD: usize = 2;
pub const STREAMS_WORDS: usize = 3;
pub const LINE_WORDS: usize = 13;
pub const STREAMS_MOST_LINES: usize = 16;
pub const STREAMS_FORM: usize = 0;
pub const STREAMS_LABEL_LENGTH: usize = 1;
pub const STREAMS_HELD: usize = 2;
pub const LINE_SSRC: usize = 0;
pub const LINE_SOURCE: usize = 1;
pub const LINE_JUMPED: usize = 11;
pub const LINE_RESTARTS: usize = 12;

/// A refusal, with its number.
#[derive(Clone, Copy, Debug, PartialEq, Eq, Hash, PartialOrd, Ord)]
#[repr(u8)]
pub enum Refusal {
    /// the input is empty, or ends in the middle of a block or a header
    Incomplete = 1,
    /// the version in an RTCP header is not 2
    Version = 2,
    /// the first packet is no SR or RR
    FirstPacket = 3,
    /// a packet passes the end, or does not have its body's size
    PacketSize = 4,
    /// the padding is wrong, or not in the last packet
    Padding = 5,
    /// an XR block passes its packet
    BlockSize = 6,
    /// the sequence number is too far from the highest: a jump
    Jump = 7,
    /// 2^48 arrivals are counted
    Full = 8,
    /// the record is malformed
    Malformed = 9,
    /// a number, a label, records or a size is outside the limits
    Limits = 10,
    /// the time is earlier than a call before it allows
    Time = 11,
    /// the output is too small
    Room = 12,
    /// the block's checksum does not fit
    Checksum = 13,
    /// the block breaks the format, or has a wrong kind, form or SSRC for its place
    Contents = 14,
    /// a source is new, and every place of the table is held (at most 16)
    Places = 15,
    /// the table breaks its rules, or has over 16 places
    Rules = 16,
    /// a time of 2^32 ms or more needs form 2
    FormTwo = 17,
    /// the attribute is malformed
    Attribute = 18,
    /// a new label has a retired byte, 10 or 13
    Retired = 19,
}

/// Each refusal with its name in the header and its text.
pub const REFUSALS: [(Refusal, &str, &str); 19] = [
    (Refusal::Incomplete, "INCOMPLETE", "the input is empty, or ends in the middle of a block or a header"),
    (Refusal::Version, "VERSION", "the version in an RTCP header is not 2"),
    (Refusal::FirstPacket, "FIRST_PACKET", "the first packet is no SR or RR"),
    (Refusal::PacketSize, "PACKET_SIZE", "a packet passes the end, or does not have its body's size"),
    (Refusal::Padding, "PADDING", "the padding is wrong, or not in the last packet"),
    (Refusal::BlockSize, "BLOCK_SIZE", "an XR block passes its packet"),
    (Refusal::Jump, "JUMP", "the sequence number is too far from the highest: a jump"),
    (Refusal::Full, "FULL", "2^48 arrivals are counted"),
    (Refusal::Malformed, "MALFORMED", "the record is malformed"),
    (Refusal::Limits, "LIMITS", "a number, a label, records or a size is outside the limits"),
    (Refusal::Time, "TIME", "the time is earlier than a call before it allows"),
    (Refusal::Room, "ROOM", "the output is too small"),
    (Refusal::Checksum, "CHECKSUM", "the block's checksum does not fit"),
    (Refusal::Contents, "CONTENTS", "the block breaks the format, or has a wrong kind, form or SSRC for its place"),
    (Refusal::Places, "PLACES", "a source is new, and every place of the table is held (at most 16)"),
    (Refusal::Rules, "RULES", "the table breaks its rules, or has over 16 places"),
    (Refusal::FormTwo, "FORM_TWO", "a time of 2^32 ms or more needs form 2"),
    (Refusal::Attribute, "ATTRIBUTE", "the attribute is malformed"),
    (Refusal::Retired, "RETIRED", "a new label has a retired byte, 10 or 13"),
];

/// The functions as C has them.
pub mod raw {
    extern "C" {
        pub fn flasknib_version() -> u32;
        pub fn flasknib_refusal_text(number: u8, out: *mut u8, room: usize) -> i64;
        pub fn flasknib_arrive(source: *mut u64, words: usize, wire: u16, mark: u8) -> u8;
        pub fn flasknib_count_block(source: *mut u64, words: usize, records: *const u8, length: usize, width: usize) -> i64;
        pub fn flasknib_lost(source: *const u64, words: usize, found: *mut u64, found_words: usize) -> u8;
        pub fn flasknib_write_feedback(source: *const u64, words: usize, sender: u32, media: u32, out: *mut u8, room: usize) -> i64;
        pub fn flasknib_write_summary(source: *const u64, words: usize, media: u32, out: *mut u8, room: usize) -> i64;
        pub fn flasknib_sources_arrive(sources: *mut u64, words: usize, ssrc: u32, wire: u16, mark: u8) -> u8;
        pub fn flasknib_sources_count_block(sources: *mut u64, words: usize, ssrc: u32, records: *const u8, length: usize, width: usize) -> i64;
        pub fn flasknib_sources_write_compound(sources: *const u64, words: usize, sender: u32, out: *mut u8, room: usize) -> i64;
        pub fn flasknib_sources_place(sources: *const u64, words: usize, place: usize, found: *mut u64, found_words: usize) -> u8;
        pub fn flasknib_sources_held(sources: *const u64, words: usize) -> i64;
        pub fn flasknib_read_compound(bytes: *const u8, length: usize, media: u32, profile: u8, found: *mut u64, words: usize) -> u8;
        pub fn flasknib_ecn_between(later_highest: u32, later_ce: u16, later_lost: u16, earlier_highest: u32, earlier_ce: u16, earlier_lost: u16, counts: *mut u64, words: usize) -> u8;
        pub fn flasknib_since16(later: u16, earlier: u16) -> u16;
        pub fn flasknib_since32(later: u32, earlier: u32) -> u32;
        pub fn flasknib_lost_since(later: u16, earlier: u16) -> i16;
        pub fn flasknib_breaker_start(k: u64, m: u64, timeout: u64, reduce: u8, full: u8, time: u64, breaker: *mut u64, words: usize) -> u16;
        pub fn flasknib_breaker_start_preset(time: u64, breaker: *mut u64, words: usize) -> u16;
        pub fn flasknib_breaker_report(breaker: *mut u64, words: usize, time: u64, highest: u32, fraction: u64, rtt: u64, size: u64, rate: u64) -> u16;
        pub fn flasknib_breaker_report_ecn(breaker: *mut u64, words: usize, time: u64, highest: u32, lost: i64, marked: u64, expected: u64, rtt: u64, size: u64, rate: u64) -> u16;
        pub fn flasknib_breaker_tick(breaker: *mut u64, words: usize, time: u64) -> u16;
        pub fn flasknib_breaker_heard(breaker: *mut u64, words: usize, time: u64) -> u16;
        pub fn flasknib_breaker_call(found: *const u64, found_words: usize, kept: *mut u64, kept_words: usize, call: *mut u64, call_words: usize) -> u8;
        pub fn flasknib_read_attribute(line: *const u8, length: usize, found: *mut u64, words: usize) -> u8;
        pub fn flasknib_write_attribute(attribute: *const u64, words: usize, out: *mut u8, room: usize) -> i64;
        pub fn flasknib_answer(offer: *const u64, offer_words: usize, ours: *const u64, our_words: usize, found: *mut u64, words: usize) -> u8;
        pub fn flasknib_read_block(block: *const u8, length: usize, found: *mut u64, words: usize) -> u8;
        pub fn flasknib_read_own(form: u8, ssrc: u32, block: *const u8, length: usize) -> u8;
        pub fn flasknib_record_at(block: *const u8, length: usize, i: usize, found: *mut u64, words: usize) -> u8;
        pub fn flasknib_write_label(form: u8, label: *const u8, length: usize, ssrc: u32, out: *mut u8, room: usize) -> i64;
        pub fn flasknib_space_label(zeroth: *const u8, length: usize, out: *mut u8, room: usize) -> i64;
        pub fn flasknib_write_arrivals(form: u8, times: *const u64, n_times: usize, numbers: *const u16, n_numbers: usize, marks: *const u8, n_marks: usize, ssrc: u32, out: *mut u8, room: usize) -> i64;
        pub fn flasknib_write_records(form: u8, records: *const u8, length: usize, ssrc: u32, out: *mut u8, room: usize) -> i64;
        pub fn flasknib_write_head(out: *mut u8, room: usize) -> i64;
        pub fn flasknib_write_row(label: *const u8, length: usize, ssrc: u32, source: *const u64, words: usize, jumped: u64, restarts: u64, out: *mut u8, room: usize) -> i64;
        pub fn flasknib_write_refused(number: u8, block: u64, out: *mut u8, room: usize) -> i64;
        pub fn flasknib_run_start(zeroth: *const u8, length: usize, run: *mut u64, words: usize) -> u8;
        pub fn flasknib_run_block(run: *mut u64, words: usize, zeroth: *const u8, zeroth_length: usize, block: *const u8, block_length: usize, out: *mut u8, room: usize) -> i64;
        pub fn flasknib_feed(upload: *mut u64, words: usize, kept: *mut u8, kept_length: usize, stretch: *const u8, stretch_length: usize, out: *mut u8, room: usize) -> i64;
        pub fn flasknib_feed_close(upload: *mut u64, words: usize, kept: *const u8, length: usize) -> u8;
        pub fn flasknib_forms_start(zeroth: *const u8, length: usize, forms: *mut u64, words: usize, out: *mut u8, room: usize) -> i64;
        pub fn flasknib_forms_block(forms: *mut u64, words: usize, part: *mut u8, part_length: usize, block: *const u8, block_length: usize, out: *mut u8, room: usize) -> i64;
        pub fn flasknib_forms_close(forms: *const u64, words: usize, part: *const u8, part_length: usize, out: *mut u8, room: usize) -> i64;
        pub fn flasknib_streams_start(zeroth: *const u8, length: usize, run: *mut u64, words: usize) -> u8;
        pub fn flasknib_streams_block(run: *mut u64, words: usize, lines: *mut u64, line_words: usize, block: *const u8, length: usize) -> u8;
        pub fn flasknib_streams_row(run: *const u64, words: usize, i: usize, lines: *const u64, line_words: usize, zeroth: *const u8, zeroth_length: usize, out: *mut u8, room: usize) -> i64;
    }
}

/// The version of the library that is linked. Gives 65,536 * major + 256 * minor + patch, as FLASKNIB_VERSION
/// has it.
pub fn version() -> u32 {
    unsafe { raw::flasknib_version() }
}

/// Writes what a refusal means, in ASCII, not ended by a zero byte. Gives its length. Refusals, as minus the
/// number: 10 a number that is no refusal's (1 to 19), 12 with its size. Changes the front of `out`.
pub fn refusal_text(number: u8, out: &mut [u8]) -> i64 {
    unsafe { raw::flasknib_refusal_text(number, out.as_mut_ptr(), out.len()) }
}

/// Counts one arrival, of the wire number `wire` with the mark `mark`. Gives 0, or FLASKNIB_RESTARTED.
/// Refusals: 9; 10 for a mark above 3; 8; 7. Changes `source` to the next record; refusal 7 too, in which
/// only the remembered number differs.
pub fn arrive(source: &mut [u64], wire: u16, mark: u8) -> u8 {
    unsafe { raw::flasknib_arrive(source.as_mut_ptr(), source.len(), wire, mark) }
}

/// Counts the 1 to 62 records of one arrivals block in order. Each has `width` bytes: a time, which is not
/// looked at, and then the wire number (2, big-endian), the mark and a byte that is not judged here; so a
/// width of FLASKNIB_RECORD_ONE_BYTES or FLASKNIB_RECORD_TWO_BYTES, or 4 without a time, or any other from 4
/// on. A record that is a jump, or that comes when 2^48 are counted, is left out, and the next one is taken.
/// The first packet of the pair that makes a restart is a jump, the second is counted only as a restart.
/// Gives 256 * restarts + jumps: flasknib_block_jumps and flasknib_block_restarts take it apart. Refusals, as
/// minus the number: 9; 10 for a width below 4, a length that is no multiple of it, no record, more than 62
/// or a mark above 3 in any of them. Changes `source` to the next record.
pub fn count_block(source: &mut [u64], records: &[u8], width: usize) -> i64 {
    unsafe { raw::flasknib_count_block(source.as_mut_ptr(), source.len(), records.as_ptr(), records.len(), width) }
}

/// The packets lost: highest - base + 1, less the different numbers that arrived. Negative if packets from
/// before the base came, and 0 in the fresh record. Gives 0, and 1 word, signed. Refusals: 9; 12 if `found`
/// has no word. Changes the front of `found`.
pub fn lost(source: &[u64], found: &mut [u64]) -> u8 {
    unsafe { raw::flasknib_lost(source.as_ptr(), source.len(), found.as_mut_ptr(), found.len()) }
}

/// Writes the ECN feedback packet of RFC 6679, 32 bytes, from the SSRC `sender` about the SSRC `media`. It
/// has highest, ECT(0) and ECT(1) modulo 2^32, and CE, not-ECT, lost and duplicates modulo 65,536. Gives its
/// length. Refusals, as minus the number: 9; 12 with its size. Changes the front of `out`.
pub fn write_feedback(source: &[u64], sender: u32, media: u32, out: &mut [u8]) -> i64 {
    unsafe { raw::flasknib_write_feedback(source.as_ptr(), source.len(), sender, media, out.as_mut_ptr(), out.len()) }
}

/// Writes the XR ECN summary block of RFC 6679 with one entry, 24 bytes, about the SSRC `media`: the same
/// counters, without highest. The caller puts it into an XR packet. Gives its length. Refusals, as minus the
/// number: 9; 12 with its size. Changes the front of `out`.
pub fn write_summary(source: &[u64], media: u32, out: &mut [u8]) -> i64 {
    unsafe { raw::flasknib_write_summary(source.as_ptr(), source.len(), media, out.as_mut_ptr(), out.len()) }
}

/// Counts one arrival of the source `ssrc`, as flasknib_arrive does. Gives 0, or FLASKNIB_RESTARTED.
/// Refusals: 16; 9; 10 for a mark above 3; 15; 8; 7. Changes `sources` to the next table; refusal 7 too, in
/// which only the remembered number of that source's place differs.
pub fn sources_arrive(sources: &mut [u64], ssrc: u32, wire: u16, mark: u8) -> u8 {
    unsafe { raw::flasknib_sources_arrive(sources.as_mut_ptr(), sources.len(), ssrc, wire, mark) }
}

/// Counts the records of one arrivals block of the source `ssrc`, as flasknib_count_block does. Gives 256 *
/// restarts + jumps: flasknib_block_jumps and flasknib_block_restarts take it apart. Refusals, as minus the
/// number: 16; 9; 10 as in flasknib_count_block; 15. Changes `sources` to the next table.
pub fn sources_count_block(sources: &mut [u64], ssrc: u32, records: &[u8], width: usize) -> i64 {
    unsafe { raw::flasknib_sources_count_block(sources.as_mut_ptr(), sources.len(), ssrc, records.as_ptr(), records.len(), width) }
}

/// Writes a compound from the SSRC `sender`: an RR without report blocks (RFC 3550) and one ECN feedback
/// packet for each held place, in order; 8 bytes and 32 for each. Gives its length. Refusals, as minus the
/// number: 16; 9; 12 with its size. Changes the front of `out`.
pub fn sources_write_compound(sources: &[u64], sender: u32, out: &mut [u8]) -> i64 {
    unsafe { raw::flasknib_sources_write_compound(sources.as_ptr(), sources.len(), sender, out.as_mut_ptr(), out.len()) }
}

/// The words of one held place, counted from 0. Gives 0, and 11 words. Refusals: 16; 9; 10 for a place that
/// is not held; 12 if `found` has fewer words. Changes the front of `found`.
pub fn sources_place(sources: &[u64], place: usize, found: &mut [u64]) -> u8 {
    unsafe { raw::flasknib_sources_place(sources.as_ptr(), sources.len(), place, found.as_mut_ptr(), found.len()) }
}

/// The number of held places, which are the first ones. Gives 0 to 16. Refusals, as minus the number: 16; 9.
/// Changes nothing.
pub fn sources_held(sources: &[u64]) -> i64 {
    unsafe { raw::flasknib_sources_held(sources.as_ptr(), sources.len()) }
}

/// Reads a compound, the payload of one UDP packet, for what it reports about the SSRC `media`. A fault
/// anywhere in the compound refuses all of it. Gives 0, and 25 words. Refusals: 10 for another profile than
/// the two; 1 for no bytes; 10 for too many; the first of 1 to 6, packet by packet; 12 if `found` has fewer
/// words. Changes the front of `found`.
pub fn read_compound(bytes: &[u8], media: u32, profile: u8, found: &mut [u64]) -> u8 {
    unsafe { raw::flasknib_read_compound(bytes.as_ptr(), bytes.len(), media, profile, found.as_mut_ptr(), found.len()) }
}

/// What came between two ECN reports of one receiver about one source, the later and the earlier one, each
/// with the highest number, the packets marked with CE and the packets lost as the packets carry them: of ECN
/// feedback words 9, 12 and 14 of the compound; of a summary entry words 19 and 21, with the highest number
/// of the report block beside it, word 3. They are the true numbers if at most 65,535 packets were marked and
/// -32,768 to 32,767 lost in between; not if the receiver began to count anew. Gives 0, and 3 words, as
/// flasknib_breaker_report_ecn takes them. Refusals: 10 if the highest number went back (a difference of 2^31
/// or more); 12 if `counts` has fewer words. Changes the front of `counts`.
pub fn ecn_between(later_highest: u32, later_ce: u16, later_lost: u16, earlier_highest: u32, earlier_ce: u16, earlier_lost: u16, counts: &mut [u64]) -> u8 {
    unsafe { raw::flasknib_ecn_between(later_highest, later_ce, later_lost, earlier_highest, earlier_ce, earlier_lost, counts.as_mut_ptr(), counts.len()) }
}

/// What came between two reports, of a counter that they carry in 16 bits: CE, not-ECT, duplicates. Gives the
/// later minus the earlier, modulo 2^16: the true count if that is from 0 to 2^16 - 1.
pub fn since16(later: u16, earlier: u16) -> u16 {
    unsafe { raw::flasknib_since16(later, earlier) }
}

/// What came between two reports, of a counter that they carry in 32 bits: the highest number, ECT(0),
/// ECT(1). Gives the later minus the earlier, modulo 2^32: the true count if that is from 0 to 2^32 - 1.
pub fn since32(later: u32, earlier: u32) -> u32 {
    unsafe { raw::flasknib_since32(later, earlier) }
}

/// What came between two reports, of packets lost, which can fall: they carry it in 16 bits. Gives the later
/// minus the earlier, modulo 2^16 and read as signed, -32,768 to 32,767.
pub fn lost_since(later: u16, earlier: u16) -> i16 {
    unsafe { raw::flasknib_lost_since(later, earlier) }
}

/// Starts a breaker. With `full` the congestion rule takes the full throughput equation (RFC 8083, section
/// 4.3, with b = 1 and t_RTO = 4 * Tr), which reacts earlier if much is lost; without, the simplified one.
/// Gives FLASKNIB_GO, and the record. Refusals: 9 for another number of words than 77; 10, also for a
/// `reduce` or `full` that is not 0 or 1. Changes `breaker`.
pub fn breaker_start(k: u64, m: u64, timeout: u64, reduce: u8, full: u8, time: u64, breaker: &mut [u64]) -> u16 {
    unsafe { raw::flasknib_breaker_start(k, m, timeout, reduce, full, time, breaker.as_mut_ptr(), breaker.len()) }
}

/// Starts a breaker with the preset settings: k = 3, m = 3, a timeout of 15,000 ms, no reductions, the
/// simplified equation. Gives FLASKNIB_GO, and the record. Refusals: 9 for another number of words than 77;
/// 10 for a time of 2^48 ms or more. Changes `breaker`.
pub fn breaker_start_preset(time: u64, breaker: &mut [u64]) -> u16 {
    unsafe { raw::flasknib_breaker_start_preset(time, breaker.as_mut_ptr(), breaker.len()) }
}

/// Takes a report that came at `time`: its extended highest sequence number and its fraction lost, in 256ths,
/// 0 to 255. Gives FLASKNIB_GO, FLASKNIB_REDUCE or a stop. A stopped breaker answers its stop, after 9 only.
/// Refusals: 9; 10; 11. Changes `breaker` to the next record; a stopped one stays as it is.
pub fn breaker_report(breaker: &mut [u64], time: u64, highest: u32, fraction: u64, rtt: u64, size: u64, rate: u64) -> u16 {
    unsafe { raw::flasknib_breaker_report(breaker.as_mut_ptr(), breaker.len(), time, highest, fraction, rtt, size, rate) }
}

/// Takes a report with ECN counts in the place of the fraction lost: of the `expected` packets of its
/// interval, `lost` were lost (negative if some came that were counted as lost before) and `marked` were
/// marked with CE. The fraction is 256 * min(lost + marked, expected) / expected rounded down, at most 255; a
/// negative `lost` is 0 there, and if none were expected the fraction is 0. Gives FLASKNIB_GO,
/// FLASKNIB_REDUCE or a stop. A stopped breaker answers its stop, after 9 only. Refusals: 9; 10, also for a
/// `marked` or `expected` above 2^31, or a `lost` outside -2^31 to 2^31; 11. Changes `breaker` to the next
/// record; a stopped one stays as it is.
#[allow(clippy::too_many_arguments)]
pub fn breaker_report_ecn(breaker: &mut [u64], time: u64, highest: u32, lost: i64, marked: u64, expected: u64, rtt: u64, size: u64, rate: u64) -> u16 {
    unsafe { raw::flasknib_breaker_report_ecn(breaker.as_mut_ptr(), breaker.len(), time, highest, lost, marked, expected, rtt, size, rate) }
}

/// Takes a tick, as from a timer: only whether the timeout has passed at `time`. Gives FLASKNIB_GO or a stop.
/// A stopped breaker answers its stop, after 9 only. Refusals: 9; 10; 11. Changes `breaker` only if it stops
/// now.
pub fn breaker_tick(breaker: &mut [u64], time: u64) -> u16 {
    unsafe { raw::flasknib_breaker_tick(breaker.as_mut_ptr(), breaker.len(), time) }
}

/// Takes a packet that was heard and is no report: a Go moves the time from which the timeout is measured to
/// `time`, and nothing else. Gives FLASKNIB_GO or a stop. A stopped breaker answers its stop, after 9 only.
/// Refusals: 9; 10; 11. Changes `breaker` to the next record; a stopped one stays as it is.
pub fn breaker_heard(breaker: &mut [u64], time: u64) -> u16 {
    unsafe { raw::flasknib_breaker_heard(breaker.as_mut_ptr(), breaker.len(), time) }
}

/// Says which call a packet is for, by the 25 words that flasknib_read_compound gave of it and the 4 words
/// kept of its receiver: flasknib_compound_receiver says who that is. What the reader gave and an earlier
/// call kept is never refused with 9, and the breaker takes the losses that this call gives: time, round
/// trip, packet size and rate are the caller's. flasknib_breaker_take makes the call. Gives 0, the 6 words of
/// the call, and what is kept then. Refusals: 9; 12 if `call` has fewer than 6 words. 9 is for - another
/// number of words than 25 or 4; a word 0, 7, 16 or 23 of the compound, or a first one of what is kept, above
/// 1; - if a report block is there, a fraction past 8 bits or a highest number past 32; if feedback is there,
/// a highest number past 32 bits, CE or lost past 16; if a summary entry is there, CE or lost past 16; the
/// same of what is kept; - kept words that are not 0 if none is kept. No other word is looked at. Changes the
/// front of `call`, and `kept`. If the breaker then refuses the call, put the kept words back to what they
/// were before, so that the next report counts from there.
pub fn breaker_call(found: &[u64], kept: &mut [u64], call: &mut [u64]) -> u8 {
    unsafe { raw::flasknib_breaker_call(found.as_ptr(), found.len(), kept.as_mut_ptr(), kept.len(), call.as_mut_ptr(), call.len()) }
}

/// Reads a line. Gives 0, and 11 words. Refusals: 10 for over 255 bytes; 18 for a line that is not well
/// formed, an empty one too; 10 for over 8 methods or 8 parameters, known or not; 12 if `found` has fewer
/// words. Changes the front of `found`.
pub fn read_attribute(line: &[u8], found: &mut [u64]) -> u8 {
    unsafe { raw::flasknib_read_attribute(line.as_ptr(), line.len(), found.as_mut_ptr(), found.len()) }
}

/// Writes the line of a record, 22 to 84 bytes, in lower case and with no CR LF: the methods, then the mode,
/// then the ect. What it writes reads back to the same words, but for 0 after the last method. Gives its
/// length. Refusals, as minus the number: 9; 10 for no method or over 8; 12 with its size. Changes the front
/// of `out`.
pub fn write_attribute(attribute: &[u64], out: &mut [u8]) -> i64 {
    unsafe { raw::flasknib_write_attribute(attribute.as_ptr(), attribute.len(), out.as_mut_ptr(), out.len()) }
}

/// Answers an offer by our abilities, the record that we would offer: the first of our methods that the offer
/// names, our mode and our ect. Gives 0, and 11 words; or FLASKNIB_LEFT_OUT, whatever `words` is, if no
/// method is common, or both modes are setonly or both readonly. Refusals: 9 for either record; 10 for over 8
/// methods in either; 12 if `found` has fewer words. Changes the front of `found`, and no word of it for
/// FLASKNIB_LEFT_OUT.
pub fn answer(offer: &[u64], ours: &[u64], found: &mut [u64]) -> u8 {
    unsafe { raw::flasknib_answer(offer.as_ptr(), offer.len(), ours.as_ptr(), ours.len(), found.as_mut_ptr(), found.len()) }
}

/// Reads a block of 512 bytes, of either form. Gives 0, and 3 words. Refusals: 1 for another length than 512;
/// 13; 14 for contents against the rules above; 12 if `found` has fewer words. Changes the front of `found`.
pub fn read_block(block: &[u8], found: &mut [u64]) -> u8 {
    unsafe { raw::flasknib_read_block(block.as_ptr(), block.len(), found.as_mut_ptr(), found.len()) }
}

/// Judges a later block at its place: it must hold arrivals of the form and the SSRC of block 0, which
/// flasknib_read_block gives (kind 1 is form 1, kind 3 form 2). So ecntable judges each later block. The
/// program ecnsalvage copies block 0 and each later block for which this is 0, and lists the others. Gives 0.
/// Refusals: 10 for another form than the two; 1 for another length than 512; 13; 14 for contents against the
/// rules above, a label, or another form or SSRC. Changes nothing.
pub fn read_own(form: u8, ssrc: u32, block: &[u8]) -> u8 {
    unsafe { raw::flasknib_read_own(form, ssrc, block.as_ptr(), block.len()) }
}

/// The record `i`, counted from 0, of an arrivals block of either form. Nothing else of the block is judged:
/// flasknib_read_block does that, once a block. Gives 0, and 3 words. Refusals: 1 for another length than
/// 512; 14 for a kind that is not arrivals or a count outside its form's limits; 10 for an `i` not below the
/// count; 12 if `found` has fewer words. Changes the front of `found`.
pub fn record_at(block: &[u8], i: usize, found: &mut [u64]) -> u8 {
    unsafe { raw::flasknib_record_at(block.as_ptr(), block.len(), i, found.as_mut_ptr(), found.len()) }
}

/// Writes the label block of a new label, 512 bytes. Gives its length. Refusals, as minus the number: 10 for
/// another form than the two or a label against the rules above; 19 for a label with a retired byte; 12 with
/// its size. Changes the front of `out`.
pub fn write_label(form: u8, label: &[u8], ssrc: u32, out: &mut [u8]) -> i64 {
    unsafe { raw::flasknib_write_label(form, label.as_ptr(), label.len(), ssrc, out.as_mut_ptr(), out.len()) }
}

/// Writes block 0 of a trace again, 512 bytes, with one space in the place of each retired byte of its label.
/// Form, length and SSRC stay, and the checksum is the one that fits. The program ecnlabel does this to block
/// 0 and copies the others. Gives the number of bytes replaced, 0 to 502. Refusals, as minus the number: 1,
/// 13 or 14 for the block (14 for arrivals too); 12 with its size. Changes the front of `out`.
pub fn space_label(zeroth: &[u8], out: &mut [u8]) -> i64 {
    unsafe { raw::flasknib_space_label(zeroth.as_ptr(), zeroth.len(), out.as_mut_ptr(), out.len()) }
}

/// Writes an arrivals block, 512 bytes, of three lists, one entry to a record: times in ms, wire numbers and
/// marks, as numbers of the machine. Gives its length. Refusals, as minus the number: 10 for another form
/// than the two, lists of unequal length, no record or more than the form has to a block, a time that the
/// form has no bytes for or a mark above 3; 12 with its size. Changes the front of `out`.
pub fn write_arrivals(form: u8, times: &[u64], numbers: &[u16], marks: &[u8], ssrc: u32, out: &mut [u8]) -> i64 {
    unsafe { raw::flasknib_write_arrivals(form, times.as_ptr(), times.len(), numbers.as_ptr(), numbers.len(), marks.as_ptr(), marks.len(), ssrc, out.as_mut_ptr(), out.len()) }
}

/// Writes the same block as flasknib_write_arrivals from the bytes of its records, each as a block has it,
/// big-endian. Gives its length. Refusals, as minus the number: 10 for another form than the two, a record
/// that is not whole, no record or more than the form has to a block, a mark above 3 or a last byte that is
/// not 0; 12 with its size. Changes the front of `out`.
pub fn write_records(form: u8, records: &[u8], ssrc: u32, out: &mut [u8]) -> i64 {
    unsafe { raw::flasknib_write_records(form, records.as_ptr(), records.len(), ssrc, out.as_mut_ptr(), out.len()) }
}

/// Writes the table's head line, 65 bytes with its CR LF. Gives its length. Refusals, as minus the number: 12
/// with its size. Changes the front of `out`.
pub fn write_head(out: &mut [u8]) -> i64 {
    unsafe { raw::flasknib_write_head(out.as_mut_ptr(), out.len()) }
}

/// Writes a row of the table, at most 1,228 bytes with its CR LF, of the values of one source's record. Gives
/// its length. Refusals, as minus the number: 9; 10 for a label against the rules above or for `jumped` or
/// `restarts` above 2^48; 12 with its size. Changes the front of `out`.
pub fn write_row(label: &[u8], ssrc: u32, source: &[u64], jumped: u64, restarts: u64, out: &mut [u8]) -> i64 {
    unsafe { raw::flasknib_write_row(label.as_ptr(), label.len(), ssrc, source.as_ptr(), source.len(), jumped, restarts, out.as_mut_ptr(), out.len()) }
}

/// Writes the line `refused N block I`, at most 40 bytes with its CR LF, of any refusal's number and any
/// block's. Gives its length. Refusals, as minus the number: 12 with its size. Changes the front of `out`.
pub fn write_refused(number: u8, block: u64, out: &mut [u8]) -> i64 {
    unsafe { raw::flasknib_write_refused(number, block, out.as_mut_ptr(), out.len()) }
}

/// Takes block 0, which must be a label block of either form. Gives 0, and 15 words. Refusals: 9 for another
/// number of words; 1, 13 or 14 for the block (14 for arrivals too). Changes `run`.
pub fn run_start(zeroth: &[u8], run: &mut [u64]) -> u8 {
    unsafe { raw::flasknib_run_start(zeroth.as_ptr(), zeroth.len(), run.as_mut_ptr(), run.len()) }
}

/// Takes a later block, which must hold arrivals of the label's form and SSRC, and writes the row after it,
/// at most FLASKNIB_ROW_MOST_BYTES. `zeroth` is block 0, from which the row has its label: lend the same
/// bytes to every call. Of block 0 nothing is compared but what 9 names, neither its label nor its checksum:
/// with another label of the same length the row has that one. Gives the row's length. Refusals, as minus the
/// number: 9, also for a block 0 that is not 512 bytes, has another form, length of the label or SSRC than
/// the run, or a label against the rules; 1, 13 or 14 for the block; 12 with the row's size. Changes `run` to
/// the next run, and the front of `out`.
pub fn run_block(run: &mut [u64], zeroth: &[u8], block: &[u8], out: &mut [u8]) -> i64 {
    unsafe { raw::flasknib_run_block(run.as_mut_ptr(), run.len(), zeroth.as_ptr(), zeroth.len(), block.as_ptr(), block.len(), out.as_mut_ptr(), out.len()) }
}

/// Takes a stretch of a trace, and writes the rows of all blocks that it completes, each at most
/// FLASKNIB_ROW_MOST_BYTES. Gives the rows' length. Refusals, as minus the number: 9; the kept one; 10 for
/// more than 2^48 bytes in all; 12 with the rows' size; 13 or 14 for a block. That one comes with the length
/// of the rows before it, which are written, as 12 with its size: flasknib_writer_size gives it. It is kept,
/// and every later call repeats it with length 0. Changes `upload` and `kept` to the next upload, and the
/// front of `out`; so does refusal 13 or 14 of a block. Any other refusal changes nothing.
pub fn feed(upload: &mut [u64], kept: &mut [u8], stretch: &[u8], out: &mut [u8]) -> i64 {
    unsafe { raw::flasknib_feed(upload.as_mut_ptr(), upload.len(), kept.as_mut_ptr(), kept.len(), stretch.as_ptr(), stretch.len(), out.as_mut_ptr(), out.len()) }
}

/// Ends a trace, or asks how it would end. Gives 0, and feeding may go on. Refusals: 9; the kept one; 1 for a
/// partial block, or for block 0 of an empty trace, which is kept. Changes the kept refusal in `upload` for
/// that 1, and nothing otherwise.
pub fn feed_close(upload: &mut [u64], kept: &[u8]) -> u8 {
    unsafe { raw::flasknib_feed_close(upload.as_mut_ptr(), upload.len(), kept.as_ptr(), kept.len()) }
}

/// Takes block 0, which must be a label block of either form, and writes it in the other form, 512 bytes.
/// Gives its length, and the 3 words of a conversion that holds no record. Refusals, as minus the number: 9
/// for another number of words than 3; 1, 13 or 14 for the block (14 for arrivals too); 12 with its size.
/// Changes `forms` and the front of `out`.
pub fn forms_start(zeroth: &[u8], forms: &mut [u64], out: &mut [u8]) -> i64 {
    unsafe { raw::flasknib_forms_start(zeroth.as_ptr(), zeroth.len(), forms.as_mut_ptr(), forms.len(), out.as_mut_ptr(), out.len()) }
}

/// Takes a later block, which must hold arrivals of the label's form and SSRC, and writes the blocks that are
/// full with its records: 0, 512 or 1,024 bytes. The records left over are held in the part. Gives the
/// blocks' length. Refusals, as minus the number: 9; 1, 13 or 14 for the block; 17 for a time of 2^32 ms or
/// more, which only form 2 has bytes for; 12 with the blocks' size. Changes `forms` and `part` to the next
/// conversion, and the front of `out`.
pub fn forms_block(forms: &mut [u64], part: &mut [u8], block: &[u8], out: &mut [u8]) -> i64 {
    unsafe { raw::flasknib_forms_block(forms.as_mut_ptr(), forms.len(), part.as_mut_ptr(), part.len(), block.as_ptr(), block.len(), out.as_mut_ptr(), out.len()) }
}

/// Writes the records that are held as a last block, 512 bytes, or nothing if there are none. Gives its
/// length. Refusals, as minus the number: 9; 12 with its size. Changes the front of `out`.
pub fn forms_close(forms: &[u64], part: &[u8], out: &mut [u8]) -> i64 {
    unsafe { raw::flasknib_forms_close(forms.as_ptr(), forms.len(), part.as_ptr(), part.len(), out.as_mut_ptr(), out.len()) }
}

/// Takes block 0, which must be a label block of either form; its SSRC binds nothing. Gives 0, and 3 words,
/// of a run that holds no line. Refusals: 9 for another number of words than 3; 1, 13 or 14 for the block (14
/// for arrivals too). Changes `run`.
pub fn streams_start(zeroth: &[u8], run: &mut [u64]) -> u8 {
    unsafe { raw::flasknib_streams_start(zeroth.as_ptr(), zeroth.len(), run.as_mut_ptr(), run.len()) }
}

/// Takes a later block, which must hold arrivals of the label's form, and counts them in the line of their
/// SSRC; a new SSRC gets a line. Gives 0. Refusals: 16; 9; 1, 13 or 14 for the block; 15 for a seventeenth
/// SSRC. Changes `run` to the next run, and `lines`.
pub fn streams_block(run: &mut [u64], lines: &mut [u64], block: &[u8]) -> u8 {
    unsafe { raw::flasknib_streams_block(run.as_mut_ptr(), run.len(), lines.as_mut_ptr(), lines.len(), block.as_ptr(), block.len()) }
}

/// Writes the row of line i, counted from 0, at most FLASKNIB_ROW_MOST_BYTES. `zeroth` is block 0, from which
/// the row has its label. Gives the row's length. Refusals, as minus the number: 16; 9, also for a block 0
/// that is not 512 bytes, has another form or length of the label than the run, or a label against the rules
/// (nothing else of it is compared); 10 for no such line; 12 with the row's size. Changes the front of `out`.
pub fn streams_row(run: &[u64], i: usize, lines: &[u64], zeroth: &[u8], out: &mut [u8]) -> i64 {
    unsafe { raw::flasknib_streams_row(run.as_ptr(), run.len(), i, lines.as_ptr(), lines.len(), zeroth.as_ptr(), zeroth.len(), out.as_mut_ptr(), out.len()) }
}
