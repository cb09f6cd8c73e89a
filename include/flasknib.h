/* Flasknib: ECN counting of one RTP source and of several, ECN reports (RFC 6679), a compound RTCP
 * reader, a sender's circuit breaker (RFC 8083), the SDP attribute ecn-capable-rtp (RFC 6679), the
 * blocks of a trace, the rows of a table, and what the programs ecntable, ecnforms and ecnstreams
 * do with a trace, block by block, or bit by bit as it arrives. docs/LIBRARY.md has a first program
 * and says which call is for what.
 *
 * Every function returns on every input. A record is lent as an array of 64-bit words in one of the
 * layouts below; a signed number is stored as its two's complement, so (int64_t)word is the number.
 * A refusal is its number below, and a refused call changes no word and no byte of what it was
 * lent, with these exceptions: refusal 7 of flasknib_arrive and flasknib_sources_arrive changes the
 * remembered number of the record; and flasknib_feed and flasknib_feed_close keep the first refusal
 * 1, 13 or 14 of a trace, the rows before it written. A record in another number of words than its
 * layout has is refused with 9, as malformed, and so is a table with 16; so is one that a breaker,
 * a run of ecntable or of ecnstreams or a conversion is to start in. What any other call only fills
 * may be longer: it fills the front, and leaves the rest as it was. A function that writes bytes
 * says with refusal 12 how many it needs.
 *
 * The comment above a function says what it does; what it gives if it is not refused; its refusals,
 * in the order in which they are looked for, so that of several the first is given; and what it
 * changes. A refusal without a reason has the one that stands with the refusals or with the layout.
 *
 * Byte order. Words, arguments and answers are numbers of the machine: give the sequence number of
 * a packet as ntohs gives it. Bytes are those of the network and of the trace file, and every
 * number in them is big-endian, the highest byte first, also in records that the caller makes: the
 * wire number n is the bytes n >> 8 and n & 255. A uint16_t copied there by memcpy is accepted, and
 * counted as another number.
 */
#ifndef FLASKNIB_H
#define FLASKNIB_H

#include <stddef.h>
#include <stdint.h>

#ifdef __cplusplus
extern "C" {
#endif

/* The library's version. While the first number is 0, another second number may change or remove
 * what is declared here. */
#define FLASKNIB_VERSION_MAJOR 0
#define FLASKNIB_VERSION_MINOR 2
#define FLASKNIB_VERSION_PATCH 0
#define FLASKNIB_VERSION_STRING "0.2.0"

/* ---- how the names are made ---------------------------------------------------------------------
 * .._WORDS and .._BYTES are sizes of what is lent, and MOST is the greatest of something.
 * FLASKNIB_REFUSAL_.. are the refusals, FLASKNIB_MARK_.., _PROFILE_.., _FORM_.., _KIND_..,
 * _REASON_.., _PRESET_.., _METHOD_.., _MODE_.. and _ECT_.. the values of an argument or a word. Any
 * other name of a record and a field, as FLASKNIB_SOURCE_CE, is the place of that word in the
 * record, counted from 0, and no size: FLASKNIB_RUN_LABEL_LENGTH is 1, and
 * run[FLASKNIB_RUN_LABEL_LENGTH] is the length.
 *
 * A function with a body here is no symbol of the library. Those that end in _with take the numbers
 * of the plain function of that name in structs with named fields, and call it: use them, so that
 * no two numbers can be exchanged. In C a field that is not named is 0.
 */

/* ---- what a caller owes -------------------------------------------------------------------------
 * The library is made for x86-64 Linux and for nothing else: size_t has 64 bits.
 *
 * A pointer and the count after it (words, length, room, n_...; of elements, so of 8 bytes each for
 * words) describe memory that the caller lends for the call. What is promised holds if
 *   - no pointer is null, not even if its count is 0: lend any address then (in C++, data() of an
 *     empty vector may be null);
 *   - all of that memory can be read, and written if the pointer is not to const;
 *   - each pointer is aligned for its type: 8 bytes for words and times, 2 for numbers;
 *   - what can be written overlaps nothing else that is lent in the same call: a label inside `out`
 *     gives a wrong row. Parts that are only read may overlap.
 * The library keeps nothing between calls: no heap, no global state, no I/O, no lock. Calls may run
 * at once in several threads if none writes what another uses, so with a record to each thread. Of
 * the C library it uses memcpy and its like, and nothing else.
 */

/* ---- the stack of a call ------------------------------------------------------------------------
 * A call takes at most so many bytes of stack, its return address among them, as measured on the
 * library's code for x86-64; what memcpy and its like take of their own comes to it.
 *      256 bytes: flasknib_version, flasknib_arrive, flasknib_lost, flasknib_write_summary,
 *                 flasknib_read_compound, flasknib_ecn_between, flasknib_since16, flasknib_since32,
 *                 flasknib_lost_since, flasknib_breaker_call, flasknib_read_block,
 *                 flasknib_read_own, flasknib_record_at, flasknib_write_label,
 *                 flasknib_space_label, flasknib_write_arrivals, flasknib_write_records,
 *                 flasknib_write_head, flasknib_write_refused, flasknib_run_start,
 *                 flasknib_forms_start, flasknib_forms_close, flasknib_streams_start,
 *                 flasknib_refusal_text, flasknib_read_attribute, flasknib_answer
 *      512 bytes: flasknib_write_feedback, flasknib_forms_block, flasknib_write_row
 *    1,024 bytes: flasknib_count_block, flasknib_write_attribute, flasknib_feed_close
 *    2,048 bytes: flasknib_breaker_start, flasknib_breaker_start_preset, flasknib_run_block
 *    4,096 bytes: flasknib_feed, flasknib_breaker_tick, flasknib_breaker_heard
 *    8,192 bytes: flasknib_sources_held, flasknib_sources_write_compound, flasknib_sources_place
 *   16,384 bytes: flasknib_breaker_report, flasknib_breaker_report_ecn, flasknib_sources_arrive,
 *                 flasknib_sources_count_block, flasknib_streams_block, flasknib_streams_row
 */

/* What a compiler that can (GCC, Clang) warns of: an answer that nobody looks at, and a null
 * pointer. Another compiler sees nothing here. */
#if defined(__GNUC__)
#define FLASKNIB_MUST_USE __attribute__((warn_unused_result))
#define FLASKNIB_MUST_USE_NONNULL __attribute__((warn_unused_result, nonnull))
#else
#define FLASKNIB_MUST_USE
#define FLASKNIB_MUST_USE_NONNULL
#endif

/* A cast of which C++ does not warn (-Wold-style-cast); only for the functions below. */
#ifdef __cplusplus
#define FLASKNIB_AS(type, value) static_cast<type>(value)
#else
#define FLASKNIB_AS(type, value) ((type)(value))
#endif

/* Refusals, each with the text that flasknib_refusal_text writes. 7 stores in the record the number
 * that would follow the jump. 11 is given to a report that is not later than the last report or
 * start, or earlier than a heard packet, and to a tick or a heard packet earlier than these. If
 * bytes are written, 12 comes with their number. Only the converter of forms gives 17, and only
 * flasknib_write_label 19.
 */
enum {
    FLASKNIB_REFUSAL_INCOMPLETE = 1,   /* the input is empty, or ends in the middle of a block or a
                                          header */
    FLASKNIB_REFUSAL_VERSION = 2,      /* the version in an RTCP header is not 2 */
    FLASKNIB_REFUSAL_FIRST_PACKET = 3, /* the first packet is no SR or RR */
    FLASKNIB_REFUSAL_PACKET_SIZE = 4,  /* a packet passes the end, or does not have its body's
                                          size */
    FLASKNIB_REFUSAL_PADDING = 5,      /* the padding is wrong, or not in the last packet */
    FLASKNIB_REFUSAL_BLOCK_SIZE = 6,   /* an XR block passes its packet */
    FLASKNIB_REFUSAL_JUMP = 7,         /* the sequence number is too far from the highest: a jump */
    FLASKNIB_REFUSAL_FULL = 8,         /* 2^48 arrivals are counted */
    FLASKNIB_REFUSAL_MALFORMED = 9,    /* the record is malformed */
    FLASKNIB_REFUSAL_LIMITS = 10,      /* a number, a label, records or a size is outside the
                                          limits */
    FLASKNIB_REFUSAL_TIME = 11,        /* the time is earlier than a call before it allows */
    FLASKNIB_REFUSAL_ROOM = 12,        /* the output is too small */
    FLASKNIB_REFUSAL_CHECKSUM = 13,    /* the block's checksum does not fit */
    FLASKNIB_REFUSAL_CONTENTS = 14,    /* the block breaks the format, or has a wrong kind, form or
                                          SSRC for its place */
    FLASKNIB_REFUSAL_PLACES = 15,      /* a source is new, and every place of the table is held (at
                                          most 16) */
    FLASKNIB_REFUSAL_RULES = 16,       /* the table breaks its rules, or has over 16 places */
    FLASKNIB_REFUSAL_FORM_TWO = 17,    /* a time of 2^32 ms or more needs form 2 */
    FLASKNIB_REFUSAL_ATTRIBUTE = 18,   /* the attribute is malformed */
    FLASKNIB_REFUSAL_RETIRED = 19      /* a new label has a retired byte, 10 or 13 */
};

/* The version in the header as one number: 65,536 * major + 256 * minor + patch. */
#define FLASKNIB_VERSION (65536 * 0 + 256 * 2 + 0)

/* The version of the library that is linked.
 * Gives 65,536 * major + 256 * minor + patch, as FLASKNIB_VERSION has it. */
uint32_t flasknib_version(void) FLASKNIB_MUST_USE;

/* A text has at most so many bytes. */
#define FLASKNIB_REFUSAL_TEXT_MOST_BYTES 80

/* Writes what a refusal means, in ASCII, not ended by a zero byte.
 * Gives its length.
 * Refusals, as minus the number: 10 a number that is no refusal's (1 to 19), 12 with its size.
 * Changes the front of `out`. */
int64_t flasknib_refusal_text(uint8_t number, uint8_t *out, size_t room) FLASKNIB_MUST_USE_NONNULL;

/* ---- what a writer answers ----------------------------------------------------------------------
 * The functions that write bytes (those with `out`) give the length, the number of bytes that they
 * wrote, or minus a refusal's number. Refusal 12 comes with its size, the number of bytes that the
 * call would write: the answer is minus (256 * size + 12). With a room of exactly that many bytes
 * the same call succeeds, with one byte fewer it does not. The size can be asked with a room of 0;
 * `out` must not be null, even then. The other refusals have no size, but for those of a block that
 * flasknib_feed gives. The functions that fill words answer a plain 12: how many words they need is
 * fixed, and stands below. In the place of the length, flasknib_space_label gives the number of
 * bytes that it replaced.
 */

/* The refusal in the answer of a writer, or of flasknib_count_block or
 * flasknib_sources_count_block.
 * Gives its number, or 0 if there is none. */
static inline int flasknib_writer_refusal(int64_t answer)
{
    return answer < 0 ? FLASKNIB_AS(int, -(answer % 256)) : 0;
}

/* The size in a writer's answer.
 * Gives the size that comes with refusal 12, or the length that comes with a block's in
 * flasknib_feed, or 0 if there is another refusal or a length. */
static inline size_t flasknib_writer_size(int64_t answer)
{
    return answer < 0 ? FLASKNIB_AS(size_t, -(answer / 256)) : 0;
}

/* The names of version 0.1 for these two. The next version has only the functions. */
#define FLASKNIB_WRITE_REFUSAL(answer) flasknib_writer_refusal(answer)
#define FLASKNIB_WRITE_SIZE(answer) flasknib_writer_size(answer)

/* ---- one RTP source -----------------------------------------------------------------------------
 * 10 words: base (signed), highest (signed), not-ECT, ECT(1), ECT(0), CE, duplicates, places 0 to
 * 63 of the history, places 64 to 99, the remembered number. The fresh record, before the first
 * arrival, is all zero. Base is the first sequence number, and highest the highest one, with its
 * wraps counted. An arrival that is accepted raises exactly one of the four counters of marks by
 * one, and duplicates too if its number has arrived before. Place k of the history stands for the
 * number highest - k, and is set if that has arrived; it is bit k of the first of its two words or
 * bit k - 64 of the second, counted from the lowest. The remembered number is 0 for none, and
 * otherwise a wire number plus 1.
 *
 * A wire number is the 16-bit sequence number of an RTP packet. The first arrival sets base and
 * highest to it. Later, with d the wire number minus highest, modulo 65,536: d from 1 to 2,999 is
 * the new highest; d = 0, and d from 65,437 on, is the number 0 to 99 below highest; any other d is
 * a jump, refused with 7.
 *
 * A sender that begins again with other numbers (RFC 3550, appendix A.1): at a jump the wire number
 * that would follow it, modulo 65,536, is remembered in place of any before. A later arrival that
 * is a jump too and has that number restarts the record: base, highest, history and all counters
 * become those of a first arrival, this one, and no number is remembered. An arrival that is
 * accepted forgets the remembered number; one that is refused with 9, 10 or 8 does not.
 *
 * A record that a call left is never malformed. Malformed (9) is one that is not fresh and breaks
 * any of these rules:
 *   - base is from 0 to 65,535, and highest is at least base;
 *   - the four counters of marks sum to 1 to 2^48, and duplicates are below that sum; the sum less
 *     the duplicates is D, the different numbers;
 *   - place 0 is set, no bit of the second word beyond place 99 is, and at most D places are set;
 *   - highest - base is at most 2,999 * (D - 1);
 *   - the word of the remembered number is at most 65,536.
 */
#define FLASKNIB_SOURCE_WORDS 10

/* The places of the words. The history is two words. */
enum {
    FLASKNIB_SOURCE_BASE = 0,
    FLASKNIB_SOURCE_HIGHEST = 1,
    FLASKNIB_SOURCE_NOT_ECT = 2,
    FLASKNIB_SOURCE_ECT1 = 3,
    FLASKNIB_SOURCE_ECT0 = 4,
    FLASKNIB_SOURCE_CE = 5,
    FLASKNIB_SOURCE_DUPLICATES = 6,
    FLASKNIB_SOURCE_HISTORY = 7,
    FLASKNIB_SOURCE_REMEMBERED = 9
};

/* The marks, as the two bits of the IP header have them (RFC 3168): ECT(1) is 1, ECT(0) is 2.
 * Another mark is refused with 10. */
enum {
    FLASKNIB_MARK_NOT_ECT = 0,
    FLASKNIB_MARK_ECT1 = 1,
    FLASKNIB_MARK_ECT0 = 2,
    FLASKNIB_MARK_CE = 3
};

/* What flasknib_arrive and flasknib_sources_arrive answer for a restart. It is no refusal: the
 * arrival is counted. */
enum { FLASKNIB_RESTARTED = 128 };

/* Counts one arrival, of the wire number `wire` with the mark `mark`.
 * Gives 0, or FLASKNIB_RESTARTED.
 * Refusals: 9; 10 for a mark above 3; 8; 7.
 * Changes `source` to the next record; refusal 7 too, in which only the remembered number
 * differs. */
uint8_t flasknib_arrive(uint64_t *source, size_t words, uint16_t wire, uint8_t mark)
    FLASKNIB_MUST_USE_NONNULL;

/* Counts the 1 to 62 records of one arrivals block in order. Each has `width` bytes: a time, which
 * is not looked at, and then the wire number (2, big-endian), the mark and a byte that is not
 * judged here; so a width of FLASKNIB_RECORD_ONE_BYTES or FLASKNIB_RECORD_TWO_BYTES, or 4 without a
 * time, or any other from 4 on. A record that is a jump, or that comes when 2^48 are counted, is
 * left out, and the next one is taken. The first packet of the pair that makes a restart is a jump,
 * the second is counted only as a restart.
 * Gives 256 * restarts + jumps: flasknib_block_jumps and flasknib_block_restarts take it apart.
 * Refusals, as minus the number: 9; 10 for a width below 4, a length that is no multiple of it, no
 * record, more than 62 or a mark above 3 in any of them.
 * Changes `source` to the next record. */
int64_t flasknib_count_block(uint64_t *source, size_t words, const uint8_t *records, size_t length,
                             size_t width) FLASKNIB_MUST_USE_NONNULL;

/* The jumps in an answer of flasknib_count_block or flasknib_sources_count_block.
 * Gives 0 for a refusal. */
static inline uint64_t flasknib_block_jumps(int64_t answer)
{
    return answer < 0 ? 0 : FLASKNIB_AS(uint64_t, answer % 256);
}

/* The restarts in an answer of flasknib_count_block or flasknib_sources_count_block.
 * Gives 0 for a refusal. */
static inline uint64_t flasknib_block_restarts(int64_t answer)
{
    return answer < 0 ? 0 : FLASKNIB_AS(uint64_t, answer / 256);
}

/* The names of version 0.1 for these two. The next version has only the functions. */
#define FLASKNIB_BLOCK_JUMPS(answer) flasknib_block_jumps(answer)
#define FLASKNIB_BLOCK_RESTARTS(answer) flasknib_block_restarts(answer)

/* The one word of flasknib_lost. */
#define FLASKNIB_LOST_WORDS 1

/* The packets lost: highest - base + 1, less the different numbers that arrived. Negative if
 * packets from before the base came, and 0 in the fresh record.
 * Gives 0, and 1 word, signed.
 * Refusals: 9; 12 if `found` has no word.
 * Changes the front of `found`. */
uint8_t flasknib_lost(const uint64_t *source, size_t words, uint64_t *found, size_t found_words)
    FLASKNIB_MUST_USE_NONNULL;

/* The bytes of the ECN feedback packet. */
#define FLASKNIB_FEEDBACK_BYTES 32

/* Writes the ECN feedback packet of RFC 6679, 32 bytes, from the SSRC `sender` about the SSRC
 * `media`. It has highest, ECT(0) and ECT(1) modulo 2^32, and CE, not-ECT, lost and duplicates
 * modulo 65,536.
 * Gives its length.
 * Refusals, as minus the number: 9; 12 with its size.
 * Changes the front of `out`. */
int64_t flasknib_write_feedback(const uint64_t *source, size_t words, uint32_t sender,
                                uint32_t media, uint8_t *out, size_t room)
    FLASKNIB_MUST_USE_NONNULL;

/* The bytes of the ECN summary block. */
#define FLASKNIB_SUMMARY_BYTES 24

/* Writes the XR ECN summary block of RFC 6679 with one entry, 24 bytes, about the SSRC `media`: the
 * same counters, without highest. The caller puts it into an XR packet.
 * Gives its length.
 * Refusals, as minus the number: 9; 12 with its size.
 * Changes the front of `out`. */
int64_t flasknib_write_summary(const uint64_t *source, size_t words, uint32_t media, uint8_t *out,
                               size_t room) FLASKNIB_MUST_USE_NONNULL;

/* ---- several RTP sources in one table -----------------------------------------------------------
 * 0 to 16 places of 11 words each: the SSRC, then the 10 words of its source's record. A place is
 * held if at least one arrival is counted in it. The held places come first, in rising order of
 * SSRC with no SSRC twice; the others are unused, and all zero. So a table of n places without a
 * source is n * FLASKNIB_PLACE_WORDS words 0. An arrival of a new SSRC takes its place in that
 * order, and the places from there on move up by one.
 *
 * Refusal 16 comes first of all: a number of words that is no multiple of 11, over 16 places, an
 * SSRC word of 2^32 or more in any place, or a table against the rules above. Then comes 9: the
 * record of a held place is malformed, a remembered number above 65,536 among it. `words` is 0 for
 * a table without places; `sources` must not be null, even then.
 */
#define FLASKNIB_PLACE_WORDS 11
#define FLASKNIB_SOURCES_MOST_PLACES 16

/* The places of these words. The source's record is 10 words from SOURCE on, so its CE counter is
 * at FLASKNIB_PLACE_SOURCE + FLASKNIB_SOURCE_CE. (No enum: C++20 does not add two.) */
#define FLASKNIB_PLACE_SSRC 0
#define FLASKNIB_PLACE_SOURCE 1

/* Counts one arrival of the source `ssrc`, as flasknib_arrive does.
 * Gives 0, or FLASKNIB_RESTARTED.
 * Refusals: 16; 9; 10 for a mark above 3; 15; 8; 7.
 * Changes `sources` to the next table; refusal 7 too, in which only the remembered number of that
 * source's place differs. */
uint8_t flasknib_sources_arrive(uint64_t *sources, size_t words, uint32_t ssrc, uint16_t wire,
                                uint8_t mark) FLASKNIB_MUST_USE_NONNULL;

/* Counts the records of one arrivals block of the source `ssrc`, as flasknib_count_block does.
 * Gives 256 * restarts + jumps: flasknib_block_jumps and flasknib_block_restarts take it apart.
 * Refusals, as minus the number: 16; 9; 10 as in flasknib_count_block; 15.
 * Changes `sources` to the next table. */
int64_t flasknib_sources_count_block(uint64_t *sources, size_t words, uint32_t ssrc,
                                     const uint8_t *records, size_t length, size_t width)
    FLASKNIB_MUST_USE_NONNULL;

/* The bytes of the longest compound that the next call writes. */
#define FLASKNIB_SOURCES_COMPOUND_MOST_BYTES 520

/* Writes a compound from the SSRC `sender`: an RR without report blocks (RFC 3550) and one ECN
 * feedback packet for each held place, in order; 8 bytes and 32 for each.
 * Gives its length.
 * Refusals, as minus the number: 16; 9; 12 with its size.
 * Changes the front of `out`. */
int64_t flasknib_sources_write_compound(const uint64_t *sources, size_t words, uint32_t sender,
                                        uint8_t *out, size_t room) FLASKNIB_MUST_USE_NONNULL;

/* The words of one held place, counted from 0.
 * Gives 0, and 11 words.
 * Refusals: 16; 9; 10 for a place that is not held; 12 if `found` has fewer words.
 * Changes the front of `found`. */
uint8_t flasknib_sources_place(const uint64_t *sources, size_t words, size_t place, uint64_t *found,
                               size_t found_words) FLASKNIB_MUST_USE_NONNULL;

/* The number of held places, which are the first ones.
 * Gives 0 to 16.
 * Refusals, as minus the number: 16; 9.
 * Changes nothing. */
int64_t flasknib_sources_held(const uint64_t *sources, size_t words) FLASKNIB_MUST_USE_NONNULL;

/* ---- compound RTCP ------------------------------------------------------------------------------
 * 25 words, the first of each kind of report about `media`, and two more:
 *   0 whether there is a report block; 1 fraction lost, 2 cumulative lost (signed),
 *     3 extended highest, 4 jitter, 5 LSR, 6 DLSR
 *   7 whether there is ECN feedback; 8 sender SSRC, 9 highest, 10 ECT(0), 11 ECT(1), 12 CE,
 *     13 not-ECT, 14 lost, 15 duplicates
 *  16 whether there is an ECN summary entry; 17 ECT(0), 18 ECT(1), 19 CE, 20 not-ECT, 21 lost,
 *     22 duplicates
 *  23 whether an SR or an RR is in the compound, with or without a block about `media`
 *  24 the reporter of the report block: the SSRC of who sent the SR or RR in which it stands
 * What is absent is 0, and so are its fields; without a report block word 24 is 0.
 */
#define FLASKNIB_COMPOUND_WORDS 25

/* The places of the words. REPORT, FEEDBACK, SUMMARY and SR_OR_RR say whether it is there. */
enum {
    FLASKNIB_COMPOUND_REPORT = 0,
    FLASKNIB_COMPOUND_REPORT_FRACTION = 1,
    FLASKNIB_COMPOUND_REPORT_LOST = 2,
    FLASKNIB_COMPOUND_REPORT_HIGHEST = 3,
    FLASKNIB_COMPOUND_REPORT_JITTER = 4,
    FLASKNIB_COMPOUND_REPORT_LSR = 5,
    FLASKNIB_COMPOUND_REPORT_DLSR = 6,
    FLASKNIB_COMPOUND_FEEDBACK = 7,
    FLASKNIB_COMPOUND_FEEDBACK_SENDER = 8,
    FLASKNIB_COMPOUND_FEEDBACK_HIGHEST = 9,
    FLASKNIB_COMPOUND_FEEDBACK_ECT0 = 10,
    FLASKNIB_COMPOUND_FEEDBACK_ECT1 = 11,
    FLASKNIB_COMPOUND_FEEDBACK_CE = 12,
    FLASKNIB_COMPOUND_FEEDBACK_NOT_ECT = 13,
    FLASKNIB_COMPOUND_FEEDBACK_LOST = 14,
    FLASKNIB_COMPOUND_FEEDBACK_DUPLICATES = 15,
    FLASKNIB_COMPOUND_SUMMARY = 16,
    FLASKNIB_COMPOUND_SUMMARY_ECT0 = 17,
    FLASKNIB_COMPOUND_SUMMARY_ECT1 = 18,
    FLASKNIB_COMPOUND_SUMMARY_CE = 19,
    FLASKNIB_COMPOUND_SUMMARY_NOT_ECT = 20,
    FLASKNIB_COMPOUND_SUMMARY_LOST = 21,
    FLASKNIB_COMPOUND_SUMMARY_DUPLICATES = 22,
    FLASKNIB_COMPOUND_SR_OR_RR = 23,
    FLASKNIB_COMPOUND_REPORT_REPORTER = 24
};

/* The bytes of the longest compound; a longer one is refused with 10. */
#define FLASKNIB_COMPOUND_MOST_BYTES 65507

/* Which compounds are taken. FLASKNIB_PROFILE_COMPOUND: those that begin with an SR or an RR (RFC
 * 3550, section 6.1); any other is refused with 3. FLASKNIB_PROFILE_REDUCED_SIZE: reduced-size ones
 * too (RFC 5506), which need not have an SR or an RR; 3 is not given. What the first takes has the
 * same words under the second. A packet without an SR or an RR (word 23 is 0) must not enter the
 * congestion rule (RFC 8083, section 5). */
enum { FLASKNIB_PROFILE_COMPOUND = 0, FLASKNIB_PROFILE_REDUCED_SIZE = 1 };

/* Reads a compound, the payload of one UDP packet, for what it reports about the SSRC `media`. A
 * fault anywhere in the compound refuses all of it.
 * Gives 0, and 25 words.
 * Refusals: 10 for another profile than the two; 1 for no bytes; 10 for too many; the first of 1 to
 * 6, packet by packet; 12 if `found` has fewer words.
 * Changes the front of `found`. */
uint8_t flasknib_read_compound(const uint8_t *bytes, size_t length, uint32_t media, uint8_t profile,
                               uint64_t *found, size_t words) FLASKNIB_MUST_USE_NONNULL;

/* Of whom a packet is, by the 25 words that flasknib_read_compound gave of it: what is kept for
 * flasknib_breaker_call is kept of each receiver apart.
 * Gives the SSRC of the report block's reporter, or else of the feedback's sender; 0 if the packet
 * has neither. */
static inline FLASKNIB_MUST_USE_NONNULL uint32_t flasknib_compound_receiver(const uint64_t *found)
{
    if (found[FLASKNIB_COMPOUND_REPORT])
        return FLASKNIB_AS(uint32_t, found[FLASKNIB_COMPOUND_REPORT_REPORTER]);
    return FLASKNIB_AS(uint32_t, found[FLASKNIB_COMPOUND_FEEDBACK_SENDER]);
}

/* 3 words of what came between two ECN reports: packets lost (signed), packets marked with CE,
 * packets expected. */
#define FLASKNIB_ECN_WORDS 3

/* The places of the words. */
enum { FLASKNIB_ECN_LOST = 0, FLASKNIB_ECN_MARKED = 1, FLASKNIB_ECN_EXPECTED = 2 };

/* What came between two ECN reports of one receiver about one source, the later and the earlier
 * one, each with the highest number, the packets marked with CE and the packets lost as the packets
 * carry them: of ECN feedback words 9, 12 and 14 of the compound; of a summary entry words 19 and
 * 21, with the highest number of the report block beside it, word 3. They are the true numbers if
 * at most 65,535 packets were marked and -32,768 to 32,767 lost in between; not if the receiver
 * began to count anew.
 * Gives 0, and 3 words, as flasknib_breaker_report_ecn takes them.
 * Refusals: 10 if the highest number went back (a difference of 2^31 or more); 12 if `counts` has
 * fewer words.
 * Changes the front of `counts`. */
uint8_t flasknib_ecn_between(uint32_t later_highest, uint16_t later_ce, uint16_t later_lost,
                             uint32_t earlier_highest, uint16_t earlier_ce, uint16_t earlier_lost,
                             uint64_t *counts, size_t words) FLASKNIB_MUST_USE_NONNULL;

/* An ECN report, as packets carry it. */
struct flasknib_ecn_report {
    uint32_t highest; /* the extended highest sequence number */
    uint16_t ce;      /* packets marked with CE */
    uint16_t lost;    /* packets lost */
};

/* flasknib_ecn_between, with its numbers by name. */
static inline FLASKNIB_MUST_USE_NONNULL uint8_t flasknib_ecn_between_with(
    struct flasknib_ecn_report later, struct flasknib_ecn_report earlier, uint64_t *counts,
    size_t words)
{
    return flasknib_ecn_between(later.highest, later.ce, later.lost, earlier.highest, earlier.ce,
                                earlier.lost, counts, words);
}

/* What came between two reports, of a counter that they carry in 16 bits: CE, not-ECT, duplicates.
 * Gives the later minus the earlier, modulo 2^16: the true count if that is from 0 to 2^16 - 1. */
uint16_t flasknib_since16(uint16_t later, uint16_t earlier) FLASKNIB_MUST_USE;

/* What came between two reports, of a counter that they carry in 32 bits: the highest number,
 * ECT(0), ECT(1).
 * Gives the later minus the earlier, modulo 2^32: the true count if that is from 0 to 2^32 - 1. */
uint32_t flasknib_since32(uint32_t later, uint32_t earlier) FLASKNIB_MUST_USE;

/* What came between two reports, of packets lost, which can fall: they carry it in 16 bits.
 * Gives the later minus the earlier, modulo 2^16 and read as signed, -32,768 to 32,767. */
int16_t flasknib_lost_since(uint16_t later, uint16_t earlier) FLASKNIB_MUST_USE;

/* ---- the circuit breaker ------------------------------------------------------------------------
 * 77 words: k, m, timeout (ms), whether reductions are allowed, whether the full throughput
 * equation is taken in place of the simplified one; state (0 running, else the reason of the stop);
 * time of the last report or start, time of the last report, heard packet or start, from which the
 * timeout is measured; whether there was a report, its highest number, media run, whether a trial
 * is under way, intervals in the window; then 32 intervals, newest first, of length (ms, 1 to
 * 10,000,000; a longer interval is stored as that) and fraction lost each.
 *
 * A record that a call left is never malformed. Malformed (9) is one that breaks any of these
 * rules:
 *   - k, m and timeout are within their limits, below; each of the four words that say whether
 *     (REDUCE, FULL, REPORTED, TRIAL) is 0 or 1;
 *   - the state is 0 to 3; in state 0 the media run is below m (a stopped breaker's is not judged);
 *   - both times are below 2^48; the highest number is below 2^32, and 0 if there was no report;
 *   - at most k intervals are in the window, each with a length of 1 to 10,000,000 and a fraction
 *     of 0 to 255; the words of all others are 0.
 *
 * Which call is for which packet: flasknib_breaker_call says it, by the words of
 * flasknib_read_compound.
 */
#define FLASKNIB_BREAKER_WORDS 77

/* The places of the words. Interval i, 0 for the newest, has its length at NEWEST + 2 * i and its
 * fraction lost after that. */
enum {
    FLASKNIB_BREAKER_K = 0,
    FLASKNIB_BREAKER_M = 1,
    FLASKNIB_BREAKER_TIMEOUT = 2,
    FLASKNIB_BREAKER_REDUCE = 3,
    FLASKNIB_BREAKER_FULL = 4,
    FLASKNIB_BREAKER_STATE = 5,
    FLASKNIB_BREAKER_LAST = 6,
    FLASKNIB_BREAKER_HEARD = 7,
    FLASKNIB_BREAKER_REPORTED = 8,
    FLASKNIB_BREAKER_HIGHEST = 9,
    FLASKNIB_BREAKER_RUN = 10,
    FLASKNIB_BREAKER_TRIAL = 11,
    FLASKNIB_BREAKER_USED = 12,
    FLASKNIB_BREAKER_NEWEST = 13
};

/* The greatest value of each argument; the next one is refused with 10. The least is 1 for k, m,
 * timeout and size, and 0 for the others.
 *   k         intervals over which the congestion rule takes the losses
 *   m         reports in a row whose highest number is not ahead, after which the breaker stops
 *   timeout   ms without a report or a heard packet, after which it stops
 *   time      ms of any clock that does not go back, below 2^48
 *   fraction  of the packets of an interval lost, in 256ths, as a report block has it
 *   rtt       the round trip in ms
 *   size      the bytes of a packet
 *   rate      the bytes sent per second; a report with 0 empties the window and is not tested
 *   marked, expected, and lost on both sides of 0: packets, 2^31 */
#define FLASKNIB_BREAKER_MOST_K 32
#define FLASKNIB_BREAKER_MOST_M 32
#define FLASKNIB_BREAKER_MOST_TIMEOUT 600000
#define FLASKNIB_BREAKER_MOST_TIME UINT64_C(281474976710655)
#define FLASKNIB_BREAKER_MOST_FRACTION 255
#define FLASKNIB_BREAKER_MOST_RTT 60000
#define FLASKNIB_BREAKER_MOST_SIZE 65535
#define FLASKNIB_BREAKER_MOST_RATE 125000000
#define FLASKNIB_BREAKER_MOST_PACKETS INT64_C(2147483648)

/* The preset of the settings: 3 intervals, 3 reports, 15,000 ms, no reduction, the simplified
 * equation. */
#define FLASKNIB_PRESET_K 3
#define FLASKNIB_PRESET_M 3
#define FLASKNIB_PRESET_TIMEOUT 15000
#define FLASKNIB_PRESET_REDUCE 0
#define FLASKNIB_PRESET_FULL 0

/* The reasons of a stop: no report and no heard packet for the timeout; m reports with no new
 * number; a rate above ten times the throughput equation. */
enum { FLASKNIB_REASON_TIMEOUT = 1, FLASKNIB_REASON_MEDIA = 2, FLASKNIB_REASON_CONGESTION = 3 };

/* What a breaker call answers: FLASKNIB_GO, go on sending; FLASKNIB_REDUCE, send at a tenth of the
 * rate or less (RFC 8083, section 4.3; given only if reductions are allowed); FLASKNIB_STOP +
 * reason (1 timeout, 2 media, 3 congestion), stop sending; or FLASKNIB_REFUSED + refusal. A stopped
 * breaker stays so: every later call answers the first stop and changes nothing, whatever its
 * arguments are; only 9 comes before that. (No enum: C++20 does not add two.) */
#define FLASKNIB_GO 0
#define FLASKNIB_REDUCE 1
#define FLASKNIB_STOP 0x100
#define FLASKNIB_REFUSED 0x200

/* Whether the answer of a breaker call is a stop.
 * Gives 1 for FLASKNIB_STOP + reason, else 0. */
static inline int flasknib_is_stop(uint16_t answer)
{
    return answer >= FLASKNIB_STOP && answer < FLASKNIB_REFUSED;
}

/* The reason in the answer of a breaker call.
 * Gives FLASKNIB_REASON_TIMEOUT, _MEDIA or _CONGESTION, or 0 if it is no stop. */
static inline int flasknib_stop_reason(uint16_t answer)
{
    return flasknib_is_stop(answer) ? answer - FLASKNIB_STOP : 0;
}

/* The refusal in the answer of a breaker call.
 * Gives its number, or 0 if it is not refused. */
static inline int flasknib_breaker_refusal(uint16_t answer)
{
    return answer >= FLASKNIB_REFUSED ? answer - FLASKNIB_REFUSED : 0;
}

/* Starts a breaker. With `full` the congestion rule takes the full throughput equation (RFC 8083,
 * section 4.3, with b = 1 and t_RTO = 4 * Tr), which reacts earlier if much is lost; without, the
 * simplified one.
 * Gives FLASKNIB_GO, and the record.
 * Refusals: 9 for another number of words than 77; 10, also for a `reduce` or `full` that is not 0
 * or 1.
 * Changes `breaker`. */
uint16_t flasknib_breaker_start(uint64_t k, uint64_t m, uint64_t timeout, uint8_t reduce,
                                uint8_t full, uint64_t time, uint64_t *breaker, size_t words)
    FLASKNIB_MUST_USE_NONNULL;

/* The settings of a breaker. */
struct flasknib_settings {
    uint64_t k;       /* intervals over which the congestion rule takes the losses, 1 to 32 */
    uint64_t m;       /* reports in a row without a new number, after which it stops, 1 to 32 */
    uint64_t timeout; /* ms with no report and no heard packet, after which it stops, to 600,000 */
    uint8_t reduce;   /* whether reductions are allowed */
    uint8_t full;     /* whether the full throughput equation is taken */
};

/* The preset settings, to change some of them. */
static inline struct flasknib_settings flasknib_preset(void)
{
    struct flasknib_settings preset = {FLASKNIB_PRESET_K, FLASKNIB_PRESET_M,
                                       FLASKNIB_PRESET_TIMEOUT, FLASKNIB_PRESET_REDUCE,
                                       FLASKNIB_PRESET_FULL};
    return preset;
}

/* flasknib_breaker_start, with its numbers by name. */
static inline FLASKNIB_MUST_USE_NONNULL uint16_t flasknib_breaker_start_with(
    struct flasknib_settings settings, uint64_t time, uint64_t *breaker, size_t words)
{
    return flasknib_breaker_start(settings.k, settings.m, settings.timeout, settings.reduce,
                                  settings.full, time, breaker, words);
}

/* Starts a breaker with the preset settings: k = 3, m = 3, a timeout of 15,000 ms, no reductions,
 * the simplified equation.
 * Gives FLASKNIB_GO, and the record.
 * Refusals: 9 for another number of words than 77; 10 for a time of 2^48 ms or more.
 * Changes `breaker`. */
uint16_t flasknib_breaker_start_preset(uint64_t time, uint64_t *breaker, size_t words)
    FLASKNIB_MUST_USE_NONNULL;

/* Takes a report that came at `time`: its extended highest sequence number and its fraction lost,
 * in 256ths, 0 to 255.
 * Gives FLASKNIB_GO, FLASKNIB_REDUCE or a stop. A stopped breaker answers its stop, after 9 only.
 * Refusals: 9; 10; 11.
 * Changes `breaker` to the next record; a stopped one stays as it is. */
uint16_t flasknib_breaker_report(uint64_t *breaker, size_t words, uint64_t time, uint32_t highest,
                                 uint64_t fraction, uint64_t rtt, uint64_t size, uint64_t rate)
    FLASKNIB_MUST_USE_NONNULL;

/* A report with its fraction lost. */
struct flasknib_report {
    uint64_t time;     /* when it came, in ms */
    uint32_t highest;  /* its extended highest sequence number */
    uint64_t fraction; /* of the packets lost, in 256ths, 0 to 255 */
};

/* What the sender knows of itself when a report comes. */
struct flasknib_sending {
    uint64_t rtt;  /* the round trip in ms, 0 to 60,000 */
    uint64_t size; /* the bytes of a packet, 1 to 65,535 */
    uint64_t rate; /* the bytes sent per second, 0 to 125,000,000 */
};

/* flasknib_breaker_report, with its numbers by name. */
static inline FLASKNIB_MUST_USE_NONNULL uint16_t flasknib_breaker_report_with(
    uint64_t *breaker, size_t words, struct flasknib_report report, struct flasknib_sending sending)
{
    return flasknib_breaker_report(breaker, words, report.time, report.highest, report.fraction,
                                   sending.rtt, sending.size, sending.rate);
}

/* Takes a report with ECN counts in the place of the fraction lost: of the `expected` packets of
 * its interval, `lost` were lost (negative if some came that were counted as lost before) and
 * `marked` were marked with CE. The fraction is 256 * min(lost + marked, expected) / expected
 * rounded down, at most 255; a negative `lost` is 0 there, and if none were expected the fraction
 * is 0.
 * Gives FLASKNIB_GO, FLASKNIB_REDUCE or a stop. A stopped breaker answers its stop, after 9 only.
 * Refusals: 9; 10, also for a `marked` or `expected` above 2^31, or a `lost` outside -2^31 to 2^31;
 * 11.
 * Changes `breaker` to the next record; a stopped one stays as it is. */
uint16_t flasknib_breaker_report_ecn(uint64_t *breaker, size_t words, uint64_t time,
                                     uint32_t highest, int64_t lost, uint64_t marked,
                                     uint64_t expected, uint64_t rtt, uint64_t size, uint64_t rate)
    FLASKNIB_MUST_USE_NONNULL;

/* A report with ECN counts. */
struct flasknib_report_ecn {
    uint64_t time;     /* when it came, in ms */
    uint32_t highest;  /* its extended highest sequence number */
    int64_t lost;      /* packets lost, negative if some came that were counted as lost before */
    uint64_t marked;   /* packets marked with CE */
    uint64_t expected; /* packets expected */
};

/* flasknib_breaker_report_ecn, with its numbers by name. */
static inline FLASKNIB_MUST_USE_NONNULL uint16_t flasknib_breaker_report_ecn_with(
    uint64_t *breaker, size_t words, struct flasknib_report_ecn report,
    struct flasknib_sending sending)
{
    return flasknib_breaker_report_ecn(breaker, words, report.time, report.highest, report.lost,
                                       report.marked, report.expected, sending.rtt, sending.size,
                                       sending.rate);
}

/* Takes a tick, as from a timer: only whether the timeout has passed at `time`.
 * Gives FLASKNIB_GO or a stop. A stopped breaker answers its stop, after 9 only.
 * Refusals: 9; 10; 11.
 * Changes `breaker` only if it stops now. */
uint16_t flasknib_breaker_tick(uint64_t *breaker, size_t words, uint64_t time)
    FLASKNIB_MUST_USE_NONNULL;

/* Takes a packet that was heard and is no report: a Go moves the time from which the timeout is
 * measured to `time`, and nothing else.
 * Gives FLASKNIB_GO or a stop. A stopped breaker answers its stop, after 9 only.
 * Refusals: 9; 10; 11.
 * Changes `breaker` to the next record; a stopped one stays as it is. */
uint16_t flasknib_breaker_heard(uint64_t *breaker, size_t words, uint64_t time)
    FLASKNIB_MUST_USE_NONNULL;

/* ---- which call is for which packet -------------------------------------------------------------
 * A packet with an ECN report is one with ECN feedback, or with a summary entry and a report block
 * beside it, which has its highest number. By RFC 8083, section 5, the first of these that holds:
 *   1. no SR or RR: heard. It keeps the link alive, and nothing else;
 *   2. an ECN report, an earlier one of the same receiver, and a highest number that did not go
 *      back: a report with what came between the two;
 *   3. a report block: a report with its fraction;
 *   4. only an ECN report, the first or one whose highest number went back: a report of which
 *      nothing was lost, marked or expected;
 *   5. only an SR or an RR: heard.
 * The highest number is the report block's if there is one, else the feedback's. The packet's ECN
 * report is then kept of its receiver; if it has none, or no SR or RR, the earlier one stays.
 */

/* 4 words kept of one receiver between its packets: whether an ECN report is kept (0 or 1), its
 * highest number, packets marked with CE and packets lost. All are 0 if none is kept, as before the
 * first packet. */
#define FLASKNIB_KEPT_WORDS 4

/* The places of the words. */
enum {
    FLASKNIB_KEPT_THERE = 0,
    FLASKNIB_KEPT_HIGHEST = 1,
    FLASKNIB_KEPT_CE = 2,
    FLASKNIB_KEPT_LOST = 3
};

/* 6 words of the call that a packet is for; what that call does not take is 0. */
#define FLASKNIB_CALL_WORDS 6

/* The places of the words. HIGHEST and FRACTION are for flasknib_breaker_report; HIGHEST, LOST
 * (signed), MARKED and EXPECTED are for flasknib_breaker_report_ecn. */
enum {
    FLASKNIB_CALL_WHICH = 0,
    FLASKNIB_CALL_HIGHEST = 1,
    FLASKNIB_CALL_FRACTION = 2,
    FLASKNIB_CALL_LOST = 3,
    FLASKNIB_CALL_MARKED = 4,
    FLASKNIB_CALL_EXPECTED = 5
};

/* Which call it is: flasknib_breaker_heard, flasknib_breaker_report or
 * flasknib_breaker_report_ecn. */
enum {
    FLASKNIB_WHICH_HEARD = 0,
    FLASKNIB_WHICH_REPORT = 1,
    FLASKNIB_WHICH_REPORT_ECN = 2
};

/* Says which call a packet is for, by the 25 words that flasknib_read_compound gave of it and the 4
 * words kept of its receiver: flasknib_compound_receiver says who that is. What the reader gave and
 * an earlier call kept is never refused with 9, and the breaker takes the losses that this call
 * gives: time, round trip, packet size and rate are the caller's. flasknib_breaker_take makes the
 * call.
 * Gives 0, the 6 words of the call, and what is kept then.
 * Refusals: 9; 12 if `call` has fewer than 6 words. 9 is for
 *   - another number of words than 25 or 4; a word 0, 7, 16 or 23 of the compound, or a first one
 *     of what is kept, above 1;
 *   - if a report block is there, a fraction past 8 bits or a highest number past 32; if feedback
 *     is there, a highest number past 32 bits, CE or lost past 16; if a summary entry is there, CE
 *     or lost past 16; the same of what is kept;
 *   - kept words that are not 0 if none is kept.
 * No other word is looked at.
 * Changes the front of `call`, and `kept`. If the breaker then refuses the call, put the kept words
 * back to what they were before, so that the next report counts from there. */
uint8_t flasknib_breaker_call(const uint64_t *found, size_t found_words, uint64_t *kept,
                              size_t kept_words, uint64_t *call, size_t call_words)
    FLASKNIB_MUST_USE_NONNULL;

/* Makes the call that a packet is for: flasknib_breaker_heard, _report or _report_ecn at `time`, by
 * the 6 words that flasknib_breaker_call gave.
 * Gives what that call gives, with its refusals, and changes what it changes. */
static inline FLASKNIB_MUST_USE_NONNULL uint16_t flasknib_breaker_take(
    uint64_t *breaker, size_t words, const uint64_t *call, uint64_t time,
    struct flasknib_sending sending)
{
    uint32_t highest = FLASKNIB_AS(uint32_t, call[FLASKNIB_CALL_HIGHEST]);

    if (call[FLASKNIB_CALL_WHICH] == FLASKNIB_WHICH_REPORT_ECN)
        return flasknib_breaker_report_ecn(breaker, words, time, highest,
                                           FLASKNIB_AS(int64_t, call[FLASKNIB_CALL_LOST]),
                                           call[FLASKNIB_CALL_MARKED], call[FLASKNIB_CALL_EXPECTED],
                                           sending.rtt, sending.size, sending.rate);
    if (call[FLASKNIB_CALL_WHICH] == FLASKNIB_WHICH_REPORT)
        return flasknib_breaker_report(breaker, words, time, highest, call[FLASKNIB_CALL_FRACTION],
                                       sending.rtt, sending.size, sending.rate);
    return flasknib_breaker_heard(breaker, words, time);
}

/* ---- offer and answer ---------------------------------------------------------------------------
 * The SDP attribute ecn-capable-rtp (RFC 6679, section 6.1). The line runs from `a=` to before its
 * CR LF: the name in either case, a colon, one space, 1 to 8 methods with commas between, and,
 * after one space, 1 to 8 parameters with a semicolon and a space between. Methods and parameters
 * that are not known are passed over if they are well formed, and counted; a second mode or ect is
 * malformed.
 *
 * 11 words: how many methods; eight methods, most wanted first; the mode; the ect. Of the methods
 * only the first so many are looked at, and a function that gives words leaves 0 after them. An
 * absent mode means setread, and an absent ect 0: nobody fills them in. Another number of words, a
 * mode or an ect above 3, and a method in use that is not 1 to 3 (of all eight if the number is
 * above 8) are malformed (9).
 */
#define FLASKNIB_ATTRIBUTE_WORDS 11
#define FLASKNIB_ATTRIBUTE_MOST_METHODS 8

/* The places of the words. The methods are eight words. */
enum {
    FLASKNIB_ATTRIBUTE_USED = 0,
    FLASKNIB_ATTRIBUTE_METHODS = 1,
    FLASKNIB_ATTRIBUTE_MODE = 9,
    FLASKNIB_ATTRIBUTE_ECT = 10
};

/* The methods. */
enum { FLASKNIB_METHOD_RTP = 1, FLASKNIB_METHOD_ICE = 2, FLASKNIB_METHOD_LEAP = 3 };

/* The modes: bit 0 sets marks, bit 1 reads them. */
enum {
    FLASKNIB_MODE_ABSENT = 0,
    FLASKNIB_MODE_SETONLY = 1,
    FLASKNIB_MODE_READONLY = 2,
    FLASKNIB_MODE_SETREAD = 3
};

/* The ects: "1" and "0" are numbered as their marks are. */
enum {
    FLASKNIB_ECT_ABSENT = 0,
    FLASKNIB_ECT_ONE = 1,
    FLASKNIB_ECT_ZERO = 2,
    FLASKNIB_ECT_RANDOM = 3
};

/* What flasknib_answer gives if the attribute is left out of the answer. It is no refusal. */
enum { FLASKNIB_LEFT_OUT = 129 };

/* Reads a line.
 * Gives 0, and 11 words.
 * Refusals: 10 for over 255 bytes; 18 for a line that is not well formed, an empty one too; 10 for
 * over 8 methods or 8 parameters, known or not; 12 if `found` has fewer words.
 * Changes the front of `found`. */
uint8_t flasknib_read_attribute(const uint8_t *line, size_t length, uint64_t *found, size_t words)
    FLASKNIB_MUST_USE_NONNULL;

/* The bytes of the longest line that the next call writes. */
#define FLASKNIB_ATTRIBUTE_MOST_BYTES 84

/* Writes the line of a record, 22 to 84 bytes, in lower case and with no CR LF: the methods, then
 * the mode, then the ect. What it writes reads back to the same words, but for 0 after the last
 * method.
 * Gives its length.
 * Refusals, as minus the number: 9; 10 for no method or over 8; 12 with its size.
 * Changes the front of `out`. */
int64_t flasknib_write_attribute(const uint64_t *attribute, size_t words, uint8_t *out, size_t room)
    FLASKNIB_MUST_USE_NONNULL;

/* Answers an offer by our abilities, the record that we would offer: the first of our methods that
 * the offer names, our mode and our ect.
 * Gives 0, and 11 words; or FLASKNIB_LEFT_OUT, whatever `words` is, if no method is common, or both
 * modes are setonly or both readonly.
 * Refusals: 9 for either record; 10 for over 8 methods in either; 12 if `found` has fewer words.
 * Changes the front of `found`, and no word of it for FLASKNIB_LEFT_OUT. */
uint8_t flasknib_answer(const uint64_t *offer, size_t offer_words, const uint64_t *ours,
                        size_t our_words, uint64_t *found, size_t words) FLASKNIB_MUST_USE_NONNULL;

/* ---- trace blocks and table rows ----------------------------------------------------------------
 * A trace is a row of blocks of 512 bytes: kind (2), count (2), SSRC (4), body (502) and a checksum
 * (2), big-endian. Block 0 has the trace's label, the others its arrivals, and the count is the
 * bytes of the label or the number of records. The bytes of the body after those are zero.
 *
 * A trace has one of two forms, and each of its blocks says which. FLASKNIB_FORM_ONE: 1 to 62
 * arrivals to a block, with times below 2^32 ms (49 days). FLASKNIB_FORM_TWO: 1 to 50, with times
 * below 2^48 ms. A record is the time, of 4 or 6 bytes, then the wire number (2), the mark, 0 to 3,
 * and a zero.
 *
 * A label has 0 to 502 bytes, each from 32 to 126 (printable ASCII), 10 (LF) or 13 (CR). It has no
 * zero at its end, and its length counts none. Bytes 10 and 13 are retired: a trace that has them
 * in its label is read, counted and converted like any other, and no new label is written with one.
 */
enum { FLASKNIB_FORM_ONE = 1, FLASKNIB_FORM_TWO = 2 };

/* 3 words of a block: its kind; what it holds, the label's bytes or the number of records; the
 * SSRC. */
#define FLASKNIB_BLOCK_WORDS 3

/* The places of the words. */
enum { FLASKNIB_BLOCK_KIND = 0, FLASKNIB_BLOCK_HELD = 1, FLASKNIB_BLOCK_SSRC = 2 };

/* The kinds of a block. Those of form 1 are 1 and 2, those of form 2 are 3 and 4. */
enum {
    FLASKNIB_KIND_LABEL_ONE = 1,
    FLASKNIB_KIND_ARRIVALS_ONE = 2,
    FLASKNIB_KIND_LABEL_TWO = 3,
    FLASKNIB_KIND_ARRIVALS_TWO = 4
};

/* The bytes of every block. */
#define FLASKNIB_BLOCK_BYTES 512

/* The bytes of the longest label; by form the bytes of a record and the records of a full block.
 * The label or the first record stands at byte 8 of its block. */
#define FLASKNIB_LABEL_MOST_BYTES 502
#define FLASKNIB_RECORD_ONE_BYTES 8
#define FLASKNIB_RECORD_TWO_BYTES 10
#define FLASKNIB_ARRIVALS_ONE_MOST 62
#define FLASKNIB_ARRIVALS_TWO_MOST 50
#define FLASKNIB_BLOCK_BODY_AT 8

/* Reads a block of 512 bytes, of either form.
 * Gives 0, and 3 words.
 * Refusals: 1 for another length than 512; 13; 14 for contents against the rules above; 12 if
 * `found` has fewer words.
 * Changes the front of `found`. */
uint8_t flasknib_read_block(const uint8_t *block, size_t length, uint64_t *found, size_t words)
    FLASKNIB_MUST_USE_NONNULL;

/* Judges a later block at its place: it must hold arrivals of the form and the SSRC of block 0,
 * which flasknib_read_block gives (kind 1 is form 1, kind 3 form 2). So ecntable judges each later
 * block. The program ecnsalvage copies block 0 and each later block for which this is 0, and lists
 * the others.
 * Gives 0.
 * Refusals: 10 for another form than the two; 1 for another length than 512; 13; 14 for contents
 * against the rules above, a label, or another form or SSRC.
 * Changes nothing. */
uint8_t flasknib_read_own(uint8_t form, uint32_t ssrc, const uint8_t *block, size_t length)
    FLASKNIB_MUST_USE_NONNULL;

/* 3 words of a record: its time (ms), its wire number, its mark. */
#define FLASKNIB_RECORD_WORDS 3

/* The places of the words. */
enum { FLASKNIB_RECORD_TIME = 0, FLASKNIB_RECORD_WIRE = 1, FLASKNIB_RECORD_MARK = 2 };

/* The record `i`, counted from 0, of an arrivals block of either form. Nothing else of the block is
 * judged: flasknib_read_block does that, once a block.
 * Gives 0, and 3 words.
 * Refusals: 1 for another length than 512; 14 for a kind that is not arrivals or a count outside
 * its form's limits; 10 for an `i` not below the count; 12 if `found` has fewer words.
 * Changes the front of `found`. */
uint8_t flasknib_record_at(const uint8_t *block, size_t length, size_t i, uint64_t *found,
                           size_t words) FLASKNIB_MUST_USE_NONNULL;

/* Writes the label block of a new label, 512 bytes.
 * Gives its length.
 * Refusals, as minus the number: 10 for another form than the two or a label against the rules
 * above; 19 for a label with a retired byte; 12 with its size.
 * Changes the front of `out`. */
int64_t flasknib_write_label(uint8_t form, const uint8_t *label, size_t length, uint32_t ssrc,
                             uint8_t *out, size_t room) FLASKNIB_MUST_USE_NONNULL;

/* Writes block 0 of a trace again, 512 bytes, with one space in the place of each retired byte of
 * its label. Form, length and SSRC stay, and the checksum is the one that fits. The program
 * ecnlabel does this to block 0 and copies the others.
 * Gives the number of bytes replaced, 0 to 502.
 * Refusals, as minus the number: 1, 13 or 14 for the block (14 for arrivals too); 12 with its size.
 * Changes the front of `out`. */
int64_t flasknib_space_label(const uint8_t *zeroth, size_t length, uint8_t *out, size_t room)
    FLASKNIB_MUST_USE_NONNULL;

/* Writes an arrivals block, 512 bytes, of three lists, one entry to a record: times in ms, wire
 * numbers and marks, as numbers of the machine.
 * Gives its length.
 * Refusals, as minus the number: 10 for another form than the two, lists of unequal length, no
 * record or more than the form has to a block, a time that the form has no bytes for or a mark
 * above 3; 12 with its size.
 * Changes the front of `out`. */
int64_t flasknib_write_arrivals(uint8_t form, const uint64_t *times, size_t n_times,
                                const uint16_t *numbers, size_t n_numbers, const uint8_t *marks,
                                size_t n_marks, uint32_t ssrc, uint8_t *out, size_t room)
    FLASKNIB_MUST_USE_NONNULL;

/* The arrivals of one block: three lists of `count` entries each. */
struct flasknib_arrivals {
    uint8_t form;            /* FLASKNIB_FORM_ONE or FLASKNIB_FORM_TWO */
    uint32_t ssrc;           /* the trace's SSRC */
    size_t count;            /* the records, 1 to 62 in form 1 and to 50 in form 2 */
    const uint64_t *times;   /* in ms */
    const uint16_t *numbers; /* wire numbers, as ntohs gives them */
    const uint8_t *marks;    /* FLASKNIB_MARK_.. */
};

/* flasknib_write_arrivals, with what it takes by name. No list may be null. */
static inline FLASKNIB_MUST_USE_NONNULL int64_t flasknib_write_arrivals_with(
    struct flasknib_arrivals arrivals, uint8_t *out, size_t room)
{
    return flasknib_write_arrivals(arrivals.form, arrivals.times, arrivals.count, arrivals.numbers,
                                   arrivals.count, arrivals.marks, arrivals.count, arrivals.ssrc,
                                   out, room);
}

/* Writes the same block as flasknib_write_arrivals from the bytes of its records, each as a block
 * has it, big-endian.
 * Gives its length.
 * Refusals, as minus the number: 10 for another form than the two, a record that is not whole, no
 * record or more than the form has to a block, a mark above 3 or a last byte that is not 0; 12 with
 * its size.
 * Changes the front of `out`. */
int64_t flasknib_write_records(uint8_t form, const uint8_t *records, size_t length, uint32_t ssrc,
                               uint8_t *out, size_t room) FLASKNIB_MUST_USE_NONNULL;

/* The bytes of the head line. */
#define FLASKNIB_HEAD_BYTES 65

/* Writes the table's head line, 65 bytes with its CR LF.
 * Gives its length.
 * Refusals, as minus the number: 12 with its size.
 * Changes the front of `out`. */
int64_t flasknib_write_head(uint8_t *out, size_t room) FLASKNIB_MUST_USE_NONNULL;

/* The bytes of the longest row. */
#define FLASKNIB_ROW_MOST_BYTES 1228

/* Writes a row of the table, at most 1,228 bytes with its CR LF, of the values of one source's
 * record.
 * Gives its length.
 * Refusals, as minus the number: 9; 10 for a label against the rules above or for `jumped` or
 * `restarts` above 2^48; 12 with its size.
 * Changes the front of `out`. */
int64_t flasknib_write_row(const uint8_t *label, size_t length, uint32_t ssrc,
                           const uint64_t *source, size_t words, uint64_t jumped,
                           uint64_t restarts, uint8_t *out, size_t room)
    FLASKNIB_MUST_USE_NONNULL;

/* What a row has. */
struct flasknib_row {
    const uint8_t *label;   /* the trace's label */
    size_t length;          /* the bytes of the label */
    uint32_t ssrc;          /* the source's SSRC */
    const uint64_t *source; /* its record, of FLASKNIB_SOURCE_WORDS words */
    uint64_t jumped;        /* how many packets were a jump */
    uint64_t restarts;      /* how often it restarted */
};

/* flasknib_write_row, with what it takes by name. Neither label nor source may be null. */
static inline FLASKNIB_MUST_USE_NONNULL int64_t flasknib_write_row_with(
    struct flasknib_row row, uint8_t *out, size_t room)
{
    return flasknib_write_row(row.label, row.length, row.ssrc, row.source, FLASKNIB_SOURCE_WORDS,
                              row.jumped, row.restarts, out, room);
}

/* The bytes of the longest line of the next call. */
#define FLASKNIB_REFUSED_MOST_BYTES 40

/* Writes the line `refused N block I`, at most 40 bytes with its CR LF, of any refusal's number and
 * any block's.
 * Gives its length.
 * Refusals, as minus the number: 12 with its size.
 * Changes the front of `out`. */
int64_t flasknib_write_refused(uint8_t number, uint64_t block, uint8_t *out, size_t room)
    FLASKNIB_MUST_USE_NONNULL;

/* ---- a run of ecntable --------------------------------------------------------------------------
 * What the program does with a trace, block by block: flasknib_write_head, flasknib_run_start on
 * block 0, flasknib_run_block on each later block, and flasknib_write_refused for the first that is
 * refused, with its number, and nothing after it. A tail under 512 bytes is a block too, and so is
 * an empty trace, as block 0 of 0 bytes: hand it over with its length.
 *
 * 15 words: the form of the trace; the label's length; the SSRC; the 10 words of the source's
 * record; jumped; restarts. Another form than the two, a length above 502, an SSRC of 2^32 or more,
 * a record that is malformed, and jumped or restarts above 2^48 are malformed (9).
 */
#define FLASKNIB_RUN_WORDS 15

/* The places of the words. The source's record is 10 words from SOURCE on. */
#define FLASKNIB_RUN_FORM 0
#define FLASKNIB_RUN_LABEL_LENGTH 1
#define FLASKNIB_RUN_SSRC 2
#define FLASKNIB_RUN_SOURCE 3
#define FLASKNIB_RUN_JUMPED 13
#define FLASKNIB_RUN_RESTARTS 14

/* Takes block 0, which must be a label block of either form.
 * Gives 0, and 15 words.
 * Refusals: 9 for another number of words; 1, 13 or 14 for the block (14 for arrivals too).
 * Changes `run`. */
uint8_t flasknib_run_start(const uint8_t *zeroth, size_t length, uint64_t *run, size_t words)
    FLASKNIB_MUST_USE_NONNULL;

/* Takes a later block, which must hold arrivals of the label's form and SSRC, and writes the row
 * after it, at most FLASKNIB_ROW_MOST_BYTES. `zeroth` is block 0, from which the row has its label:
 * lend the same bytes to every call. Of block 0 nothing is compared but what 9 names, neither its
 * label nor its checksum: with another label of the same length the row has that one.
 * Gives the row's length.
 * Refusals, as minus the number: 9, also for a block 0 that is not 512 bytes, has another form,
 * length of the label or SSRC than the run, or a label against the rules; 1, 13 or 14 for the
 * block; 12 with the row's size.
 * Changes `run` to the next run, and the front of `out`. */
int64_t flasknib_run_block(uint64_t *run, size_t words, const uint8_t *zeroth, size_t zeroth_length,
                           const uint8_t *block, size_t block_length, uint8_t *out, size_t room)
    FLASKNIB_MUST_USE_NONNULL;

/* ---- a trace that arrives bit by bit ------------------------------------------------------------
 * What ecntable does with a trace, over stretches of any length as they come: flasknib_write_head,
 * flasknib_feed on each stretch, and flasknib_feed_close at the end; after a refusal 1, 13 or 14
 * flasknib_write_refused, with the number and upload[FLASKNIB_UPLOAD_BLOCKS]. However the trace is
 * cut, what is written is the same. A trace has at most 2^48 bytes.
 *
 * 18 words: the 15 of a run of ecntable, at the same places; the whole blocks taken; the bytes kept
 * of the next one, 0 to 511; the kept refusal, 0 for none. Beside them 1,024 bytes or more are lent
 * with each call: block 0, then the bytes kept; those after the first 1,024 stay as they are.
 * Before the first call words and bytes are all zero. While no block is taken the run and block 0's
 * place stay zero, the form's word too. Malformed (9) are fewer bytes, a run that is malformed, a
 * block 0 that does not read as a label of the run's form, length and SSRC, more than 511 bytes
 * kept or 2^48 in all, another refusal than 0, 1, 13 or 14, and a place not in use that is not
 * zero; no more is judged.
 */
#define FLASKNIB_UPLOAD_WORDS 18
#define FLASKNIB_UPLOAD_KEPT_BYTES 1024

/* The places of the words. The source's record is 10 words from SOURCE on. */
#define FLASKNIB_UPLOAD_FORM 0
#define FLASKNIB_UPLOAD_LABEL_LENGTH 1
#define FLASKNIB_UPLOAD_SSRC 2
#define FLASKNIB_UPLOAD_SOURCE 3
#define FLASKNIB_UPLOAD_JUMPED 13
#define FLASKNIB_UPLOAD_RESTARTS 14
#define FLASKNIB_UPLOAD_BLOCKS 15
#define FLASKNIB_UPLOAD_KEPT 16
#define FLASKNIB_UPLOAD_REFUSAL 17

/* Takes a stretch of a trace, and writes the rows of all blocks that it completes, each at most
 * FLASKNIB_ROW_MOST_BYTES.
 * Gives the rows' length.
 * Refusals, as minus the number: 9; the kept one; 10 for more than 2^48 bytes in all; 12 with the
 * rows' size; 13 or 14 for a block. That one comes with the length of the rows before it, which are
 * written, as 12 with its size: flasknib_writer_size gives it. It is kept, and every later call
 * repeats it with length 0.
 * Changes `upload` and `kept` to the next upload, and the front of `out`; so does refusal 13 or 14
 * of a block. Any other refusal changes nothing. */
int64_t flasknib_feed(uint64_t *upload, size_t words, uint8_t *kept, size_t kept_length,
                      const uint8_t *stretch, size_t stretch_length, uint8_t *out, size_t room)
    FLASKNIB_MUST_USE_NONNULL;

/* Ends a trace, or asks how it would end.
 * Gives 0, and feeding may go on.
 * Refusals: 9; the kept one; 1 for a partial block, or for block 0 of an empty trace, which is
 * kept.
 * Changes the kept refusal in `upload` for that 1, and nothing otherwise. */
uint8_t flasknib_feed_close(uint64_t *upload, size_t words, const uint8_t *kept, size_t length)
    FLASKNIB_MUST_USE_NONNULL;

/* ---- a trace in the other form ------------------------------------------------------------------
 * What the program ecnforms does with a trace, block by block: flasknib_forms_start on block 0,
 * flasknib_forms_block on each later block, and flasknib_forms_close after the last, or after the
 * first that is refused, which ends it (a refused block 0 has no close). What they write is the
 * trace in the other form, each arrivals block full but perhaps the last.
 *
 * 3 words: the trace's own form; its SSRC; how many records are held. Those stand in a part of 502
 * bytes or more that is lent with each call, in the other form, as the body of a block has them;
 * its bytes need not be set before the first call. Another form than the two, an SSRC of 2^32 or
 * more, as many records as a block of the other form takes, a part of fewer bytes, and a held
 * record with a mark above 3 or a last byte that is not 0 are malformed (9).
 */
#define FLASKNIB_FORMS_WORDS 3
#define FLASKNIB_FORMS_PART_BYTES 502

/* The places of the words. */
enum { FLASKNIB_FORMS_FORM = 0, FLASKNIB_FORMS_SSRC = 1, FLASKNIB_FORMS_HELD = 2 };

/* Takes block 0, which must be a label block of either form, and writes it in the other form, 512
 * bytes.
 * Gives its length, and the 3 words of a conversion that holds no record.
 * Refusals, as minus the number: 9 for another number of words than 3; 1, 13 or 14 for the block
 * (14 for arrivals too); 12 with its size.
 * Changes `forms` and the front of `out`. */
int64_t flasknib_forms_start(const uint8_t *zeroth, size_t length, uint64_t *forms, size_t words,
                             uint8_t *out, size_t room) FLASKNIB_MUST_USE_NONNULL;

/* Takes a later block, which must hold arrivals of the label's form and SSRC, and writes the blocks
 * that are full with its records: 0, 512 or 1,024 bytes. The records left over are held in the
 * part.
 * Gives the blocks' length.
 * Refusals, as minus the number: 9; 1, 13 or 14 for the block; 17 for a time of 2^32 ms or more,
 * which only form 2 has bytes for; 12 with the blocks' size.
 * Changes `forms` and `part` to the next conversion, and the front of `out`. */
int64_t flasknib_forms_block(uint64_t *forms, size_t words, uint8_t *part, size_t part_length,
                             const uint8_t *block, size_t block_length, uint8_t *out, size_t room)
    FLASKNIB_MUST_USE_NONNULL;

/* Writes the records that are held as a last block, 512 bytes, or nothing if there are none.
 * Gives its length.
 * Refusals, as minus the number: 9; 12 with its size.
 * Changes the front of `out`. */
int64_t flasknib_forms_close(const uint64_t *forms, size_t words, const uint8_t *part,
                             size_t part_length, uint8_t *out, size_t room)
    FLASKNIB_MUST_USE_NONNULL;

/* ---- a run of ecnstreams ------------------------------------------------------------------------
 * What the program does with a trace whose arrivals blocks differ in SSRC: flasknib_write_head,
 * flasknib_streams_start on block 0, flasknib_streams_block on each later block, and after the last
 * flasknib_streams_row for each line, from 0 on; or flasknib_write_refused for the first block that
 * is refused, with its number, and no row.
 *
 * 3 words: the form of the trace; the label's length; how many lines are held, at most 16. A line
 * has 13 words: the SSRC, the 10 words of the source's record, jumped and restarts. The lines, one
 * for each SSRC, in rising order, stand in FLASKNIB_STREAMS_MOST_LINES * FLASKNIB_LINE_WORDS words
 * (208) or more that are lent with each call; they need not be set before the first call.
 *
 * Held lines against the rules of a table, SSRCs that do not rise and a line with no arrival, are
 * refused with 16; then another form than the two, a label's length above 502, and a held line with
 * an SSRC of 2^32 or more, a malformed record, or jumped or restarts above 2^48, are malformed (9).
 * Another number of words, fewer words of lines and more lines held are 9 before all that: no line
 * can be read. Lines after the held ones are not judged, and keep their words.
 */
#define FLASKNIB_STREAMS_WORDS 3
#define FLASKNIB_LINE_WORDS 13
#define FLASKNIB_STREAMS_MOST_LINES 16

/* The places of the words of the run. */
enum { FLASKNIB_STREAMS_FORM = 0, FLASKNIB_STREAMS_LABEL_LENGTH = 1, FLASKNIB_STREAMS_HELD = 2 };

/* The places of the words in one line. The source's record is 10 words from SOURCE on. */
#define FLASKNIB_LINE_SSRC 0
#define FLASKNIB_LINE_SOURCE 1
#define FLASKNIB_LINE_JUMPED 11
#define FLASKNIB_LINE_RESTARTS 12

/* Takes block 0, which must be a label block of either form; its SSRC binds nothing.
 * Gives 0, and 3 words, of a run that holds no line.
 * Refusals: 9 for another number of words than 3; 1, 13 or 14 for the block (14 for arrivals too).
 * Changes `run`. */
uint8_t flasknib_streams_start(const uint8_t *zeroth, size_t length, uint64_t *run, size_t words)
    FLASKNIB_MUST_USE_NONNULL;

/* Takes a later block, which must hold arrivals of the label's form, and counts them in the line of
 * their SSRC; a new SSRC gets a line.
 * Gives 0.
 * Refusals: 16; 9; 1, 13 or 14 for the block; 15 for a seventeenth SSRC.
 * Changes `run` to the next run, and `lines`. */
uint8_t flasknib_streams_block(uint64_t *run, size_t words, uint64_t *lines, size_t line_words,
                               const uint8_t *block, size_t length) FLASKNIB_MUST_USE_NONNULL;

/* Writes the row of line i, counted from 0, at most FLASKNIB_ROW_MOST_BYTES. `zeroth` is block 0,
 * from which the row has its label.
 * Gives the row's length.
 * Refusals, as minus the number: 16; 9, also for a block 0 that is not 512 bytes, has another form
 * or length of the label than the run, or a label against the rules (nothing else of it is
 * compared); 10 for no such line; 12 with the row's size.
 * Changes the front of `out`. */
int64_t flasknib_streams_row(const uint64_t *run, size_t words, size_t i, const uint64_t *lines,
                             size_t line_words, const uint8_t *zeroth, size_t zeroth_length,
                             uint8_t *out, size_t room) FLASKNIB_MUST_USE_NONNULL;

#undef FLASKNIB_AS

#ifdef __cplusplus
}
#endif

#endif
