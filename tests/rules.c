/* rules: what the comments of flasknib.h say is malformed (9) or outside the limits (10), and what is told apart by what, asked of the library.
 * Each rule is broken by one step, and kept at its limit. Prints each check that does not hold, and a last line. */
#include "check.h"
#include "flasknib.h"

enum { SSRC = 0x1234567 };
static const uint64_t two48 = UINT64_C(1) << 48, two32 = UINT64_C(1) << 32;

/* ---- a source's record */

/* The answer to a query of a record with base 10, highest 19, ten arrivals, one of them twice, and one word changed. */
static uint8_t source_with(size_t place, uint64_t word)
{
    uint64_t source[FLASKNIB_SOURCE_WORDS] = {10, 19, 4, 3, 2, 1, 1, 0x3fd, 0, 0}, found[FLASKNIB_LOST_WORDS];

    source[place] = word;
    return flasknib_lost(source, FLASKNIB_SOURCE_WORDS, found, FLASKNIB_LOST_WORDS);
}

static void source_rules(void)
{
    CHECK(source_with(FLASKNIB_SOURCE_BASE, 10) == 0);
    CHECK(source_with(FLASKNIB_SOURCE_BASE, 0) == 0);
    CHECK(source_with(FLASKNIB_SOURCE_BASE, UINT64_MAX) == FLASKNIB_REFUSAL_MALFORMED);
    CHECK(source_with(FLASKNIB_SOURCE_BASE, 20) == FLASKNIB_REFUSAL_MALFORMED);
    CHECK(source_with(FLASKNIB_SOURCE_HIGHEST, 9) == FLASKNIB_REFUSAL_MALFORMED);
    CHECK(source_with(FLASKNIB_SOURCE_HIGHEST, 10 + 2999 * 8) == 0);
    CHECK(source_with(FLASKNIB_SOURCE_HIGHEST, 10 + 2999 * 8 + 1) == FLASKNIB_REFUSAL_MALFORMED);
    CHECK(source_with(FLASKNIB_SOURCE_NOT_ECT, two48 - 6) == 0);
    CHECK(source_with(FLASKNIB_SOURCE_NOT_ECT, two48 - 5) == FLASKNIB_REFUSAL_MALFORMED);
    CHECK(source_with(FLASKNIB_SOURCE_NOT_ECT, UINT64_MAX - 5) == FLASKNIB_REFUSAL_MALFORMED);
    CHECK(source_with(FLASKNIB_SOURCE_DUPLICATES, 2) == FLASKNIB_REFUSAL_MALFORMED);
    CHECK(source_with(FLASKNIB_SOURCE_DUPLICATES, 10) == FLASKNIB_REFUSAL_MALFORMED);
    CHECK(source_with(FLASKNIB_SOURCE_HISTORY, 0x3fc) == FLASKNIB_REFUSAL_MALFORMED);
    CHECK(source_with(FLASKNIB_SOURCE_HISTORY, 0x3ff) == FLASKNIB_REFUSAL_MALFORMED);
    CHECK(source_with(FLASKNIB_SOURCE_HISTORY + 1, 1) == FLASKNIB_REFUSAL_MALFORMED);
    CHECK(source_with(FLASKNIB_SOURCE_REMEMBERED, 65536) == 0);
    CHECK(source_with(FLASKNIB_SOURCE_REMEMBERED, 65537) == FLASKNIB_REFUSAL_MALFORMED);
}

/* The answer to a query of a record whose base is its highest, with no duplicate and these words. */
static uint8_t source_of(uint64_t number, uint64_t older, uint64_t arrivals, uint64_t remembered)
{
    uint64_t source[FLASKNIB_SOURCE_WORDS] = {number, number, arrivals, 0, 0, 0, 0, arrivals != 0, older, remembered}, found[FLASKNIB_LOST_WORDS];

    return flasknib_lost(source, FLASKNIB_SOURCE_WORDS, found, FLASKNIB_LOST_WORDS);
}

static void source_limits(void)
{
    CHECK(source_of(65535, 0, 2, 0) == 0);
    CHECK(source_of(65536, 0, 2, 0) == FLASKNIB_REFUSAL_MALFORMED);
    CHECK(source_of(5, UINT64_C(1) << 35, 2, 0) == 0);
    CHECK(source_of(5, UINT64_C(1) << 36, 2, 0) == FLASKNIB_REFUSAL_MALFORMED);
    CHECK(source_of(0, 0, 0, 0) == 0);
    CHECK(source_of(0, 0, 0, 1) == FLASKNIB_REFUSAL_MALFORMED);
    CHECK(source_of(1, 0, 0, 0) == FLASKNIB_REFUSAL_MALFORMED);
}

/* ---- a breaker's record */

/* The answer to a tick of a breaker with k = 5, m = 6, two reports and one interval, and two words changed. */
static uint16_t breaker_with(size_t place, uint64_t word, size_t other, uint64_t other_word)
{
    uint64_t breaker[FLASKNIB_BREAKER_WORDS];

    CHECK(flasknib_breaker_start(5, 6, 7000, 1, 0, 10, breaker, FLASKNIB_BREAKER_WORDS) == FLASKNIB_GO);
    CHECK(flasknib_breaker_report(breaker, FLASKNIB_BREAKER_WORDS, 1000, 77, 0, 1, 1000, 1) == FLASKNIB_GO);
    CHECK(flasknib_breaker_report(breaker, FLASKNIB_BREAKER_WORDS, 1500, 78, 33, 1, 1000, 1) == FLASKNIB_GO);
    breaker[place] = word;
    breaker[other] = other_word;
    return flasknib_breaker_tick(breaker, FLASKNIB_BREAKER_WORDS, 1500);
}

/* Whether a word is taken with one value and is malformed with another. */
static int within(size_t place, uint64_t taken, uint64_t malformed)
{
    return breaker_with(place, taken, place, taken) == FLASKNIB_GO
           && breaker_with(place, malformed, place, malformed) == FLASKNIB_REFUSED + FLASKNIB_REFUSAL_MALFORMED;
}

static void breaker_rules(void)
{
    CHECK(within(FLASKNIB_BREAKER_K, 1, 0));
    CHECK(within(FLASKNIB_BREAKER_K, FLASKNIB_BREAKER_MOST_K, FLASKNIB_BREAKER_MOST_K + 1));
    CHECK(within(FLASKNIB_BREAKER_M, 1, 0));
    CHECK(within(FLASKNIB_BREAKER_M, FLASKNIB_BREAKER_MOST_M, FLASKNIB_BREAKER_MOST_M + 1));
    CHECK(within(FLASKNIB_BREAKER_TIMEOUT, 1, 0));
    CHECK(within(FLASKNIB_BREAKER_TIMEOUT, FLASKNIB_BREAKER_MOST_TIMEOUT, FLASKNIB_BREAKER_MOST_TIMEOUT + 1));
    CHECK(within(FLASKNIB_BREAKER_REDUCE, 0, 2));
    CHECK(within(FLASKNIB_BREAKER_FULL, 1, 2));
    CHECK(within(FLASKNIB_BREAKER_REPORTED, 1, 2));
    CHECK(within(FLASKNIB_BREAKER_TRIAL, 1, 2));
    CHECK(within(FLASKNIB_BREAKER_STATE, 0, 4));
    CHECK(within(FLASKNIB_BREAKER_RUN, 5, 6));
    CHECK(breaker_with(FLASKNIB_BREAKER_RUN, 6, FLASKNIB_BREAKER_STATE, 2) == FLASKNIB_STOP + FLASKNIB_REASON_MEDIA);
    CHECK(within(FLASKNIB_BREAKER_LAST, 0, two48));
    CHECK(within(FLASKNIB_BREAKER_HEARD, 0, two48));
    CHECK(within(FLASKNIB_BREAKER_HIGHEST, two32 - 1, two32));
    CHECK(breaker_with(FLASKNIB_BREAKER_REPORTED, 0, FLASKNIB_BREAKER_HIGHEST, 0) == FLASKNIB_GO);
    CHECK(breaker_with(FLASKNIB_BREAKER_REPORTED, 0, FLASKNIB_BREAKER_HIGHEST, 1) == FLASKNIB_REFUSED + FLASKNIB_REFUSAL_MALFORMED);
}

static void window_rules(void)
{
    const size_t length = FLASKNIB_BREAKER_NEWEST, fraction = FLASKNIB_BREAKER_NEWEST + 1, older = FLASKNIB_BREAKER_NEWEST + 2;

    CHECK(within(length, 1, 0));
    CHECK(within(length, 10000000, 10000001));
    CHECK(within(fraction, FLASKNIB_BREAKER_MOST_FRACTION, FLASKNIB_BREAKER_MOST_FRACTION + 1));
    CHECK(within(older, 0, 1));
    CHECK(within(older + 1, 0, 1));
    CHECK(within(FLASKNIB_BREAKER_WORDS - 1, 0, 1));
    CHECK(breaker_with(FLASKNIB_BREAKER_USED, 2, older, 1) == FLASKNIB_GO);
    CHECK(breaker_with(FLASKNIB_BREAKER_USED, 2, older, 0) == FLASKNIB_REFUSED + FLASKNIB_REFUSAL_MALFORMED);
    CHECK(breaker_with(FLASKNIB_BREAKER_USED, 1, FLASKNIB_BREAKER_K, 1) == FLASKNIB_GO);
    CHECK(breaker_with(FLASKNIB_BREAKER_USED, 2, FLASKNIB_BREAKER_K, 1) == FLASKNIB_REFUSED + FLASKNIB_REFUSAL_MALFORMED);
}

/* ---- the words of a packet and of its receiver */

/* The answer to the call for a packet with an SR or RR and a report of each kind, of a receiver of which one is kept, all numbers 0, with a word of
 * each changed. */
static uint8_t call_with(size_t place, uint64_t word, size_t kept_place, uint64_t kept_word)
{
    uint64_t found[FLASKNIB_COMPOUND_WORDS] = {0}, kept[FLASKNIB_KEPT_WORDS] = {1}, call[FLASKNIB_CALL_WORDS];

    found[FLASKNIB_COMPOUND_REPORT] = found[FLASKNIB_COMPOUND_FEEDBACK] = found[FLASKNIB_COMPOUND_SUMMARY] = found[FLASKNIB_COMPOUND_SR_OR_RR] = 1;
    found[place] = word;
    kept[kept_place] = kept_word;
    return flasknib_breaker_call(found, FLASKNIB_COMPOUND_WORDS, kept, FLASKNIB_KEPT_WORDS, call, FLASKNIB_CALL_WORDS);
}

/* Whether a word of the packet, or of what is kept, is taken with one value and is malformed with the next. */
static int found_to(size_t place, uint64_t most)
{
    return call_with(place, most, 0, 1) == 0 && call_with(place, most + 1, 0, 1) == FLASKNIB_REFUSAL_MALFORMED;
}

static int kept_to(size_t place, uint64_t most)
{
    return call_with(0, 1, place, most) == 0 && call_with(0, 1, place, most + 1) == FLASKNIB_REFUSAL_MALFORMED;
}

static void call_rules(void)
{
    static const size_t whether[] = {FLASKNIB_COMPOUND_REPORT, FLASKNIB_COMPOUND_FEEDBACK, FLASKNIB_COMPOUND_SUMMARY, FLASKNIB_COMPOUND_SR_OR_RR};
    static const size_t counts[] = {FLASKNIB_COMPOUND_FEEDBACK_CE, FLASKNIB_COMPOUND_FEEDBACK_LOST, FLASKNIB_COMPOUND_SUMMARY_CE, FLASKNIB_COMPOUND_SUMMARY_LOST};

    for (size_t i = 0; i < 4; i++) {
        CHECK(call_with(whether[i], 0, 0, 1) == 0);
        CHECK(found_to(whether[i], 1));
        CHECK(found_to(counts[i], 65535));
    }
    CHECK(found_to(FLASKNIB_COMPOUND_REPORT_FRACTION, 255));
    CHECK(found_to(FLASKNIB_COMPOUND_REPORT_HIGHEST, two32 - 1));
    CHECK(found_to(FLASKNIB_COMPOUND_FEEDBACK_HIGHEST, two32 - 1));
    CHECK(kept_to(FLASKNIB_KEPT_THERE, 1));
    CHECK(kept_to(FLASKNIB_KEPT_HIGHEST, two32 - 1));
    CHECK(kept_to(FLASKNIB_KEPT_CE, 65535));
    CHECK(kept_to(FLASKNIB_KEPT_LOST, 65535));
}

/* Words that are not looked at: those of other fields, and those of what is absent. */
static void unseen_words(void)
{
    uint64_t found[FLASKNIB_COMPOUND_WORDS], kept[FLASKNIB_KEPT_WORDS] = {0}, call[FLASKNIB_CALL_WORDS];
    int seen = 0;

    for (size_t place = 0; place < FLASKNIB_COMPOUND_WORDS; place++) {
        seen += call_with(place, UINT64_MAX, 0, 1) == FLASKNIB_REFUSAL_MALFORMED;
        found[place] = UINT64_MAX;
    }
    CHECK(seen == 4 + 2 + 3 + 2);
    found[FLASKNIB_COMPOUND_REPORT] = found[FLASKNIB_COMPOUND_FEEDBACK] = found[FLASKNIB_COMPOUND_SUMMARY] = found[FLASKNIB_COMPOUND_SR_OR_RR] = 0;
    CHECK(flasknib_breaker_call(found, FLASKNIB_COMPOUND_WORDS, kept, FLASKNIB_KEPT_WORDS, call, FLASKNIB_CALL_WORDS) == 0);
    for (size_t place = FLASKNIB_KEPT_HIGHEST; place < FLASKNIB_KEPT_WORDS; place++) {
        kept[place] = 1;
        CHECK(flasknib_breaker_call(found, FLASKNIB_COMPOUND_WORDS, kept, FLASKNIB_KEPT_WORDS, call, FLASKNIB_CALL_WORDS) == FLASKNIB_REFUSAL_MALFORMED);
        kept[place] = 0;
    }
}

/* ---- the words of an attribute */

/* The answer to a record of `used` methods, all rtp, with a word changed, on either side. */
static uint8_t answer_with(uint64_t used, size_t place, uint64_t word)
{
    uint64_t good[FLASKNIB_ATTRIBUTE_WORDS] = {1, FLASKNIB_METHOD_RTP}, changed[FLASKNIB_ATTRIBUTE_WORDS] = {0}, found[FLASKNIB_ATTRIBUTE_WORDS];
    uint8_t answer;

    changed[FLASKNIB_ATTRIBUTE_USED] = used;
    for (size_t i = 0; i < used && i < FLASKNIB_ATTRIBUTE_MOST_METHODS; i++)
        changed[FLASKNIB_ATTRIBUTE_METHODS + i] = FLASKNIB_METHOD_RTP;
    changed[place] = word;
    answer = flasknib_answer(changed, FLASKNIB_ATTRIBUTE_WORDS, good, FLASKNIB_ATTRIBUTE_WORDS, found, FLASKNIB_ATTRIBUTE_WORDS);
    CHECK(flasknib_answer(good, FLASKNIB_ATTRIBUTE_WORDS, changed, FLASKNIB_ATTRIBUTE_WORDS, found, FLASKNIB_ATTRIBUTE_WORDS) == answer);
    return answer;
}

static void attribute_rules(void)
{
    const size_t last = FLASKNIB_ATTRIBUTE_METHODS + FLASKNIB_ATTRIBUTE_MOST_METHODS - 1;

    for (size_t place = FLASKNIB_ATTRIBUTE_MODE; place <= FLASKNIB_ATTRIBUTE_ECT; place++) {
        CHECK(answer_with(1, place, 3) == 0);
        CHECK(answer_with(1, place, 4) == FLASKNIB_REFUSAL_MALFORMED);
    }
    CHECK(answer_with(2, FLASKNIB_ATTRIBUTE_METHODS + 1, 3) == 0);
    CHECK(answer_with(2, FLASKNIB_ATTRIBUTE_METHODS + 1, 4) == FLASKNIB_REFUSAL_MALFORMED);
    CHECK(answer_with(2, FLASKNIB_ATTRIBUTE_METHODS + 1, 0) == FLASKNIB_REFUSAL_MALFORMED);
    CHECK(answer_with(1, FLASKNIB_ATTRIBUTE_METHODS + 1, 4) == 0);
    CHECK(answer_with(0, FLASKNIB_ATTRIBUTE_METHODS, 4) == FLASKNIB_LEFT_OUT);
    CHECK(answer_with(8, last, 0) == FLASKNIB_REFUSAL_MALFORMED);
    CHECK(answer_with(9, last, 0) == FLASKNIB_REFUSAL_MALFORMED);
    CHECK(answer_with(9, last, 3) == FLASKNIB_REFUSAL_LIMITS);
    CHECK(answer_with(UINT64_MAX, last, 3) == FLASKNIB_REFUSAL_LIMITS);
}

/* The line as the header says it: spaces, letters, extensions that are passed over and counted, a second mode. */
static uint8_t attribute_read(const char *line)
{
    uint64_t found[FLASKNIB_ATTRIBUTE_WORDS];

    return flasknib_read_attribute((const uint8_t *)line, strlen(line), found, FLASKNIB_ATTRIBUTE_WORDS);
}

static void line_rules(void)
{
    char long_line[257] = "a=ecn-capable-rtp: ";

    memset(long_line + 19, 'x', 255 - 19);
    CHECK(attribute_read(long_line) == 0);
    long_line[255] = ',';
    CHECK(attribute_read(long_line) == FLASKNIB_REFUSAL_LIMITS);
    CHECK(attribute_read("A=ECN-capable-RTP: Rtp,x Mode=setRead; y=\"; \"") == 0);
    CHECK(attribute_read("") == FLASKNIB_REFUSAL_ATTRIBUTE);
    CHECK(attribute_read("a=ecn-capable-rtp:rtp") == FLASKNIB_REFUSAL_ATTRIBUTE);
    CHECK(attribute_read("a=ecn-capable-rtp: rtp, ice") == FLASKNIB_REFUSAL_ATTRIBUTE);
    CHECK(attribute_read("a=ecn-capable-rtp: rtp ect=0;mode=setread") == FLASKNIB_REFUSAL_ATTRIBUTE);
    CHECK(attribute_read("a=ecn-capable-rtp: rtp ect=0; ect=0") == FLASKNIB_REFUSAL_ATTRIBUTE);
    CHECK(attribute_read("a=ecn-capable-rtp: rtp a=1; b=1; c=1; d=1; e=1; f=1; g=1; h=1") == 0);
    CHECK(attribute_read("a=ecn-capable-rtp: rtp a=1; b=1; c=1; d=1; e=1; f=1; g=1; h=1; i=1") == FLASKNIB_REFUSAL_LIMITS);
}

/* ---- records and labels */

/* The answer to a block of zeros but for the mark of its last record. */
static int64_t block_of(size_t length, size_t width, uint8_t mark)
{
    uint8_t records[64 * FLASKNIB_RECORD_TWO_BYTES] = {0};
    uint64_t source[FLASKNIB_SOURCE_WORDS] = {0};

    if (length >= 2)
        records[length - 2] = mark;
    return flasknib_count_block(source, FLASKNIB_SOURCE_WORDS, records, length, width);
}

static void record_limits(void)
{
    CHECK(block_of(62 * 4, 4, 3) == 0);
    CHECK(block_of(63 * 4, 4, 3) == -FLASKNIB_REFUSAL_LIMITS);
    CHECK(block_of(0, 4, 0) == -FLASKNIB_REFUSAL_LIMITS);
    CHECK(block_of(7, 4, 0) == -FLASKNIB_REFUSAL_LIMITS);
    CHECK(block_of(4, 4, 4) == -FLASKNIB_REFUSAL_LIMITS);
    CHECK(block_of(3, 3, 0) == -FLASKNIB_REFUSAL_LIMITS);
    CHECK(block_of(5, 5, 3) == 0);
}

/* The wire number 0x1234 is the bytes 0x12 and 0x34; the byte behind the mark is not judged. */
static void byte_order(void)
{
    static const uint8_t record[] = {0x12, 0x34, FLASKNIB_MARK_CE, 0xff};
    uint64_t source[FLASKNIB_SOURCE_WORDS] = {0};

    CHECK(flasknib_count_block(source, FLASKNIB_SOURCE_WORDS, record, sizeof record, sizeof record) == 0);
    CHECK(source[FLASKNIB_SOURCE_HIGHEST] == 0x1234);
}

/* The writer of a new label refuses 10 and 13 as retired; the row of a trace takes them. */
static void label_rules(void)
{
    uint8_t block[FLASKNIB_BLOCK_BYTES], row[FLASKNIB_ROW_MOST_BYTES];
    uint64_t source[FLASKNIB_SOURCE_WORDS] = {0};

    for (int i = 0; i < 256; i++) {
        uint8_t byte = (uint8_t)i;
        int printable = i >= 32 && i <= 126, retired = i == 10 || i == 13;
        int64_t answer = flasknib_write_label(FLASKNIB_FORM_ONE, &byte, 1, SSRC, block, sizeof block);
        CHECK(answer == (printable ? FLASKNIB_BLOCK_BYTES : retired ? -FLASKNIB_REFUSAL_RETIRED : -FLASKNIB_REFUSAL_LIMITS));
        answer = flasknib_write_row(&byte, 1, SSRC, source, FLASKNIB_SOURCE_WORDS, 0, 0, row, sizeof row);
        CHECK(printable || retired ? answer > 0 : answer == -FLASKNIB_REFUSAL_LIMITS);
    }
}

/* Block 0 with the label `w d`, and with a retired byte in the place of the space, under the check that fits: it reads, and is spaced to the first. */
static void old_labels(void)
{
    static const uint8_t retired[] = {10, 13};
    uint8_t block[FLASKNIB_BLOCK_BYTES], old[FLASKNIB_BLOCK_BYTES], out[FLASKNIB_BLOCK_BYTES];
    uint64_t found[FLASKNIB_BLOCK_WORDS];

    CHECK(flasknib_write_label(FLASKNIB_FORM_ONE, (const uint8_t *)"w d", 3, SSRC, block, sizeof block) == FLASKNIB_BLOCK_BYTES);
    for (size_t i = 0; i < sizeof retired; i++) {
        size_t at = FLASKNIB_BLOCK_BODY_AT + 1, end = FLASKNIB_BLOCK_BYTES - 2;
        unsigned sum = ((unsigned)block[end] << 8 | block[end + 1]) + 32u - retired[i];
        memcpy(old, block, sizeof old);
        old[at] = retired[i];
        old[end] = (uint8_t)(sum >> 8);
        old[end + 1] = (uint8_t)sum;
        CHECK(flasknib_read_block(old, sizeof old, found, FLASKNIB_BLOCK_WORDS) == 0);
        CHECK(flasknib_space_label(old, sizeof old, out, sizeof out) == 1 && memcmp(out, block, sizeof out) == 0);
    }
    CHECK(flasknib_space_label(block, sizeof block, out, sizeof out) == 0 && memcmp(out, block, sizeof out) == 0);
    CHECK(flasknib_space_label(block, sizeof block - 1, out, 0) == -FLASKNIB_REFUSAL_INCOMPLETE);
    block[FLASKNIB_BLOCK_BODY_AT] = 'W';
    CHECK(flasknib_space_label(block, sizeof block, out, 0) == -FLASKNIB_REFUSAL_CHECKSUM);
    CHECK(flasknib_write_records(FLASKNIB_FORM_ONE, (const uint8_t[8]){0}, 8, SSRC, block, sizeof block) == FLASKNIB_BLOCK_BYTES);
    CHECK(flasknib_space_label(block, sizeof block, out, 0) == -FLASKNIB_REFUSAL_CONTENTS);
}

/* ---- a later block at its place */

static void own_blocks(void)
{
    static const uint8_t record[] = {0, 0, 0, 0, 0, 1, FLASKNIB_MARK_CE, 0};
    uint8_t block[FLASKNIB_BLOCK_BYTES];

    CHECK(flasknib_write_records(FLASKNIB_FORM_ONE, record, sizeof record, SSRC, block, sizeof block) == FLASKNIB_BLOCK_BYTES);
    CHECK(flasknib_read_own(FLASKNIB_FORM_ONE, SSRC, block, sizeof block) == 0);
    CHECK(flasknib_read_own(FLASKNIB_FORM_TWO, SSRC, block, sizeof block) == FLASKNIB_REFUSAL_CONTENTS);
    CHECK(flasknib_read_own(FLASKNIB_FORM_ONE, SSRC + 1, block, sizeof block) == FLASKNIB_REFUSAL_CONTENTS);
    CHECK(flasknib_read_own(FLASKNIB_FORM_ONE, SSRC, block, sizeof block - 1) == FLASKNIB_REFUSAL_INCOMPLETE);
    CHECK(flasknib_read_own(FLASKNIB_FORM_TWO + 1, SSRC, block, sizeof block - 1) == FLASKNIB_REFUSAL_LIMITS);
    block[FLASKNIB_BLOCK_BODY_AT]++;
    CHECK(flasknib_read_own(FLASKNIB_FORM_TWO, SSRC, block, sizeof block) == FLASKNIB_REFUSAL_CHECKSUM);
    CHECK(flasknib_write_label(FLASKNIB_FORM_ONE, (const uint8_t *)"ward", 4, SSRC, block, sizeof block) == FLASKNIB_BLOCK_BYTES);
    CHECK(flasknib_read_own(FLASKNIB_FORM_ONE, SSRC, block, sizeof block) == FLASKNIB_REFUSAL_CONTENTS);
}

/* ---- block 0 of a run */

/* The answer to a block of a run whose block 0 has one byte changed, and the row. */
static int64_t run_with(size_t at, uint8_t byte, uint8_t *row)
{
    static const uint8_t record[] = {0, 0, 0, 0, 0, 1, FLASKNIB_MARK_CE, 0};
    uint8_t zeroth[FLASKNIB_BLOCK_BYTES], block[FLASKNIB_BLOCK_BYTES];
    uint64_t run[FLASKNIB_RUN_WORDS];

    CHECK(flasknib_write_label(FLASKNIB_FORM_ONE, (const uint8_t *)"ward", 4, SSRC, zeroth, sizeof zeroth) == FLASKNIB_BLOCK_BYTES);
    CHECK(flasknib_write_records(FLASKNIB_FORM_ONE, record, sizeof record, SSRC, block, sizeof block) == FLASKNIB_BLOCK_BYTES);
    CHECK(flasknib_run_start(zeroth, sizeof zeroth, run, FLASKNIB_RUN_WORDS) == 0);
    zeroth[at] = byte;
    return flasknib_run_block(run, FLASKNIB_RUN_WORDS, zeroth, sizeof zeroth, block, sizeof block, row, FLASKNIB_ROW_MOST_BYTES);
}

static void block_0(void)
{
    uint8_t row[FLASKNIB_ROW_MOST_BYTES];

    CHECK(run_with(FLASKNIB_BLOCK_BODY_AT, 'h', row) > 0);
    CHECK(memcmp(row, "hard,", 5) == 0);
    CHECK(run_with(FLASKNIB_BLOCK_BODY_AT, 31, row) == -FLASKNIB_REFUSAL_MALFORMED);
    CHECK(run_with(1, FLASKNIB_KIND_LABEL_TWO, row) == -FLASKNIB_REFUSAL_MALFORMED);
    CHECK(run_with(3, 3, row) == -FLASKNIB_REFUSAL_MALFORMED);
    CHECK(run_with(7, 0, row) == -FLASKNIB_REFUSAL_MALFORMED);
    CHECK(run_with(FLASKNIB_BLOCK_BYTES - 1, 0, row) > 0);
}

/* ---- a trace that arrives bit by bit */

/* An upload that has taken a label and 9 bytes of a block with one record. Gives that block. */
static void started(uint64_t *upload, uint8_t *kept, uint8_t *block)
{
    static const uint8_t record[] = {0, 0, 0, 0, 0, 1, FLASKNIB_MARK_CE, 0};
    uint8_t zeroth[FLASKNIB_BLOCK_BYTES], none[1];

    memset(upload, 0, FLASKNIB_UPLOAD_WORDS * sizeof *upload);
    memset(kept, 0, FLASKNIB_UPLOAD_KEPT_BYTES);
    CHECK(flasknib_write_label(FLASKNIB_FORM_ONE, (const uint8_t *)"ward", 4, SSRC, zeroth, sizeof zeroth) == FLASKNIB_BLOCK_BYTES);
    CHECK(flasknib_write_records(FLASKNIB_FORM_ONE, record, sizeof record, SSRC, block, FLASKNIB_BLOCK_BYTES) == FLASKNIB_BLOCK_BYTES);
    CHECK(flasknib_feed(upload, FLASKNIB_UPLOAD_WORDS, kept, FLASKNIB_UPLOAD_KEPT_BYTES, zeroth, sizeof zeroth, none, 0) == 0);
    CHECK(flasknib_feed(upload, FLASKNIB_UPLOAD_WORDS, kept, FLASKNIB_UPLOAD_KEPT_BYTES, block, 9, none, 0) == 0);
}

/* The answer of a close where a word or a byte is changed. */
static uint8_t closed_with(size_t word, uint64_t value, size_t at, uint8_t change)
{
    uint64_t upload[FLASKNIB_UPLOAD_WORDS];
    uint8_t kept[FLASKNIB_UPLOAD_KEPT_BYTES], block[FLASKNIB_BLOCK_BYTES];

    started(upload, kept, block);
    upload[word] = value;
    kept[at] ^= change;
    return flasknib_feed_close(upload, FLASKNIB_UPLOAD_WORDS, kept, sizeof kept);
}

static void upload_rules(void)
{
    const size_t part = FLASKNIB_BLOCK_BYTES;

    CHECK(closed_with(FLASKNIB_UPLOAD_KEPT, 9, part, 0) == FLASKNIB_REFUSAL_INCOMPLETE);
    CHECK(closed_with(FLASKNIB_UPLOAD_KEPT, 9, part + 8, 1) == FLASKNIB_REFUSAL_INCOMPLETE);
    CHECK(closed_with(FLASKNIB_UPLOAD_KEPT, 9, part + 9, 1) == FLASKNIB_REFUSAL_MALFORMED);
    CHECK(closed_with(FLASKNIB_UPLOAD_KEPT, 9, part - 1, 1) == FLASKNIB_REFUSAL_MALFORMED);
    CHECK(closed_with(FLASKNIB_UPLOAD_KEPT, 511, part, 0) == FLASKNIB_REFUSAL_INCOMPLETE);
    CHECK(closed_with(FLASKNIB_UPLOAD_KEPT, 512, part, 0) == FLASKNIB_REFUSAL_MALFORMED);
    CHECK(closed_with(FLASKNIB_UPLOAD_BLOCKS, two48 / part - 1, part, 0) == FLASKNIB_REFUSAL_INCOMPLETE);
    CHECK(closed_with(FLASKNIB_UPLOAD_BLOCKS, two48 / part, part, 0) == FLASKNIB_REFUSAL_MALFORMED);
    CHECK(closed_with(FLASKNIB_UPLOAD_BLOCKS, 0, part, 0) == FLASKNIB_REFUSAL_MALFORMED);
    CHECK(closed_with(FLASKNIB_UPLOAD_JUMPED, two48, part, 0) == FLASKNIB_REFUSAL_INCOMPLETE);
    CHECK(closed_with(FLASKNIB_UPLOAD_RESTARTS, two48 + 1, part, 0) == FLASKNIB_REFUSAL_MALFORMED);
    CHECK(closed_with(FLASKNIB_UPLOAD_REFUSAL, 13, part, 0) == FLASKNIB_REFUSAL_CHECKSUM);
    CHECK(closed_with(FLASKNIB_UPLOAD_REFUSAL, 12, part, 0) == FLASKNIB_REFUSAL_MALFORMED);
}

/* A close that gives 0 changes nothing and feeding goes on; one that refuses with 1 keeps it. */
static void upload_goes_on(void)
{
    uint64_t upload[FLASKNIB_UPLOAD_WORDS], before[FLASKNIB_UPLOAD_WORDS];
    uint8_t kept[FLASKNIB_UPLOAD_KEPT_BYTES], block[FLASKNIB_BLOCK_BYTES], row[FLASKNIB_ROW_MOST_BYTES];
    const size_t words = FLASKNIB_UPLOAD_WORDS;

    started(upload, kept, block);
    CHECK(flasknib_feed(upload, words, kept, sizeof kept, block + 9, sizeof block - 9, row, sizeof row) > 0);
    memcpy(before, upload, sizeof before);
    CHECK(flasknib_feed_close(upload, words, kept, sizeof kept) == 0);
    CHECK(memcmp(before, upload, sizeof before) == 0);
    CHECK(flasknib_feed(upload, words, kept, sizeof kept, block, sizeof block, row, sizeof row) > 0);
    CHECK(flasknib_feed(upload, words, kept, sizeof kept, block, 1, row, sizeof row) == 0);
    CHECK(flasknib_feed_close(upload, words, kept, sizeof kept) == FLASKNIB_REFUSAL_INCOMPLETE);
    CHECK(upload[FLASKNIB_UPLOAD_REFUSAL] == FLASKNIB_REFUSAL_INCOMPLETE);
    CHECK(flasknib_feed(upload, words, kept, sizeof kept, block + 1, sizeof block - 1, row, sizeof row) == -FLASKNIB_REFUSAL_INCOMPLETE);
}

int main(void)
{
    source_rules();
    source_limits();
    breaker_rules();
    window_rules();
    call_rules();
    unseen_words();
    attribute_rules();
    line_rules();
    record_limits();
    byte_order();
    label_rules();
    old_labels();
    own_blocks();
    block_0();
    upload_rules();
    upload_goes_on();
    return checked("the header's rules");
}
