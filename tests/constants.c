/* constants: the numbers of flasknib.h, asked of the library. Compiled as C and as C++. Prints each check that does not hold, and a last line. */
#include "check.h"
#include "flasknib.h"

enum { SSRC = 0x1234567, SENDER = 9 };

/* Numbers 10 to 19 without 18, and 10 again: 4 not-ECT, 3 ECT(1), 2 ECT(0) and 1 CE. */
static void counted(uint64_t *source)
{
    static const uint8_t marks[] = {FLASKNIB_MARK_NOT_ECT, FLASKNIB_MARK_NOT_ECT, FLASKNIB_MARK_NOT_ECT, FLASKNIB_MARK_NOT_ECT, FLASKNIB_MARK_ECT1,
                                    FLASKNIB_MARK_ECT1,    FLASKNIB_MARK_ECT1,    FLASKNIB_MARK_ECT0,    FLASKNIB_MARK_ECT0,    FLASKNIB_MARK_CE};
    static const uint16_t wires[] = {10, 11, 12, 13, 14, 15, 16, 17, 19, 10};

    memset(source, 0, FLASKNIB_SOURCE_WORDS * sizeof *source);
    for (size_t i = 0; i < sizeof marks; i++)
        CHECK(flasknib_arrive(source, FLASKNIB_SOURCE_WORDS, wires[i], marks[i]) == 0);
}

static void sources(void)
{
    uint64_t source[FLASKNIB_SOURCE_WORDS + 1] = {0};

    CHECK(flasknib_arrive(source, FLASKNIB_SOURCE_WORDS - 1, 1, 0) == FLASKNIB_REFUSAL_MALFORMED);
    CHECK(flasknib_arrive(source, FLASKNIB_SOURCE_WORDS + 1, 1, 0) == FLASKNIB_REFUSAL_MALFORMED);
    counted(source);
    CHECK(source[FLASKNIB_SOURCE_BASE] == 10);
    CHECK(source[FLASKNIB_SOURCE_HIGHEST] == 19);
    CHECK(source[FLASKNIB_SOURCE_NOT_ECT] == 4);
    CHECK(source[FLASKNIB_SOURCE_ECT1] == 3);
    CHECK(source[FLASKNIB_SOURCE_ECT0] == 2);
    CHECK(source[FLASKNIB_SOURCE_CE] == 1);
    CHECK(source[FLASKNIB_SOURCE_DUPLICATES] == 1);
    CHECK(source[FLASKNIB_SOURCE_HISTORY] == 0x3fd);
    CHECK(source[FLASKNIB_SOURCE_HISTORY + 1] == 0);
    CHECK(source[FLASKNIB_SOURCE_REMEMBERED] == 0);
    CHECK(flasknib_arrive(source, FLASKNIB_SOURCE_WORDS, 20, FLASKNIB_MARK_CE + 1) == FLASKNIB_REFUSAL_LIMITS);
    CHECK(flasknib_arrive(source, FLASKNIB_SOURCE_WORDS, 30000, 0) == FLASKNIB_REFUSAL_JUMP);
    CHECK(source[FLASKNIB_SOURCE_REMEMBERED] == 30001 + 1);
    CHECK(flasknib_arrive(source, FLASKNIB_SOURCE_WORDS, 30001, 0) == FLASKNIB_RESTARTED);
}

/* Records of 4 bytes: a jump, a jump, and the number behind it, which restarts. */
static void jumps(void)
{
    static const uint8_t records[] = {0x20, 0, 0, 0, 0x40, 0, 0, 0, 0x40, 1, 0, 0};
    uint64_t source[FLASKNIB_SOURCE_WORDS];
    int64_t answer;

    counted(source);
    answer = flasknib_count_block(source, FLASKNIB_SOURCE_WORDS, records, sizeof records, 4);
    CHECK(flasknib_block_jumps(answer) == 2);
    CHECK(flasknib_block_restarts(answer) == 1);
}

/* A record of 2^48 arrivals, all of number 5 with ECT(0). */
static void full_source(void)
{
    uint64_t source[FLASKNIB_SOURCE_WORDS] = {0};

    source[FLASKNIB_SOURCE_BASE] = source[FLASKNIB_SOURCE_HIGHEST] = 5;
    source[FLASKNIB_SOURCE_ECT0] = UINT64_C(1) << 48;
    source[FLASKNIB_SOURCE_DUPLICATES] = (UINT64_C(1) << 48) - 1;
    source[FLASKNIB_SOURCE_HISTORY] = 1;
    CHECK(flasknib_arrive(source, FLASKNIB_SOURCE_WORDS, 6, 0) == FLASKNIB_REFUSAL_FULL);
    source[FLASKNIB_SOURCE_HISTORY] = 0;
    CHECK(flasknib_arrive(source, FLASKNIB_SOURCE_WORDS, 6, 0) == FLASKNIB_REFUSAL_MALFORMED);
}

static void big_endian(uint8_t *at, uint32_t number)
{
    for (int i = 0; i < 4; i++)
        at[i] = (uint8_t)(number >> (24 - 8 * i));
}

enum { RR_BYTES = 32, XR_AT = RR_BYTES + FLASKNIB_FEEDBACK_BYTES, COMPOUND = XR_AT + 8 + FLASKNIB_SUMMARY_BYTES };

/* An RR with a block of the numbers 0x51, -2, 3 to 6, ECN feedback and an ECN summary, all about SSRC. */
static void compound(uint8_t *bytes)
{
    static const uint32_t words[] = {0x81c90007, SENDER, SSRC, 0x51fffffe, 3, 4, 5, 6};
    uint64_t source[FLASKNIB_SOURCE_WORDS];
    int64_t written;

    counted(source);
    for (size_t i = 0; i < RR_BYTES / 4; i++)
        big_endian(bytes + 4 * i, words[i]);
    written = flasknib_write_feedback(source, FLASKNIB_SOURCE_WORDS, SENDER, SSRC, bytes + RR_BYTES, FLASKNIB_FEEDBACK_BYTES);
    CHECK(written == FLASKNIB_FEEDBACK_BYTES);
    big_endian(bytes + XR_AT, 0x80cf0007);
    big_endian(bytes + XR_AT + 4, SENDER);
    written = flasknib_write_summary(source, FLASKNIB_SOURCE_WORDS, SSRC, bytes + XR_AT + 8, FLASKNIB_SUMMARY_BYTES);
    CHECK(written == FLASKNIB_SUMMARY_BYTES);
}

static void compound_words(void)
{
    static const uint64_t minus_two = (uint64_t)INT64_C(-2);
    uint8_t bytes[COMPOUND];
    uint64_t found[FLASKNIB_COMPOUND_WORDS];

    compound(bytes);
    CHECK(flasknib_read_compound(bytes, COMPOUND, SSRC, FLASKNIB_PROFILE_COMPOUND, found, FLASKNIB_COMPOUND_WORDS - 1) == FLASKNIB_REFUSAL_ROOM);
    CHECK(flasknib_read_compound(bytes, COMPOUND, SSRC, FLASKNIB_PROFILE_COMPOUND, found, FLASKNIB_COMPOUND_WORDS) == 0);
    CHECK(found[FLASKNIB_COMPOUND_REPORT] == 1);
    CHECK(found[FLASKNIB_COMPOUND_REPORT_FRACTION] == 0x51);
    CHECK(found[FLASKNIB_COMPOUND_REPORT_LOST] == minus_two);
    CHECK(found[FLASKNIB_COMPOUND_REPORT_HIGHEST] == 3);
    CHECK(found[FLASKNIB_COMPOUND_REPORT_JITTER] == 4);
    CHECK(found[FLASKNIB_COMPOUND_REPORT_LSR] == 5);
    CHECK(found[FLASKNIB_COMPOUND_REPORT_DLSR] == 6);
    CHECK(found[FLASKNIB_COMPOUND_FEEDBACK] == 1);
    CHECK(found[FLASKNIB_COMPOUND_FEEDBACK_SENDER] == SENDER);
    CHECK(found[FLASKNIB_COMPOUND_FEEDBACK_HIGHEST] == 19);
    CHECK(found[FLASKNIB_COMPOUND_FEEDBACK_ECT0] == 2);
    CHECK(found[FLASKNIB_COMPOUND_FEEDBACK_ECT1] == 3);
    CHECK(found[FLASKNIB_COMPOUND_FEEDBACK_CE] == 1);
    CHECK(found[FLASKNIB_COMPOUND_FEEDBACK_NOT_ECT] == 4);
    CHECK(found[FLASKNIB_COMPOUND_FEEDBACK_LOST] == 1);
    CHECK(found[FLASKNIB_COMPOUND_FEEDBACK_DUPLICATES] == 1);
    CHECK(found[FLASKNIB_COMPOUND_SUMMARY] == 1);
    CHECK(found[FLASKNIB_COMPOUND_SUMMARY_ECT0] == 2);
    CHECK(found[FLASKNIB_COMPOUND_SUMMARY_ECT1] == 3);
    CHECK(found[FLASKNIB_COMPOUND_SUMMARY_CE] == 1);
    CHECK(found[FLASKNIB_COMPOUND_SUMMARY_NOT_ECT] == 4);
    CHECK(found[FLASKNIB_COMPOUND_SUMMARY_LOST] == 1);
    CHECK(found[FLASKNIB_COMPOUND_SUMMARY_DUPLICATES] == 1);
    CHECK(found[FLASKNIB_COMPOUND_SR_OR_RR] == 1);
    CHECK(found[FLASKNIB_COMPOUND_REPORT_REPORTER] == SENDER);
    found[FLASKNIB_COMPOUND_FEEDBACK_SENDER] = SENDER + 1;
    CHECK(flasknib_compound_receiver(found) == SENDER);
    found[FLASKNIB_COMPOUND_REPORT] = 0;
    CHECK(flasknib_compound_receiver(found) == SENDER + 1);
}

/* The answer about a compound with one byte changed. */
static uint8_t changed(size_t at, uint8_t byte)
{
    uint8_t bytes[COMPOUND];
    uint64_t found[FLASKNIB_COMPOUND_WORDS];

    compound(bytes);
    bytes[at] = byte;
    return flasknib_read_compound(bytes, COMPOUND, SSRC, FLASKNIB_PROFILE_COMPOUND, found, FLASKNIB_COMPOUND_WORDS);
}

/* The answer about the first bytes of a buffer. */
static uint8_t read_front(const uint8_t *bytes, size_t length, uint8_t profile)
{
    uint64_t found[FLASKNIB_COMPOUND_WORDS];
    return flasknib_read_compound(bytes, length, SSRC, profile, found, FLASKNIB_COMPOUND_WORDS);
}

static void compound_refusals(void)
{
    static uint8_t longest[FLASKNIB_COMPOUND_MOST_BYTES + 1];

    CHECK(read_front(longest, 0, FLASKNIB_PROFILE_COMPOUND) == FLASKNIB_REFUSAL_INCOMPLETE);
    CHECK(read_front(longest, sizeof longest - 1, FLASKNIB_PROFILE_COMPOUND) == FLASKNIB_REFUSAL_VERSION);
    CHECK(read_front(longest, sizeof longest, FLASKNIB_PROFILE_COMPOUND) == FLASKNIB_REFUSAL_LIMITS);
    CHECK(changed(0, 0x41) == FLASKNIB_REFUSAL_VERSION);
    CHECK(changed(1, 0xcf) == FLASKNIB_REFUSAL_FIRST_PACKET);
    CHECK(changed(3, 0xff) == FLASKNIB_REFUSAL_PACKET_SIZE);
    CHECK(changed(0, 0xa1) == FLASKNIB_REFUSAL_PADDING);
    CHECK(changed(XR_AT + 8 + 3, 6) == FLASKNIB_REFUSAL_BLOCK_SIZE);
    CHECK(read_front(longest, 4, FLASKNIB_PROFILE_REDUCED_SIZE + 1) == FLASKNIB_REFUSAL_LIMITS);
    longest[0] = 0x80;
    CHECK(read_front(longest, 4, FLASKNIB_PROFILE_COMPOUND) == FLASKNIB_REFUSAL_FIRST_PACKET);
    CHECK(read_front(longest, 4, FLASKNIB_PROFILE_REDUCED_SIZE) == 0);
}

static void ecn_counts(void)
{
    uint64_t counts[FLASKNIB_ECN_WORDS];

    CHECK(flasknib_ecn_between(8, 8, 8, 5, 6, 7, counts, FLASKNIB_ECN_WORDS - 1) == FLASKNIB_REFUSAL_ROOM);
    CHECK(flasknib_ecn_between(8, 8, 8, 5, 6, 7, counts, FLASKNIB_ECN_WORDS) == 0);
    CHECK(counts[FLASKNIB_ECN_LOST] == 1);
    CHECK(counts[FLASKNIB_ECN_MARKED] == 2);
    CHECK(counts[FLASKNIB_ECN_EXPECTED] == 3);
}

/* A packet with an RR and a block of fraction 33 and highest number 10, then two with the feedback: the first alone, the second 3 numbers on. */
static void packet_calls(void)
{
    uint64_t found[FLASKNIB_COMPOUND_WORDS + 1] = {0}, kept[FLASKNIB_KEPT_WORDS + 1] = {0}, call[FLASKNIB_CALL_WORDS];

    CHECK(flasknib_breaker_call(found, FLASKNIB_COMPOUND_WORDS - 1, kept, FLASKNIB_KEPT_WORDS, call, FLASKNIB_CALL_WORDS) == FLASKNIB_REFUSAL_MALFORMED);
    CHECK(flasknib_breaker_call(found, FLASKNIB_COMPOUND_WORDS + 1, kept, FLASKNIB_KEPT_WORDS, call, FLASKNIB_CALL_WORDS) == FLASKNIB_REFUSAL_MALFORMED);
    CHECK(flasknib_breaker_call(found, FLASKNIB_COMPOUND_WORDS, kept, FLASKNIB_KEPT_WORDS - 1, call, FLASKNIB_CALL_WORDS) == FLASKNIB_REFUSAL_MALFORMED);
    CHECK(flasknib_breaker_call(found, FLASKNIB_COMPOUND_WORDS, kept, FLASKNIB_KEPT_WORDS + 1, call, FLASKNIB_CALL_WORDS) == FLASKNIB_REFUSAL_MALFORMED);
    CHECK(flasknib_breaker_call(found, FLASKNIB_COMPOUND_WORDS, kept, FLASKNIB_KEPT_WORDS, call, FLASKNIB_CALL_WORDS - 1) == FLASKNIB_REFUSAL_ROOM);
    CHECK(flasknib_breaker_call(found, FLASKNIB_COMPOUND_WORDS, kept, FLASKNIB_KEPT_WORDS, call, FLASKNIB_CALL_WORDS) == 0);
    CHECK(call[FLASKNIB_CALL_WHICH] == FLASKNIB_WHICH_HEARD);
    found[FLASKNIB_COMPOUND_SR_OR_RR] = found[FLASKNIB_COMPOUND_REPORT] = 1;
    found[FLASKNIB_COMPOUND_REPORT_FRACTION] = 33;
    found[FLASKNIB_COMPOUND_REPORT_HIGHEST] = 10;
    CHECK(flasknib_breaker_call(found, FLASKNIB_COMPOUND_WORDS, kept, FLASKNIB_KEPT_WORDS, call, FLASKNIB_CALL_WORDS) == 0);
    CHECK(call[FLASKNIB_CALL_WHICH] == FLASKNIB_WHICH_REPORT);
    CHECK(call[FLASKNIB_CALL_HIGHEST] == 10);
    CHECK(call[FLASKNIB_CALL_FRACTION] == 33);
    CHECK(kept[FLASKNIB_KEPT_THERE] == 0);
    found[FLASKNIB_COMPOUND_REPORT] = 0;
    found[FLASKNIB_COMPOUND_FEEDBACK] = 1;
    found[FLASKNIB_COMPOUND_FEEDBACK_HIGHEST] = 11;
    found[FLASKNIB_COMPOUND_FEEDBACK_CE] = 6;
    found[FLASKNIB_COMPOUND_FEEDBACK_LOST] = 7;
    CHECK(flasknib_breaker_call(found, FLASKNIB_COMPOUND_WORDS, kept, FLASKNIB_KEPT_WORDS, call, FLASKNIB_CALL_WORDS) == 0);
    CHECK(call[FLASKNIB_CALL_WHICH] == FLASKNIB_WHICH_REPORT_ECN);
    CHECK(call[FLASKNIB_CALL_HIGHEST] == 11);
    CHECK(call[FLASKNIB_CALL_EXPECTED] == 0);
    CHECK(kept[FLASKNIB_KEPT_THERE] == 1);
    CHECK(kept[FLASKNIB_KEPT_HIGHEST] == 11);
    CHECK(kept[FLASKNIB_KEPT_CE] == 6);
    CHECK(kept[FLASKNIB_KEPT_LOST] == 7);
    found[FLASKNIB_COMPOUND_FEEDBACK_HIGHEST] = 14;
    found[FLASKNIB_COMPOUND_FEEDBACK_CE] = 8;
    found[FLASKNIB_COMPOUND_FEEDBACK_LOST] = 8;
    CHECK(flasknib_breaker_call(found, FLASKNIB_COMPOUND_WORDS, kept, FLASKNIB_KEPT_WORDS, call, FLASKNIB_CALL_WORDS) == 0);
    CHECK(call[FLASKNIB_CALL_LOST] == 1);
    CHECK(call[FLASKNIB_CALL_MARKED] == 2);
    CHECK(call[FLASKNIB_CALL_EXPECTED] == 3);
}

static uint16_t started(uint64_t k, uint64_t m, uint64_t timeout, uint8_t reduce, uint8_t full, uint64_t time)
{
    uint64_t breaker[FLASKNIB_BREAKER_WORDS];
    return flasknib_breaker_start(k, m, timeout, reduce, full, time, breaker, FLASKNIB_BREAKER_WORDS);
}

enum { REFUSED = FLASKNIB_REFUSED + FLASKNIB_REFUSAL_LIMITS };

static void start_limits(void)
{
    CHECK(started(FLASKNIB_PRESET_K, FLASKNIB_PRESET_M, FLASKNIB_PRESET_TIMEOUT, FLASKNIB_PRESET_REDUCE, FLASKNIB_PRESET_FULL, 0) == FLASKNIB_GO);
    CHECK(started(FLASKNIB_BREAKER_MOST_K, FLASKNIB_BREAKER_MOST_M, FLASKNIB_BREAKER_MOST_TIMEOUT, 1, 1, FLASKNIB_BREAKER_MOST_TIME) == FLASKNIB_GO);
    CHECK(started(1, 1, 1, 0, 0, 0) == FLASKNIB_GO);
    CHECK(started(0, 1, 1, 0, 0, 0) == REFUSED);
    CHECK(started(1, 0, 1, 0, 0, 0) == REFUSED);
    CHECK(started(1, 1, 0, 0, 0, 0) == REFUSED);
    CHECK(started(FLASKNIB_BREAKER_MOST_K + 1, 1, 1, 0, 0, 0) == REFUSED);
    CHECK(started(1, FLASKNIB_BREAKER_MOST_M + 1, 1, 0, 0, 0) == REFUSED);
    CHECK(started(1, 1, FLASKNIB_BREAKER_MOST_TIMEOUT + 1, 0, 0, 0) == REFUSED);
    CHECK(started(1, 1, 1, 2, 0, 0) == REFUSED);
    CHECK(started(1, 1, 1, 0, 2, 0) == REFUSED);
    CHECK(started(1, 1, 1, 0, 0, FLASKNIB_BREAKER_MOST_TIME + 1) == REFUSED);
}

/* The answer of a breaker of the preset, started at 0, to a report at 10. */
static uint16_t reported(uint64_t fraction, uint64_t rtt, uint64_t size, uint64_t rate)
{
    uint64_t breaker[FLASKNIB_BREAKER_WORDS];

    CHECK(flasknib_breaker_start_with(flasknib_preset(), 0, breaker, FLASKNIB_BREAKER_WORDS) == FLASKNIB_GO);
    return flasknib_breaker_report(breaker, FLASKNIB_BREAKER_WORDS, 10, 1, fraction, rtt, size, rate);
}

static uint16_t reported_ecn(int64_t lost, uint64_t marked, uint64_t expected)
{
    uint64_t breaker[FLASKNIB_BREAKER_WORDS];

    CHECK(flasknib_breaker_start_with(flasknib_preset(), 0, breaker, FLASKNIB_BREAKER_WORDS) == FLASKNIB_GO);
    return flasknib_breaker_report_ecn(breaker, FLASKNIB_BREAKER_WORDS, 10, 1, lost, marked, expected, 1, 1, 1);
}

static void report_limits(void)
{
    CHECK(reported(FLASKNIB_BREAKER_MOST_FRACTION, FLASKNIB_BREAKER_MOST_RTT, FLASKNIB_BREAKER_MOST_SIZE, FLASKNIB_BREAKER_MOST_RATE) == FLASKNIB_GO);
    CHECK(reported(0, 0, 1, 0) == FLASKNIB_GO);
    CHECK(reported(FLASKNIB_BREAKER_MOST_FRACTION + 1, 0, 1, 0) == REFUSED);
    CHECK(reported(0, FLASKNIB_BREAKER_MOST_RTT + 1, 1, 0) == REFUSED);
    CHECK(reported(0, 0, 0, 0) == REFUSED);
    CHECK(reported(0, 0, FLASKNIB_BREAKER_MOST_SIZE + 1, 0) == REFUSED);
    CHECK(reported(0, 0, 1, FLASKNIB_BREAKER_MOST_RATE + 1) == REFUSED);
    CHECK(reported_ecn(FLASKNIB_BREAKER_MOST_PACKETS, FLASKNIB_BREAKER_MOST_PACKETS, FLASKNIB_BREAKER_MOST_PACKETS) == FLASKNIB_GO);
    CHECK(reported_ecn(-FLASKNIB_BREAKER_MOST_PACKETS, 0, 0) == FLASKNIB_GO);
    CHECK(reported_ecn(FLASKNIB_BREAKER_MOST_PACKETS + 1, 0, 0) == REFUSED);
    CHECK(reported_ecn(-FLASKNIB_BREAKER_MOST_PACKETS - 1, 0, 0) == REFUSED);
    CHECK(reported_ecn(0, FLASKNIB_BREAKER_MOST_PACKETS + 1, 0) == REFUSED);
    CHECK(reported_ecn(0, 0, FLASKNIB_BREAKER_MOST_PACKETS + 1) == REFUSED);
}

/* Each word of a breaker that has had two reports and a heard packet. */
static void breaker_words(void)
{
    uint64_t breaker[FLASKNIB_BREAKER_WORDS + 1];

    CHECK(flasknib_breaker_start(5, 6, 7000, 1, 0, 10, breaker, FLASKNIB_BREAKER_WORDS - 1) == FLASKNIB_REFUSED + FLASKNIB_REFUSAL_MALFORMED);
    CHECK(flasknib_breaker_start(5, 6, 7000, 2, 0, 10, breaker, FLASKNIB_BREAKER_WORDS + 1) == FLASKNIB_REFUSED + FLASKNIB_REFUSAL_MALFORMED);
    CHECK(flasknib_breaker_start_preset(10, breaker, FLASKNIB_BREAKER_WORDS - 1) == FLASKNIB_REFUSED + FLASKNIB_REFUSAL_MALFORMED);
    CHECK(flasknib_breaker_start_preset(10, breaker, FLASKNIB_BREAKER_WORDS + 1) == FLASKNIB_REFUSED + FLASKNIB_REFUSAL_MALFORMED);
    CHECK(flasknib_breaker_start(5, 6, 7000, 1, 0, 10, breaker, FLASKNIB_BREAKER_WORDS) == FLASKNIB_GO);
    CHECK(flasknib_breaker_tick(breaker, FLASKNIB_BREAKER_WORDS - 1, 10) == FLASKNIB_REFUSED + FLASKNIB_REFUSAL_MALFORMED);
    breaker[FLASKNIB_BREAKER_WORDS] = 0;
    CHECK(flasknib_breaker_tick(breaker, FLASKNIB_BREAKER_WORDS + 1, 10) == FLASKNIB_REFUSED + FLASKNIB_REFUSAL_MALFORMED);
    CHECK(flasknib_breaker_report(breaker, FLASKNIB_BREAKER_WORDS, 1000, 77, 0, 1, 1000, 1) == FLASKNIB_GO);
    CHECK(flasknib_breaker_report(breaker, FLASKNIB_BREAKER_WORDS, 1500, 77, 33, 1, 1000, 1) == FLASKNIB_GO);
    CHECK(flasknib_breaker_heard(breaker, FLASKNIB_BREAKER_WORDS, 1600) == FLASKNIB_GO);
    CHECK(breaker[FLASKNIB_BREAKER_K] == 5);
    CHECK(breaker[FLASKNIB_BREAKER_M] == 6);
    CHECK(breaker[FLASKNIB_BREAKER_TIMEOUT] == 7000);
    CHECK(breaker[FLASKNIB_BREAKER_REDUCE] == 1);
    CHECK(breaker[FLASKNIB_BREAKER_FULL] == 0);
    CHECK(breaker[FLASKNIB_BREAKER_STATE] == 0);
    CHECK(breaker[FLASKNIB_BREAKER_LAST] == 1500);
    CHECK(breaker[FLASKNIB_BREAKER_HEARD] == 1600);
    CHECK(breaker[FLASKNIB_BREAKER_REPORTED] == 1);
    CHECK(breaker[FLASKNIB_BREAKER_HIGHEST] == 77);
    CHECK(breaker[FLASKNIB_BREAKER_RUN] == 1);
    CHECK(breaker[FLASKNIB_BREAKER_TRIAL] == 0);
    CHECK(breaker[FLASKNIB_BREAKER_USED] == 1);
    CHECK(breaker[FLASKNIB_BREAKER_NEWEST] == 500);
    CHECK(breaker[FLASKNIB_BREAKER_NEWEST + 1] == 33);
    CHECK(flasknib_breaker_report(breaker, FLASKNIB_BREAKER_WORDS, 1599, 78, 0, 1, 1, 1) == FLASKNIB_REFUSED + FLASKNIB_REFUSAL_TIME);
}

/* Two reports behind a start with k = 1, m = 1 and a timeout of 1,000 ms; the second, with all but one packet in 256 lost, at `time` with
 * `highest`. */
static uint16_t second_report(uint8_t reduce, uint64_t time, uint32_t highest, uint64_t *breaker)
{
    CHECK(flasknib_breaker_start(1, 1, 1000, reduce, 0, 0, breaker, FLASKNIB_BREAKER_WORDS) == FLASKNIB_GO);
    CHECK(flasknib_breaker_report(breaker, FLASKNIB_BREAKER_WORDS, 10, 1, 255, 60000, 1, 125000000) == FLASKNIB_GO);
    return flasknib_breaker_report(breaker, FLASKNIB_BREAKER_WORDS, time, highest, 255, 60000, 1, 125000000);
}

static void stops(void)
{
    uint64_t breaker[FLASKNIB_BREAKER_WORDS];

    CHECK(second_report(0, 1010, 2, breaker) == FLASKNIB_STOP + FLASKNIB_REASON_TIMEOUT);
    CHECK(breaker[FLASKNIB_BREAKER_STATE] == FLASKNIB_REASON_TIMEOUT);
    CHECK(second_report(0, 20, 1, breaker) == FLASKNIB_STOP + FLASKNIB_REASON_MEDIA);
    CHECK(breaker[FLASKNIB_BREAKER_STATE] == FLASKNIB_REASON_MEDIA);
    CHECK(second_report(0, 20, 2, breaker) == FLASKNIB_STOP + FLASKNIB_REASON_CONGESTION);
    CHECK(breaker[FLASKNIB_BREAKER_STATE] == FLASKNIB_REASON_CONGESTION);
    CHECK(second_report(1, 20, 2, breaker) == FLASKNIB_REDUCE);
    CHECK(breaker[FLASKNIB_BREAKER_TRIAL] == 1);
}

static int64_t label_of(uint8_t form, size_t length, uint8_t *block, size_t room)
{
    uint8_t label[FLASKNIB_LABEL_MOST_BYTES + 1];

    memset(label, 'x', sizeof label);
    return flasknib_write_label(form, label, length, SSRC, block, room);
}

static int64_t arrivals_of(uint8_t form, size_t count, uint8_t *block, size_t room)
{
    static const uint64_t times[FLASKNIB_ARRIVALS_ONE_MOST + 1] = {0};
    static const uint8_t marks[FLASKNIB_ARRIVALS_ONE_MOST + 1] = {0};
    uint16_t numbers[FLASKNIB_ARRIVALS_ONE_MOST + 1];

    for (uint16_t i = 0; i < FLASKNIB_ARRIVALS_ONE_MOST + 1; i++)
        numbers[i] = i;
    return flasknib_write_arrivals(form, times, count, numbers, count, marks, count, SSRC, block, room);
}

/* The limits of a form, the kinds of its blocks and the words that they are read to; the records of a full block counted from its body. */
static void form_limits(uint8_t form, uint64_t label, uint64_t arrivals, size_t most, size_t width)
{
    uint8_t block[FLASKNIB_BLOCK_BYTES];
    uint64_t found[FLASKNIB_BLOCK_WORDS], source[FLASKNIB_SOURCE_WORDS] = {0};

    CHECK(label_of(form, FLASKNIB_LABEL_MOST_BYTES + 1, block, sizeof block) == -FLASKNIB_REFUSAL_LIMITS);
    CHECK(label_of(form, FLASKNIB_LABEL_MOST_BYTES, block, sizeof block) == FLASKNIB_BLOCK_BYTES);
    CHECK(flasknib_read_block(block, sizeof block, found, FLASKNIB_BLOCK_WORDS) == 0);
    CHECK(found[FLASKNIB_BLOCK_KIND] == label);
    CHECK(found[FLASKNIB_BLOCK_HELD] == FLASKNIB_LABEL_MOST_BYTES);
    CHECK(found[FLASKNIB_BLOCK_SSRC] == SSRC);
    CHECK(block[FLASKNIB_BLOCK_BODY_AT - 1] != 'x' && block[FLASKNIB_BLOCK_BODY_AT] == 'x');

    CHECK(arrivals_of(form, most + 1, block, sizeof block) == -FLASKNIB_REFUSAL_LIMITS);
    CHECK(arrivals_of(form, most, block, sizeof block) == FLASKNIB_BLOCK_BYTES);
    CHECK(flasknib_read_block(block, sizeof block, found, FLASKNIB_BLOCK_WORDS - 1) == FLASKNIB_REFUSAL_ROOM);
    CHECK(flasknib_read_block(block, sizeof block, found, FLASKNIB_BLOCK_WORDS) == 0);
    CHECK(found[FLASKNIB_BLOCK_KIND] == arrivals);
    CHECK(found[FLASKNIB_BLOCK_HELD] == most);
    CHECK(flasknib_count_block(source, FLASKNIB_SOURCE_WORDS, block + FLASKNIB_BLOCK_BODY_AT, most * width, width) == 0);
    CHECK(source[FLASKNIB_SOURCE_HIGHEST] == most - 1);
    CHECK(source[FLASKNIB_SOURCE_NOT_ECT] == most);
}

static void blocks(void)
{
    uint8_t block[FLASKNIB_BLOCK_BYTES];
    uint64_t found[FLASKNIB_BLOCK_WORDS];

    form_limits(FLASKNIB_FORM_ONE, FLASKNIB_KIND_LABEL_ONE, FLASKNIB_KIND_ARRIVALS_ONE, FLASKNIB_ARRIVALS_ONE_MOST, FLASKNIB_RECORD_ONE_BYTES);
    form_limits(FLASKNIB_FORM_TWO, FLASKNIB_KIND_LABEL_TWO, FLASKNIB_KIND_ARRIVALS_TWO, FLASKNIB_ARRIVALS_TWO_MOST, FLASKNIB_RECORD_TWO_BYTES);
    CHECK(label_of(FLASKNIB_FORM_ONE, 3, block, sizeof block) == FLASKNIB_BLOCK_BYTES);
    CHECK(flasknib_read_block(block, sizeof block - 1, found, FLASKNIB_BLOCK_WORDS) == FLASKNIB_REFUSAL_INCOMPLETE);
    CHECK(label_of(FLASKNIB_FORM_ONE - 1, 3, block, sizeof block) == -FLASKNIB_REFUSAL_LIMITS);
    CHECK(label_of(FLASKNIB_FORM_TWO + 1, 3, block, sizeof block) == -FLASKNIB_REFUSAL_LIMITS);
    CHECK(flasknib_write_label(FLASKNIB_FORM_ONE, (const uint8_t *)"a\nb", 3, SSRC, block, sizeof block) == -FLASKNIB_REFUSAL_RETIRED);
    block[9] = 'y';
    CHECK(flasknib_read_block(block, sizeof block, found, FLASKNIB_BLOCK_WORDS) == FLASKNIB_REFUSAL_CHECKSUM);
    block[9] = 'x';
    block[1] = 9; /* a kind that no form has, and the checksum with it */
    block[511] = (uint8_t)(block[511] - 8);
    CHECK(flasknib_read_block(block, sizeof block, found, FLASKNIB_BLOCK_WORDS) == FLASKNIB_REFUSAL_CONTENTS);
}

/* Whether a writer asked with room 0 answers this size. */
static int asks(int64_t answer, size_t size)
{
    return flasknib_writer_refusal(answer) == FLASKNIB_REFUSAL_ROOM && flasknib_writer_size(answer) == size;
}

/* A writer's answer and a breaker's, taken apart at their limits; the names of version 0.1. */
static void answers(void)
{
    const int64_t room = -(256 * 65 + FLASKNIB_REFUSAL_ROOM), block = 256 * 3 + 2;
    int calls = 0;

    CHECK(flasknib_writer_refusal(0) == 0 && flasknib_writer_size(0) == 0);
    CHECK(flasknib_writer_refusal(INT64_MAX) == 0 && flasknib_writer_size(INT64_MAX) == 0);
    CHECK(flasknib_writer_refusal(-9) == 9 && flasknib_writer_size(-9) == 0);
    CHECK(flasknib_writer_refusal(room) == FLASKNIB_REFUSAL_ROOM && flasknib_writer_size(room) == 65);
    CHECK(flasknib_writer_size(INT64_MIN) == (size_t)1 << 55);
    CHECK(flasknib_block_jumps(block) == 2 && flasknib_block_restarts(block) == 3);
    CHECK(flasknib_block_jumps(-10) == 0 && flasknib_block_restarts(-10) == 0);
    CHECK(FLASKNIB_WRITE_REFUSAL(room - calls++) == FLASKNIB_REFUSAL_ROOM && FLASKNIB_WRITE_SIZE(room) == 65);
    CHECK(FLASKNIB_BLOCK_JUMPS(block + calls++) == 3 && FLASKNIB_BLOCK_RESTARTS(block) == 3);
    CHECK(calls == 2);
    for (int reason = FLASKNIB_REASON_TIMEOUT; reason <= FLASKNIB_REASON_CONGESTION; reason++) {
        uint16_t answer = (uint16_t)(FLASKNIB_STOP + reason);
        CHECK(flasknib_is_stop(answer) && flasknib_stop_reason(answer) == reason && flasknib_breaker_refusal(answer) == 0);
    }
    CHECK(!flasknib_is_stop(FLASKNIB_GO) && flasknib_stop_reason(FLASKNIB_GO) == 0 && flasknib_breaker_refusal(FLASKNIB_GO) == 0);
    CHECK(!flasknib_is_stop(FLASKNIB_REDUCE) && flasknib_breaker_refusal(FLASKNIB_REDUCE) == 0);
    CHECK(!flasknib_is_stop(FLASKNIB_REFUSED + 1) && flasknib_stop_reason(FLASKNIB_REFUSED + 1) == 0);
    CHECK(flasknib_breaker_refusal(FLASKNIB_REFUSED + FLASKNIB_REFUSAL_TIME) == FLASKNIB_REFUSAL_TIME);
}

/* Each function over a struct does what the plain one does, with all its numbers different. */
static void named_settings(void)
{
    const struct flasknib_settings settings = {5, 6, 7000, 1, 0}, other = {7, 8, 9000, 0, 1};
    uint64_t plain[FLASKNIB_BREAKER_WORDS], named[FLASKNIB_BREAKER_WORDS];

    CHECK(flasknib_breaker_start(5, 6, 7000, 1, 0, 10, plain, FLASKNIB_BREAKER_WORDS) == FLASKNIB_GO);
    CHECK(flasknib_breaker_start_with(settings, 10, named, FLASKNIB_BREAKER_WORDS) == FLASKNIB_GO);
    CHECK(memcmp(plain, named, sizeof plain) == 0);
    CHECK(flasknib_breaker_start(7, 8, 9000, 0, 1, 10, plain, FLASKNIB_BREAKER_WORDS) == FLASKNIB_GO);
    CHECK(flasknib_breaker_start_with(other, 10, named, FLASKNIB_BREAKER_WORDS) == FLASKNIB_GO);
    CHECK(memcmp(plain, named, sizeof plain) == 0);
    CHECK(flasknib_breaker_start_preset(10, plain, FLASKNIB_BREAKER_WORDS) == FLASKNIB_GO);
    CHECK(flasknib_breaker_start_with(flasknib_preset(), 10, named, FLASKNIB_BREAKER_WORDS) == FLASKNIB_GO);
    CHECK(memcmp(plain, named, sizeof plain) == 0);
    CHECK(flasknib_breaker_start_with(settings, 10, named, FLASKNIB_BREAKER_WORDS - 1) == FLASKNIB_REFUSED + FLASKNIB_REFUSAL_MALFORMED);
}

enum { AT_LIMIT = 244948 }; /* bytes per second at which a quarter of the packets lost is just allowed, with 1,000 bytes each and 100 ms */

/* A report with a quarter lost, by its fraction or its counts, after two such reports with k = 2, made by the plain call, over structs or by a packet's call. */
static uint16_t quarter_lost(int how, uint64_t rate, uint64_t *breaker)
{
    const struct flasknib_sending sending = {100, 1000, rate};
    uint16_t answer = flasknib_breaker_start(2, 3, 15000, 0, 0, 0, breaker, FLASKNIB_BREAKER_WORDS);

    for (uint32_t i = 1; i <= 3 && answer == FLASKNIB_GO; i++) {
        const struct flasknib_report report = {5000 * (uint64_t)i, 1000 * i, 64};
        const struct flasknib_report_ecn report_ecn = {5000 * (uint64_t)i, 1000 * i, 10, 15, 100};
        const uint64_t by_fraction[FLASKNIB_CALL_WORDS] = {FLASKNIB_WHICH_REPORT, 1000 * i, 64, 0, 0, 0};
        const uint64_t by_counts[FLASKNIB_CALL_WORDS] = {FLASKNIB_WHICH_REPORT_ECN, 1000 * i, 0, 10, 15, 100};
        if (how == 0)
            answer = flasknib_breaker_report(breaker, FLASKNIB_BREAKER_WORDS, report.time, 1000 * i, 64, 100, 1000, rate);
        else if (how == 1)
            answer = flasknib_breaker_report_with(breaker, FLASKNIB_BREAKER_WORDS, report, sending);
        else if (how == 2)
            answer = flasknib_breaker_report_ecn_with(breaker, FLASKNIB_BREAKER_WORDS, report_ecn, sending);
        else
            answer = flasknib_breaker_take(breaker, FLASKNIB_BREAKER_WORDS, how == 3 ? by_fraction : by_counts, report.time, sending);
    }
    return answer;
}

static void named_reports(void)
{
    static const uint64_t heard[FLASKNIB_CALL_WORDS] = {FLASKNIB_WHICH_HEARD};
    uint64_t plain[FLASKNIB_BREAKER_WORDS], named[FLASKNIB_BREAKER_WORDS];

    for (int how = 0; how <= 4; how++) {
        CHECK(quarter_lost(0, AT_LIMIT, plain) == FLASKNIB_GO);
        CHECK(quarter_lost(how, AT_LIMIT, named) == FLASKNIB_GO && memcmp(plain, named, sizeof plain) == 0);
        CHECK(quarter_lost(how, AT_LIMIT + 1, named) == FLASKNIB_STOP + FLASKNIB_REASON_CONGESTION);
    }
    CHECK(quarter_lost(0, AT_LIMIT, named) == FLASKNIB_GO);
    const struct flasknib_sending none = {0, 0, 0};
    CHECK(flasknib_breaker_take(named, FLASKNIB_BREAKER_WORDS, heard, 16000, none) == FLASKNIB_GO);
    CHECK(flasknib_breaker_heard(plain, FLASKNIB_BREAKER_WORDS, 16000) == FLASKNIB_GO && memcmp(plain, named, sizeof plain) == 0);
}

static void named_bytes(void)
{
    static const uint64_t times[] = {1, 2};
    static const uint16_t numbers[] = {3, 4};
    static const uint8_t marks[] = {FLASKNIB_MARK_CE, FLASKNIB_MARK_ECT0}, label[] = {'w', 'a', 'r', 'd'};
    const struct flasknib_ecn_report later = {8, 8, 8}, earlier = {5, 6, 7};
    const struct flasknib_arrivals arrivals = {FLASKNIB_FORM_TWO, SSRC, 2, times, numbers, marks};
    uint8_t plain[FLASKNIB_ROW_MOST_BYTES], named[FLASKNIB_ROW_MOST_BYTES];
    uint64_t source[FLASKNIB_SOURCE_WORDS], counts[FLASKNIB_ECN_WORDS];
    const struct flasknib_row row = {label, sizeof label, SSRC, source, 2, 1};
    int64_t length;

    CHECK(flasknib_ecn_between_with(later, earlier, counts, FLASKNIB_ECN_WORDS) == 0);
    CHECK(counts[FLASKNIB_ECN_LOST] == 1 && counts[FLASKNIB_ECN_MARKED] == 2 && counts[FLASKNIB_ECN_EXPECTED] == 3);
    CHECK(flasknib_ecn_between_with(earlier, later, counts, FLASKNIB_ECN_WORDS) == FLASKNIB_REFUSAL_LIMITS);
    CHECK(flasknib_write_arrivals(FLASKNIB_FORM_TWO, times, 2, numbers, 2, marks, 2, SSRC, plain, sizeof plain) == FLASKNIB_BLOCK_BYTES);
    CHECK(flasknib_write_arrivals_with(arrivals, named, sizeof named) == FLASKNIB_BLOCK_BYTES);
    CHECK(memcmp(plain, named, FLASKNIB_BLOCK_BYTES) == 0);
    counted(source);
    length = flasknib_write_row(label, sizeof label, SSRC, source, FLASKNIB_SOURCE_WORDS, 2, 1, plain, sizeof plain);
    CHECK(length > 0 && flasknib_write_row_with(row, named, sizeof named) == length && memcmp(plain, named, (size_t)length) == 0);
}

/* Each refusal has a text, and no other number has one. */
static void texts(void)
{
    uint8_t out[FLASKNIB_REFUSAL_TEXT_MOST_BYTES];

    CHECK(flasknib_version() == FLASKNIB_VERSION);
    for (int number = FLASKNIB_REFUSAL_INCOMPLETE; number <= FLASKNIB_REFUSAL_RETIRED; number++) {
        int64_t length = flasknib_refusal_text((uint8_t)number, out, sizeof out);
        CHECK(length > 0);
        CHECK(asks(flasknib_refusal_text((uint8_t)number, out, 0), (size_t)length));
    }
    CHECK(flasknib_refusal_text(0, out, sizeof out) == -FLASKNIB_REFUSAL_LIMITS);
    CHECK(flasknib_refusal_text(FLASKNIB_REFUSAL_RETIRED + 1, out, sizeof out) == -FLASKNIB_REFUSAL_LIMITS);
}

static void sizes(void)
{
    uint8_t out[1], zeroth[FLASKNIB_BLOCK_BYTES], label[FLASKNIB_LABEL_MOST_BYTES];
    uint64_t source[FLASKNIB_SOURCE_WORDS] = {0};
    int64_t row;

    CHECK(asks(flasknib_write_feedback(source, FLASKNIB_SOURCE_WORDS, SENDER, SSRC, out, 0), FLASKNIB_FEEDBACK_BYTES));
    CHECK(asks(flasknib_write_summary(source, FLASKNIB_SOURCE_WORDS, SSRC, out, 0), FLASKNIB_SUMMARY_BYTES));
    CHECK(asks(flasknib_write_head(out, 0), FLASKNIB_HEAD_BYTES));
    CHECK(asks(label_of(FLASKNIB_FORM_ONE, 0, out, 0), FLASKNIB_BLOCK_BYTES));
    CHECK(label_of(FLASKNIB_FORM_ONE, 0, zeroth, sizeof zeroth) == FLASKNIB_BLOCK_BYTES);
    CHECK(asks(flasknib_space_label(zeroth, sizeof zeroth, out, 0), FLASKNIB_BLOCK_BYTES));
    CHECK(asks(arrivals_of(FLASKNIB_FORM_TWO, 1, out, 0), FLASKNIB_BLOCK_BYTES));
    CHECK(asks(flasknib_write_refused(255, UINT64_MAX, out, 0), FLASKNIB_REFUSED_MOST_BYTES));
    memset(label, '"', sizeof label);
    row = flasknib_write_row(label, sizeof label, SSRC, source, FLASKNIB_SOURCE_WORDS, 0, 0, out, 0);
    CHECK(flasknib_writer_refusal(row) == FLASKNIB_REFUSAL_ROOM);
    CHECK(flasknib_writer_size(row) > 2 * FLASKNIB_LABEL_MOST_BYTES && flasknib_writer_size(row) <= FLASKNIB_ROW_MOST_BYTES);
}

static void tables(void)
{
    static uint64_t table[(FLASKNIB_SOURCES_MOST_PLACES + 1) * FLASKNIB_PLACE_WORDS];
    const uint64_t *second = table + FLASKNIB_PLACE_WORDS;
    uint64_t found[FLASKNIB_PLACE_WORDS];
    uint8_t bytes[1];
    size_t words = FLASKNIB_SOURCES_MOST_PLACES * FLASKNIB_PLACE_WORDS;

    CHECK(flasknib_sources_arrive(table, words - 1, SSRC, 1, 0) == FLASKNIB_REFUSAL_RULES);
    CHECK(flasknib_sources_arrive(table, words + FLASKNIB_PLACE_WORDS, SSRC, 1, 0) == FLASKNIB_REFUSAL_RULES);
    for (uint32_t i = 0; i < FLASKNIB_SOURCES_MOST_PLACES; i++)
        CHECK(flasknib_sources_arrive(table, words, SSRC + i, 1, FLASKNIB_MARK_CE) == 0);
    CHECK(flasknib_sources_arrive(table, words, SSRC + FLASKNIB_SOURCES_MOST_PLACES, 1, 0) == FLASKNIB_REFUSAL_PLACES);
    CHECK(second[FLASKNIB_PLACE_SSRC] == SSRC + 1);
    CHECK(second[FLASKNIB_PLACE_SOURCE + FLASKNIB_SOURCE_CE] == 1);
    CHECK(flasknib_sources_held(table, words) == FLASKNIB_SOURCES_MOST_PLACES);
    CHECK(flasknib_sources_place(table, words, 1, found, FLASKNIB_PLACE_WORDS - 1) == FLASKNIB_REFUSAL_ROOM);
    CHECK(flasknib_sources_place(table, words, 1, found, FLASKNIB_PLACE_WORDS) == 0);
    CHECK(memcmp(found, second, sizeof found) == 0);
    CHECK(asks(flasknib_sources_write_compound(table, words, SSRC, bytes, 0), FLASKNIB_SOURCES_COMPOUND_MOST_BYTES));
}

static void lost_words(void)
{
    uint64_t source[FLASKNIB_SOURCE_WORDS], found[FLASKNIB_LOST_WORDS];

    counted(source);
    CHECK(flasknib_lost(source, FLASKNIB_SOURCE_WORDS, found, FLASKNIB_LOST_WORDS - 1) == FLASKNIB_REFUSAL_ROOM);
    CHECK(flasknib_lost(source, FLASKNIB_SOURCE_WORDS, found, FLASKNIB_LOST_WORDS) == 0);
    CHECK(found[0] == 1);
}

/* A block of four records at one time: a first arrival, a jump, the restart behind it, marked with CE, and a jump. */
static void restarting(uint8_t form, uint32_t ssrc, uint64_t time, uint8_t *block)
{
    static const uint16_t numbers[] = {10, 30000, 30001, 50000};
    static const uint8_t marks[] = {FLASKNIB_MARK_NOT_ECT, FLASKNIB_MARK_NOT_ECT, FLASKNIB_MARK_CE, FLASKNIB_MARK_NOT_ECT};
    const uint64_t times[] = {time, time, time, time};

    CHECK(flasknib_write_arrivals(form, times, 4, numbers, 4, marks, 4, ssrc, block, FLASKNIB_BLOCK_BYTES) == FLASKNIB_BLOCK_BYTES);
}

static void record_words(void)
{
    uint8_t block[FLASKNIB_BLOCK_BYTES];
    uint64_t found[FLASKNIB_RECORD_WORDS];

    restarting(FLASKNIB_FORM_TWO, SSRC, FLASKNIB_BREAKER_MOST_TIME, block);
    CHECK(flasknib_record_at(block, sizeof block, 2, found, FLASKNIB_RECORD_WORDS - 1) == FLASKNIB_REFUSAL_ROOM);
    CHECK(flasknib_record_at(block, sizeof block, 2, found, FLASKNIB_RECORD_WORDS) == 0);
    CHECK(found[FLASKNIB_RECORD_TIME] == FLASKNIB_BREAKER_MOST_TIME);
    CHECK(found[FLASKNIB_RECORD_WIRE] == 30001);
    CHECK(found[FLASKNIB_RECORD_MARK] == FLASKNIB_MARK_CE);
}

/* A run of ecntable. */
static void run_words(void)
{
    uint8_t zeroth[FLASKNIB_BLOCK_BYTES], block[FLASKNIB_BLOCK_BYTES], row[FLASKNIB_ROW_MOST_BYTES];
    uint64_t run[FLASKNIB_RUN_WORDS + 1];

    CHECK(label_of(FLASKNIB_FORM_TWO, 3, zeroth, sizeof zeroth) == FLASKNIB_BLOCK_BYTES);
    CHECK(flasknib_run_start(zeroth, sizeof zeroth, run, FLASKNIB_RUN_WORDS - 1) == FLASKNIB_REFUSAL_MALFORMED);
    CHECK(flasknib_run_start(zeroth, 0, run, FLASKNIB_RUN_WORDS + 1) == FLASKNIB_REFUSAL_MALFORMED);
    CHECK(flasknib_run_start(zeroth, sizeof zeroth, run, FLASKNIB_RUN_WORDS) == 0);
    restarting(FLASKNIB_FORM_TWO, SSRC, 0, block);
    CHECK(flasknib_run_block(run, FLASKNIB_RUN_WORDS, zeroth, sizeof zeroth, block, sizeof block, row, sizeof row) > 0);
    CHECK(run[FLASKNIB_RUN_FORM] == FLASKNIB_FORM_TWO);
    CHECK(run[FLASKNIB_RUN_LABEL_LENGTH] == 3);
    CHECK(run[FLASKNIB_RUN_SSRC] == SSRC);
    CHECK(run[FLASKNIB_RUN_SOURCE + FLASKNIB_SOURCE_BASE] == 30001);
    CHECK(run[FLASKNIB_RUN_SOURCE + FLASKNIB_SOURCE_REMEMBERED] == 50001 + 1);
    CHECK(run[FLASKNIB_RUN_JUMPED] == 2);
    CHECK(run[FLASKNIB_RUN_RESTARTS] == 1);
}

/* A trace that arrives bit by bit: a label, a sound block and one of another SSRC, cut in a record; what a feed and then a close keep. */
static void upload_words(void)
{
    uint8_t trace[3 * FLASKNIB_BLOCK_BYTES], kept[FLASKNIB_UPLOAD_KEPT_BYTES] = {0}, rows[FLASKNIB_ROW_MOST_BYTES];
    uint64_t upload[FLASKNIB_UPLOAD_WORDS] = {0};
    size_t words = FLASKNIB_UPLOAD_WORDS, cut = FLASKNIB_BLOCK_BYTES + 11;

    CHECK(label_of(FLASKNIB_FORM_TWO, 3, trace, FLASKNIB_BLOCK_BYTES) == FLASKNIB_BLOCK_BYTES);
    restarting(FLASKNIB_FORM_TWO, SSRC, 0, trace + FLASKNIB_BLOCK_BYTES);
    restarting(FLASKNIB_FORM_TWO, SSRC + 1, 0, trace + 2 * FLASKNIB_BLOCK_BYTES);
    CHECK(flasknib_feed(upload, words - 1, kept, sizeof kept, trace, cut, rows, 0) == -FLASKNIB_REFUSAL_MALFORMED);
    CHECK(flasknib_feed(upload, words, kept, sizeof kept - 1, trace, cut, rows, 0) == -FLASKNIB_REFUSAL_MALFORMED);
    CHECK(flasknib_feed(upload, words, kept, sizeof kept, trace, cut, rows, 0) == 0);
    CHECK(upload[FLASKNIB_UPLOAD_BLOCKS] == 1);
    CHECK(upload[FLASKNIB_UPLOAD_KEPT] == 11);
    CHECK(upload[FLASKNIB_UPLOAD_REFUSAL] == 0);
    int64_t asked = flasknib_feed(upload, words, kept, sizeof kept, trace + cut, sizeof trace - cut, rows, 0);
    CHECK(flasknib_writer_refusal(asked) == FLASKNIB_REFUSAL_ROOM);
    int64_t answer = flasknib_feed(upload, words, kept, sizeof kept, trace + cut, sizeof trace - cut, rows, sizeof rows);
    CHECK(flasknib_writer_refusal(answer) == FLASKNIB_REFUSAL_CONTENTS);
    CHECK(flasknib_writer_size(answer) == flasknib_writer_size(asked) && flasknib_writer_size(answer) > 0);
    CHECK(upload[FLASKNIB_UPLOAD_FORM] == FLASKNIB_FORM_TWO);
    CHECK(upload[FLASKNIB_UPLOAD_LABEL_LENGTH] == 3);
    CHECK(upload[FLASKNIB_UPLOAD_SSRC] == SSRC);
    CHECK(upload[FLASKNIB_UPLOAD_SOURCE + FLASKNIB_SOURCE_BASE] == 30001);
    CHECK(upload[FLASKNIB_UPLOAD_JUMPED] == 2);
    CHECK(upload[FLASKNIB_UPLOAD_RESTARTS] == 1);
    CHECK(upload[FLASKNIB_UPLOAD_BLOCKS] == 2);
    CHECK(upload[FLASKNIB_UPLOAD_KEPT] == 0);
    CHECK(upload[FLASKNIB_UPLOAD_REFUSAL] == FLASKNIB_REFUSAL_CONTENTS);
    CHECK(flasknib_feed_close(upload, words, kept, sizeof kept) == FLASKNIB_REFUSAL_CONTENTS);
    CHECK(flasknib_feed_close(upload, words, kept, sizeof kept - 1) == FLASKNIB_REFUSAL_MALFORMED);
}

/* The converter of forms: its words, the part that it is lent, and the one call that answers refusal 17. */
static void forms_words(void)
{
    uint8_t block[FLASKNIB_BLOCK_BYTES], part[FLASKNIB_FORMS_PART_BYTES], out[FLASKNIB_BLOCK_BYTES];
    uint64_t forms[FLASKNIB_FORMS_WORDS];
    size_t words = FLASKNIB_FORMS_WORDS;

    CHECK(label_of(FLASKNIB_FORM_TWO, 3, block, sizeof block) == FLASKNIB_BLOCK_BYTES);
    CHECK(flasknib_forms_start(block, sizeof block, forms, words - 1, out, sizeof out) == -FLASKNIB_REFUSAL_MALFORMED);
    CHECK(flasknib_forms_start(block, sizeof block, forms, words, out, sizeof out) == FLASKNIB_BLOCK_BYTES);
    restarting(FLASKNIB_FORM_TWO, SSRC, UINT32_MAX, block);
    CHECK(flasknib_forms_block(forms, words, part, sizeof part - 1, block, sizeof block, out, sizeof out) == -FLASKNIB_REFUSAL_MALFORMED);
    CHECK(flasknib_forms_block(forms, words, part, sizeof part, block, sizeof block, out, sizeof out) == 0);
    CHECK(forms[FLASKNIB_FORMS_FORM] == FLASKNIB_FORM_TWO);
    CHECK(forms[FLASKNIB_FORMS_SSRC] == SSRC);
    CHECK(forms[FLASKNIB_FORMS_HELD] == 4);
    restarting(FLASKNIB_FORM_TWO, SSRC, UINT32_MAX + UINT64_C(1), block);
    CHECK(flasknib_forms_block(forms, words, part, sizeof part, block, sizeof block, out, sizeof out) == -FLASKNIB_REFUSAL_FORM_TWO);
    CHECK(flasknib_forms_close(forms, words, part, sizeof part, out, sizeof out) == FLASKNIB_BLOCK_BYTES);
}

/* A run of ecnstreams with as many sources as it takes, and one more. */
static void streams_words(void)
{
    uint8_t block[FLASKNIB_BLOCK_BYTES];
    uint64_t run[FLASKNIB_STREAMS_WORDS], lines[FLASKNIB_STREAMS_MOST_LINES * FLASKNIB_LINE_WORDS];
    const uint64_t *second = lines + FLASKNIB_LINE_WORDS;
    size_t words = FLASKNIB_STREAMS_WORDS, line_words = FLASKNIB_STREAMS_MOST_LINES * FLASKNIB_LINE_WORDS;

    CHECK(label_of(FLASKNIB_FORM_TWO, 3, block, sizeof block) == FLASKNIB_BLOCK_BYTES);
    CHECK(flasknib_streams_start(block, sizeof block, run, words - 1) == FLASKNIB_REFUSAL_MALFORMED);
    CHECK(flasknib_streams_start(block, sizeof block, run, words) == 0);
    restarting(FLASKNIB_FORM_TWO, SSRC, 0, block);
    CHECK(flasknib_streams_block(run, words, lines, line_words - 1, block, sizeof block) == FLASKNIB_REFUSAL_MALFORMED);
    for (uint32_t i = 0; i < FLASKNIB_STREAMS_MOST_LINES; i++) {
        restarting(FLASKNIB_FORM_TWO, SSRC + i, 0, block);
        CHECK(flasknib_streams_block(run, words, lines, line_words, block, sizeof block) == 0);
    }
    CHECK(run[FLASKNIB_STREAMS_FORM] == FLASKNIB_FORM_TWO);
    CHECK(run[FLASKNIB_STREAMS_LABEL_LENGTH] == 3);
    CHECK(run[FLASKNIB_STREAMS_HELD] == FLASKNIB_STREAMS_MOST_LINES);
    CHECK(second[FLASKNIB_LINE_SSRC] == SSRC + 1);
    CHECK(second[FLASKNIB_LINE_SOURCE + FLASKNIB_SOURCE_BASE] == 30001);
    CHECK(second[FLASKNIB_LINE_SOURCE + FLASKNIB_SOURCE_REMEMBERED] == 50001 + 1);
    CHECK(second[FLASKNIB_LINE_JUMPED] == 2);
    CHECK(second[FLASKNIB_LINE_RESTARTS] == 1);
    restarting(FLASKNIB_FORM_TWO, SSRC + FLASKNIB_STREAMS_MOST_LINES, 0, block);
    CHECK(flasknib_streams_block(run, words, lines, line_words, block, sizeof block) == FLASKNIB_REFUSAL_PLACES);
    lines[FLASKNIB_LINE_WORDS + FLASKNIB_LINE_SSRC] = SSRC;
    CHECK(flasknib_streams_block(run, words, lines, line_words, block, sizeof block) == FLASKNIB_REFUSAL_RULES);
}

static uint8_t read_line(const char *line, uint64_t *found, size_t words)
{
    return flasknib_read_attribute((const uint8_t *)line, strlen(line), found, words);
}

/* Lines with each method, mode and ect; one of as many methods as a line may have, one more, and one that is malformed. */
static void attribute_words(void)
{
    const size_t words = FLASKNIB_ATTRIBUTE_WORDS;
    uint64_t found[FLASKNIB_ATTRIBUTE_WORDS + 1] = {0};

    CHECK(read_line("a=ecn-capable-rtp: rtp,ice,leap", found, words - 1) == FLASKNIB_REFUSAL_ROOM);
    CHECK(read_line("a=ecn-capable-rtp: rtp,ice,leap", found, words) == 0);
    CHECK(found[FLASKNIB_ATTRIBUTE_USED] == 3);
    CHECK(found[FLASKNIB_ATTRIBUTE_METHODS] == FLASKNIB_METHOD_RTP);
    CHECK(found[FLASKNIB_ATTRIBUTE_METHODS + 1] == FLASKNIB_METHOD_ICE);
    CHECK(found[FLASKNIB_ATTRIBUTE_METHODS + 2] == FLASKNIB_METHOD_LEAP);
    CHECK(found[FLASKNIB_ATTRIBUTE_METHODS + FLASKNIB_ATTRIBUTE_MOST_METHODS - 1] == 0);
    CHECK(found[FLASKNIB_ATTRIBUTE_MODE] == FLASKNIB_MODE_ABSENT);
    CHECK(found[FLASKNIB_ATTRIBUTE_ECT] == FLASKNIB_ECT_ABSENT);
    CHECK(read_line("a=ecn-capable-rtp: rtp mode=setonly; ect=1", found, words) == 0);
    CHECK(found[FLASKNIB_ATTRIBUTE_MODE] == FLASKNIB_MODE_SETONLY);
    CHECK(found[FLASKNIB_ATTRIBUTE_ECT] == FLASKNIB_ECT_ONE);
    CHECK(read_line("a=ecn-capable-rtp: rtp mode=readonly; ect=0", found, words) == 0);
    CHECK(found[FLASKNIB_ATTRIBUTE_MODE] == FLASKNIB_MODE_READONLY);
    CHECK(found[FLASKNIB_ATTRIBUTE_ECT] == FLASKNIB_ECT_ZERO);
    CHECK(read_line("a=ecn-capable-rtp: rtp mode=setread; ect=random", found, words) == 0);
    CHECK(found[FLASKNIB_ATTRIBUTE_MODE] == FLASKNIB_MODE_SETREAD);
    CHECK(found[FLASKNIB_ATTRIBUTE_ECT] == FLASKNIB_ECT_RANDOM);
    CHECK(read_line("a=ecn-capable-rtp: a,b,c,d,e,f,g,h", found, words) == 0);
    CHECK(read_line("a=ecn-capable-rtp: a,b,c,d,e,f,g,h,i", found, words) == FLASKNIB_REFUSAL_LIMITS);
    CHECK(read_line("a=ecn-capable-rtp: ", found, words) == FLASKNIB_REFUSAL_ATTRIBUTE);
}

/* The longest line, and an answer that is left out, malformed, over its limits, or has no room. */
static void attribute_answers(void)
{
    const size_t words = FLASKNIB_ATTRIBUTE_WORDS;
    uint64_t ours[FLASKNIB_ATTRIBUTE_WORDS + 1] = {0}, offer[FLASKNIB_ATTRIBUTE_WORDS] = {1, FLASKNIB_METHOD_LEAP}, found[FLASKNIB_ATTRIBUTE_WORDS];
    uint8_t out[FLASKNIB_ATTRIBUTE_MOST_BYTES];

    ours[FLASKNIB_ATTRIBUTE_USED] = FLASKNIB_ATTRIBUTE_MOST_METHODS;
    for (size_t i = 0; i < FLASKNIB_ATTRIBUTE_MOST_METHODS; i++)
        ours[FLASKNIB_ATTRIBUTE_METHODS + i] = FLASKNIB_METHOD_LEAP;
    ours[FLASKNIB_ATTRIBUTE_MODE] = FLASKNIB_MODE_READONLY;
    ours[FLASKNIB_ATTRIBUTE_ECT] = FLASKNIB_ECT_RANDOM;
    CHECK(flasknib_write_attribute(ours, words, out, sizeof out) == FLASKNIB_ATTRIBUTE_MOST_BYTES);
    CHECK(flasknib_write_attribute(ours, words - 1, out, sizeof out) == -FLASKNIB_REFUSAL_MALFORMED);
    CHECK(flasknib_write_attribute(ours, words + 1, out, sizeof out) == -FLASKNIB_REFUSAL_MALFORMED);
    CHECK(flasknib_answer(offer, words, ours, words, found, words - 1) == FLASKNIB_REFUSAL_ROOM);
    CHECK(flasknib_answer(offer, words, ours, words, found, words) == 0);
    CHECK(found[FLASKNIB_ATTRIBUTE_USED] == 1);
    CHECK(found[FLASKNIB_ATTRIBUTE_METHODS] == FLASKNIB_METHOD_LEAP);
    CHECK(found[FLASKNIB_ATTRIBUTE_MODE] == FLASKNIB_MODE_READONLY);
    CHECK(found[FLASKNIB_ATTRIBUTE_ECT] == FLASKNIB_ECT_RANDOM);
    offer[FLASKNIB_ATTRIBUTE_MODE] = FLASKNIB_MODE_READONLY;
    CHECK(flasknib_answer(offer, words, ours, words, found, 0) == FLASKNIB_LEFT_OUT);
    ours[FLASKNIB_ATTRIBUTE_USED] = FLASKNIB_ATTRIBUTE_MOST_METHODS + 1;
    CHECK(flasknib_answer(offer, words, ours, words, found, words) == FLASKNIB_REFUSAL_LIMITS);
    CHECK(flasknib_write_attribute(ours, words, out, sizeof out) == -FLASKNIB_REFUSAL_LIMITS);
}

int main(void)
{
    sources();
    jumps();
    full_source();
    compound_words();
    compound_refusals();
    ecn_counts();
    packet_calls();
    attribute_words();
    attribute_answers();
    start_limits();
    report_limits();
    breaker_words();
    stops();
    answers();
    named_settings();
    named_reports();
    named_bytes();
    blocks();
    texts();
    sizes();
    tables();
    lost_words();
    record_words();
    run_words();
    upload_words();
    forms_words();
    streams_words();
    return checked("the header's numbers");
}
