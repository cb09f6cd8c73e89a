/* Two intervals of 5,000 ms with a quarter of the packets lost, packets of 1,000 bytes and a round trip of 100 ms: at 244,948 bytes per
 * second the sender goes on, at 244,949 it stops for congestion (document 01, C9 and C10). A packet that is no report moves the time from which
 * the timeout is measured, and a report earlier than it is refused (document 02, L4). With the full throughput equation the sender goes on at
 * 31,606 bytes per second and stops at 31,607 (L9).
 *
 * Then what a sender does with each RTCP packet that it gets: on a path that marks every packet with CE and drops none, it stops at the fourth
 * compound (L2; RFC 8083, section 5). And what it does with what is refused.
 *
 *   packaging/build capi
 *   cc -Iinclude examples/breaker.c target/staticlib/libcapi.a -o breaker
 */
#include <stdio.h>
#include <string.h>

#include "flasknib.h"

enum { SENDER = 9, MEDIA = 1 }; /* the SSRCs of the receiver and of our own stream */

static void print_answer(const char *call, uint16_t answer)
{
    if (flasknib_breaker_refusal(answer) != 0)
        printf("%s: refused, %d\n", call, flasknib_breaker_refusal(answer));
    else if (flasknib_is_stop(answer))
        printf("%s: stop, reason %d\n", call, flasknib_stop_reason(answer));
    else
        printf("%s: %s\n", call, answer == FLASKNIB_REDUCE ? "reduce" : "go");
}

/* A report at `time` whose highest sequence number is `highest`, from a sender of `rate` bytes per second. */
static uint16_t report(uint64_t *breaker, uint64_t time, uint32_t highest, uint64_t rate)
{
    return flasknib_breaker_report_with(breaker, FLASKNIB_BREAKER_WORDS,
                                        (struct flasknib_report){.time = time, .highest = highest, .fraction = 64},
                                        (struct flasknib_sending){.rtt = 100, .size = 1000, .rate = rate});
}

/* Three reports at `rate` bytes per second with the full throughput equation; the last answer. */
static uint16_t with_full_equation(uint64_t rate)
{
    uint64_t breaker[FLASKNIB_BREAKER_WORDS];
    uint16_t answer = flasknib_breaker_start_with((struct flasknib_settings){.k = 2, .m = 3, .timeout = 15000, .full = 1}, 0, breaker,
                                                  FLASKNIB_BREAKER_WORDS);

    for (unsigned i = 1; i <= 3 && answer == FLASKNIB_GO; i++)
        answer = report(breaker, 5000 * i, 1000 * i, rate);
    return answer;
}

static void worked_examples(void)
{
    uint64_t breaker[FLASKNIB_BREAKER_WORDS], faster[FLASKNIB_BREAKER_WORDS];
    struct flasknib_settings settings = flasknib_preset(); /* 3 reports with no new number, 15,000 ms, no reduction, the simplified equation */

    settings.k = 2; /* intervals */
    print_answer("start at 0", flasknib_breaker_start_with(settings, 0, breaker, FLASKNIB_BREAKER_WORDS));
    print_answer("report at 5000", report(breaker, 5000, 1000, 244948));
    print_answer("report at 10000", report(breaker, 10000, 2000, 244948));

    memcpy(faster, breaker, sizeof breaker);
    print_answer("report at 15000, 244948 bytes/s", report(breaker, 15000, 3000, 244948));
    print_answer("report at 15000, 244949 bytes/s", report(faster, 15000, 3000, 244949));

    print_answer("heard at 29000", flasknib_breaker_heard(breaker, FLASKNIB_BREAKER_WORDS, 29000));
    print_answer("report at 28999", report(breaker, 28999, 4000, 244948));
    print_answer("tick at 43999", flasknib_breaker_tick(breaker, FLASKNIB_BREAKER_WORDS, 43999));
    print_answer("tick at 44000", flasknib_breaker_tick(breaker, FLASKNIB_BREAKER_WORDS, 44000));
    print_answer("tick after the stop", flasknib_breaker_tick(faster, FLASKNIB_BREAKER_WORDS, 30000));

    print_answer("full equation, 31606 bytes/s", with_full_equation(31606));
    print_answer("full equation, 31607 bytes/s", with_full_equation(31607));

    faster[FLASKNIB_BREAKER_STATE] = 4;
    print_answer("tick in state 4", flasknib_breaker_tick(faster, FLASKNIB_BREAKER_WORDS, 30000));
}

/* ---- a sender and the packets that it gets */

struct path {
    uint64_t breaker[FLASKNIB_BREAKER_WORDS]; /* the sender's */
    uint64_t kept[FLASKNIB_KEPT_WORDS];       /* what it keeps of the receiver */
    struct flasknib_sending sending;          /* the round trip as it was measured, its packets' bytes, and the bytes it sends per second */
    uint64_t table[FLASKNIB_PLACE_WORDS];     /* what the receiver counts */
};

static void print_call(const uint64_t *call)
{
    if (call[FLASKNIB_CALL_WHICH] == FLASKNIB_WHICH_REPORT_ECN)
        printf("  a report: lost %d, marked %d, expected %d\n", (int)(int64_t)call[FLASKNIB_CALL_LOST], (int)call[FLASKNIB_CALL_MARKED],
               (int)call[FLASKNIB_CALL_EXPECTED]);
    else if (call[FLASKNIB_CALL_WHICH] == FLASKNIB_WHICH_REPORT)
        printf("  a report: fraction %d\n", (int)call[FLASKNIB_CALL_FRACTION]);
    else
        printf("  heard\n");
}

/* The breaker's call for a packet. A round trip or a rate above the limit is taken as the limit: a slow path must not hide in a refusal. */
static uint16_t called(struct path *path, const uint64_t *call, uint64_t time)
{
    struct flasknib_sending sending = path->sending;

    if (sending.rtt > FLASKNIB_BREAKER_MOST_RTT)
        sending.rtt = FLASKNIB_BREAKER_MOST_RTT;
    if (sending.rate > FLASKNIB_BREAKER_MOST_RATE)
        sending.rate = FLASKNIB_BREAKER_MOST_RATE;
    return flasknib_breaker_take(path->breaker, FLASKNIB_BREAKER_WORDS, call, time, sending);
}

/* What a sender does with an RTCP packet: the breaker's answer, or the refusal of the packet. If the breaker refuses, what was kept is put back,
 * so that the next report counts this one's packets too. */
static uint16_t packet(struct path *path, uint64_t time, const uint8_t *bytes, size_t length)
{
    uint64_t found[FLASKNIB_COMPOUND_WORDS], call[FLASKNIB_CALL_WORDS], before[FLASKNIB_KEPT_WORDS];
    uint8_t refusal = flasknib_read_compound(bytes, length, MEDIA, FLASKNIB_PROFILE_REDUCED_SIZE, found, FLASKNIB_COMPOUND_WORDS);
    uint32_t receiver;
    uint16_t answer;

    if (refusal != 0)
        return FLASKNIB_REFUSED + refusal;
    receiver = flasknib_compound_receiver(found);
    if (receiver != 0 && receiver != SENDER)
        return FLASKNIB_GO; /* another receiver has a breaker and kept words of its own */
    memcpy(before, path->kept, sizeof before);
    refusal = flasknib_breaker_call(found, FLASKNIB_COMPOUND_WORDS, path->kept, FLASKNIB_KEPT_WORDS, call, FLASKNIB_CALL_WORDS);
    if (refusal != 0)
        return FLASKNIB_REFUSED + refusal;
    print_call(call);
    answer = called(path, call, time);
    if (flasknib_breaker_refusal(answer) != 0)
        memcpy(path->kept, before, sizeof before);
    return answer;
}

/* 125 packets more with CE, and the receiver's compound about them, an RR without blocks and the feedback: its length. */
static size_t marked_second(struct path *path, uint16_t *next, uint8_t *bytes, size_t room)
{
    int64_t length;

    for (int i = 0; i < 125; i++) {
        uint8_t refusal = flasknib_sources_arrive(path->table, FLASKNIB_PLACE_WORDS, MEDIA, (*next)++, FLASKNIB_MARK_CE);
        if (refusal != 0)
            printf("an arrival: refused, %d\n", refusal);
    }
    length = flasknib_sources_write_compound(path->table, FLASKNIB_PLACE_WORDS, SENDER, bytes, room);
    if (length < 0)
        printf("a compound: refused, %d\n", flasknib_writer_refusal(length));
    return length < 0 ? 0 : (size_t)length;
}

/* A compound a second: three of them and the first, which closes no interval, make k = 3 intervals. */
static void marked_path(void)
{
    struct path path = {.sending = {.rtt = 100, .size = 1000, .rate = 125000}};
    uint8_t bytes[FLASKNIB_SOURCES_COMPOUND_MOST_BYTES];
    uint16_t next = 0;

    print_answer("a path that marks every packet", flasknib_breaker_start_preset(0, path.breaker, FLASKNIB_BREAKER_WORDS));
    for (unsigned second = 1; second <= 4; second++)
        print_answer("its compound", packet(&path, 1000 * second, bytes, marked_second(&path, &next, bytes, sizeof bytes)));
}

static void refusals(void)
{
    struct path path = {.sending = {.rtt = 70000, .size = 1000, .rate = 200000000}};
    uint8_t bytes[FLASKNIB_SOURCES_COMPOUND_MOST_BYTES];
    uint16_t next = 0;
    size_t length;

    print_answer("the same path", flasknib_breaker_start_preset(0, path.breaker, FLASKNIB_BREAKER_WORDS));
    length = marked_second(&path, &next, bytes, sizeof bytes);
    print_answer("a round trip of 70000 ms, 200000000 bytes/s", packet(&path, 1000, bytes, length));
    length = marked_second(&path, &next, bytes, sizeof bytes);
    print_answer("a second compound in the same ms", packet(&path, 1000, bytes, length));
    print_answer("its feedback without the RR", packet(&path, 1500, bytes + 8, length - 8));
    length = marked_second(&path, &next, bytes, sizeof bytes);
    print_answer("the next compound", packet(&path, 2000, bytes, length));
    print_answer("a packet that is cut off", packet(&path, 2500, bytes, length - 1));
    path.kept[FLASKNIB_KEPT_THERE] = 2;
    print_answer("words that are no receiver's", packet(&path, 3000, bytes, length));
}

int main(void)
{
    worked_examples();
    marked_path();
    refusals();
    return 0;
}
