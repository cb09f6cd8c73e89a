/* Counts the arrivals of one source and prints its counters, its two ECN reports and its table, before and after its sender reboots.
 * Build: cc -Iinclude examples/count.c target/staticlib/libcapi.a -o count
 */
#include <inttypes.h>
#include <stdio.h>
#include <stdlib.h>

#include "flasknib.h"

static const uint16_t wires[] = {65534, 65535, 0, 0, 3};
static const uint8_t marks[] = {FLASKNIB_MARK_ECT0, FLASKNIB_MARK_ECT0, FLASKNIB_MARK_CE, FLASKNIB_MARK_CE, FLASKNIB_MARK_ECT1};
static const uint8_t rebooted[] = {0x75, 0x30, 2, 0, 0x75, 0x31, 2, 0, 0x75, 0x32, 3, 0}; /* 30000, 30001, 30002, in records of 4 bytes, big-endian */
static const char label[] = "probe 2, left";
static const uint32_t media = 1, sender = 9;

/* What is counted: a source's record, fresh if it is all zero, and its jumps and restarts. */
struct totals {
    uint64_t source[FLASKNIB_SOURCE_WORDS];
    uint64_t jumped, restarts;
};

/* Counts the arrivals one by one; a jump is left out. Gives the refusal of any other, 0 for none. */
static int count(struct totals *totals)
{
    for (size_t i = 0; i < sizeof marks; i++) {
        uint8_t answer = flasknib_arrive(totals->source, FLASKNIB_SOURCE_WORDS, wires[i], marks[i]);
        if (answer == FLASKNIB_REFUSAL_JUMP)
            totals->jumped++;
        else if (answer == FLASKNIB_RESTARTED)
            totals->restarts++;
        else if (answer != 0)
            return answer;
    }
    return 0;
}

/* Counts the records of a block. Gives its refusal, 0 for none. */
static int count_block(struct totals *totals, const uint8_t *records, size_t length, size_t width)
{
    int64_t answer = flasknib_count_block(totals->source, FLASKNIB_SOURCE_WORDS, records, length, width);
    if (answer < 0)
        return flasknib_writer_refusal(answer);
    totals->jumped += flasknib_block_jumps(answer);
    totals->restarts += flasknib_block_restarts(answer);
    return 0;
}

/* Prints bytes in hex, four to a group, or the refusal that a writer answered, and the size that comes with refusal 12. */
static void print_words(const char *name, const uint8_t *bytes, int64_t answer)
{
    printf("%s:", name);
    if (flasknib_writer_refusal(answer) != 0)
        printf(" refused %d", flasknib_writer_refusal(answer));
    if (flasknib_writer_refusal(answer) == FLASKNIB_REFUSAL_ROOM)
        printf(", %zu bytes", flasknib_writer_size(answer));
    for (int64_t i = 0; i < answer; i++)
        printf("%s%02X", i % 4 == 0 ? " " : "", bytes[i]);
    printf("\n");
}

/* Prints what a writer wrote. Gives its refusal, 0 for none. */
static int print_text(const uint8_t *bytes, int64_t answer)
{
    if (answer > 0)
        fwrite(bytes, 1, (size_t)answer, stdout);
    return flasknib_writer_refusal(answer);
}

static void print_reports(const uint64_t *source)
{
    uint8_t feedback[FLASKNIB_FEEDBACK_BYTES], summary[FLASKNIB_SUMMARY_BYTES];

    printf("highest %" PRId64 "\n", (int64_t)source[FLASKNIB_SOURCE_HIGHEST]);
    printf("ECT(0) %" PRIu64 "\n", source[FLASKNIB_SOURCE_ECT0]);
    printf("ECT(1) %" PRIu64 "\n", source[FLASKNIB_SOURCE_ECT1]);
    printf("CE %" PRIu64 "\n", source[FLASKNIB_SOURCE_CE]);
    printf("not-ECT %" PRIu64 "\n", source[FLASKNIB_SOURCE_NOT_ECT]);
    printf("duplicates %" PRIu64 "\n", source[FLASKNIB_SOURCE_DUPLICATES]);
    print_words("feedback", feedback, flasknib_write_feedback(source, FLASKNIB_SOURCE_WORDS, sender, media, feedback, sizeof feedback));
    print_words("summary", summary, flasknib_write_summary(source, FLASKNIB_SOURCE_WORDS, media, summary, sizeof summary));
}

static int64_t write_row(const struct totals *totals, uint8_t *out, size_t room)
{
    return flasknib_write_row_with((struct flasknib_row){.label = (const uint8_t *)label,
                                                         .length = sizeof label - 1,
                                                         .ssrc = media,
                                                         .source = totals->source,
                                                         .jumped = totals->jumped,
                                                         .restarts = totals->restarts},
                                   out, room);
}

/* Prints the head line and a row of whatever length. Gives a refusal, 0 for none. */
static int print_table(const struct totals *totals)
{
    /* Asked with a room of 0 (and a pointer that is not null), the writer refuses with 12 and says the size. */
    uint8_t head[FLASKNIB_HEAD_BYTES], none[1];
    int64_t asked = write_row(totals, none, 0);
    print_words("row in 0 bytes", none, asked);
    if (flasknib_writer_refusal(asked) != FLASKNIB_REFUSAL_ROOM)
        return flasknib_writer_refusal(asked);

    /* Asked again with just that much room, it writes. */
    size_t size = flasknib_writer_size(asked);
    uint8_t *row = malloc(size);
    if (row == NULL)
        return EXIT_FAILURE;
    int refusal = print_text(head, flasknib_write_head(head, sizeof head));
    if (refusal == 0)
        refusal = print_text(row, write_row(totals, row, size));
    free(row);
    return refusal;
}

int main(void)
{
    struct totals totals = {0};
    uint8_t row[FLASKNIB_ROW_MOST_BYTES];

    int refusal = count(&totals);
    if (refusal != 0)
        return refusal;
    print_reports(totals.source);
    refusal = print_table(&totals);
    if (refusal != 0)
        return refusal;

    /* After a reboot the first packet jumps, and the second, which has the number after it, is counted as the first of all. */
    refusal = count_block(&totals, rebooted, sizeof rebooted, 4);
    if (refusal != 0)
        return refusal;
    return print_text(row, write_row(&totals, row, sizeof row)); /* a room in which any row fits */
}
