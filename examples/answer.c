/* Answers the line a=ecn-capable-rtp of an SDP offer with our abilities, and prints the line of the answer, once for each offer below.
 * Build: cc -Iinclude examples/answer.c target/staticlib/libcapi.a -o answer
 */
#include <stdio.h>
#include <string.h>

#include "flasknib.h"

/* What we would offer, and offers: one that our second method answers, one of a side that only sets as we do, and RFC 6679's own in section 12.1,
 * which its grammar does not allow. */
static const char ours[] = "a=ecn-capable-rtp: leap,ice mode=setonly; ect=1";
static const char *const offers[] = {
    "a=ecn-capable-rtp: rtp,ice ect=0; mode=setread",
    "a=ecn-capable-rtp: ice mode=setonly",
    "a=ecn-capable-rtp: ice rtp ect=0 mode=setread",
};

static uint8_t read_line(const char *line, uint64_t *found)
{
    return flasknib_read_attribute((const uint8_t *)line, strlen(line), found, FLASKNIB_ATTRIBUTE_WORDS);
}

/* Prints the line of the answer with its CR LF. Gives a refusal, 0 for none. */
static int print_answer(const uint64_t *answer)
{
    uint8_t line[FLASKNIB_ATTRIBUTE_MOST_BYTES];
    int64_t length = flasknib_write_attribute(answer, FLASKNIB_ATTRIBUTE_WORDS, line, sizeof line);
    if (length > 0)
        printf("%.*s\r\n", (int)length, (const char *)line);
    return flasknib_writer_refusal(length);
}

int main(void)
{
    uint64_t able[FLASKNIB_ATTRIBUTE_WORDS], offer[FLASKNIB_ATTRIBUTE_WORDS], answer[FLASKNIB_ATTRIBUTE_WORDS];

    int refusal = read_line(ours, able);
    if (refusal != 0)
        return refusal;
    for (size_t i = 0; i < sizeof offers / sizeof *offers; i++) {
        refusal = read_line(offers[i], offer);
        if (refusal != 0) {
            printf("refused %d\n", refusal);
            continue;
        }
        refusal = flasknib_answer(offer, FLASKNIB_ATTRIBUTE_WORDS, able, FLASKNIB_ATTRIBUTE_WORDS, answer, FLASKNIB_ATTRIBUTE_WORDS);
        if (refusal == FLASKNIB_LEFT_OUT)
            printf("left out\n");
        else if (refusal != 0 || (refusal = print_answer(answer)) != 0)
            return refusal;
    }
    return 0;
}
