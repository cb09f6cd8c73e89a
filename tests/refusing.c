/* refusing: a stand-in for the library in which every row is refused with 10, and a pointer to null ends the program. The examples are run with it. */
#include <stdlib.h>
#include <string.h>

#include "flasknib.h"

/* What a writer of so many zeros answers. */
static int64_t zeros(size_t size, uint8_t *out, size_t room)
{
    if (out == NULL)
        abort();
    if (room < size)
        return -(int64_t)(256 * size + FLASKNIB_REFUSAL_ROOM);
    memset(out, 0, size);
    return (int64_t)size;
}

uint8_t flasknib_arrive(uint64_t *source, size_t words, uint16_t wire, uint8_t mark)
{
    (void)source, (void)words, (void)wire, (void)mark;
    return 0;
}

int64_t flasknib_count_block(uint64_t *source, size_t words, const uint8_t *records, size_t length, size_t width)
{
    (void)source, (void)words, (void)records, (void)length, (void)width;
    return 0;
}

int64_t flasknib_write_feedback(const uint64_t *source, size_t words, uint32_t sender, uint32_t media, uint8_t *out, size_t room)
{
    (void)source, (void)words, (void)sender, (void)media;
    return zeros(FLASKNIB_FEEDBACK_BYTES, out, room);
}

int64_t flasknib_write_summary(const uint64_t *source, size_t words, uint32_t media, uint8_t *out, size_t room)
{
    (void)source, (void)words, (void)media;
    return zeros(FLASKNIB_SUMMARY_BYTES, out, room);
}

int64_t flasknib_write_head(uint8_t *out, size_t room)
{
    return zeros(FLASKNIB_HEAD_BYTES, out, room);
}

int64_t flasknib_write_row(const uint8_t *label, size_t length, uint32_t ssrc, const uint64_t *source, size_t words, uint64_t jumped,
                           uint64_t restarts, uint8_t *out, size_t room)
{
    (void)label, (void)length, (void)ssrc, (void)source, (void)words, (void)jumped, (void)restarts;
    zeros(0, out, room);
    return -FLASKNIB_REFUSAL_LIMITS;
}
