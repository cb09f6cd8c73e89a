/* Prints the table of a trace that arrives bit by bit on standard input, each row as soon as its block is there. Run: feed [MOST]
 * MOST is how many bytes are taken at once, at most: from 1 to 65,536, and the table is the same.
 * Build: cc -Iinclude examples/feed.c target/staticlib/libcapi.a -o feed
 */
#include <stdio.h>
#include <stdlib.h>
#include <unistd.h>

#include "flasknib.h"

#define MOST 65536

/* What is kept between two stretches, fresh where it is all zero. */
static uint64_t upload[FLASKNIB_UPLOAD_WORDS];
static uint8_t kept[FLASKNIB_UPLOAD_KEPT_BYTES];

/* A stretch, and room for the rows of all blocks that it can complete, so that none is refused with 12. */
static uint8_t stretch[MOST];
static uint8_t out[(MOST / FLASKNIB_BLOCK_BYTES + 1) * FLASKNIB_ROW_MOST_BYTES];

/* Prints what stands at the front of `out`, now. */
static void print(size_t length)
{
    if (fwrite(out, 1, length, stdout) != length || fflush(stdout) != 0) {
        perror("feed: standard output");
        exit(EXIT_FAILURE);
    }
}

/* Takes a stretch and prints its rows, also those before a refused block. Gives that block's refusal, 0 for none. */
static int take(size_t length)
{
    int64_t answer = flasknib_feed(upload, FLASKNIB_UPLOAD_WORDS, kept, sizeof kept, stretch, length, out, sizeof out);
    int refusal = flasknib_writer_refusal(answer);
    print(refusal != 0 ? flasknib_writer_size(answer) : (size_t)answer);
    return refusal;
}

int main(int argc, char **argv)
{
    unsigned long most = argc > 1 ? strtoul(argv[1], NULL, 10) : MOST;
    int refusal = 0;
    ssize_t length = 0;

    if (most < 1 || most > MOST) {
        fprintf(stderr, "feed: from 1 to %d bytes at once\n", MOST);
        return 2;
    }
    print((size_t)flasknib_write_head(out, sizeof out));
    while (refusal == 0 && (length = read(STDIN_FILENO, stretch, most)) > 0)
        refusal = take((size_t)length);
    if (length < 0)
        perror("feed: standard input");

    /* The end, or the line broke off: the refusal of the last block, or the one that came before. */
    refusal = flasknib_feed_close(upload, FLASKNIB_UPLOAD_WORDS, kept, sizeof kept);
    if (refusal != 0)
        print((size_t)flasknib_write_refused((uint8_t)refusal, upload[FLASKNIB_UPLOAD_BLOCKS], out, sizeof out));
    return length < 0 ? EXIT_FAILURE : EXIT_SUCCESS;
}
