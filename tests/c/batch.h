/* Calls over a pipe, so that a program of another processor can make them. Batches come in on standard input until it
   ends, and go out again on standard output with the answers put in. A batch is a number of bytes and then so many
   bytes, which are calls one behind the other. All numbers of a call are of 8 bytes, low byte first:

     the entry, four plain numbers, six places for the answer, how many slices are lent, and for each slice
     how many elements are lent, how wide one is, how many bytes stand there, and the bytes, filled up to 8.

   A call works right in the batch. So what comes back shows also what it did to all that was lent, and to the bytes
   behind. A batch that is not of this shape ends the program: status 2. */
#include <stdio.h>
#include <stdlib.h>
#include <string.h>

#include "merkazobi.h"

_Static_assert(sizeof(size_t) == 8 && sizeof(merkazobi_answer) == 6 * 8, "the numbers of a call are the library's own");

enum {
    WANTS,
    HELD,
    LEAST,
    CURVE,
    CHECK,
    BUILD,
    VERDICT,
    PLAIN,
    PAGE,
    COUNTS_FILL,
    COUNTS_HELD,
    COUNTS_HELD_MANY,
    COUNTS_CHANGE,
    READ,
    SECTION,
    WRITE,
    LIST,
    OPEN,
    REQUEST,
    PLAN,
    ENTRIES
};
enum { PLAIN_NUMBERS = 4, ANSWER_NUMBERS = 6, MOST_SLICES = 5 };

/* How wide the elements of each entry's slices are; 0 where it lends no more. */
static const size_t widths[ENTRIES][MOST_SLICES + 1] = {
    [HELD] = {2},
    [LEAST] = {2},
    [CURVE] = {2, 4},
    [CHECK] = {2, 2},
    [BUILD] = {2, 2},
    [VERDICT] = {2, 2, 2},
    [PLAIN] = {2, 2, 2},
    [PAGE] = {2, 2, 2, 4},
    [COUNTS_FILL] = {2, 2, 2},
    [COUNTS_HELD] = {2, 2, 2},
    [COUNTS_HELD_MANY] = {2, 2, 2, 2, 2},
    [COUNTS_CHANGE] = {2, 2, 2},
    [READ] = {1},
    [SECTION] = {1},
    [WRITE] = {2, 2, 2, 1},
    [LIST] = {1, 1},
    [OPEN] = {sizeof(merkazobi_desk), sizeof(merkazobi_job)},
    [REQUEST] = {sizeof(merkazobi_desk), sizeof(merkazobi_job)},
    [PLAN] = {1, 1},
};

typedef struct {
    void *at;
    size_t lent;
} slice;

/* What is left of a batch. */
typedef struct {
    size_t *at;
    size_t words;
} rest;

/* What the program makes of a call. */
static merkazobi_answer answer(size_t entry, const size_t *given, const slice *of);

static void give_up(const char *why)
{
    fprintf(stderr, "calls: %s\n", why);
    exit(2);
}

static size_t *take(rest *batch, size_t words)
{
    if (words > batch->words)
        give_up("a call goes on past its batch");
    size_t *taken = batch->at;
    batch->at += words;
    batch->words -= words;
    return taken;
}

/* A slice whose elements are so wide; the library must not be lent more than stands there. */
static slice take_slice(rest *batch, size_t width)
{
    const size_t *said = take(batch, 3);
    const size_t lent = said[0], bytes = said[2];
    if (said[1] != width)
        give_up("a slice of another width");
    if (lent > bytes / width)
        give_up("a slice lends more than there is");
    return (slice){take(batch, bytes / 8 + (bytes % 8 != 0)), lent};
}

static void answer_next(rest *batch)
{
    const size_t entry = *take(batch, 1);
    const size_t *given = take(batch, PLAIN_NUMBERS);
    size_t *place = take(batch, ANSWER_NUMBERS);
    const size_t slices = *take(batch, 1);
    if (entry >= ENTRIES)
        give_up("no such entry");
    slice of[MOST_SLICES] = {{NULL, 0}};
    size_t taken = 0;
    for (; widths[entry][taken] != 0 && taken < slices; taken++)
        of[taken] = take_slice(batch, widths[entry][taken]);
    if (widths[entry][taken] != 0 || taken != slices)
        give_up("another number of slices");
    const merkazobi_answer given_back = answer(entry, given, of);
    memcpy(place, &given_back, sizeof given_back);
}

/* Reads the whole batch before it answers: else both sides could wait, each for the other to read. */
static size_t *read_batch(size_t bytes)
{
    if (bytes % 8 != 0)
        give_up("a batch of no whole numbers");
    size_t *batch = malloc(bytes + 1);
    if (batch == NULL)
        give_up("no memory for a batch so long");
    if (fread(batch, 1, bytes, stdin) != bytes)
        give_up("the input ends within a batch");
    return batch;
}

static void write_batch(size_t bytes, const size_t *batch)
{
    if (fwrite(&bytes, sizeof bytes, 1, stdout) != 1 || fwrite(batch, 1, bytes, stdout) != bytes || fflush(stdout) != 0)
        give_up("the output can't be written");
}

static int answer_batches(void)
{
    size_t bytes;
    size_t got;
    while ((got = fread(&bytes, 1, sizeof bytes, stdin)) == sizeof bytes) {
        size_t *batch = read_batch(bytes);
        rest left = {batch, bytes / 8};
        while (left.words > 0)
            answer_next(&left);
        write_batch(bytes, batch);
        free(batch);
    }
    if (got != 0)
        give_up("the input ends within a batch's length");
    return 0;
}
