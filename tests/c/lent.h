/* What callers share that lend all their memory in one piece, a `memory` of their own: what is lent, what has to stand
   there after the call, and both held against each other, with all six numbers of an answer. */
#include <string.h>

enum { PATTERN = 0xA5 };

static memory lent, wanted;

/* One number of what is lent is another. */
#define SET(where, number) (lent.where = wanted.where = (number))
#define PUT(where, from) (memcpy(lent.where, from, sizeof from), memcpy(wanted.where, from, sizeof from))

static void ends(const char *what, merkazobi_answer r, merkazobi_answer told)
{
    if (memcmp(&r, &told, sizeof r) != 0) {
        printf("%s: %zu (%zu %zu %zu %zu %zu), not %zu (%zu %zu %zu %zu %zu)\n", what, r.number, r.first, r.second,
               r.third, r.fourth, r.fifth, told.number, told.first, told.second, told.third, told.fourth, told.fifth);
        failures++;
    }
    const uint8_t *found = (const uint8_t *)&lent, *stands = (const uint8_t *)&wanted;
    size_t at = 0;
    while (at < sizeof lent && found[at] == stands[at])
        at++;
    if (at < sizeof lent) {
        printf("%s: byte %zu of what is lent is %d, not %d\n", what, at, found[at], stands[at]);
        failures++;
    }
}

static merkazobi_answer told(size_t number, size_t first)
{
    return (merkazobi_answer){number, first, 0, 0, 0, 0};
}
