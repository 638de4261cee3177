/* What the callers share: says what differs, and counts it. */
#include <stdio.h>

static int failures;

static inline void expect(const char *what, size_t found, size_t wanted)
{
    if (found != wanted) {
        printf("%s: %zu, not %zu\n", what, found, wanted);
        failures++;
    }
}
