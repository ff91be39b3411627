/* Ends a test where something does not hold, and names the line. The test tells where it was. */
#ifndef MUST_H
#define MUST_H

#include <stdio.h>
#include <stdlib.h>

#define MUST(holds) must(holds, #holds, __FILE__, __LINE__)

/* That of the file that includes this one: prints how far the test has come, as "in game 3". */
static void tell_where(FILE *out);

static inline void must(int holds, const char *what, const char *file, int line) {
    if (holds) return;
    fprintf(stderr, "%s:%d: not so ", file, line);
    tell_where(stderr);
    fprintf(stderr, ": %s\n", what);
    exit(1);
}

#endif
