/* Ends the program where something does not hold. */
#include "must.h"
#include <stdio.h>
#include <stdlib.h>

static const char *place = "";

void must_tell(const char *where) { place = where; }

void must(int holds, const char *what) {
    if (holds) return;
    fprintf(stderr, "sim: not so%s: %s\n", place, what);
    exit(1);
}

void *must_have(void *memory) {
    must(memory != NULL, "there is memory");
    return memory;
}

void *must_get(size_t bytes) { return must_have(calloc(1, bytes)); }
