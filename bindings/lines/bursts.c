/* When a line is dead for a while. */
#include "bursts.h"
#include "chance.h"
#include "must.h"
#include <math.h>
#include <stdlib.h>

/* A length of this mean, distributed exponentially. */
static double draw_length(uint64_t *mixed, double mean) {
    *mixed = chance_mix(*mixed);
    return -log(1 - chance_part(*mixed)) * mean;
}

static void add(bursts *b, burst next) {
    if (b->count == b->places) {
        b->places = b->places ? 2 * b->places : 64;
        b->all = must_have(realloc(b->all, b->places * sizeof *b->all));
    }
    b->all[b->count++] = next;
}

void bursts_draw(bursts *b, uint64_t mixed, double share, double length, double until) {
    double time = 0;
    b->all = NULL;
    b->count = b->places = 0;
    while (share > 0 && time < until) {
        burst next;
        next.from = time + draw_length(&mixed, length * (1 - share) / share);
        next.to = next.from + draw_length(&mixed, length);
        add(b, next);
        time = next.to;
    }
}

int bursts_have(const bursts *b, double time) {
    size_t low = 0, high = b->count;
    while (low < high) {
        size_t middle = (low + high) / 2;
        if (b->all[middle].to <= time) low = middle + 1;
        else high = middle;
    }
    return low < b->count && b->all[low].from <= time;
}

void bursts_free(bursts *b) {
    free(b->all);
    b->all = NULL;
    b->count = b->places = 0;
}
