/* When a line is dead for a while, and loses all that is sent. */
#ifndef BURSTS_H
#define BURSTS_H

#include <stddef.h>
#include <stdint.h>

/* The bursts of one way between two players, in their order. */
typedef struct burst {
    double from, to;
} burst;
typedef struct bursts {
    burst *all;
    size_t count, places;
} bursts;

/* Draws them until this time: they make up such a share of it, and last so long on average, as
 * in the model of Gilbert and Elliott, in time in place of datagrams. */
void bursts_draw(bursts *b, uint64_t mixed, double share, double length, double until);
int bursts_have(const bursts *b, double time);
void bursts_free(bursts *b);

#endif
