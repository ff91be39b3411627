/* The line between players: whether a datagram is lost, and when it comes. Both are functions of
 * the seed, of who sends it to whom and of when; so all who play on a line of a seed meet the
 * same one. Only the queue of an uplink depends on what else was sent. */
#ifndef LINE_H
#define LINE_H

#include "bursts.h"
#include "conditions.h"
#include <stdint.h>

/* what UDP and IP put before a datagram */
enum { HEADERS = 28 };

typedef struct line {
    const conditions *on;
    uint64_t seed;
    bursts bursts[PLAYERS][PLAYERS];
    double uplink_free[PLAYERS];
} line;

/* What is sent. length: without HEADERS. copy: 0, or 1 for the second of one that comes twice.
 * free: it passes by the uplink. */
typedef struct sending {
    int from, to, copy, free;
    double time;
    size_t length;
} sending;

/* For so long a time. */
void line_open(line *l, const conditions *on, uint64_t seed, double until);
void line_close(line *l);
/* How many copies of it come, if none is lost. */
int line_copies(const line *l, const sending *s);
/* Returns 1, and when it comes; or 0 if it is lost. */
int line_carry(line *l, const sending *s, double *comes);

#endif
