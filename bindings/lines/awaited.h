/* The commands that one end of the stock netcode awaits from another: a ring from the first that
 * is missing on, and what it asks for again. */
#ifndef AWAITED_H
#define AWAITED_H

#include <stdint.h>

enum { RING = 128 };

/* asked: when it was asked for again, or 0. asked_for: of how many that is not 0. */
typedef struct awaited {
    int first, asked_for;
    uint8_t has[RING];
    double asked[RING];
} awaited;

/* Tics, from the first to the last. Where first is above last there is none. */
typedef struct tics {
    int first, last;
} tics;

/* Takes in commands; those outside the ring are dropped. */
void awaited_take(awaited *a, tics came);
int awaited_has(const awaited *a, int tic);
/* Where the ring begins is not there any more. */
void awaited_pass(awaited *a);
/* What is missing before these, back to what is there or was asked for. It is asked for now. */
tics awaited_missing(awaited *a, tics came, double now);
/* The first tics from this one on that were asked for too long ago and did not come. They are
 * asked for again now. */
tics awaited_overdue(awaited *a, int from, double now);
/* These are asked for now. */
void awaited_ask(awaited *a, tics missing, double now);

#endif
