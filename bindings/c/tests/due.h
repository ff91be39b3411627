/* Datagrams of links that are on the way, by the turn that they are due at. */
#ifndef DUE_H
#define DUE_H

#include "must.h"
#include "zirmegat_parts.h"
#include <stdint.h>
#include <string.h>

/* How many may be on the way, and for how many turns. */
enum { FLIGHTS = 16384, SPAN = 1024 };

/* changed: nobody gave these bytes to this player. */
typedef struct flight {
    uint32_t next;
    size_t length;
    uint8_t from, to, changed, bytes[ZMG_DATAGRAM_SIZE + 1];
} flight;

/* now: the turn, which the test counts. Places are linked by their numbers, 0 for none. */
static uint32_t now, spare, due[SPAN];
static flight flights[FLIGHTS];

static void clear_line(void) {
    memset(due, 0, sizeof due);
    for (uint32_t k = 1; k < FLIGHTS; k++) flights[k].next = k + 1 < FLIGHTS ? k + 1 : 0;
    spare = 1;
}

static void post(const flight *f, uint32_t after) {
    uint32_t k = spare, at = (now + after) % SPAN;
    MUST(k != 0 && after < SPAN);
    spare = flights[k].next;
    flights[k] = *f;
    flights[k].next = due[at];
    due[at] = k;
}

/* The first place of those that are due now. What is posted from now on is due later. */
static uint32_t first_due(void) {
    uint32_t k = due[now % SPAN];
    due[now % SPAN] = 0;
    return k;
}

/* Takes what is at a place, and answers with the next place. */
static uint32_t take_due(uint32_t k, flight *f) {
    *f = flights[k];
    flights[k].next = spare;
    spare = k;
    return f->next;
}

#endif
