/* When a player's machine has time for its engine. */
#ifndef MACHINE_H
#define MACHINE_H

#include "conditions.h"
#include <stdint.h>

typedef struct machine {
    const conditions *on;
    int player;
    /* a moment at which a frame is drawn, and one at which the machine hangs */
    double frame, hang;
    /* until when it loads a level */
    double loaded;
} machine;

void machine_open(machine *m, const conditions *on, int player, uint64_t seed);
/* The first time from this one on at which its engine calls. */
double machine_ready(const machine *m, double time);
/* It has run a tic. */
void machine_ran(machine *m, int tic, double now);

#endif
