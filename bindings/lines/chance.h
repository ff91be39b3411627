/* Draws that are functions of what they are for: so whoever plays on a line meets the same line. */
#ifndef CHANCE_H
#define CHANCE_H

#include <stdint.h>

/* What a draw is about. */
typedef enum topic {
    LOSS = 1,
    JITTER = 2,
    TAIL = 3,
    READING = 4,
    REPEAT = 5,
    PHASE = 11,
    FRAMES = 12,
    HAND = 21,
    BATCH = 44,
    OUTAGE = 55,
    TRAFFIC = 66,
    HITCH = 77
} topic;

/* Any number, from any number: what is near each other before is not so afterwards. */
uint64_t chance_mix(uint64_t number);
/* At least 0, and below 1. */
double chance_part(uint64_t mixed);
double chance(uint64_t seed, topic about, uint64_t one, uint64_t two, uint64_t three);

#endif
