/* The numbers of a seed: the same on every machine. */
#ifndef CHANCE_H
#define CHANCE_H

#include <stddef.h>
#include <stdint.h>
#include <stdlib.h>

/* never 0 */
static uint32_t seed = 1;

/* Begins with the seed that an argument of a test names. */
static inline void begin_chance(const char *number) { seed = 2 * (uint32_t)strtoul(number, NULL, 10) + 1; }

/* Where a fuzzer's bytes stand, of which each number takes two, and how many are left; none for a seed
 * alone. */
static const uint8_t *taken;
static size_t left_to_take;

static inline uint32_t draw(void) {
    if (left_to_take > 1) {
        seed ^= (uint32_t)taken[0] << 8 ^ taken[1];
        taken += 2;
        left_to_take -= 2;
        seed += seed == 0;
    }
    seed ^= seed << 13;
    seed ^= seed >> 17;
    return seed ^= seed << 5;
}

/* One of the first n numbers. */
static inline uint32_t below(uint32_t n) { return draw() % n; }

static inline void fill(uint8_t *bytes, size_t length) {
    while (length--) *bytes++ = (uint8_t)draw();
}

#endif
