/* The worlds of the players: sums of the rows that they ran. All must run the same rows. */
#ifndef WORLD_H
#define WORLD_H

#include "zirmegat.h"
#include <stdint.h>

typedef struct world {
    uint32_t sum;
} world;

/* Worlds of a new game, of so many tics at most. */
void worlds_open(uint32_t most);
void worlds_close(void);
/* A new world, of a player who has run nothing. */
void world_begin(world *w);
/* Steps it by the row of a tic, which must be that of the players who ran the tic before. */
void world_step(world *w, const zmg_row *row);
/* A function of the world: of each player another one. */
void world_marks(const world *w, int16_t marks[4]);

#endif
