/* Players that are sessions of the library. */
#ifndef SESSIONS_H
#define SESSIONS_H

#include "game.h"
#include "world.h"
#include "zirmegat.h"

/* A player. ticks: how many commands it gave. wakes: when it wakes next, by the event of this
 * number; earlier ones are void. inbox: what came and was not heard yet. */
typedef struct seat {
    zmg_session *session;
    world world;
    uint32_t ticks;
    double wakes;
    unsigned number;
    queue inbox;
} seat;

/* Makes the sessions of a game, and lets them meet on a line that loses nothing. Returns how far
 * their clocks are, in milliseconds, when the game has begun for all. */
uint32_t lobby_pass(const game *g, seat seats[PLAYERS]);

#endif
