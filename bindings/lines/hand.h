/* What a player does: a function of the seed, the player and the tick. */
#ifndef HAND_H
#define HAND_H

#include "zirmegat.h"
#include <stdint.h>

zmg_command hand_command(uint64_t seed, int player, uint32_t tick);

#endif
