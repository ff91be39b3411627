/* What a player does. */
#include "hand.h"
#include "chance.h"
#include <string.h>

/* It decides anew after so many ticks. */
enum { SPELL = 12 };
/* what a draw is of */
enum { FORWARD, SIDE, TURN, FIRE, MOTION };
enum { ATTACK = 1 };

static double draw(uint64_t seed, int player, uint32_t when, uint64_t of) {
    return chance(seed, HAND, (uint64_t)player, when, of);
}

/* Keys of walking or running, one way or the other, or none. */
static int8_t draw_speed(uint64_t seed, int player, uint32_t spell, uint64_t of) {
    static const int8_t speeds[] = { 0, 0, 25, 50, 50, -25 };
    return speeds[(int)(draw(seed, player, spell, of) * (sizeof speeds / sizeof *speeds))];
}

/* In each spell it keeps its keys; in half of them the mouse moves, in a quarter it fires. */
zmg_command hand_command(uint64_t seed, int player, uint32_t tick) {
    uint32_t spell = tick / SPELL;
    zmg_command c;
    memset(&c, 0, sizeof c);
    c.forward = draw_speed(seed, player, spell, FORWARD);
    c.side = draw_speed(seed, player, spell, SIDE);
    if (draw(seed, player, spell, TURN) < 0.5)
        c.turn = (int16_t)((draw(seed, player, tick, MOTION) - 0.5) * 2000);
    if (draw(seed, player, spell, FIRE) < 0.25) c.buttons = ATTACK;
    return c;
}
