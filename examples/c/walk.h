/* A world for the examples: players who walk on a plane. It is the world of `netgame`, in C. */
#ifndef WALK_H
#define WALK_H

#include "zirmegat.h"

typedef struct spot {
    uint32_t x, y; /* in 65536ths of a map unit, as two's complement */
    uint16_t angle;
    uint8_t present;
} spot;

typedef struct walk {
    spot spots[4];
} walk;

static void walk_begin(walk *world, unsigned players) {
    memset(world, 0, sizeof *world);
    for (unsigned p = 0; p < players && p < 4; p++) {
        world->spots[p].x = p * 4194304u;
        world->spots[p].present = 1;
    }
}

static void spot_go(spot *s, const zmg_command *move) {
    uint32_t forward = (uint32_t)(move->forward * 2048), side = (uint32_t)(move->side * 2048);
    s->angle = (uint16_t)(s->angle + (uint16_t)move->turn);
    switch (s->angle / 16384) {
    case 0: s->x += forward; s->y -= side; break;
    case 1: s->x += side; s->y += forward; break;
    case 2: s->x -= forward; s->y += side; break;
    default: s->x -= side; s->y -= forward; break;
    }
    s->x += move->buttons;
}

static void walk_step(walk *world, const zmg_row *row) {
    for (unsigned p = 0; p < 4; p++)
        if (row->present[p]) spot_go(&world->spots[p], &row->commands[p]);
}

static void walk_marks(const walk *world, int16_t marks[4]) {
    for (unsigned p = 0; p < 4; p++)
        marks[p] = world->spots[p].present ? (int16_t)(uint16_t)world->spots[p].x : 0;
}

#endif
