/* What the engines of the tests have alike: the configuration, what is known of a node, and a world that is a
 * sum of its rows. */
#ifndef ENGINE_H
#define ENGINE_H

#include "must.h"
#include "zirmegat_parts.h"
#include <string.h>

static inline zmg_node_config config_of(uint32_t limit, uint32_t players, uint8_t me) {
    zmg_node_config c;
    zmg_node_config_init(&c);
    c.limit = limit;
    c.players = (uint8_t)players;
    c.me = me;
    return c;
}

static inline zmg_node_state state_of(const zmg_node *node) {
    zmg_node_state s;
    MUST(zmg_node_state_get(node, &s, sizeof s) == ZMG_OK);
    return s;
}

static inline zmg_node_player seen_by(const zmg_node *node, uint8_t player) {
    zmg_node_player p;
    MUST(zmg_node_player_get(node, player, &p, sizeof p) == ZMG_OK);
    return p;
}

/* Runs the next tic, with the same mark for all players. */
static inline zmg_run run_node(zmg_node *node, uint16_t world, zmg_row *row) {
    int16_t marks[4];
    for (unsigned p = 0; p < 4; p++) marks[p] = (int16_t)world;
    return zmg_node_run(node, marks, row);
}

static inline int is_same_row(const zmg_row *one, const zmg_row *other) {
    return one->tic == other->tic && memcmp(one->present, other->present, sizeof one->present) == 0
        && memcmp(one->commands, other->commands, sizeof one->commands) == 0;
}

static inline uint16_t stepped(uint16_t world, const zmg_row *row) {
    for (unsigned p = 0; p < 4; p++)
        world = (uint16_t)(world * 31u + (uint16_t)row->commands[p].turn + (uint8_t)row->commands[p].forward
            + row->present[p]);
    return world;
}

#endif
