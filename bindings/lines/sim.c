/* Plays games on a bad line in simulated time, and prints how they go: sim WORD=VALUE ..
 *
 *     net=sessions seed=1 seeds=8    or limit, or stock; a game of each of so many seeds
 *     players=2 window=12 extra=1 seconds=60
 *     delay=0 back=0 jitter=0 tail=0/2 order=0
 *     loss=0 repeat=0 burst=0/100
 *     delay1=0 jitter1=0 loss1=0     of player 1, and so of each other
 *     pair=1/2/30/100                players 1 and 2: 30 % lost besides, and 100 ms more
 *     cut=1/2 outage=300/5000/0 traffic=300/4000/0 batch=50/0
 *     uplink=128 uplink1=128 queue=200
 *     drift1=0 frames=60 frames1=60 once=0 hitch=150/4000/0
 *     level=900 load1=1500 behind1=0
 *
 * conditions.h says what they mean. Numbers behind a stroke may be left out; a player that is left
 * out is each of them. `table` plays all lines. */
#include "figures.h"
#include "game.h"
#include "must.h"
#include <stdio.h>
#include <stdlib.h>
#include <string.h>

static const netcode *const NETS[] = { &LIMIT, &STOCK, &SESSIONS };

typedef struct options {
    const netcode *net;
    conditions on;
    int seed, seeds;
} options;

static const netcode *net_named(const char *name) {
    for (size_t k = 0; k < sizeof NETS / sizeof *NETS; k++)
        if (strcmp(NETS[k]->name, name) == 0) return NETS[k];
    return NULL;
}

static int is_possible(const options *o) {
    return o->net && o->seeds > 0 && o->on.players >= 2 && o->on.players <= PLAYERS;
}

static int read_word(options *o, const char *word) {
    if (strncmp(word, "net=", 4) == 0) o->net = net_named(word + 4);
    else if (strncmp(word, "seed=", 5) == 0) o->seed = atoi(word + 5);
    else if (strncmp(word, "seeds=", 6) == 0) o->seeds = atoi(word + 6);
    else if (!conditions_read(&o->on, word)) return 0;
    return is_possible(o);
}

static void play(const options *o) {
    figures players[PLAYERS] = { { 0 } }, all = { 0 }, mean;
    for (int seed = o->seed; seed < o->seed + o->seeds; seed++) {
        char where[64];
        game g;
        snprintf(where, sizeof where, " in the game of seed %d", seed);
        must_tell(where);
        game_play(&g, &o->on, o->net, (uint64_t)seed);
        figures_add(players, &all, &g);
        game_close(&g);
    }
    mean = figures_mean(players, &all, o->on.players, o->seeds);
    figures_print(&mean);
}

int main(int argc, char **argv) {
    options o = { NULL, conditions_plain(), 1, 8 };
    o.net = &SESSIONS;
    for (int k = 1; k < argc; k++)
        if (!read_word(&o, argv[k])) {
            fprintf(stderr, "sim: what is %s?\n", argv[k]);
            return 2;
        }
    play(&o);
    return 0;
}
