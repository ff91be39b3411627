/* A game of two sessions, which are made, played and freed on sixty threads, one after another: each round on a
 * thread of its own, to which both go, and from which they come back. Ends with status 0. */
#include "zirmegat.h"
#include <pthread.h>
#include <stdio.h>
#include <stdlib.h>

enum { ROUNDS = 60, ROUND = 50 };

typedef struct game {
    zmg_session *players[2];
    int16_t worlds[2][4];
    uint32_t now;
} game;

static void begin(game *g) {
    zmg_host_config host;
    zmg_join_config join;
    zmg_host_config_init(&host);
    zmg_join_config_init(&join);
    host.key.bytes[0] = join.key.bytes[0] = host.random.bytes[0] = join.random.bytes[1] = 1;
    if (zmg_session_host(&g->players[0], &host) != ZMG_OK) exit(1);
    if (zmg_session_join(&g->players[1], &join, 0) != ZMG_OK) exit(1);
}

static void turn(game *g, int me) {
    const zmg_command command = { 0, (int8_t)(25 + 25 * me), 0, 0, 0 };
    zmg_session *own = g->players[me];
    zmg_address place = { { 0 } }, to;
    uint8_t bytes[ZMG_DATAGRAM_SIZE];
    zmg_row row;
    size_t length;
    place.bytes[0] = (uint8_t)me;
    if (zmg_session_poll(own, g->now) != ZMG_OK) exit(1);
    while (zmg_session_wants_input(own, g->now)) zmg_session_give(own, &command, g->now);
    while (zmg_session_run(own, g->worlds[me], &row) == ZMG_RUN_RAN)
        for (int p = 0; p < 4; p++) g->worlds[me][p] = (int16_t)(g->worlds[me][p] + row.commands[p].forward);
    while ((length = zmg_session_transmit(own, &to, bytes, sizeof bytes)) > 0)
        zmg_session_receive(g->players[!me], &place, bytes, length, g->now);
}

static void *play(void *at) {
    game *g = (game *)at;
    if (g->now == 0) begin(g);
    for (int k = 0; k < ROUND; k++, g->now += 5) {
        turn(g, 0);
        turn(g, 1);
    }
    return NULL;
}

static void *end(void *at) {
    game *g = (game *)at;
    for (int me = 0; me < 2; me++) zmg_session_free(g->players[me]);
    return NULL;
}

static void on_a_thread(void *(*part)(void *), game *g) {
    pthread_t thread;
    if (pthread_create(&thread, NULL, part, g) != 0) exit(1);
    if (pthread_join(thread, NULL) != 0) exit(1);
}

int main(void) {
    static game g;
    zmg_state states[2];
    for (int round = 0; round < ROUNDS; round++) on_a_thread(play, &g);
    for (int me = 0; me < 2; me++) zmg_session_state(g.players[me], &states[me], sizeof states[me]);
    on_a_thread(end, &g);
    printf("threads: %u and %u tics\n", (unsigned)states[0].ran, (unsigned)states[1].ran);
    return states[0].ran > 300 && states[1].ran > 300 ? 0 : 1;
}
