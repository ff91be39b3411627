/* The lobby of a game of sessions: on a good line, before simulated time begins. */
#include "chance.h"
#include "must.h"
#include "post.h"
#include "sessions.h"
#include <stdlib.h>
#include <string.h>

enum { HOST = 0, KEY = 9 };
/* The game must have begun by then. */
static const uint32_t PATIENCE = 60000;
/* how many bytes a demo may have */
static const uint32_t DEMO = 1 << 22;

static void fill(uint8_t random[32], uint64_t seed, int player) {
    for (int k = 0; k < 32; k++)
        random[k] = (uint8_t)chance_mix(seed + (uint64_t)(player * 32 + k));
    random[0] |= 1;
}

static void host(const game *g, zmg_session **session) {
    zmg_host_config c;
    zmg_host_config_init(&c);
    c.terms.players = (uint8_t)g->on->players;
    c.terms.window = (uint8_t)g->on->window;
    c.terms.limit = DEMO;
    c.key.bytes[0] = KEY;
    fill(c.random.bytes, g->seed, HOST);
    must(zmg_session_host(session, &c) == ZMG_OK, "a session hosts");
}

static void join(const game *g, zmg_session **session, int player) {
    zmg_join_config c;
    zmg_join_config_init(&c);
    c.host = post_address(HOST);
    c.seat = (uint8_t)player;
    c.key.bytes[0] = KEY;
    fill(c.random.bytes, g->seed, player);
    must(zmg_session_join(session, &c, 0) == ZMG_OK, "a session joins");
}

/* A datagram takes up to a tick, always as long to the same player: so ticks begin at any phase. */
static double comes(const game *g, int to, uint32_t now) {
    return now + 1 + chance(g->seed, PHASE, (uint64_t)to, 0, 0) * TICK_TIME;
}

static void send_all(const game *g, seat seats[PLAYERS], queue *q, int me, uint32_t now) {
    session_datagram d;
    while (post_next(seats[me].session, me, &d)) {
        event e = { 0, ARRIVAL, d.head.to, 0, NULL, 0 };
        e.at = comes(g, d.head.to, now);
        e.datagram = datagram_copy(&d.head);
        queue_push(q, e);
    }
}

static void hear(const game *g, seat seats[PLAYERS], queue *q, const event *e) {
    uint32_t now = (uint32_t)e->at;
    post_hear(seats[e->player].session, e->datagram, now);
    send_all(g, seats, q, e->player, now);
}

/* Does what is due. Returns for how many the game has begun now. */
static int poll_all(const game *g, seat seats[PLAYERS], queue *q, uint32_t now) {
    zmg_event told;
    int begun = 0;
    for (int me = 0; me < g->on->players; me++) {
        zmg_status status = zmg_session_poll(seats[me].session, now);
        must(status == ZMG_OK, "a session has memory");
        while (zmg_session_event(seats[me].session, &told) != ZMG_EVENT_NONE)
            begun += told.kind == ZMG_EVENT_BEGAN;
        send_all(g, seats, q, me, now);
    }
    return begun;
}

uint32_t lobby_pass(const game *g, seat seats[PLAYERS]) {
    event e = { 0, DUE, HOST, 0, NULL, 0 };
    queue q = { 0 };
    int begun = 0;
    host(g, &seats[HOST].session);
    for (int me = 1; me < g->on->players; me++) join(g, &seats[me].session, me);
    queue_push(&q, e);
    while (begun < g->on->players) {
        must(queue_pop(&q, &e) && e.at < PATIENCE, "the game begins");
        if (e.datagram) {
            hear(g, seats, &q, &e);
            free(e.datagram);
        } else {
            begun += poll_all(g, seats, &q, (uint32_t)e.at);
            e.at += 1;
            queue_push(&q, e);
        }
    }
    queue_clear(&q);
    return (uint32_t)e.at;
}
