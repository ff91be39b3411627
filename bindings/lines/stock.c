/* The stock netcode: what its players do with events, and its datagrams. */
#include "chance.h"
#include "stock.h"

/* An engine that waits for a tic looks for datagrams each millisecond. */
static const double POLL = 1;
/* how long a datagram takes from a program to another of the same machine */
static const double LOCAL = 0.2;

static size_t length_of(const game *g, const stock_datagram *d) {
    size_t count = (size_t)(d->tics.last - d->tics.first + 1);
    size_t others = (size_t)g->on->players - 1;
    switch (d->kind) {
    case COMMANDS: return 6 + count * (d->from_server ? 2 + others * 5 : 5);
    case AGAIN: return 8;
    default: return 4;
    }
}

void stock_send(game *g, stock_datagram *d) {
    d->head.size = sizeof *d;
    d->head.length = length_of(g, d);
    if (d->head.from == d->head.to) game_bring(g, g->now + LOCAL, &d->head);
    else game_send(g, &d->head);
}

static void open(game *g) {
    server_open();
    for (int me = 0; me < g->on->players; me++) {
        client_open(g, me);
        game_wait(g, POLL + chance(g->seed, PHASE, (uint64_t)me, 0, 0), DUE, me, 0);
    }
}

static void update(game *g, int me) {
    client_update(g, me);
    if (me == SERVER) server_update(g);
    game_wait(g, g->now + POLL, DUE, me, 0);
}

static void happen(game *g, const event *e) {
    const stock_datagram *d = (const void *)e->datagram;
    if (!d) update(g, e->player);
    else if (d->from_server) client_hear(g, e->player, d);
    else server_hear(g, d);
}

static void close(game *g) { (void)g; }

const netcode STOCK = { "stock", 0, open, happen, close };
