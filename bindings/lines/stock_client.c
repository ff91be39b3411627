/* A client of the stock netcode. */
#include "stock.h"
#include <math.h>
#include <string.h>

/* It builds no command that is further ahead of the tics that it ran, and makes up for so many
 * missed ticks. */
enum { AHEAD = 8, MISSED = 50 };
/* So long after commands came it says so, if nothing else did. */
static const double SAY_SEEN = 200;

typedef struct client {
    int made, ran;
    double last_tick; /* how many ticks its clock had when it last looked */
    /* when it sent the command of a tic, and of which tic that is */
    double sent_at[RING];
    int sent[RING];
    awaited others;
    double heard_at;
    int owes_seen;
    /* of its clock, which it keeps in step with the slowest player's */
    double offset, sum, last_error, latency;
} client;

static client clients[PLAYERS];

static double clock_of(const game *g, int me) { return game_clock(g, me, g->now); }

void client_open(game *g, int me) {
    (void)g;
    memset(&clients[me], 0, sizeof clients[me]);
    for (int k = 0; k < RING; k++) clients[me].sent[k] = NONE_YET;
}

/* ---- What it sends ---- */

static stock_datagram to_server(int me, stock_kind kind) {
    stock_datagram d;
    memset(&d, 0, sizeof d);
    d.head.from = me;
    d.head.to = SERVER;
    d.kind = kind;
    d.seen = clients[me].others.first;
    d.latency = clients[me].latency;
    return d;
}

static void send_commands(game *g, int me, tics t) {
    stock_datagram d = to_server(me, COMMANDS);
    d.tics = t;
    if (d.tics.first < 0) d.tics.first = 0;
    stock_send(g, &d);
}

static void ask_for(game *g, int me, tics t) {
    stock_datagram d = to_server(me, AGAIN);
    d.tics = t;
    if (t.first <= t.last) stock_send(g, &d);
}

static void say_seen(game *g, int me) {
    stock_datagram d = to_server(me, SEEN);
    stock_send(g, &d);
}

/* ---- What it does all the time ---- */

/* Builds the command of a tick. Returns 0 if it is too far ahead. */
static int build(game *g, int me) {
    client *c = &clients[me];
    tics t = { c->made - g->on->extra, c->made };
    record_tick(&g->records[me], g->now);
    if (c->made - c->ran > AHEAD) return 0;
    c->sent_at[c->made % RING] = clock_of(g, me);
    c->sent[c->made % RING] = c->made;
    record_command(&g->records[me], c->made);
    send_commands(g, me, t);
    c->made++;
    return 1;
}

static void build_all(game *g, int me) {
    client *c = &clients[me];
    double tick = floor((clock_of(g, me) + c->offset) * 35 / 1000);
    int passed = (int)(tick - c->last_tick);
    if (passed < 0) return;
    c->last_tick = tick;
    if (passed > MISSED) passed = MISSED;
    while (passed-- && build(g, me)) continue;
}

static void run_all(game *g, int me) {
    client *c = &clients[me];
    int ready = c->made < c->others.first ? c->made : c->others.first;
    while (c->ran < ready && game_can_run(g, me)) game_run(g, me, c->ran++);
}

static void go_on(game *g, int me) {
    client *c = &clients[me];
    int end = c->others.first + RING;
    build_all(g, me);
    for (tics t = { c->others.first, 0 }; t.first < end; t.first = t.last + 1) {
        t = awaited_overdue(&c->others, t.first, g->now);
        ask_for(g, me, t);
    }
    if (c->owes_seen && g->now - c->heard_at > SAY_SEEN) {
        say_seen(g, me);
        c->owes_seen = 0;
    }
    run_all(g, me);
}

void client_update(game *g, int me) {
    /* its clock begins */
    if (clients[me].last_tick == 0) clients[me].last_tick = floor(clock_of(g, me) * 35 / 1000);
    go_on(g, me);
}

/* ---- What it hears ---- */

static int is_kept(const client *c, int tic) { return tic < c->made && c->sent[tic % RING] == tic; }

/* The server asks for commands again: what is kept between the first and the last that is. */
static void send_again(game *g, int me, tics t) {
    const client *c = &clients[me];
    while (t.first <= t.last && !is_kept(c, t.first)) t.first++;
    while (t.last >= t.first && !is_kept(c, t.last)) t.last--;
    if (t.first <= t.last) send_commands(g, me, t);
}

/* The commands of the others came for a tic, after a time that is compared with that of the
 * slowest of them. */
static void follow_clock(game *g, int me, int tic, double slowest) {
    client *c = &clients[me];
    double error;
    if (is_kept(c, tic)) c->latency = clock_of(g, me) - c->sent_at[tic % RING];
    else if (tic >= c->made) c->latency = 0;
    else return;
    error = c->latency - slowest;
    c->sum += error;
    c->offset = 0.1 * error - 0.01 * c->sum + 0.02 * (c->last_error - error);
    c->last_error = error;
}

static void take(game *g, int me, const stock_datagram *d) {
    client *c = &clients[me];
    c->heard_at = g->now;
    c->owes_seen = 1;
    awaited_take(&c->others, d->tics);
    if (awaited_has(&c->others, d->tics.last)) follow_clock(g, me, d->tics.last, d->latency);
    ask_for(g, me, awaited_missing(&c->others, d->tics, g->now));
    while (awaited_has(&c->others, c->others.first)) awaited_pass(&c->others);
}

void client_hear(game *g, int me, const stock_datagram *d) {
    if (d->kind == AGAIN) send_again(g, me, d->tics);
    else take(g, me, d);
    go_on(g, me);
}
