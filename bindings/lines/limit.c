/* The limit: what the best of all lockstep games could do on the line. Four times a tick each
 * player tells each other one all commands of all players that it has, by datagrams that need no
 * uplink, and all clocks agree. So its tics and gaps are a limit. Its keys are one too, but for
 * some time after a standstill: its players stay as far ahead of each other as they came to be. */
#include "game.h"
#include <string.h>

/* how often a tick it sends, the tick itself counted in */
enum { SENDS = 4 };
/* so many ticks that were missed are made up for */
enum { MISSED = 8 };

/* has: how many commands of each player it has; of its own, has made. came: how many have come, and
 * are heard when its engine hears. next: when its clock ticks. */
typedef struct player {
    int ran, owes, has[PLAYERS], came[PLAYERS];
    double next;
} player;

/* what the sender has */
typedef struct telling {
    datagram head;
    int has[PLAYERS];
} telling;

static player players[PLAYERS];

static void open(game *g) {
    memset(players, 0, sizeof players);
    for (int me = 0; me < g->on->players; me++) {
        players[me].next = BEGIN_TIME + g->on->behind[me];
        game_wait(g, players[me].next, TICK, me, 0);
    }
}

static void send_all(game *g, int me) {
    telling t;
    memset(&t, 0, sizeof t);
    t.head.from = me;
    t.head.size = sizeof t;
    memcpy(t.has, players[me].has, sizeof t.has);
    for (int to = 0; to < g->on->players; to++) {
        t.head.to = to;
        if (to != me) game_send(g, &t.head);
    }
}

static int make(game *g, int me) {
    player *p = &players[me];
    if (p->has[me] - p->ran >= g->on->window) return 0;
    record_command(&g->records[me], p->has[me]++);
    return 1;
}

static int catch_up(game *g, int me) {
    player *p = &players[me];
    if (!p->owes || !make(g, me)) return 0;
    p->owes = 0;
    return 1;
}

static int is_next_here(const game *g, const player *p) {
    for (int q = 0; q < g->on->players; q++)
        if (p->has[q] <= p->ran) return 0;
    return 1;
}

static void run_all(game *g, int me) {
    player *p = &players[me];
    while (game_can_run(g, me) && is_next_here(g, p)) game_run(g, me, p->ran++);
}

/* Runs what it can, and makes what it owes, as long as one lets it do the other. */
static void go_on(game *g, int me) {
    run_all(g, me);
    while (catch_up(g, me)) {
        send_all(g, me);
        run_all(g, me);
    }
}

static void hear(const game *g, int me) {
    player *p = &players[me];
    for (int q = 0; q < g->on->players; q++)
        if (q != me && p->came[q] > p->has[q]) p->has[q] = p->came[q];
}

static void tick(game *g, int me) {
    player *p = &players[me];
    double due = p->next;
    hear(g, me);
    record_tick(&g->records[me], g->now);
    catch_up(g, me);
    p->owes = !make(g, me);
    p->next = due + TICK_TIME;
    send_all(g, me);
    go_on(g, me);
    if (p->next < g->now - MISSED * TICK_TIME) p->next = g->now;
    for (int k = 1; k < SENDS; k++) {
        double at = due + TICK_TIME * k / SENDS;
        game_wait(g, at > g->now ? at : g->now, DUE, me, 0);
    }
    game_wait(g, p->next, TICK, me, 0);
}

static void arrive(game *g, int me, const telling *t) {
    player *p = &players[me];
    for (int q = 0; q < g->on->players; q++)
        if (t->has[q] > p->came[q]) p->came[q] = t->has[q];
    if (g->on->hears_once) return;
    hear(g, me);
    go_on(g, me);
}

static void happen(game *g, const event *e) {
    if (e->kind == ARRIVAL) arrive(g, e->player, (const void *)e->datagram);
    else if (e->kind == TICK) tick(g, e->player);
    else send_all(g, e->player);
}

static void close(game *g) { (void)g; }

const netcode LIMIT = { "limit", 1, open, happen, close };
