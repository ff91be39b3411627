/* A game in simulated time. */
#include "game.h"
#include "chance.h"
#include <math.h>
#include <stdlib.h>
#include <string.h>

/* If not all have run a tic by then, it is measured from then on all the same. */
static const double PATIENCE = 20000;
/* how long a game goes on, so that what was pressed is run */
static const double REST = 3000;
/* what is nearer than this is one time */
static const double CLOSE = 1e-6;

static void open(game *g, const conditions *on, const netcode *net, uint64_t seed) {
    double longest = PATIENCE + on->warm_up + on->seconds * 1000 + REST;
    memset(g, 0, sizeof *g);
    g->on = on;
    g->net = net;
    g->seed = chance_mix(seed);
    g->from = g->until = g->end = INFINITY;
    line_open(&g->line, on, g->seed, longest);
    for (int p = 0; p < on->players; p++) {
        machine_open(&g->machines[p], on, p, g->seed);
        record_open(&g->records[p], (int)(longest / TICK_TIME * 2));
    }
    net->open(g);
}

/* It is measured once all have run a tic. */
static void look_for_begin(game *g) {
    for (int p = 0; p < g->on->players; p++)
        if (g->records[p].ran == 0 && g->now < PATIENCE) return;
    g->from = g->now + g->on->warm_up;
    g->until = g->from + g->on->seconds * 1000;
    g->end = g->until + REST;
}

/* What happens while the machine is not ready happens once it is. */
static void happen(game *g, event *e) {
    double ready = machine_ready(&g->machines[e->player], e->at);
    g->now = e->at;
    if (ready > e->at + CLOSE) {
        e->at = ready;
        queue_push(&g->queue, *e);
        return;
    }
    g->net->happen(g, e);
    free(e->datagram);
    if (g->from == INFINITY) look_for_begin(g);
}

void game_play(game *g, const conditions *on, const netcode *net, uint64_t seed) {
    event e;
    open(g, on, net, seed);
    while (queue_pop(&g->queue, &e)) {
        if (e.at > g->end) {
            free(e.datagram);
            break;
        }
        happen(g, &e);
    }
}

void game_close(game *g) {
    g->net->close(g);
    queue_clear(&g->queue);
    line_close(&g->line);
    for (int p = 0; p < g->on->players; p++) record_close(&g->records[p]);
}

static void push(game *g, double at, event_kind kind, int player, unsigned number, datagram *d) {
    event e;
    e.at = at;
    e.kind = kind;
    e.player = player;
    e.number = number;
    e.datagram = d;
    e.order = 0;
    queue_push(&g->queue, e);
}

void game_wait(game *g, double at, event_kind kind, int player, unsigned number) {
    push(g, machine_ready(&g->machines[player], at), kind, player, number, NULL);
}

void game_bring(game *g, double at, const datagram *d) {
    push(g, machine_ready(&g->machines[d->to], at), ARRIVAL, d->to, 0, datagram_copy(d));
}

void game_send(game *g, const datagram *d) {
    record *r = &g->records[d->from];
    sending s = { d->from, d->to, 0, g->net->is_ideal, g->now, d->length };
    int copies = line_copies(&g->line, &s);
    double comes;
    if (g->now >= g->from) {
        r->bytes += (double)(d->length + HEADERS);
        r->datagrams++;
    }
    for (; s.copy < copies; s.copy++)
        if (line_carry(&g->line, &s, &comes)) game_bring(g, comes, d);
}

int game_can_run(const game *g, int player) { return g->now >= g->machines[player].loaded; }

void game_run(game *g, int player, int tic) {
    record_run(&g->records[player], tic, g->now);
    machine_ran(&g->machines[player], tic, g->now);
}

double game_clock(const game *g, int player, double time) {
    return time * (1 + g->on->drift[player]);
}
