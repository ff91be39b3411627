/* The server of the stock netcode, on player 0's machine. */
#include "stock.h"
#include <string.h>

/* It sends a player no command that is further ahead of what all have, and keeps so many for who
 * asks. */
enum { AHEAD = 40, KEPT = 60 };
/* A player of whom no command came for so long is asked for some, and sent again what it may
 * lack. */
enum { ASKED = 6 };
static const double SILENCE = 1000;

/* What the server has of a client, and has sent to it. */
typedef struct seat {
    awaited own;
    double latency[RING]; /* as it told with a tic */
    double slowest[RING]; /* the greatest of the others, as the client was told with a tic */
    int next, seen;       /* the next tic that it is sent; the first that it has not seen */
    double heard_at;
} seat;

static seat seats[PLAYERS];

void server_open(void) { memset(seats, 0, sizeof seats); }

static stock_datagram to_client(int to, stock_kind kind, tics t) {
    stock_datagram d;
    memset(&d, 0, sizeof d);
    d.head.from = SERVER;
    d.head.to = to;
    d.kind = kind;
    d.from_server = 1;
    d.tics = t;
    return d;
}

/* With the greatest latency of the others, by which the client slows its clock down. */
static void send_commands(game *g, int to, tics t) {
    stock_datagram d;
    if (t.first < 0) t.first = 0;
    if (t.first > t.last) return;
    d = to_client(to, COMMANDS, t);
    d.latency = seats[to].slowest[t.last % RING];
    stock_send(g, &d);
}

static void ask_for(game *g, int to, tics t) {
    stock_datagram d = to_client(to, AGAIN, t);
    if (t.first <= t.last) stock_send(g, &d);
}

static int all_have_seen(const game *g) {
    int least = seats[0].seen;
    for (int p = 1; p < g->on->players; p++)
        if (seats[p].seen < least) least = seats[p].seen;
    return least;
}

/* What all have seen and the server has of all is not kept. */
static void forget(const game *g, int seen) {
    while (seats[0].own.first < seen) {
        for (int p = 0; p < g->on->players; p++)
            if (!awaited_has(&seats[p].own, seats[p].own.first)) return;
        for (int p = 0; p < g->on->players; p++) awaited_pass(&seats[p].own);
    }
}

/* Whether the server has the tic of all others of a player; and then the greatest of their
 * latencies. */
static int is_ready(const game *g, int to, int tic, double *slowest) {
    *slowest = 0;
    for (int p = 0; p < g->on->players; p++) {
        if (p == to) continue;
        if (!awaited_has(&seats[p].own, tic)) return 0;
        if (seats[p].latency[tic % RING] > *slowest) *slowest = seats[p].latency[tic % RING];
    }
    return 1;
}

/* Sends each player what there is for it. */
static void send_all(game *g) {
    int seen = all_have_seen(g);
    forget(g, seen);
    for (int to = 0; to < g->on->players; to++) {
        seat *s = &seats[to];
        double slowest;
        while (s->next - seen <= AHEAD && is_ready(g, to, s->next, &slowest)) {
            tics t = { s->next - g->on->extra, s->next };
            s->slowest[s->next % RING] = slowest;
            send_commands(g, to, t);
            s->next++;
        }
    }
}

static tics first_missing(const awaited *a) {
    tics t = { a->first, 0 };
    while (t.first < a->first + RING && awaited_has(a, t.first)) t.first++;
    t.last = t.first + ASKED - 1;
    return t;
}

/* Who has become silent may wait for what got lost, and so may the server. */
static void break_silence(game *g, int player) {
    seat *s = &seats[player];
    tics missing = first_missing(&s->own), sent = { s->seen, s->next - 1 };
    if (g->now - s->heard_at <= SILENCE || missing.first == s->own.first + RING) return;
    ask_for(g, player, missing);
    awaited_ask(&s->own, missing, g->now);
    s->heard_at = g->now;
    send_commands(g, player, sent);
}

void server_update(game *g) {
    for (int p = 0; p < g->on->players; p++) {
        awaited *own = &seats[p].own;
        int end = own->first + RING;
        for (tics t = { own->first, 0 }; t.first < end; t.first = t.last + 1) {
            t = awaited_overdue(own, t.first, g->now);
            ask_for(g, p, t);
        }
        break_silence(g, p);
    }
    send_all(g);
}

static void send_again(game *g, int to, tics t) {
    if (t.last >= seats[to].next) t.last = seats[to].next - 1;
    if (t.first < seats[to].own.first - KEPT) t.first = seats[to].own.first - KEPT;
    if (t.first <= t.last) send_commands(g, to, t);
}

static void note_seen(int player, int seen) {
    if (seen > seats[player].seen) seats[player].seen = seen;
}

static void take(game *g, int from, const stock_datagram *d) {
    seat *s = &seats[from];
    s->heard_at = g->now;
    awaited_take(&s->own, d->tics);
    for (int tic = d->tics.first; tic <= d->tics.last; tic++)
        if (awaited_has(&s->own, tic)) s->latency[tic % RING] = d->latency;
    ask_for(g, from, awaited_missing(&s->own, d->tics, g->now));
}

void server_hear(game *g, const stock_datagram *d) {
    int from = d->head.from;
    if (d->kind == AGAIN) {
        send_again(g, from, d->tics);
        return;
    }
    note_seen(from, d->seen);
    if (d->kind == COMMANDS) take(g, from, d);
    send_all(g);
}
