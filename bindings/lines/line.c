/* The line between players. */
#include "line.h"
#include "chance.h"
#include <math.h>
#include <string.h>

/* The fate of a datagram is drawn anew each eighth of a millisecond; in order, the delay each
 * 28.6 ms. */
static const double DRAWS = 8, ORDER_STEP = 28.5714;
/* a delay of the tail is no longer */
static const double TAIL_MOST = 1000;
/* how long others' traffic drops what is sent, at its most; and how much its wait rises */
static const double TRAFFIC_DROPS = 60, TRAFFIC_LEAST = 0.3;
/* A socket is read a moment later: from so long to so much longer. */
static const double READING_LEAST = 0.3, READING_MORE = 0.7;
/* of a batch, who came last is handed over first */
static const double REVERSAL = 1e-3;

void line_open(line *l, const conditions *on, uint64_t seed, double until) {
    memset(l, 0, sizeof *l);
    l->on = on;
    l->seed = seed;
    for (int i = 0; i < PLAYERS; i++)
        for (int j = 0; j < PLAYERS; j++) {
            uint64_t mixed = chance_mix(seed * 31 + (uint64_t)(i * 7 + j) + 99);
            bursts_draw(&l->bursts[i][j], mixed, on->burst, on->burst_length, until);
        }
}

void line_close(line *l) {
    for (int i = 0; i < PLAYERS; i++)
        for (int j = 0; j < PLAYERS; j++) bursts_free(&l->bursts[i][j]);
}

static uint64_t way_of(const sending *s) { return (uint64_t)(s->from * 8 + s->to); }

static uint64_t moment_of(const sending *s) {
    return (uint64_t)floor(s->time * DRAWS) + (uint64_t)s->copy * 7919;
}

static double draw(const line *l, topic about, const sending *s) {
    return chance(l->seed, about, way_of(s), moment_of(s), 0);
}

static int is_between(const sending *s, const int pair[2]) {
    return (s->from == pair[0] && s->to == pair[1]) || (s->from == pair[1] && s->to == pair[0]);
}

static int is_of(int player, int whose) { return whose == EACH || whose == player; }

/* ---- Whether it is lost ---- */

static int is_out(const line *l, int player, double time) {
    const conditions *on = l->on;
    double phase;
    if (on->outage_every <= 0 || !is_of(player, on->outage_player)) return 0;
    phase = chance(l->seed, OUTAGE, (uint64_t)player, 1, 0) * on->outage_every;
    return fmod(time - phase + on->outage_every * 1000, on->outage_every) < on->outage;
}

static int is_lost(const line *l, const sending *s) {
    const conditions *on = l->on;
    double loss = 1 - (1 - on->loss) * (1 - on->own_loss[s->from]) * (1 - on->own_loss[s->to]);
    if (is_between(s, on->cut)) return 1;
    if (is_out(l, s->from, s->time) || is_out(l, s->to, s->time)) return 1;
    if (bursts_have(&l->bursts[s->from][s->to], s->time)) return 1;
    if (is_between(s, on->pair)) loss = 1 - (1 - loss) * (1 - on->pair_loss);
    return draw(l, LOSS, s) < loss;
}

/* ---- How long it is on its way ---- */

/* What is drawn of a delay, for the way and what the two numbers name. */
static double drawn_delay(const line *l, const sending *s, uint64_t moment, uint64_t kind) {
    const conditions *on = l->on;
    double jitter = on->jitter + on->own_jitter[s->from] + on->own_jitter[s->to];
    double more = chance(l->seed, JITTER, way_of(s), moment, kind) * jitter, tail;
    if (on->tail <= 0) return more;
    tail = chance(l->seed, TAIL, way_of(s), moment, kind);
    tail = on->tail * (pow(1 - tail, -1 / on->tail_shape) - 1);
    return more + (tail > TAIL_MOST ? TAIL_MOST : tail);
}

/* A delay as a function of time that keeps the order: what was drawn at the last steps is waited
 * out. */
static double ordered_delay(const line *l, const sending *s) {
    enum { STEPS = 60 };
    long last = (long)floor(s->time / ORDER_STEP);
    double most = 0;
    for (long k = last; k > last - STEPS && k >= 0; k--) {
        double left = drawn_delay(l, s, (uint64_t)k, 7) - (s->time - (double)k * ORDER_STEP);
        if (left > most) most = left;
    }
    return most;
}

static double delay_of(const line *l, const sending *s) {
    const conditions *on = l->on;
    double delay = on->delay + (s->from > s->to ? on->back : 0);
    delay += on->own_delay[s->from] + on->own_delay[s->to];
    if (is_between(s, on->pair)) delay += on->pair_delay;
    return delay + (on->in_order ? ordered_delay(l, s) : drawn_delay(l, s, moment_of(s), 0));
}

/* ---- What it waits for ---- */

/* When it has left the uplink; 0 if the queue is too long. */
static int leave_uplink(line *l, const sending *s, double *leaves) {
    double rate = l->on->uplink[s->from], *end = &l->uplink_free[s->from];
    if (rate <= 0) return 1;
    if (*end < s->time) *end = s->time;
    if (*end - s->time > l->on->queue) return 0;
    *end += (double)(s->length + HEADERS) * 8 / rate;
    *leaves = *end;
    return 1;
}

/* The same, of the traffic of others. */
static int pass_traffic(const line *l, const sending *s, double *leaves) {
    const conditions *on = l->on;
    double at, every = on->traffic_every;
    if (on->traffic <= 0 || !is_of(s->from, on->traffic_player)) return 1;
    at = fmod(s->time + chance(l->seed, TRAFFIC, 1, 1, 1) * every, every);
    if (at > every - TRAFFIC_DROPS) return 0;
    *leaves += on->traffic * (TRAFFIC_LEAST + (1 - TRAFFIC_LEAST) * (at / every));
    return 1;
}

/* When what comes at a time is handed over, where datagrams from or to a player are held. */
static double handed_over(const line *l, int player, int as_receiver, double comes) {
    double every = l->on->batch, phase, next;
    if (every <= 0 || !is_of(player, l->on->batch_player)) return comes;
    phase = chance(l->seed, BATCH, (uint64_t)player, (uint64_t)as_receiver, 0) * every;
    next = phase + ceil((comes - phase) / every) * every;
    return next + (next - comes) * REVERSAL;
}

int line_copies(const line *l, const sending *s) {
    return 1 + (l->on->repeat > 0 && draw(l, REPEAT, s) < l->on->repeat);
}

int line_carry(line *l, const sending *s, double *comes) {
    double leaves = s->time;
    if (is_lost(l, s)) return 0;
    if (!s->free && !leave_uplink(l, s, &leaves)) return 0;
    if (!pass_traffic(l, s, &leaves)) return 0;
    *comes = leaves + delay_of(l, s) + READING_LEAST + draw(l, READING, s) * READING_MORE;
    *comes = handed_over(l, s->from, 0, *comes);
    *comes = handed_over(l, s->to, 1, *comes);
    return 1;
}
