/* How games went. */
#include "figures.h"
#include "must.h"
#include <stdio.h>
#include <stdlib.h>

static const double GAP = 100;
/* keys are pressed so often, to measure */
static const double PRESS = 5;
static const double TEN_SECONDS = 10000, JUST_AFTER = 1e-9;

typedef struct times {
    double *all;
    size_t count;
} times;

static int compare(const void *a, const void *b) {
    double x = *(const double *)a, y = *(const double *)b;
    return (x > y) - (x < y);
}

/* Of so many the one below which this part lies. */
static double at_part(const times *t, double part) {
    return t->count ? t->all[(size_t)((double)t->count * part)] : 0;
}

static double greater(double a, double b) { return a > b ? a : b; }

/* ---- Tics ---- */

static void note_gap(figures *f, double gap) {
    f->longest = greater(f->longest, gap);
    if (gap <= GAP) return;
    f->gaps++;
    f->gap_seconds += gap / 1000;
}

/* Tics and gaps of what was run in the time that is measured. */
static void add_tics(figures *f, const game *g, const record *r) {
    double last = g->from;
    for (int tic = 0; tic < r->ran && tic < r->tics; tic++) {
        if (r->ran_at[tic] < g->from) continue;
        if (r->ran_at[tic] > g->until) break;
        note_gap(f, r->ran_at[tic] - last);
        last = r->ran_at[tic];
        f->tics++;
    }
    note_gap(f, g->until - last);
}

/* The fewest tics a second in ten seconds on end: those that begin with the measuring, and those
 * that begin behind a tic. */
static double slowest_of(const game *g, const record *r) {
    double length = g->until - g->from < TEN_SECONDS ? g->until - g->from : TEN_SECONDS;
    double from = g->from;
    int run = r->ran < r->tics ? r->ran : r->tics, first = 0, end = 0, fewest = run;
    while (first < run && r->ran_at[first] < from) first++;
    while (from + length <= g->until) {
        while (end < run && r->ran_at[end] < from + length) end++;
        if (end - first < fewest) fewest = end - first;
        if (first == run) break;
        from = r->ran_at[first++] + JUST_AFTER;
    }
    return fewest * 1000 / length;
}

/* ---- Keys ---- */

/* How long after this time the player ran the command of the presser's tick; if it did not, the
 * rest of the game. */
static double felt_after(const game *g, int presser, int tick, int player, double time) {
    int command = g->records[presser].command_of[tick];
    const record *r = &g->records[player];
    if (command < 0 || command >= r->tics || r->ran_at[command] < 0) return g->end - time;
    return r->ran_at[command] - time;
}

/* The times of all presses of a player, at itself or at the others; the caller frees them. */
static times felt(const game *g, int presser, int at_itself) {
    const record *r = &g->records[presser];
    size_t presses = (size_t)((g->until - g->from) / PRESS) + 2;
    times t = { must_get(presses * PLAYERS * sizeof *t.all), 0 };
    int tick = 0;
    for (double time = g->from; time < g->until; time += PRESS) {
        while (tick < r->ticked && r->ticked_at[tick] < time) tick++;
        if (tick == r->ticked) break;
        for (int player = 0; player < g->on->players; player++)
            if ((player == presser) == at_itself)
                t.all[t.count++] = felt_after(g, presser, tick, player, time);
    }
    qsort(t.all, t.count, sizeof *t.all, compare);
    return t;
}

static void add_keys(figures *f, const game *g, int player) {
    times own = felt(g, player, 1), others = felt(g, player, 0);
    f->key += at_part(&own, 0.5);
    f->key_99 += at_part(&own, 0.99);
    f->others += at_part(&others, 0.5);
    f->others_99 += at_part(&others, 0.99);
    free(own.all);
    free(others.all);
}

/* ---- All ---- */

void figures_add(figures players[PLAYERS], figures *all, const game *g) {
    double longest = 0, seconds = (g->end - g->from) / 1000;
    for (int p = 0; p < g->on->players; p++) {
        const record *r = &g->records[p];
        figures tics = { 0 };
        double slowest = slowest_of(g, r);
        add_tics(&tics, g, r);
        all->tics += tics.tics / g->on->seconds;
        all->gaps += tics.gaps * 60 / g->on->seconds;
        all->gap_seconds += tics.gap_seconds * 60 / g->on->seconds;
        all->datagrams += r->datagrams / seconds;
        if (all->slowest == 0 || slowest < all->slowest) all->slowest = slowest;
        longest = greater(longest, tics.longest);
        players[p].sent += r->bytes / 1000 / seconds;
        add_keys(&players[p], g, p);
    }
    all->longest += longest;
}

figures figures_mean(const figures players[PLAYERS], const figures *all, int count, int games) {
    figures f = *all;
    f.tics /= count * games;
    f.gaps /= count * games;
    f.gap_seconds /= count * games;
    f.datagrams /= count * games;
    f.longest /= games;
    for (int p = 0; p < count; p++) {
        f.key = greater(f.key, players[p].key / games);
        f.key_99 = greater(f.key_99, players[p].key_99 / games);
        f.others = greater(f.others, players[p].others / games);
        f.others_99 = greater(f.others_99, players[p].others_99 / games);
        f.sent = greater(f.sent, players[p].sent / games);
    }
    return f;
}

void figures_print(const figures *f) {
    printf("tics %.2f gaps %.1f gap-seconds %.2f", f->tics, f->gaps, f->gap_seconds);
    printf(" longest %.0f key %.0f key-99 %.0f", f->longest, f->key, f->key_99);
    printf(" others %.0f others-99 %.0f", f->others, f->others_99);
    printf(" sent %.2f datagrams %.0f slowest %.1f\n", f->sent, f->datagrams, f->slowest);
}
