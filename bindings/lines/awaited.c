/* The commands that one end of the stock netcode awaits from another. */
#include "awaited.h"

/* after so long it asks again */
static const double PATIENCE = 300;

static int is_in(const awaited *a, int tic) { return tic >= a->first && tic < a->first + RING; }

int awaited_has(const awaited *a, int tic) { return is_in(a, tic) && a->has[tic % RING]; }

void awaited_take(awaited *a, tics came) {
    for (int tic = came.first; tic <= came.last; tic++)
        if (is_in(a, tic)) a->has[tic % RING] = 1;
}

void awaited_pass(awaited *a) {
    int k = a->first++ % RING;
    a->has[k] = 0;
    a->asked_for -= a->asked[k] > 0;
    a->asked[k] = 0;
}

void awaited_ask(awaited *a, tics missing, double now) {
    for (int tic = missing.first; tic <= missing.last; tic++) {
        if (!is_in(a, tic)) continue;
        a->asked_for += a->asked[tic % RING] == 0;
        a->asked[tic % RING] = now;
    }
}

tics awaited_missing(awaited *a, tics came, double now) {
    tics missing = { came.first, came.first - 1 };
    if (missing.last >= a->first + RING - 1) missing.last = a->first + RING - 2;
    missing.first = missing.last + 1;
    while (missing.first > a->first) {
        int before = (missing.first - 1) % RING;
        if (a->has[before] || a->asked[before] > 0) break;
        missing.first--;
    }
    awaited_ask(a, missing, now);
    return missing;
}

static int is_overdue(const awaited *a, int tic, double now) {
    int k = tic % RING;
    return is_in(a, tic) && !a->has[k] && a->asked[k] > 0 && now > a->asked[k] + PATIENCE;
}

tics awaited_overdue(awaited *a, int from, double now) {
    tics overdue = { from, from - 1 };
    if (a->asked_for == 0) overdue.first = a->first + RING;
    while (is_in(a, overdue.first) && !is_overdue(a, overdue.first, now)) overdue.first++;
    overdue.last = overdue.first - 1;
    while (is_overdue(a, overdue.last + 1, now)) overdue.last++;
    awaited_ask(a, overdue, now);
    return overdue;
}
