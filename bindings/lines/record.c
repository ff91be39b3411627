/* What is noted of a player. */
#include "record.h"
#include "must.h"
#include <stdlib.h>
#include <string.h>

void record_open(record *r, int most) {
    memset(r, 0, sizeof *r);
    r->tics = r->ticks = most;
    r->ran_at = must_get((size_t)most * sizeof *r->ran_at);
    r->ticked_at = must_get((size_t)most * sizeof *r->ticked_at);
    r->command_of = must_get((size_t)most * sizeof *r->command_of);
    for (int tic = 0; tic < most; tic++) r->ran_at[tic] = NONE_YET;
}

void record_close(record *r) {
    free(r->ran_at);
    free(r->ticked_at);
    free(r->command_of);
}

void record_tick(record *r, double now) {
    if (r->ticked == r->ticks) return;
    r->ticked_at[r->ticked] = now;
    r->command_of[r->ticked++] = NONE_YET;
}

void record_command(record *r, int tic) {
    for (; r->built < r->ticked; r->built++) r->command_of[r->built] = tic;
}

void record_run(record *r, int tic, double now) {
    if (tic < r->tics) r->ran_at[tic] = now;
    r->ran = tic + 1;
}
