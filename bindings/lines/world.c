/* The worlds of the players. */
#include "world.h"
#include "must.h"
#include <stdlib.h>

/* The rows of all tics that some player ran. */
static zmg_row *rows;
static uint32_t count, places;

void worlds_open(uint32_t most) {
    rows = must_get(most * sizeof *rows);
    count = 0;
    places = most;
}

void worlds_close(void) {
    free(rows);
    rows = NULL;
}

void world_begin(world *w) { w->sum = 1; }

static int is_same(const zmg_row *a, const zmg_row *b, int p) {
    const zmg_command *x = &a->commands[p], *y = &b->commands[p];
    return a->present[p] == b->present[p] && x->turn == y->turn && x->forward == y->forward
        && x->side == y->side && x->chat == y->chat && x->buttons == y->buttons;
}

/* Notes the row of a new tic, and compares that of one that another player has run. */
static void compare(const zmg_row *row) {
    must(row->tic < places && row->tic <= count, "tics are run in their order");
    if (row->tic == count) rows[count++] = *row;
    for (int p = 0; p < 4; p++) must(is_same(&rows[row->tic], row, p), "all run the same rows");
}

static uint32_t stepped(uint32_t sum, const zmg_command *c, uint32_t present) {
    sum = sum * 31 + (uint16_t)c->turn;
    sum = sum * 31 + (uint8_t)c->forward;
    sum = sum * 31 + (uint8_t)c->side;
    return sum * 31 + c->buttons + present;
}

void world_step(world *w, const zmg_row *row) {
    compare(row);
    for (int p = 0; p < 4; p++) w->sum = stepped(w->sum, &row->commands[p], row->present[p]);
}

void world_marks(const world *w, int16_t marks[4]) {
    for (uint32_t p = 0; p < 4; p++) marks[p] = (int16_t)(uint16_t)((w->sum + p * 40503) >> 8);
}
