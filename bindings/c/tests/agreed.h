/* What all players of a game must tell alike: the rows that they run, where players end, and their demos. */
#ifndef AGREED_H
#define AGREED_H

#include "engine.h"
#include "must.h"
#include <string.h>

enum { MOST_ROWS = 4096, MOST_DEMO = 13 + MOST_ROWS * 4 * 5 + 1 };

/* Of a demo: its head, where that no longer tells whose view it is, its last byte, and the bytes of a
 * command. */
enum { HEAD = 13, VIEW = 9, END_MARKER = 0x80, COMMAND = 5 };

/* The rows that some player has run, the ends that some player has told, and the longest demo that was told. */
typedef struct agreement {
    uint32_t furthest;
    zmg_row rows[MOST_ROWS];
    uint32_t ends[4];
    size_t length;
    uint8_t demo[MOST_DEMO];
} agreement;

static void begin_agreement(agreement *a) {
    a->furthest = 0;
    a->length = 0;
    for (unsigned p = 0; p < 4; p++) a->ends[p] = ZMG_NO_END;
}

/* Whoever tells a player's end tells the same. */
static void tells_end(agreement *a, unsigned player, uint32_t end) {
    if (end == ZMG_NO_END) return;
    if (a->ends[player] == ZMG_NO_END) a->ends[player] = end;
    MUST(a->ends[player] == end);
}

/* Whoever runs a tic runs the same row. It has a command of each player whose end is not known, or after the
 * tic. The ends that the player knows were told before. */
static void runs_row(agreement *a, uint32_t players, const zmg_row *row) {
    uint32_t tic = row->tic;
    MUST(tic < MOST_ROWS && tic <= a->furthest);
    if (tic == a->furthest) a->rows[a->furthest++] = *row;
    MUST(is_same_row(&a->rows[tic], row));
    for (unsigned p = 0; p < 4; p++)
        MUST(row->present[p] == (p < players && tic < a->ends[p]));
}

static int is_whole(const zmg_row *row, uint32_t players) {
    uint32_t present = 0;
    for (unsigned p = 0; p < players; p++) present += row->present[p];
    return present == players;
}

/* How many rows come before the first that lacks a player. */
static uint32_t whole_rows(const agreement *a, uint32_t players) {
    uint32_t tic = 0;
    while (tic < a->furthest && is_whole(&a->rows[tic], players)) tic++;
    return tic;
}

/* The demo of a player who has played has the rows that it ran up to the first that lacks a player, and its
 * marker where it ran that one or has ended; and of any two demos one's rows are a prefix of the other's. */
static void tells_demo(agreement *a, uint32_t players, uint32_t ran, int has_ended, const uint8_t *demo,
    size_t length) {
    uint32_t whole = whole_rows(a, players);
    int is_closed = has_ended || ran > whole;
    size_t rows = HEAD + (size_t)(ran < whole ? ran : whole) * players * COMMAND;
    size_t shorter = rows < a->length ? rows : a->length;
    MUST(length == rows + (size_t)is_closed && length <= MOST_DEMO);
    if (is_closed) MUST(demo[rows] == END_MARKER);
    if (shorter) MUST(memcmp(a->demo + VIEW, demo + VIEW, shorter - VIEW) == 0);
    if (rows <= a->length) return;
    memcpy(a->demo, demo, rows);
    a->length = rows;
}

#endif
