/* A game in simulated time. */
#ifndef GAME_H
#define GAME_H

#include "conditions.h"
#include "line.h"
#include "machine.h"
#include "queue.h"
#include "record.h"

/* when the clocks of a game begin */
#define BEGIN_TIME (10 * TICK_TIME)

struct game;

/* A netcode: how its players begin, and what they do when something happens to one of them,
 * whose machine is ready then. The event's datagram stays the game's. is_ideal: datagrams need
 * no uplink. */
typedef struct netcode {
    const char *name;
    int is_ideal;
    void (*open)(struct game *g);
    void (*happen)(struct game *g, const event *e);
    void (*close)(struct game *g);
} netcode;
extern const netcode LIMIT, STOCK, SESSIONS;

typedef struct game {
    const conditions *on;
    const netcode *net;
    uint64_t seed;
    double now;
    /* From when on it is measured, and until when, and the end of the game. All are later than
     * any time until all have run a tic. */
    double from, until, end;
    queue queue;
    line line;
    machine machines[PLAYERS];
    record records[PLAYERS];
} game;

/* Plays a game to its end. Then it is looked at, and closed. */
void game_play(game *g, const conditions *on, const netcode *net, uint64_t seed);
void game_close(game *g);

/* ---- For players ---- */

/* Something will happen to a player at this time, or as soon as its machine is ready then. */
void game_wait(game *g, double at, event_kind kind, int player, unsigned number);
/* A datagram comes to a player at this time, by no line. Copies it. */
void game_bring(game *g, double at, const datagram *d);
/* A datagram goes on the line. Copies it. */
void game_send(game *g, const datagram *d);
/* The player runs a tic, if its machine does not load a level. */
int game_can_run(const game *g, int player);
void game_run(game *g, int player, int tic);
/* How far the player's clock goes in such a time. */
double game_clock(const game *g, int player, double time);

#endif
