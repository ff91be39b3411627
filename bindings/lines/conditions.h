/* What a game is played on: the line, the players' machines, and for how long. Words of the form
 * NAME=NUMBER/NUMBER.. set it; sim.c lists them. */
#ifndef CONDITIONS_H
#define CONDITIONS_H

enum { PLAYERS = 4, EACH = -1, NOBODY = -1 };

/* How long a tick is. All times are in milliseconds. */
#define TICK_TIME (1000.0 / 35)

/* Shares are parts of 1; as words they are given in percent. */
typedef struct conditions {
    /* window: that of the sessions, and of the limit. extra: how many earlier commands the stock
     * netcode repeats in a datagram. */
    int players, window, extra;
    /* how long a game is measured; and when, after all have run a tic */
    double seconds, warm_up;

    /* How long a datagram is on its way; and how much longer to a player of a lower number. Then
     * up to `jitter` more, drawn for each datagram; and a tail of Pareto's, by its scale and its
     * shape. In order, a datagram that is late holds up those behind it. */
    double delay, back, jitter, tail, tail_shape;
    int in_order;
    /* How many are lost, each by itself, and how many come twice; and how many are lost because
     * the line is dead for a while, which lasts so long on average. */
    double loss, repeat, burst, burst_length;
    /* what is added for all that a player sends and all that comes to it */
    double own_delay[PLAYERS], own_jitter[PLAYERS], own_loss[PLAYERS];
    /* what is added between these two */
    int pair[2];
    double pair_loss, pair_delay;
    /* nothing passes between these two */
    int cut[2];
    /* For so long nothing comes from or to a player, once in each `outage_every`; of which
     * player, or EACH at a time of its own. */
    double outage, outage_every;
    int outage_player;

    /* What a player can send, in kilobits a second, 0 for any number; and how long a datagram
     * waits for that at most, before it is dropped. */
    double uplink[PLAYERS], queue;
    /* How much longer datagrams of a player wait behind the traffic of others in its house, at
     * most. The wait rises for `traffic_every`; then what is sent is dropped for a moment, and
     * it is short again. */
    double traffic, traffic_every;
    int traffic_player;
    /* what comes from and to a player, or EACH, is held and handed over together, each so often */
    double batch;
    int batch_player;

    /* by which share a player's clock is fast */
    double drift[PLAYERS];
    /* how many frames a second its engine draws: it calls once a frame. 0 for an engine that
     * sleeps until something comes or is due. */
    double frames[PLAYERS];
    /* the engine hears once a tick, in place of whenever it calls */
    int hears_once;
    /* for so long the engine does not call, once in each `hitch_every`; of which player, or EACH */
    double hitch, hitch_every;
    int hitch_player;
    /* after running this tic a player loads a level, and does not call for so long */
    int level;
    double load[PLAYERS];
    /* in the limit alone: how much later than the others' a player's clock ticks */
    double behind[PLAYERS];
} conditions;

/* Two players at 35 tics a second, a line without delay or fault, and machines that do nothing
 * else. */
conditions conditions_plain(void);
/* Takes in a word. Returns 0 if it is none. */
int conditions_read(conditions *c, const char *word);

#endif
