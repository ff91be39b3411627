/* How games went. */
#ifndef FIGURES_H
#define FIGURES_H

#include "game.h"

/* Of a player, or of all. A gap is a time of more than 100 ms between two tics. A key is pressed
 * at any time, looked at with the next tick, and felt when the tic of its command is run: at who
 * pressed it, or at the others. Times are in milliseconds. */
typedef struct figures {
    double tics;              /* a second */
    double gaps, gap_seconds; /* a minute */
    double longest;           /* the longest time between two tics */
    double key, key_99;       /* from the press, the median and 99 of a hundred */
    double others, others_99;
    double sent, datagrams;   /* kilobytes, headers included, and datagrams: a second */
    double slowest;           /* the fewest tics a second in ten seconds on end */
} figures;

/* Adds those of a game to sums, one for each player and one for all. */
void figures_add(figures players[PLAYERS], figures *all, const game *g);
/* Of so many games: means, but for the slowest. Of keys and of what is sent it is the player for
 * whom it is most, and of the longest time the mean of the games' longest. */
figures figures_mean(const figures players[PLAYERS], const figures *all, int count, int games);
void figures_print(const figures *f);

#endif
