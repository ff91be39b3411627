/* What is noted of a player: when it ticked, which command that made, when it ran each tic, what
 * it sent. */
#ifndef RECORD_H
#define RECORD_H

#include <stddef.h>

enum { NONE_YET = -1 };

typedef struct record {
    /* by tics: when it was run, or NONE_YET */
    double *ran_at;
    int tics, ran;
    /* by ticks: when it was, and the command that has its input, or NONE_YET */
    double *ticked_at;
    int *command_of;
    int ticks, ticked, built;
    /* since the measuring began, headers included */
    double bytes, datagrams;
} record;

/* For so many tics and ticks. What is beyond is not noted. */
void record_open(record *r, int most);
void record_close(record *r);
/* The player's keys are looked at. */
void record_tick(record *r, double now);
/* A command is made: it has the input of all ticks since the one before. */
void record_command(record *r, int tic);
void record_run(record *r, int tic, double now);

#endif
