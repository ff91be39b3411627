/* What is to happen in simulated time, in its order. */
#ifndef QUEUE_H
#define QUEUE_H

#include <stddef.h>
#include <stdint.h>

/* A datagram comes, a player's clock ticks, or something is due. Of what happens at one time
 * datagrams are first, and then what was pushed first. */
typedef enum event_kind { ARRIVAL, TICK, DUE } event_kind;

/* What is sent. Each kind of player has its own kind of datagram, which begins with this one.
 * size: of that, in memory. length: on the line. */
typedef struct datagram {
    int from, to;
    size_t size, length;
} datagram;

/* number: the player's own. datagram: memory that whoever takes the event frees; or NULL. order:
 * the queue's own. */
typedef struct event {
    double at;
    event_kind kind;
    int player;
    unsigned number;
    datagram *datagram;
    uint64_t order;
} event;

typedef struct queue {
    event *heap;
    size_t count, places;
    uint64_t pushed;
} queue;

/* Copies the datagram, if there is one. */
datagram *datagram_copy(const datagram *d);
void queue_push(queue *q, event e);
/* Takes the first event. Returns 0 where there is none. */
int queue_pop(queue *q, event *e);
/* Drops all events. */
void queue_clear(queue *q);

#endif
