/* The stock netcode, that of Chocolate Doom 3, as a model: clients, and a server on player 0's
 * machine. */
#ifndef STOCK_H
#define STOCK_H

#include "awaited.h"
#include "game.h"

/* on whose machine the server is */
enum { SERVER = 0 };

/* COMMANDS has those of the tics; from the server, of all other players. AGAIN asks for them.
 * SEEN says which came. */
typedef enum stock_kind { COMMANDS, AGAIN, SEEN } stock_kind;

/* seen: with COMMANDS from a client, and SEEN: its first tic that the server is to keep.
 * latency: a client's own; from the server, the greatest of the other players. */
typedef struct stock_datagram {
    datagram head;
    stock_kind kind;
    int from_server, seen;
    tics tics;
    double latency;
} stock_datagram;

/* Sends it, with the length that it has. */
void stock_send(game *g, stock_datagram *d);

void client_open(game *g, int me);
/* what it does all the time */
void client_update(game *g, int me);
void client_hear(game *g, int me, const stock_datagram *d);

void server_open(void);
void server_update(game *g);
void server_hear(game *g, const stock_datagram *d);

#endif
