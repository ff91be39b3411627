/* The datagrams of sessions. A player's number is its address. */
#ifndef POST_H
#define POST_H

#include "queue.h"
#include "zirmegat.h"

/* It is as long as head.length says. */
typedef struct session_datagram {
    datagram head;
    uint8_t bytes[ZMG_DATAGRAM_SIZE];
} session_datagram;

zmg_address post_address(int player);
/* The next datagram that the session of a player sends; 0 if there is none. */
int post_next(zmg_session *session, int player, session_datagram *d);
/* A session takes in a datagram, which is one of a session. */
void post_hear(zmg_session *session, const datagram *d, uint32_t now);

#endif
