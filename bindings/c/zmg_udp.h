/* zmg_udp.h: what a session needs of the system: a socket, addresses, a clock, a key's file and random bytes.
 * To be copied or linked: with zmg_udp.c it is apart from the library. C99 and C++11, for POSIX; the calls of
 * Windows are there too, and were not run. It keeps nothing but what is in the struct.
 *
 *     zmg_udp udp;
 *     if (!zmg_udp_open(&udp, 5029)) there is no socket
 *     make the session, with zmg_udp_key, zmg_udp_random and zmg_udp_find
 *     as often as you draw:
 *         uint32_t now = zmg_udp_exchange(&udp, session, &status);
 *         give, run and look at events as in zirmegat.h
 *         zmg_udp_send_all(&udp, session);
 *         zmg_udp_wait(&udp, session, 5);
 *     zmg_udp_close(&udp); */
#ifndef ZMG_UDP_H
#define ZMG_UDP_H

#include "zirmegat.h"

#ifdef __cplusplus
extern "C" {
#endif

/* A socket, and when its clock began. */
typedef struct zmg_udp {
    intptr_t socket;
    int family;
    uint64_t began;
} zmg_udp;

/* Opens a UDP socket at a port, or at any with 0, of IPv6 and IPv4, or of IPv4 alone, and returns whether it
 * did. Its clock begins at 0. */
bool zmg_udp_open(zmg_udp *udp, uint16_t port);
void zmg_udp_close(zmg_udp *udp);

/* Finds where "name", "name:port", "address", "[IPv6]" or "[IPv6]:port" is, at this port if it names none, and
 * returns whether it did. It may ask a name server, and wait for its answer. */
bool zmg_udp_find(const zmg_udp *udp, const char *text, uint16_t port, zmg_address *found);

/* Writes an address as text: "1.2.3.4:5" or "[IPv6]:5". */
#define ZMG_UDP_TEXT_SIZE 64
void zmg_udp_text(const zmg_address *address, char text[ZMG_UDP_TEXT_SIZE]);

/* Sends bytes, or loses them. */
void zmg_udp_send(const zmg_udp *udp, const zmg_address *to, const uint8_t *bytes, size_t length);

/* Takes the next datagram that is there, and returns whether there was one. Of one that is longer than the room
 * the front is taken; ZMG_DATAGRAM_SIZE + 1 bytes show that it was. */
bool zmg_udp_hear(const zmg_udp *udp, zmg_address *from, uint8_t *bytes, size_t room, size_t *length);

/* Returns how many milliseconds it is since the socket was opened. */
uint32_t zmg_udp_now(const zmg_udp *udp);

/* Hands a session what has come, polls it, and sends what it has to send. Writes to *status what the poll
 * returned, and returns the time of that. */
uint32_t zmg_udp_exchange(const zmg_udp *udp, zmg_session *session, zmg_status *status);

/* Sends what a session has to send, as after zmg_session_run. */
void zmg_udp_send_all(const zmg_udp *udp, zmg_session *session);

/* Waits until a datagram comes or the session has something to do, for so many milliseconds at most. */
void zmg_udp_wait(const zmg_udp *udp, const zmg_session *session, uint32_t most);

/* Reads a file as `netgame key` writes it, and returns ZMG_OK; ZMG_ERR_TEXT, also for a file that cannot be
 * read; ZMG_ERR_KEY. */
zmg_status zmg_udp_key(const char *file, zmg_key *key);

/* Draws random bytes from the system, and returns whether it gave them. */
bool zmg_udp_random(zmg_random *drawn);

#ifdef __cplusplus
}
#endif
#endif
