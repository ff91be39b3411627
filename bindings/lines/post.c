/* The datagrams of sessions. */
#include "post.h"
#include <string.h>

zmg_address post_address(int player) {
    zmg_address a;
    memset(&a, 0, sizeof a);
    a.bytes[0] = (uint8_t)(player + 1);
    return a;
}

int post_next(zmg_session *session, int player, session_datagram *d) {
    zmg_address to;
    d->head.size = sizeof *d;
    d->head.length = zmg_session_transmit(session, &to, d->bytes, sizeof d->bytes);
    if (d->head.length == 0) return 0;
    d->head.from = player;
    d->head.to = to.bytes[0] - 1;
    return 1;
}

void post_hear(zmg_session *session, const datagram *d, uint32_t now) {
    const session_datagram *came = (const void *)d;
    zmg_address from = post_address(d->from);
    zmg_session_receive(session, &from, came->bytes, d->length, now);
}
