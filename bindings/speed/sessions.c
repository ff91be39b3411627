/* Two sessions play so many tics with each other in one process, on a line that loses nothing. They are looked
 * at each millisecond. `sessions TICS LOOKS`: after each look at what is to be sent, so many more that find
 * nothing. `measure_sessions` counts the instructions. */
#include "zirmegat.h"
#include <stdio.h>
#include <stdlib.h>
#include <string.h>

static zmg_session *sessions[2];
static unsigned long datagrams, looks, tics;

static void stop(const char *why) {
    fprintf(stderr, "sessions: %s\n", why);
    exit(1);
}

static zmg_address address_of(unsigned who) {
    zmg_address a;
    memset(&a, 0, sizeof a);
    a.bytes[0] = (uint8_t)(who + 1);
    return a;
}

static void open_both(uint32_t now) {
    zmg_host_config hosts;
    zmg_join_config joins;
    zmg_host_config_init(&hosts);
    hosts.terms.players = 2;
    hosts.terms.limit = 1 << 20;
    memset(&hosts.random, 1, sizeof hosts.random);
    zmg_join_config_init(&joins);
    joins.host = address_of(0);
    memset(&joins.random, 2, sizeof joins.random);
    hosts.terms.own[0] = hosts.key.bytes[0] = joins.key.bytes[0] = 97;
    hosts.name.text[0] = joins.name.text[0] = 'a';
    if (zmg_session_host(&sessions[0], &hosts) != ZMG_OK) stop("no host");
    if (zmg_session_join(&sessions[1], &joins, now) != ZMG_OK) stop("no joiner");
}

static void carry(unsigned who, uint32_t now, int more) {
    const zmg_address from = address_of(who);
    zmg_address to;
    uint8_t bytes[ZMG_DATAGRAM_SIZE];
    size_t n;
    while ((n = zmg_session_transmit(sessions[who], &to, bytes, sizeof bytes)) > 0) {
        datagrams++;
        zmg_session_receive(sessions[1 - who], &from, bytes, n, now);
    }
    for (looks++; more > 0; more--)
        if (zmg_session_transmit(sessions[who], &to, bytes, sizeof bytes) > 0) stop("more was sent");
}

static void turn(unsigned who, uint32_t now, int more) {
    static int plays[2];
    const int16_t marks[4] = { 0, 0, 0, 0 };
    zmg_row row;
    zmg_event event;
    if (zmg_session_poll(sessions[who], now) != ZMG_OK) stop("no memory");
    while (zmg_session_event(sessions[who], &event) != ZMG_EVENT_NONE)
        plays[who] |= event.kind == ZMG_EVENT_BEGAN;
    while (zmg_session_wants_input(sessions[who], now)) {
        zmg_command command = { 0, 0, 0, 0, 0 };
        command.turn = (int16_t)now;
        zmg_session_give(sessions[who], &command, now);
    }
    carry(who, now, more);
    while (plays[who] && zmg_session_run(sessions[who], marks, &row) == ZMG_RUN_RAN) tics += who == 0;
    carry(who, now, more);
}

int main(int count, char **words) {
    uint32_t now = 1000;
    unsigned long end = count == 3 ? strtoul(words[1], 0, 10) : 0;
    if (end == 0) stop("sessions TICS LOOKS");
    for (open_both(now); tics < end; now++) {
        if (now == 100000000) stop("no game");
        turn(0, now, atoi(words[2]));
        turn(1, now, atoi(words[2]));
    }
    printf("%lu %lu\n", datagrams, looks);
    return 0;
}
