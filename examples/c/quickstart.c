/* Two players in one process. cc quickstart.c $(pkg-config --cflags --libs zirmegat) */
#include <stdio.h>
#include <zirmegat.h>

static const zmg_address places[2] = { { { 1 } }, { { 2 } } };
static zmg_session *players[2];
static int16_t worlds[2][4];

static void send_all(int me, uint32_t now) {
    uint8_t bytes[ZMG_DATAGRAM_SIZE];
    zmg_address to; /* an engine sends the bytes there, by UDP */
    for (size_t n; (n = zmg_session_transmit(players[me], &to, bytes, sizeof bytes)) > 0;) {
        zmg_session_receive(players[!me], &places[me], bytes, n, now);
        send_all(!me, now); /* a reply goes before the next datagram comes */
    }
}

static void frame(int me, uint32_t now) {
    const zmg_command command = { 0, (int8_t)(me ? 25 : 50), 0, 0, 0 }; /* turn, forward, side, chat, buttons */
    zmg_row row;
    zmg_session_poll(players[me], now);
    while (zmg_session_wants_input(players[me], now)) zmg_session_give(players[me], &command, now);
    while (zmg_session_run(players[me], worlds[me], &row) == ZMG_RUN_RAN)
        for (int p = 0; p < 4; p++) worlds[me][p] = (int16_t)(worlds[me][p] + row.commands[p].forward);
    send_all(me, now);
}

int main(void) {
    zmg_host_config host;
    zmg_join_config join;
    zmg_host_config_init(&host), zmg_join_config_init(&join);
    join.host = places[0]; /* the key comes from a file, and random bytes from the system */
    host.key.bytes[0] = join.key.bytes[0] = host.random.bytes[0] = join.random.bytes[1] = 1;
    if (zmg_session_host(&players[0], &host) || zmg_session_join(&players[1], &join, 0)) return 1;
    for (uint32_t now = 0; now < 10000; now += 10) /* ten seconds */
        for (int me = 0; me < 2; me++) frame(me, now);
    for (int me = 0; me < 2; me++) printf("player %d sees %d %d\n", me, worlds[me][0], worlds[me][1]);
    for (int me = 0; me < 2; me++) zmg_session_free(players[me]);
    return 0;
}
