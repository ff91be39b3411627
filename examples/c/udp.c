/* A game over a network, of two to four players whose world is a field that they walk on: udp KEYFILE TICS host
 * PORT PLAYERS, and udp KEYFILE TICS join HOST:PORT. It prints the field once a second, leaves after so many
 * tics, and then prints a digest of the world, which is the same at all players. cc udp.c zmg_udp.c
 * $(pkg-config --cflags --libs zirmegat) */
#include <stdio.h>
#include <stdlib.h>
#include <zmg_udp.h>

enum { WIDE = 48, HIGH = 12, SLOW = 256 };

/* Each player's place, in parts of a cell, and a digest of all that has happened. */
typedef struct {
    int players, x[4], y[4];
    uint32_t digest;
} world;

static void world_begin(world *w, int players) {
    memset(w, 0, sizeof *w);
    w->players = players;
    for (int p = 0; p < players; p++) w->x[p] = WIDE * SLOW / (players + 1) * (p + 1), w->y[p] = HIGH * SLOW / 2;
}

static int held(int at, int most) { return at < 0 ? 0 : at >= most ? most - 1 : at; }

/* The world goes on by the commands of a tic, and by nothing else. */
static void world_step(world *w, const zmg_row *row) {
    for (int p = 0; p < w->players; p++) {
        if (!row->present[p]) continue; /* this player has left, or is given up */
        w->x[p] = held(w->x[p] + row->commands[p].side, WIDE * SLOW);
        w->y[p] = held(w->y[p] - row->commands[p].forward, HIGH * SLOW);
        w->digest = w->digest * 31 + (uint32_t)(w->x[p] * 7 + w->y[p]);
    }
}

/* What is compared between players: a number that follows from the world alone. */
static void world_marks(const world *w, int16_t marks[4]) {
    for (int p = 0; p < 4; p++) marks[p] = (int16_t)(w->x[p] + w->y[p]);
}

static void world_show(const world *w, uint32_t tic) {
    char field[HIGH][WIDE + 1];
    for (int y = 0; y < HIGH; y++) memset(field[y], '.', WIDE), field[y][WIDE] = 0;
    for (int p = 0; p < w->players; p++) field[w->y[p] / SLOW][w->x[p] / SLOW] = (char)('1' + p);
    printf("tic %u\n", (unsigned)tic);
    for (int y = 0; y < HIGH; y++) puts(field[y]);
}

/* Walks about; an engine reads keys and a mouse here. */
static zmg_command walk(unsigned ticks) {
    static const int8_t forward[4] = { 50, 0, -50, 0 }, side[4] = { 0, 40, 0, -40 };
    zmg_command c = { 0, forward[ticks / 20 % 4], side[ticks / 20 % 4], 0, 0 };
    return c;
}

static zmg_status begin(char **words, int count, zmg_udp *udp, zmg_session **session) {
    zmg_host_config host;
    zmg_join_config join;
    bool hosts = !strcmp(words[3], "host");
    zmg_host_config_init(&host);
    zmg_join_config_init(&join);
    if (!zmg_udp_open(udp, hosts ? (uint16_t)atoi(words[4]) : 0)) return ZMG_ERR_NOT_NOW;
    if (zmg_udp_key(words[1], &host.key) != ZMG_OK || !zmg_udp_random(&host.random)) return ZMG_ERR_KEY;
    join.key = host.key;
    join.random = host.random;
    host.terms.players = count > 5 ? (uint8_t)atoi(words[5]) : 2;
    host.terms.policy = ZMG_POLICY_GIVE_UP;
    host.terms.seconds = 5;
    if (hosts) return zmg_session_host(session, &host);
    if (!zmg_udp_find(udp, words[4], 5029, &join.host)) return ZMG_ERR_NOT_NOW;
    return zmg_session_join(session, &join, zmg_udp_now(udp));
}

int main(int count, char **words) {
    zmg_session *session = NULL;
    zmg_udp udp = { -1, 0, 0 };
    zmg_status status = count > 4 ? begin(words, count, &udp, &session) : ZMG_ERR_NOT_NOW;
    uint32_t last = count > 4 ? (uint32_t)atoi(words[2]) : 0;
    unsigned ticks = 0;
    zmg_state state;
    zmg_event event = { ZMG_EVENT_NONE, 0, ZMG_OK, 0 };
    zmg_row row;
    world w;
    world_begin(&w, 0);
    if (status != ZMG_OK) return fprintf(stderr, "no game: %s\n", zmg_status_text(status)), 1;
    while (event.kind != ZMG_EVENT_OVER) {
        int16_t marks[4];
        uint32_t now = zmg_udp_exchange(&udp, session, &status);
        if (status != ZMG_OK) break;
        while (zmg_session_event(session, &event) != ZMG_EVENT_NONE) {
            zmg_session_state(session, &state, sizeof state);
            if (event.kind == ZMG_EVENT_BEGAN) world_begin(&w, state.terms.players);
            if (event.kind == ZMG_EVENT_LEFT) printf("player %u has left\n", (unsigned)event.player + 1);
            if (event.kind == ZMG_EVENT_GIVEN_UP) printf("player %u is given up\n", (unsigned)event.player + 1);
            if (event.kind == ZMG_EVENT_OVER) printf("over: %s\n", zmg_status_text(event.why));
            if (event.kind == ZMG_EVENT_OVER) break;
        }
        while (zmg_session_wants_input(session, now)) {
            zmg_command command = walk(ticks++);
            zmg_session_give(session, &command, now);
        }
        for (world_marks(&w, marks); zmg_session_run(session, marks, &row) == ZMG_RUN_RAN; world_marks(&w, marks)) {
            world_step(&w, &row);
            if (row.tic % 35 == 0) world_show(&w, row.tic);
            if (row.tic + 1 == last) printf("after %u tics %08x\n", (unsigned)last, (unsigned)w.digest);
            if (row.tic + 1 == last) zmg_session_quit(session, now);
        }
        zmg_udp_send_all(&udp, session);
        zmg_udp_wait(&udp, session, 10);
    }
    zmg_session_free(session);
    zmg_udp_close(&udp);
    return event.why == ZMG_OVER_LEFT || event.why == ZMG_OVER_ALONE ? 0 : 1;
}
