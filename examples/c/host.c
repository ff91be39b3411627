/* An engine in C: it plays one of two players over UDP on this machine, with the world of walk.h.
 *
 *     host ME BASE TICS SEED DEMO
 *
 * Player p has port BASE + p of 127.0.0.1, as in `netgame play`. The host builds TICS commands, and plays
 * until it has run them and the other player has left or is silent. Then it writes its demo to the file DEMO,
 * and prints where the players end. It builds as fast as the line allows, an engine 35 times a second. */
#define _POSIX_C_SOURCE 200809L
#include "walk.h"
#include "zirmegat_parts.h"
#include <arpa/inet.h>
#include <poll.h>
#include <stdio.h>
#include <stdlib.h>
#include <sys/socket.h>
#include <time.h>
#include <unistd.h>

enum { PLAYERS = 2, DEMO = 131072, SECONDS = 60, SILENCE = 3, FAREWELLS = 20, POLLS = 32 };

typedef struct engine {
    zmg_node *node;
    walk world;
    uint8_t me, hold;
    int line;
    uint16_t base;
    uint32_t tics, seed;
    time_t heard;
} engine;

static uint32_t draw(uint32_t *seed) { return (*seed = *seed * 1664525u + 1013904223u) >> 9; }

static struct sockaddr_in address(uint16_t port) {
    struct sockaddr_in at;
    memset(&at, 0, sizeof at);
    at.sin_family = AF_INET;
    at.sin_addr.s_addr = htonl(INADDR_LOOPBACK);
    at.sin_port = htons(port);
    return at;
}

static int open_line(engine *e) {
    struct sockaddr_in at = address((uint16_t)(e->base + e->me));
    e->line = socket(AF_INET, SOCK_DGRAM, 0);
    return e->line >= 0 && bind(e->line, (struct sockaddr *)&at, sizeof at) == 0;
}

static void give(engine *e) {
    uint8_t bytes[ZMG_PACKET_SIZE];
    for (uint8_t to = 0; to < PLAYERS; to++) {
        struct sockaddr_in at = address((uint16_t)(e->base + to));
        size_t length = zmg_lockstep_packet(e->node, to, bytes, sizeof bytes);
        if (length) (void)!sendto(e->line, bytes, length, 0, (struct sockaddr *)&at, sizeof at);
    }
}

/* Takes in at most POLLS datagrams, so that a peer who sends faster than this reads holds up no turn. */
static void hear(engine *e) {
    uint8_t bytes[256];
    struct sockaddr_in at;
    socklen_t size = sizeof at;
    ssize_t length;
    for (int k = 0; k < POLLS; k++) {
        length = recvfrom(e->line, bytes, sizeof bytes, MSG_DONTWAIT, (struct sockaddr *)&at, &size);
        if (length < 0) return;
        unsigned from = (unsigned)ntohs(at.sin_port) - e->base;
        if (at.sin_addr.s_addr == htonl(INADDR_LOOPBACK) && from < PLAYERS) {
            zmg_heard heard;
            zmg_heard_code code = zmg_lockstep_receive(e->node, (uint8_t)from, bytes, (size_t)length, &heard);
            if (code == ZMG_HEARD_STARTED) walk_begin(&e->world, PLAYERS);
            e->heard = time(NULL);
        }
        size = sizeof at;
    }
}

/* Runs each tic that can be run. Returns 0 if this ended the node, else 1. */
static int run(engine *e) {
    for (;;) {
        int16_t marks[4];
        zmg_row row;
        walk_marks(&e->world, marks);
        switch (zmg_node_run(e->node, marks, &row)) {
        case ZMG_RUN_RAN: walk_step(&e->world, &row); break;
        case ZMG_RUN_DEMO_FULL: fprintf(stderr, "the demo is full\n"); return 0;
        case ZMG_RUN_INCONSISTENT:
            fprintf(stderr, "worlds differ: player %u, %d for %d\n", row.player, row.was, row.should);
            return 0;
        default: return 1;
        }
    }
}

static zmg_node_state state(const engine *e) {
    zmg_node_state now;
    zmg_node_state_get(e->node, &now, sizeof now);
    return now;
}

static int is_done(const engine *e) {
    zmg_node_player other;
    zmg_node_player_get(e->node, (uint8_t)(1 - e->me), &other, sizeof other);
    int gone = other.end != ZMG_NO_END || time(NULL) - e->heard > SILENCE;
    return state(e).ran >= e->tics && gone;
}

/* Takes the next command, if the node can make it. */
static void take(engine *e) {
    zmg_command command;
    zmg_node_state now = state(e);
    if (!now.can_give || now.made >= e->tics) return;
    zmg_command_from_keys(&e->hold, draw(&e->seed), &command);
    zmg_node_give(e->node, &command);
}

static int play(engine *e) {
    time_t start = time(NULL);
    while (!is_done(e)) {
        struct pollfd ready = { e->line, POLLIN, 0 };
        if (time(NULL) - start > SECONDS) return 0;
        take(e);
        give(e);
        poll(&ready, 1, 1);
        hear(e);
        if (!run(e)) return 0;
    }
    return 1;
}

/* Shows the other player where this one's commands end, and receives what it still asks for. */
static void leave(engine *e) {
    zmg_node_quit(e->node);
    for (int k = 0; k < FAREWELLS; k++) {
        struct pollfd ready = { e->line, POLLIN, 0 };
        give(e);
        poll(&ready, 1, 1);
        hear(e);
    }
}

static int save(engine *e, const char *name) {
    static uint8_t bytes[DEMO];
    size_t length = zmg_node_demo(e->node, 0, bytes, sizeof bytes);
    FILE *file = fopen(name, "wb");
    return file && fwrite(bytes, 1, length, file) == length && fclose(file) == 0;
}

/* Prints the lines that `netgame demo` prints for the players. */
static void print_spots(const walk *world) {
    int16_t marks[4];
    walk_marks(world, marks);
    for (unsigned p = 0; p < PLAYERS; p++) {
        const spot *s = &world->spots[p];
        int x = (int)(int32_t)s->x, y = (int)(int32_t)s->y;
        printf("player %u x %d y %d angle %u mark %d\n", p, x, y, s->angle, marks[p]);
    }
}

int main(int argc, char **argv) {
    static engine e;
    if (argc != 6) return 2;
    e.me = (uint8_t)atoi(argv[1]);
    e.base = (uint16_t)atoi(argv[2]);
    e.tics = (uint32_t)atol(argv[3]);
    e.seed = (uint32_t)atol(argv[4]);
    zmg_node_config config;
    zmg_node_config_init(&config);
    config.limit = DEMO;
    config.players = PLAYERS;
    config.me = e.me;
    if (zmg_lockstep_new(&e.node, &config) != ZMG_OK || !open_line(&e)) return 2;
    int played = play(&e);
    leave(&e);
    print_spots(&e.world);
    int saved = save(&e, argv[5]);
    zmg_node_free(e.node);
    close(e.line);
    return played && saved ? 0 : 1;
}
