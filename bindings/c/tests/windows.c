/* Games in simulated time: `windows [PACKETS]`. For each window and delay it prints how many tics a second two,
 * three and four nodes run, each on its own clock of 35 turns a second, and tests them against what the window
 * and the delay allow. Then, over a line that loses, repeats, delays and reorders, PACKETS packets are given in
 * each window, and a node that plays may drop none but set-up that comes again: no window is overrun. At all
 * times the nodes run the same commands. C99. Ends with status 0, or names the line that failed. */
#include "chance.h"
#include "engine.h"
#include "must.h"
#include <stdio.h>
#include <stdlib.h>
#include <string.h>

enum { NODES = 4, WIDEST = 12, FLIGHTS = 4096, TICS = 1 << 16, SECOND = 1000000, TURN = SECOND / 35 };

typedef struct flight {
    uint64_t at;
    size_t length;
    uint8_t from, to, bytes[ZMG_PACKET_SIZE];
} flight;

/* A line: how long a packet takes at least, by how much more at most, and how many of a hundred are lost, and
 * how many come twice. All in microseconds. */
typedef struct line {
    uint32_t delay, more, lost, twice;
} line;

static zmg_node *nodes[NODES];
static flight flights[FLIGHTS];
static uint64_t turns[NODES];
/* a sum of the commands up to each tic, as the first node ran them that came there */
static uint16_t worlds[NODES], sums[TICS];
static uint32_t furthest;
static unsigned long given, lost;

static void tell_where(FILE *out) { fprintf(out, "after %lu packets", given); }

static void post(const flight *packet) {
    for (unsigned k = 0; k < FLIGHTS; k++)
        if (flights[k].length == 0) {
            flights[k] = *packet;
            return;
        }
    MUST(!"there is room for every packet on the way");
}

static void give(uint8_t from, uint8_t to, uint64_t now, const line *l) {
    flight packet;
    unsigned times = below(100) < l->lost ? 0 : below(100) < l->twice ? 2 : 1;
    packet.length = zmg_lockstep_packet(nodes[from], to, packet.bytes, sizeof packet.bytes);
    packet.from = from;
    packet.to = to;
    if (packet.length == 0) return;
    given++;
    while (times--) {
        packet.at = now + l->delay + below(l->more + 1);
        post(&packet);
    }
}

static void hear(uint8_t me, uint64_t now) {
    for (unsigned k = 0; k < FLIGHTS; k++) {
        flight *f = &flights[k];
        if (f->length && f->to == me && f->at <= now) {
            int plays = state_of(nodes[me]).phase == ZMG_PHASE_PLAYING;
            zmg_heard heard;
            zmg_lockstep_receive(nodes[me], f->from, f->bytes, f->length, &heard);
            lost += plays && heard.code == ZMG_HEARD_DROPPED && heard.number != ZMG_DROP_OUT_OF_PLACE;
            f->length = 0;
        }
    }
}

static void run(uint8_t me) {
    zmg_row row;
    zmg_run ran;
    while ((ran = run_node(nodes[me], 0, &row)) == ZMG_RUN_RAN) {
        worlds[me] = stepped(worlds[me], &row);
        MUST(row.tic < TICS);
        if (row.tic >= furthest) {
            furthest = row.tic + 1;
            sums[row.tic] = worlds[me];
        }
        MUST(sums[row.tic] == worlds[me]);
    }
    MUST(ran == ZMG_RUN_WAITING || ran == ZMG_RUN_NOT_PLAYING);
}

static void open_game(uint8_t players, uint8_t ahead) {
    zmg_node_config c = config_of(16777216, players, 0);
    c.window = ahead;
    memset(flights, 0, sizeof flights);
    memset(worlds, 0, sizeof worlds);
    furthest = 0;
    for (c.me = 0; c.me < players; c.me++) {
        MUST(zmg_lockstep_new(&nodes[c.me], &c) == ZMG_OK);
        turns[c.me] = below(TURN);
    }
}

static void close_game(uint8_t players) {
    for (unsigned k = 0; k < players; k++) zmg_node_free(nodes[k]);
}

/* The node whose turn is next hears, runs, builds and gives. The time of its turn. */
static uint64_t step(uint8_t players, const line *l) {
    uint8_t me = 0;
    uint64_t now;
    for (uint8_t k = 1; k < players; k++) if (turns[k] < turns[me]) me = k;
    now = turns[me];
    turns[me] += TURN;
    hear(me, now);
    run(me);
    if (state_of(nodes[me]).can_give) {
        zmg_command c = { (int16_t)draw(), (int8_t)below(100), (int8_t)below(80), 0, 0 };
        MUST(zmg_node_give(nodes[me], &c) == ZMG_OK);
    }
    for (uint8_t to = 0; to < players; to++) give(me, to, now, l);
    return now;
}

/* Tics a second, of a minute after the first ten seconds. A round of commands takes the delay, and until the
 * next turn of the receiver; more than 35 tics a second there are not. */
static double rate(uint8_t players, uint8_t ahead, uint32_t delay) {
    line l = { 0, 0, 0, 0 };
    uint32_t before;
    double turns_late = delay * 35.0 / SECOND, tics;
    l.delay = delay;
    open_game(players, ahead);
    while (step(players, &l) < 10ull * SECOND) {}
    before = state_of(nodes[0]).ran;
    while (step(players, &l) < 70ull * SECOND) {}
    tics = (state_of(nodes[0]).ran - before) / 60.0;
    close_game(players);
    MUST(tics <= 35.1 && tics <= 35.0 * ahead / turns_late + 0.1);
    MUST(tics >= 34.9 || tics >= 35.0 * ahead / (turns_late + 1) - 0.1);
    return tics;
}

static void rates(void) {
    static const uint8_t windows[] = { 5, 6, 8, 12 };
    static const uint32_t delays[] = { 50, 100, 120, 140, 150, 200, 250, 300, 340 };
    for (uint8_t players = 2; players <= NODES; players++)
        for (unsigned w = 0; w < sizeof windows; w++) {
            printf("%u players, %2u ahead:", players, windows[w]);
            for (unsigned d = 0; d < sizeof delays / sizeof *delays; d++)
                printf(" %4.1f", rate(players, windows[w], delays[d] * 1000));
            printf("\n");
        }
}

static void overruns(unsigned long packets) {
    static const line bad = { 60000, 300000, 10, 10 };
    for (uint8_t ahead = 1; ahead <= WIDEST; ahead++) {
        given = 0;
        lost = 0;
        while (given < packets) {
            uint8_t players = (uint8_t)(2 + below(3));
            open_game(players, ahead);
            while (given < packets && furthest < TICS - 16) step(players, &bad);
            close_game(players);
        }
        MUST(lost == 0);
    }
    printf("%lu packets in each window of 1 to %u: no overrun\n", packets, WIDEST);
}

int main(int argc, char **argv) {
    rates();
    overruns(argc > 1 ? strtoul(argv[1], NULL, 10) : 1000000);
    return 0;
}
