/* Plays two locksteps over memory through zirmegat_parts.h, to compare the library with a plain one of the same
 * interface.
 *
 *     driver time TICS [PERIOD [EXTRA [LIMIT [LOOP]]]]   the game alone: prints where the worlds came to driver
 *     sum  TICS [PERIOD [EXTRA [LIMIT [LOOP]]]]   the same game, with a checksum over all datagrams, answers,
 *                                                        rows and demos
 *     driver fuzz GAMES SEED                             games of two to four on a bad line, any bytes and any
 *     calls:
 *                                                        a checksum over all that comes of them
 *
 * Each tic: both build, both give a packet, both receive the other's, both run and step their worlds. PERIOD:
 * keys change every so many tics. EXTRA: whether a packet repeats the last command. LIMIT: bytes of a demo; a
 * game whose demo is full is given up and a new one begun. LOOP: 1 runs until a run waits, as the loop of the
 * header does, and 0 once a tic. */
#include "zirmegat_parts.h"
#include <stdio.h>
#include <stdlib.h>
#include <string.h>

/* ---- The world of walk.h, with a look-up in place of its switch, which random turns make the processor guess.
 * ---- */

typedef struct spot {
    uint32_t x, y;
    uint16_t angle;
    uint8_t present;
} spot;

typedef struct walk {
    spot spots[4];
} walk;

static const int32_t WAYS[5] = { 0, 2048, 0, -2048, 0 };

static void walk_begin(walk *w, unsigned players) {
    memset(w, 0, sizeof *w);
    for (unsigned p = 0; p < players && p < 4; p++) {
        w->spots[p].x = p * 4194304u;
        w->spots[p].present = 1;
    }
}

static inline void spot_go(spot *s, const zmg_command *m) {
    s->angle = (uint16_t)(s->angle + (uint16_t)m->turn);
    unsigned q = s->angle >> 14;
    int32_t x = WAYS[q + 1], y = WAYS[q];
    s->x += (uint32_t)(m->forward * x + m->side * y + m->buttons);
    s->y += (uint32_t)(m->forward * y - m->side * x);
}

static inline void walk_step(walk *w, const zmg_row *row) {
    for (unsigned p = 0; p < 4; p++)
        if (row->present[p]) spot_go(&w->spots[p], &row->commands[p]);
}

static inline void walk_marks(const walk *w, int16_t marks[4]) {
    for (unsigned p = 0; p < 4; p++) marks[p] = (int16_t)(uint16_t)w->spots[p].x;
}

/* ---- Sums ---- */

static uint64_t sum = 14695981039346656037u;

static void mix(uint64_t n) { sum = (sum ^ n) * 1099511628211u; sum ^= sum >> 29; }
static void mix_bytes(const uint8_t *b, size_t n) {
    mix(n);
    for (size_t k = 0; k < n; k++) mix(b[k]);
}
static void mix_run(zmg_run code, const zmg_row *row) {
    mix(code); mix(row->tic); mix((uint16_t)row->was); mix((uint16_t)row->should); mix(row->player);
    for (unsigned p = 0; p < 4; p++) {
        const zmg_command *c = &row->commands[p];
        mix((uint16_t)c->turn); mix((uint8_t)c->forward); mix((uint8_t)c->side); mix(c->chat); mix(c->buttons);
        mix(row->present[p]);
    }
}
static zmg_node_state state_of(const zmg_node *node) {
    zmg_node_state s;
    mix(zmg_node_state_get(node, &s, sizeof s));
    return s;
}
static void mix_demo(const zmg_node *node) {
    uint8_t bytes[4096];
    size_t from = 0, n;
    mix(state_of(node).demo_length);
    for (; (n = zmg_node_demo(node, from, bytes, sizeof bytes)) > 0; from += n) mix_bytes(bytes, n);
}
/* All that a node tells of itself. */
static void mix_node(const zmg_node *node) {
    zmg_node_state s = state_of(node);
    mix(s.demo_length); mix(s.phase); mix(s.cause); mix((uint16_t)s.was); mix((uint16_t)s.should); mix(s.player);
    mix(s.me); mix(s.players); mix(s.made); mix(s.ran); mix(s.can_give);
    mix(s.unacknowledged); mix(s.refused); mix(s.may_leave); mix(s.is_undecided); mix(s.undecided);
    mix(s.knows_settings); mix(s.settings.skill); mix(s.settings.deathmatch); mix(s.settings.no_monsters);
    mix(s.settings.respawn); mix(s.settings.episode); mix(s.settings.map);
    for (uint8_t k = 0; k < 5; k++) {
        zmg_node_player p;
        zmg_aim a = { 0, 0, 0, 0, 0 };
        mix(zmg_node_player_get(node, k, &p, sizeof p));
        mix(p.got); mix(p.end); mix(p.left); mix(p.given_up); mix(p.line.came);
        mix(zmg_lockstep_aim(node, k, &a));
        mix(a.asks); mix(a.ask); mix(a.start); mix(a.flags); mix(a.count);
    }
}

/* ---- The game of two ---- */

typedef struct side {
    zmg_node *node;
    walk world;
    uint32_t seed, keys;
    uint8_t hold;
} side;

static side sides[2];

static void die(const char *what) {
    fprintf(stderr, "driver: %s\n", what);
    exit(1);
}

static void give_and_hear(unsigned from) {
    uint8_t bytes[ZMG_PACKET_SIZE];
    zmg_heard h;
    size_t n = zmg_lockstep_packet(sides[from].node, (uint8_t)(1 - from), bytes, sizeof bytes);
    zmg_lockstep_receive(sides[1 - from].node, (uint8_t)from, bytes, n, &h);
    mix_bytes(bytes, n);
    mix(h.code); mix(h.number);
}

static zmg_node_config config_of(uint32_t limit, unsigned players, unsigned me, uint8_t extra) {
    zmg_node_config c;
    zmg_node_config_init(&c);
    c.limit = limit;
    c.players = (uint8_t)players;
    c.me = (uint8_t)me;
    c.extra = extra;
    return c;
}

static void begin(uint32_t limit, uint8_t extra) {
    for (unsigned k = 0; k < 2; k++) {
        zmg_node_config c = config_of(limit, 2, k, extra);
        zmg_settings settings = { 3, 1, 0, 0, 1, 7 };
        c.settings = settings;
        sides[k].hold = 0;
        if (zmg_lockstep_new(&sides[k].node, &c) != ZMG_OK) die("no node");
        walk_begin(&sides[k].world, 2);
    }
    give_and_hear(0); /* the settings */
    give_and_hear(1); /* here I am */
    for (unsigned k = 0; k < 2; k++)
        if (state_of(sides[k].node).phase != ZMG_PHASE_PLAYING) die("not started");
}

static void end(int sums) {
    for (unsigned k = 0; k < 2; k++) {
        zmg_node *node = sides[k].node;
        if (sums) {
            mix_node(node);
            mix_demo(node);
        }
        mix(state_of(node).demo_length);
        for (unsigned p = 0; p < 2; p++) {
            const spot *s = &sides[k].world.spots[p];
            mix(s->x); mix(s->y); mix(s->angle);
        }
        zmg_node_free(node);
    }
}

/* One tic of both: whether it was run. */
static inline __attribute__((always_inline)) int play(int sums, int fresh, int loop) {
    uint8_t bytes[2][ZMG_PACKET_SIZE];
    size_t length[2];
    int on = 1;
    for (unsigned k = 0; k < 2; k++) {
        side *s = &sides[k];
        if (fresh) s->keys = (s->seed = s->seed * 1664525u + 1013904223u) >> 9;
        zmg_command c;
        zmg_command_from_keys(&s->hold, s->keys, &c);
        if (zmg_node_give(s->node, &c) != ZMG_OK) die("not given");
    }
    for (unsigned k = 0; k < 2; k++) {
        length[k] = zmg_lockstep_packet(sides[k].node, (uint8_t)(1 - k), bytes[k], sizeof bytes[k]);
        if (sums) mix_bytes(bytes[k], length[k]);
    }
    for (unsigned k = 0; k < 2; k++) {
        zmg_heard h;
        zmg_node *node = sides[k].node;
        if (zmg_lockstep_receive(node, (uint8_t)(1 - k), bytes[1 - k], length[1 - k], &h) != ZMG_HEARD_TAKEN)
            die("not taken");
        if (sums) mix(h.number);
    }
    for (unsigned k = 0; k < 2; k++) {
        side *s = &sides[k];
        for (;;) {
            int16_t marks[4];
            zmg_row row;
            walk_marks(&s->world, marks);
            zmg_run ran = zmg_node_run(s->node, marks, &row);
            if (sums) mix_run(ran, &row);
            if (ran != ZMG_RUN_RAN) {
                if (ran != ZMG_RUN_WAITING) on = 0;
                if (ran != ZMG_RUN_WAITING && ran != ZMG_RUN_DEMO_FULL) die("not run");
                break;
            }
            walk_step(&s->world, &row);
            if (!loop) break;
        }
    }
    return on;
}

static inline __attribute__((always_inline)) void games(
    int sums, unsigned long tics, unsigned period, uint8_t extra, uint32_t limit, int loop) {
    unsigned left = 0;
    unsigned long games = 1;
    sides[0].seed = 1;
    sides[1].seed = 2;
    begin(limit, extra);
    for (unsigned long t = 0; t < tics; t++) {
        int fresh = left == 0;
        left = fresh ? period - 1 : left - 1;
        if (!play(sums, fresh, loop)) {
            end(sums);
            begin(limit, extra);
            games++;
        }
    }
    end(sums);
    printf("tics %lu games %lu period %u extra %u limit %u loop %d sum %016llx\n", tics, games, period, extra,
        (unsigned)limit, loop, (unsigned long long)sum);
}

/* ---- Games on a bad line ---- */

enum { NODES = 4, FLIGHTS = 32 };

static uint32_t dice;
static uint32_t draw(void) { return (dice = dice * 1664525u + 1013904223u) >> 8; }
static uint32_t below(uint32_t n) { return draw() % n; }

typedef struct flight {
    uint8_t from, to, bytes[ZMG_PACKET_SIZE];
    size_t length;
} flight;

/* Makes the sum right. */
static void seal(uint8_t *b, size_t length, unsigned flags) {
    uint32_t s = 0x1234567, factor = 1;
    for (size_t k = 4; k + 4 <= length; k += 4) {
        uint32_t w = b[k] | (uint32_t)b[k + 1] << 8 | (uint32_t)b[k + 2] << 16 | (uint32_t)b[k + 3] << 24;
        s += w * factor++;
    }
    s = (s & 0xfffffff) | (uint32_t)flags << 28;
    for (unsigned k = 0; k < 4; k++) b[k] = (uint8_t)(s >> 8 * k);
}

static void bad_game(unsigned long counts[3][32]) {
    zmg_node *nodes[NODES];
    uint8_t holds[NODES] = { 0 };
    static walk worlds[NODES];
    static flight flights[FLIGHTS];
    static const uint32_t limits[4] = { 1024, 1100, 2000, 65536 };
    unsigned players = 2 + below(3), sent = 0, calls = 200 + below(6000), calm = below(8);
    unsigned leave = below(4) ? calls / 4 : calls, honest = below(4);
    uint8_t extra = (uint8_t)below(3);
    uint32_t limit = limits[below(4)];
    for (unsigned k = 0; k < NODES; k++) {
        zmg_node_config c = config_of(limit, players, k, extra);
        zmg_settings good = { (uint8_t)below(5), (uint8_t)below(3), (uint8_t)below(3), (uint8_t)below(3),
            (uint8_t)(1 + below(3)), (uint8_t)(1 + below(32)) };
        c.settings = good;
        if (below(40) == 0) {
            zmg_settings odd = { (uint8_t)below(7), (uint8_t)below(4), 0, 0, (uint8_t)below(5), (uint8_t)below(40) };
            c = config_of(below(2) ? below(3000) : limit, below(6), below(6), extra);
            c.settings = odd;
            if (below(4) == 0) c.size--;
        }
        /* a player whose config is refused has another player's of its number */
        for (;;) {
            zmg_status made = zmg_lockstep_new(&nodes[k], &c);
            mix(made);
            if (made == ZMG_OK) break;
            if (nodes[k]) die("a node with a fault");
            c = config_of(limit, players, k < players ? k : 0, extra);
        }
        walk_begin(&worlds[k], players);
    }
    while (calls-- > 0) {
        unsigned k = below(below(50) ? players : NODES);
        zmg_node *node = nodes[k];
        switch (below(calm ? 8 : 12)) {
        case 0: case 8: {
            zmg_command c = { (int16_t)draw(), (int8_t)draw(), (int8_t)draw(), (uint8_t)draw(), (uint8_t)draw() };
            if (below(3)) zmg_command_from_keys(&holds[k], below(4) ? draw() : draw() & 15, &c);
            zmg_status m = zmg_node_give(node, &c);
            mix(m); mix(holds[k]);
            counts[0][m]++;
            break;
        }
        case 1: case 2: case 9: {
            flight *f = &flights[sent % FLIGHTS];
            uint8_t to = (uint8_t)below(below(20) ? players : 6);
            memset(f->bytes, 0, sizeof f->bytes);
            f->length = zmg_lockstep_packet(node, to, f->bytes, below(50) ? sizeof f->bytes : below(104));
            f->from = (uint8_t)k;
            f->to = to;
            mix_bytes(f->bytes, sizeof f->bytes);
            mix(f->length);
            if (f->length) sent++;
            break;
        }
        case 3: case 4: case 5: case 10: {
            if (!sent) break;
            /* the last ones mostly, some twice, some never */
            unsigned back = below(calm ? 4 : 16);
            flight f = flights[(sent - 1 - (back < sent ? back : 0)) % FLIGHTS];
            uint8_t from = f.from;
            if (f.to >= NODES) break;
            if (calm < 6 && below(calm ? 60 : 12) == 0) {
                switch (below(7)) {
                case 0: f.bytes[below(104)] ^= (uint8_t)(1u << below(8)); break;
                case 1: f.length = below(105); break;
                case 2: from = (uint8_t)below(5); break;
                case 3: f.bytes[4 + below(4)] = (uint8_t)draw(); seal(f.bytes, f.length, f.bytes[3] >> 4); break;
                case 4: seal(f.bytes, f.length, below(16)); break;
                case 5: f.bytes[8 + 8 * below(12)] = 0x80; seal(f.bytes, f.length, f.bytes[3] >> 4); break;
                default:
                    f.bytes[7] = (uint8_t)below(14);
                    f.length = f.bytes[7] <= 12 ? 8u + 8u * f.bytes[7] : 104;
                    seal(f.bytes, f.length, below(3) ? f.bytes[3] >> 4 : below(16));
                }
            }
            zmg_heard h;
            mix(zmg_lockstep_receive(nodes[f.to], from, f.bytes, f.length, &h));
            mix(h.code); mix(h.number);
            counts[1][h.code == ZMG_HEARD_DROPPED ? h.number % 32 : 0]++;
            counts[2][5 + h.code]++;
            if (h.code == ZMG_HEARD_STARTED) walk_begin(&worlds[f.to], state_of(nodes[f.to]).players);
            break;
        }
        case 6: case 7: case 11: {
            int16_t marks[4];
            zmg_row row;
            memset(&row, 7, sizeof row);
            walk_marks(&worlds[k], marks);
            if (!honest && below(1000) == 0) marks[below(4)] = (int16_t)draw();
            zmg_run r = zmg_node_run(node, marks, &row);
            mix_run(r, &row);
            counts[2][r]++;
            if (r == ZMG_RUN_RAN) walk_step(&worlds[k], &row);
            break;
        }
        }
        if (below(60) == 0) mix_node(node);
        if (calls < leave && below(400) == 0) mix(zmg_node_quit(node));
    }
    for (unsigned k = 0; k < NODES; k++) {
        mix_node(nodes[k]);
        mix_demo(nodes[k]);
        zmg_node_free(nodes[k]);
    }
}

static void fuzz(unsigned long games, uint32_t seed) {
    static unsigned long counts[3][32];
    dice = seed;
    for (unsigned long g = 0; g < games; g++) bad_game(counts);
    printf("games %lu seed %u sum %016llx\ngiven", games, (unsigned)seed, (unsigned long long)sum);
    for (unsigned k = 0; k < 32; k++)
        if (counts[0][k] != 0) printf(" %u:%lu", k, counts[0][k]);
    printf("\nran");
    for (unsigned k = 0; k < 5; k++) printf(" %lu", counts[2][k]);
    printf("\nheard");
    for (unsigned k = 5; k < 12; k++) printf(" %lu", counts[2][k]);
    printf("\ndrops");
    for (unsigned k = 1; k < 32; k++)
        if (counts[1][k] != 0) printf(" %u:%lu", k, counts[1][k]);
    printf("\n");
}

int main(int argc, char **argv) {
    if (argc < 3) die("usage: driver time|sum TICS [PERIOD [EXTRA [LIMIT [LOOP]]]] | driver fuzz GAMES SEED");
    unsigned long n = strtoul(argv[2], 0, 10);
    uint32_t given[4] = { 1, 1, 100014, 0 };
    for (int k = 3; k < argc && k < 7; k++) given[k - 3] = (uint32_t)strtoul(argv[k], 0, 10);
    if (!strcmp(argv[1], "time")) games(0, n, given[0], (uint8_t)given[1], given[2], (int)given[3]);
    else if (!strcmp(argv[1], "sum")) games(1, n, given[0], (uint8_t)given[1], given[2], (int)given[3]);
    else if (!strcmp(argv[1], "fuzz")) fuzz(n, given[0]);
    else die("time, sum or fuzz");
    return 0;
}
