/* Locksteps, links, packets, demos and keys: games of two to four nodes in one process, whose rows, ends and
 * demos must agree, on a line that loses and delays; and what each call returns. C99 and C++. nodes GAMES
 * SEED. */
#include "chance.h"
#include "failing.h"
#include "must.h"
#include "zirmegat_parts.h"
#include <stdio.h>
#include <stdlib.h>
#include <string.h>

enum { TICS = 200, FLIGHTS = 512, DEMO = 1 << 15 };

typedef struct {
    unsigned at, from, to;
    size_t length;
    uint8_t bytes[ZMG_DATAGRAM_SIZE];
} flight;

static zmg_node *nodes[4];
static unsigned players, turn, flying, alive[4];
static flight flights[FLIGHTS];
static uint16_t worlds[4];
static zmg_row rows[4 * TICS];
/* what each player gave for each tic, and what a link owes */
static zmg_command given[4][4 * TICS], owed[4];
static uint8_t demos[2][DEMO];
static const char *game = "nothing";

static void tell_where(FILE *out) { fprintf(out, "in %s at turn %u", game, turn); }

static zmg_node_state state_of(unsigned k) {
    zmg_node_state s;
    MUST(zmg_node_state_get(nodes[k], &s, sizeof s) == ZMG_OK);
    return s;
}

static zmg_node_player seen(unsigned k, unsigned player) {
    zmg_node_player p;
    MUST(zmg_node_player_get(nodes[k], (uint8_t)player, &p, sizeof p) == ZMG_OK);
    return p;
}

static zmg_node_config config_of(unsigned k) {
    zmg_node_config c;
    zmg_node_config_init(&c);
    c.players = (uint8_t)players;
    c.me = (uint8_t)k;
    c.limit = DEMO;
    c.settings.map = 7;
    c.secret.bytes[31] = 1;
    c.game.bytes[0] = (uint8_t)below(256);
    return c;
}

static void clear(const char *name, unsigned count) {
    for (unsigned k = 0; k < 4; k++) {
        zmg_node_free(nodes[k]);
        nodes[k] = NULL;
        alive[k] = k < count;
        worlds[k] = 0;
    }
    memset(rows, 0, sizeof rows);
    players = count;
    game = name;
    turn = flying = 0;
}

static void post(unsigned from, unsigned to, const uint8_t *bytes, size_t length, unsigned loss) {
    if (length == 0 || below(100) < loss) return;
    MUST(flying < FLIGHTS);
    flight *f = &flights[flying++];
    f->at = turn + below(3);
    f->from = from;
    f->to = to;
    f->length = length;
    memcpy(f->bytes, bytes, length);
}

/* Runs what can be run. All see the same rows. */
static zmg_run run(unsigned k, zmg_row *row) {
    for (;;) {
        int16_t marks[4];
        for (unsigned p = 0; p < 4; p++) marks[p] = (int16_t)(worlds[k] + p);
        zmg_run ran = zmg_node_run(nodes[k], marks, row);
        if (ran != ZMG_RUN_RAN) return ran;
        MUST(row->tic < 4 * TICS && row->was == 0 && row->player == 0);
        zmg_row *told = &rows[row->tic];
        if (told->present[0] + told->present[1] + told->present[2] + told->present[3] == 0) *told = *row;
        MUST(memcmp(told, row, sizeof *row) == 0);
        for (unsigned p = 0; p < players; p++) {
            static const zmg_command none = { 0, 0, 0, 0, 0 };
            const zmg_command *c = &row->commands[p];
            MUST(memcmp(c, row->present[p] ? &given[p][row->tic] : &none, sizeof none) == 0);
            worlds[k] = (uint16_t)(worlds[k] * 31u + (uint16_t)c->turn + (uint8_t)c->forward + row->present[p]);
        }
    }
}

/* A forward of -128 is made as -127, since it would end a demo. */
static zmg_status give(unsigned k) {
    uint32_t made = state_of(k).made;
    zmg_command c = { (int16_t)draw(), (int8_t)(below(16) ? below(50) : 128), (int8_t)-40, (uint8_t)draw(), 1 };
    zmg_status status = zmg_node_give(nodes[k], &c);
    if (c.forward == -128) c.forward = -127;
    if (status == ZMG_OK) given[k][made] = c;
    else owed[k] = c;
    return status;
}

static zmg_status catch_up(unsigned k) {
    uint32_t made = state_of(k).made;
    zmg_status status = zmg_link_catch_up(nodes[k]);
    if (status == ZMG_OK) given[k][made] = owed[k];
    return status;
}

/* The demos are the same up to the first row that lacks a player, but for the player whose view they show. */
static void same_demos(unsigned one, unsigned other, size_t least) {
    size_t n = zmg_node_demo(nodes[one], 0, demos[0], DEMO), m = zmg_node_demo(nodes[other], 0, demos[1], DEMO);
    MUST(n == state_of(one).demo_length && m == state_of(other).demo_length);
    if (m < n) n = m;
    MUST(n > least && memcmp(demos[0], demos[1], 8) == 0 && memcmp(demos[0] + 9, demos[1] + 9, n - 10) == 0);
}

static void locksteps(unsigned count) {
    clear("locksteps", count);
    unsigned started = 0;
    for (unsigned k = 0; k < players; k++) {
        zmg_node_config c = config_of(k);
        MUST(zmg_lockstep_new(&nodes[k], &c) == ZMG_OK);
        zmg_node_state s = state_of(k);
        MUST(s.phase == (k ? ZMG_PHASE_LISTENING : ZMG_PHASE_GATHERING));
        MUST(s.knows_settings == (k == 0) && !s.can_give);
        MUST(s.me == k && s.players == players && give(k) == ZMG_ERR_NOT_NOW);
    }
    for (turn = 0; turn < 8 * TICS; turn++)
        for (unsigned k = 0; k < players; k++) {
            uint8_t bytes[ZMG_PACKET_SIZE];
            zmg_row row;
            zmg_node_state s = state_of(k);
            unsigned last = TICS + 20 * k; /* one leaves after another */
            zmg_status gave = s.ran < last ? give(k) : ZMG_ERR_NOT_NOW;
            MUST(s.ran >= last || gave == (s.can_give ? ZMG_OK : s.phase == ZMG_PHASE_PLAYING ? ZMG_ERR_FULL
                : ZMG_ERR_NOT_NOW));
            if (s.ran >= last && s.phase == ZMG_PHASE_PLAYING) MUST(zmg_node_quit(nodes[k]) == ZMG_OK);
            for (unsigned to = 0; to < players; to++) {
                zmg_aim aim;
                zmg_packet packet;
                zmg_status aims = zmg_lockstep_aim(nodes[k], (uint8_t)to, &aim);
                size_t length = zmg_lockstep_packet(nodes[k], (uint8_t)to, bytes, sizeof bytes);
                MUST((length > 0) == (aims == ZMG_OK));
                if (length == 0) continue;
                MUST(zmg_packet_decode(bytes, length, &packet) == 0 && packet.flags == aim.flags);
                if (!(packet.flags & ZMG_FLAG_SETUP))
                    MUST(packet.start == (uint8_t)aim.start && packet.count == aim.count);
                MUST(zmg_packet_encode(&packet, demos[0], DEMO) == length);
                MUST(memcmp(demos[0], bytes, length) == 0);
                post(k, to, bytes, length, 20);
            }
            for (unsigned j = 0; j < flying;) {
                zmg_heard heard;
                flight f = flights[j];
                if (f.to != k || f.at > turn) { j++; continue; }
                flights[j] = flights[--flying];
                MUST(zmg_lockstep_receive(nodes[k], (uint8_t)f.from, f.bytes, f.length, &heard) == heard.code);
                MUST(heard.code <= ZMG_HEARD_NOTED);
                MUST((heard.code != ZMG_HEARD_DROPPED || heard.number <= ZMG_DROP_END));
                started += heard.code == ZMG_HEARD_STARTED;
            }
            run(k, &row);
        }
    MUST(started == players);
    for (unsigned k = 0; k < players; k++) {
        zmg_node_state s = state_of(k);
        MUST(s.phase == ZMG_PHASE_ENDED && s.cause == ZMG_CAUSE_QUIT && s.ran >= TICS && s.knows_settings);
        MUST(s.settings.map == 7 && s.settings.skill == 2 && zmg_node_quit(nodes[k]) == ZMG_ERR_NOT_NOW);
        MUST(seen(k, k ? 0 : 1).got >= TICS && seen(k, players).got == 0);
        MUST(seen(k, players).end == ZMG_NO_END && seen(k, 0).line.came == 0);
        if (k) MUST(seen(k, 0).end >= TICS && seen(k, 0).end <= s.ran && s.ran >= TICS + 20 * k);
        same_demos(0, k, 13 + TICS * 5 * players);
    }
}

static void send_links(unsigned k, int second, unsigned loss) {
    for (unsigned to = 0; to < players; to++) {
        uint8_t bytes[ZMG_DATAGRAM_SIZE];
        zmg_node_player p = seen(k, to);
        if (to == k || (second ? !p.wants_second : p.is_resting)) continue;
        post(k, to, bytes, zmg_link_datagram(nodes[k], (uint8_t)to, bytes, sizeof bytes), loss);
    }
}

/* A datagram that came comes again, and brings no command; comes altered, cut or to another player, and changes
 * nothing but the count of what was refused. */
static void attack_link(unsigned k, const flight *f) {
    zmg_received r;
    zmg_node_state before, after;
    flight bad = *f;
    unsigned other = (k + 1) % players;
    uint32_t got = seen(k, f->from).got;
    MUST(zmg_link_receive(nodes[k], f->bytes, f->length, &r) != ZMG_RECEIVED_UNOPENED);
    MUST(seen(k, f->from).got == got);
    before = state_of(k);
    bad.bytes[below((unsigned)f->length)] ^= (uint8_t)(1u << below(8));
    MUST(zmg_link_receive(nodes[k], bad.bytes, bad.length, &r) == ZMG_RECEIVED_UNOPENED && r.player == 0);
    MUST(r.reason >= ZMG_UNOPENED_SUITE && r.reason <= ZMG_UNOPENED_TAG);
    MUST(zmg_link_receive(nodes[k], f->bytes, below((unsigned)f->length), &r) == ZMG_RECEIVED_UNOPENED);
    MUST(r.reason == ZMG_UNOPENED_SHORT || r.reason == ZMG_UNOPENED_TAG);
    MUST(zmg_link_receive(nodes[k], f->bytes, 61, &r) == ZMG_RECEIVED_UNOPENED);
    MUST(r.reason == ZMG_UNOPENED_SHORT);
    after = state_of(k);
    MUST(after.refused == before.refused + 3);
    after.refused = before.refused;
    MUST(memcmp(&before, &after, sizeof before) == 0);
    if (!alive[other] || other == f->to || state_of(other).phase != ZMG_PHASE_PLAYING) return;
    MUST(zmg_link_receive(nodes[other], f->bytes, f->length, &r) == ZMG_RECEIVED_UNOPENED);
    MUST(r.reason == ZMG_UNOPENED_RECEIVER);
}

static void hear_links(unsigned k) {
    for (unsigned j = 0; j < flying;) {
        zmg_received r;
        flight f = flights[j];
        if (f.to != k || f.at > turn) { j++; continue; }
        flights[j] = flights[--flying];
        MUST(zmg_link_receive(nodes[k], f.bytes, f.length, &r) == r.code);
        MUST((r.code == ZMG_RECEIVED_HEARD || r.code == ZMG_RECEIVED_GIVEN_UP));
        MUST(r.player == f.from && r.reason == 0);
        attack_link(k, &f);
    }
}

static void tick_links(unsigned turns, unsigned loss, unsigned most) {
    for (unsigned end = turn + turns; turn < end; turn++)
        for (unsigned k = 0; k < players; k++) {
            zmg_row row;
            int32_t later;
            if (!alive[k]) continue;
            zmg_status caught = catch_up(k);
            MUST(caught == ZMG_OK || caught == ZMG_ERR_FULL || caught == ZMG_ERR_NOT_NOW);
            if (state_of(k).made < most) give(k);
            MUST(zmg_link_tick(nodes[k], &later) == ZMG_OK && later >= -9 && later <= 41);
            send_links(k, 0, loss);
            hear_links(k);
            run(k, &row);
            if (catch_up(k) == ZMG_OK) run(k, &row);
            send_links(k, 1, loss);
        }
}

static void links(unsigned count) {
    zmg_given_up g;
    clear("links", count);
    zmg_node_config c = config_of(0);
    for (unsigned k = 0; k < players; k++) {
        c.me = (uint8_t)k;
        MUST(zmg_link_new(&nodes[k], &c) == ZMG_OK);
        MUST(state_of(k).phase == ZMG_PHASE_PLAYING && state_of(k).settings.map == 7 && state_of(k).can_give);
    }
    tick_links(TICS, 15, TICS / 2);
    for (unsigned k = 0; k < players; k++) {
        zmg_node_player p = seen(k, k ? 0 : 1);
        MUST(state_of(k).ran == TICS / 2 && state_of(k).refused > 0 && state_of(k).unacknowledged == 0);
        MUST(p.got == TICS / 2 && p.end == ZMG_NO_END);
        MUST(p.left == ZMG_CAUSE_NONE && p.line.came > 20 && p.line.lost > 0);
        same_demos(0, k, 13 + TICS / 2 * 5 * players - 2);
    }
    game = "links of which the last vanishes";
    alive[players - 1] = 0;
    tick_links(40, 15, TICS);
    for (unsigned k = 0; k + 1 < players; k++) {
        zmg_row row;
        int16_t marks[4] = { 0, 0, 0, 0 };
        MUST(zmg_node_run(nodes[k], marks, &row) == ZMG_RUN_WAITING);
        MUST(row.player == players - 1 && row.tic == 0);
        MUST(zmg_link_give_up(nodes[k], (uint8_t)(players - 1), &g) == g.code);
        MUST(g.code == (players == 2 ? ZMG_GIVE_UP_DECIDED : ZMG_GIVE_UP_WAITING));
        MUST(zmg_link_give_up(nodes[k], (uint8_t)(players - 1), &g) == ZMG_GIVE_UP_ALREADY);
        MUST(zmg_link_give_up(nodes[k], (uint8_t)k, &g) == ZMG_GIVE_UP_NOT_A_PLAYER);
        MUST(seen(k, players - 1).given_up == 1 && (players == 2) != (int)state_of(k).is_undecided);
    }
    tick_links(TICS, 15, TICS);
    for (unsigned k = 0; k + 1 < players; k++) {
        MUST(!state_of(k).is_undecided && seen(k, players - 1).end != ZMG_NO_END && state_of(k).ran == TICS);
        if (players > 2) MUST(seen(k, k ? 0 : 1).reports[players - 1] == 1);
        MUST(zmg_node_quit(nodes[k]) == ZMG_OK);
    }
    tick_links(100, 15, TICS);
    for (unsigned k = 0; k + 1 < players; k++) {
        MUST(state_of(k).may_leave && state_of(k).phase == ZMG_PHASE_ENDED && give(k) == ZMG_ERR_NOT_NOW);
        if (players > 2) MUST(seen(k, k ? 0 : 1).left == ZMG_CAUSE_QUIT);
    }
}

/* Two with mice on a line that is longer than the window. Where the command that is owed was not made before the
 * next tick, its motion goes into that tick's command: none is lost. */
static void mice(void) {
    int32_t moved[2] = { 0, 0 }, put[2] = { 0, 0 }, full = 0;
    clear("links with mice", 2);
    zmg_node_config c = config_of(0);
    for (unsigned k = 0; k < 2; k++) {
        c.me = (uint8_t)k;
        MUST(zmg_link_new(&nodes[k], &c) == ZMG_OK);
    }
    for (; turn < TICS; turn++)
        for (unsigned k = 0; k < 2; k++) {
            uint8_t bytes[ZMG_DATAGRAM_SIZE];
            zmg_row row;
            int32_t later, motion = (int32_t)below(40) - 20;
            int owes = catch_up(k) == ZMG_ERR_FULL;
            if (!owes) put[k] = 0;
            full += owes;
            moved[k] += motion;
            put[k] += motion;
            zmg_command command = { (int16_t)put[k], 0, 0, 0, 0 };
            zmg_status status = zmg_node_give(nodes[k], &command);
            MUST(status == ZMG_OK || status == ZMG_ERR_FULL);
            owed[k] = command;
            if (status == ZMG_OK) given[k][state_of(k).made - 1] = command, put[k] = 0;
            MUST(zmg_link_tick(nodes[k], &later) == ZMG_OK);
            post(k, 1 - k, bytes, zmg_link_datagram(nodes[k], (uint8_t)(1 - k), bytes, sizeof bytes), 0);
            flights[flying - 1].at = turn + 8;
            hear_links(k);
            run(k, &row);
            if (catch_up(k) == ZMG_OK) put[k] = 0;
            int32_t sum = put[k];
            for (uint32_t tic = 0; tic < state_of(k).made; tic++) sum += given[k][tic].turn;
            MUST(sum == moved[k]);
        }
    MUST(full > 20 && state_of(0).ran > 60 && state_of(1).ran > 60);
}

static void other_worlds(void) {
    zmg_row row;
    clear("links of another world", 2);
    zmg_node_config c = config_of(0);
    MUST(zmg_link_new(&nodes[0], &c) == ZMG_OK);
    c.me = 1;
    MUST(zmg_link_new(&nodes[1], &c) == ZMG_OK);
    tick_links(40, 0, 30);
    worlds[1]++;
    tick_links(40, 0, 60);
    MUST(state_of(0).cause == ZMG_CAUSE_INCONSISTENT || state_of(1).cause == ZMG_CAUSE_INCONSISTENT);
    unsigned k = state_of(0).cause == ZMG_CAUSE_INCONSISTENT ? 0 : 1;
    MUST(state_of(k).player == 1 - k && state_of(k).was != state_of(k).should);
    MUST(run(k, &row) == ZMG_RUN_NOT_PLAYING);
}

static void faults(void) {
    zmg_node *node = NULL;
    zmg_node_config good, bad;
    clear("faults of a config", 2);
    good = config_of(0);
#define BOTH(field, value, status) \
    do { \
        bad = good; \
        bad.field = value; \
        MUST(zmg_link_new(&node, &bad) == status && node == NULL); \
        MUST(zmg_lockstep_new(&node, &bad) == status && node == NULL); \
    } while (0)
    BOTH(size, sizeof bad - 1, ZMG_ERR_SIZE);
    BOTH(size, sizeof bad + 8, ZMG_ERR_SIZE);
    BOTH(players, 1, ZMG_ERR_PLAYERS);
    BOTH(players, 5, ZMG_ERR_PLAYERS);
    BOTH(window, 0, ZMG_ERR_WINDOW);
    BOTH(window, 13, ZMG_ERR_WINDOW);
    BOTH(limit, 1023, ZMG_ERR_LIMIT);
    BOTH(limit, 16777217, ZMG_ERR_LIMIT);
    BOTH(settings.skill, 5, ZMG_ERR_SKILL);
    BOTH(settings.deathmatch, 3, ZMG_ERR_DEATHMATCH);
    BOTH(settings.episode, 0, ZMG_ERR_EPISODE);
    BOTH(settings.map, 33, ZMG_ERR_MAP);
    good.me = 1;
    BOTH(players, 1, ZMG_ERR_PLAYERS);
    BOTH(me, 2, ZMG_ERR_ME);
    bad = good;
    bad.secret.bytes[31] = 0;
    MUST(zmg_link_new(&node, &bad) == ZMG_ERR_KEY && node == NULL);
    bad.settings.map = 99; /* only player 0 of locksteps has settings */
    MUST(zmg_lockstep_new(&node, &bad) == ZMG_OK);
    zmg_node_free(node);
}

static void demo(void) {
    zmg_demo *d = NULL;
    zmg_demo_facts facts;
    zmg_row row;
    size_t n, written;
    links(3);
    game = "a demo";
    n = zmg_node_demo(nodes[0], 0, demos[0], DEMO);
    MUST(zmg_demo_read(&d, demos[0], 12) == ZMG_ERR_DEMO_SHORT && d == NULL);
    MUST(zmg_demo_read(&d, demos[0], n - 1) == ZMG_ERR_DEMO_MARKER && d == NULL);
    MUST(zmg_demo_read(&d, demos[0], n) == ZMG_OK && zmg_demo_tell(d, &facts, sizeof facts) == ZMG_OK);
    MUST(facts.version == 111 && facts.start.map == 7 && facts.start.skill == 2 && facts.tics >= TICS / 2);
    MUST(facts.present[0] + facts.present[1] + facts.present[2] == 3);
    MUST(facts.present[3] == 0 && facts.cut == 0);
    MUST(zmg_demo_row(d, facts.tics, &row) == ZMG_ERR_TIC);
    MUST(zmg_demo_row(d, 5, &row) == ZMG_OK && row.tic == 5);
    MUST(row.commands[1].turn == rows[5].commands[1].turn && row.commands[1].chat == 0 && row.present[2] == 1);
    MUST(zmg_demo_upgrade(demos[0], n, demos[1], DEMO, &written) == ZMG_OK && written == n);
    MUST(memcmp(demos[0], demos[1], n) == 0);
    MUST(zmg_demo_upgrade(demos[0], n, demos[1], 1023, &written) == ZMG_ERR_LIMIT && written == 0);
    MUST(zmg_demo_upgrade(demos[0], n, demos[1], 1024, &written) == ZMG_ERR_ROOM && written == 0);
    demos[0][0] = 110;
    MUST(zmg_demo_upgrade(demos[0], n, demos[1], DEMO, &written) == ZMG_ERR_DEMO_VERSION && written == 0);
    zmg_demo_free(d);
}

static void keys(void) {
    zmg_key key, again;
    char text[ZMG_KEY_TEXT_SIZE];
    zmg_command c;
    uint8_t hold = 0;
    game = "keys";
    for (unsigned k = 0; k < 32; k++) key.bytes[k] = (uint8_t)(k * 9 + 1);
    zmg_key_to_text(&key, text);
    MUST(memcmp(text, "010a131c252e374049525b646d767f88919aa3acb5bec7d0d9e2ebf4fd060f18\n", 65) == 0);
    MUST(zmg_key_from_text(&again, text, sizeof text) == ZMG_OK && memcmp(&key, &again, sizeof key) == 0);
    text[3] = 'A';
    MUST(zmg_key_from_text(&again, text, sizeof text) == ZMG_OK && memcmp(&key, &again, sizeof key) == 0);
    MUST(zmg_key_from_text(&again, text, 64) == ZMG_ERR_TEXT);
    MUST(zmg_key_from_text(&again, text, 0) == ZMG_ERR_TEXT);
    text[3] = 'g';
    MUST(zmg_key_from_text(&again, text, sizeof text) == ZMG_ERR_TEXT && memcmp(&key, &again, sizeof key) == 0);
    memset(text, '0', 64);
    MUST(zmg_key_from_text(&again, text, sizeof text) == ZMG_ERR_KEY);
    for (unsigned k = 1; k < 10; k++) {
        zmg_command_from_keys(&hold, ZMG_KEY_LEFT | ZMG_KEY_FORWARD | ZMG_KEY_SPEED | ZMG_KEY_WEAPON(3), &c);
        MUST(hold == (k < 6 ? k : 6) && c.turn == (k < 6 ? 320 : 1280));
        MUST(c.forward == 50 && c.buttons == (4 | 2 << 3));
    }
    zmg_command_from_keys(&hold, ZMG_KEY_STRAFE_RIGHT | ZMG_KEY_ATTACK, &c);
    MUST(hold == 0 && c.turn == 0 && c.side == 24 && c.buttons == 1);
}

int main(int argc, char **argv) {
    unsigned games = argc > 1 ? (unsigned)strtoul(argv[1], NULL, 10) : 1;
    MUST(sizeof(zmg_host_config) == 384 && sizeof(zmg_join_config) == 144 && sizeof(zmg_node_config) == 72);
    MUST(sizeof(zmg_state) == 328 && sizeof(zmg_player) == 96);
    MUST(sizeof(zmg_demo_facts) == 40 && sizeof(zmg_row) == 40);
    MUST(sizeof(zmg_node_state) == 80 && sizeof(zmg_node_player) == 40);
    begin_chance(argc > 2 ? argv[2] : "1");
    for (unsigned k = 0; k < games; k++) {
        locksteps(2 + k % 3);
        links(2 + k % 3);
        mice();
        other_worlds();
    }
    faults();
    demo();
    keys();
    clear("nothing", 0);
    MUST(blocks_held() == 0);
    printf("nodes: %u games of each kind\n", games);
    return 0;
}
