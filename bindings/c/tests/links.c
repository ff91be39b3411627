/* Games of two to four links on an untrusted network: `links [GAMES [SEED]]`. Players come one after another,
 * stop for a while, and quit at any time; some games end with a full demo. The network loses, repeats and
 * reorders datagrams, holds some back for 500 turns, alters, cuts, forges, names other senders, and brings
 * datagrams to players that they are not for, those of another game and of who is no player of this one, and
 * those that were on the way when the game before ended, which may have had the same secret. All who run a tic
 * must run it by the same row, all who tell where a player ends must tell the same, all demos must be the same
 * as far as they go, nobody may wait for ever, and who has quit must be told that it may leave, and not before
 * the others have all of its commands. C99 and C++. Ends with status 0, or names the line that failed. */
#include "agreed.h"
#include "chance.h"
#include "due.h"
#include "engine.h"
#include "must.h"
#include <stdio.h>
#include <stdlib.h>
#include <string.h>

enum { NODES = 4, HELD = 500 };

/* In turns, of which each player takes one: how late a player comes or quits at most, how long it stops, how
 * long it gives datagrams after it may leave; how long it waits at most for a tic, and for leave; and how long
 * a game is at most. */
enum { LATEST = 150, LAST = 500, STOP = 60, FAREWELL = 70, PATIENCE = 2000, LONGEST = 6 * PATIENCE };

/* Whose datagrams they are, beside the players': one with another secret, one in another game, and one that
 * knows the secret and is no player. */
enum { FORGER = NODES, OTHER_GAME, OUTSIDER, LINKS };

typedef enum stage { ABSENT, HERE, LEAVING, GONE } stage;

/* A player's part of a game: when it comes, quits, runs again after a stop, last ran a tic, has quit and may
 * leave; how many turns it took; and a sum of its rows, which is its world. */
typedef struct player {
    stage is;
    uint32_t comes, quits, stopped, last_run, quit_at, left_at, turns;
    uint16_t world;
    uint8_t may_leave, hold;
} player;

static uint32_t players, lost, slowest;
static zmg_node *links[LINKS];
static player all[NODES];
static zmg_key secret;
static zmg_game_number number;
static uint8_t window;
static uint32_t limit;
static unsigned long games, heard, unopened[16], strangers, full, caught_up, seconds, rests, alone, early,
    carried;
static uint8_t rested[NODES][NODES];

static void tell_where(FILE *out) { fprintf(out, "in game %lu at turn %u", games, (unsigned)now); }

static agreement common;

/* ---- Links ---- */

static void make(unsigned k, uint8_t me, uint32_t of, const zmg_key *with, const zmg_game_number *in) {
    zmg_node_config c = config_of(limit, of, me);
    c.window = window;
    c.secret = *with;
    c.game = *in;
    MUST(zmg_link_new(&links[k], &c) == ZMG_OK);
}

static void make_strangers(void) {
    zmg_key other = secret;
    zmg_game_number another = number;
    other.bytes[sizeof other - 1] ^= 1;
    make(FORGER, 0, players, &other, &number);
    /* in the half that a datagram has, or in the other */
    another.bytes[below(2) ? 0 : sizeof another - 1] ^= 1;
    make(OTHER_GAME, 0, players, &secret, &another);
    if (players < NODES) make(OUTSIDER, NODES - 1, NODES, &secret, &number);
}

/* What is still on the way when a game ends: how much. */
static uint32_t take_all(flight *left) {
    uint32_t count = 0;
    for (uint32_t turn = 0; turn < SPAN; turn++)
        for (uint32_t k = due[turn]; k;) k = take_due(k, &left[count++]);
    return count;
}

/* It comes in the next game, to any player and at any time. */
static void carry_over(void) {
    static flight left[FLIGHTS];
    uint32_t count = take_all(left);
    carried += count;
    clear_line();
    for (uint32_t k = 0; k < count; k++) {
        left[k].changed = 1;
        left[k].to = (uint8_t)below(players);
        post(&left[k], below(HELD));
    }
}

static void open_game(void) {
    uint32_t late;
    players = 2 + below(3);
    window = (uint8_t)(1 + below(12));
    /* in one of eight games most stay until the demo is full */
    limit = below(4) ? 65536 : 1024 + below(2000);
    late = limit < 65536 && below(2) ? LAST : 0;
    lost = below(41);
    slowest = 1 + below(20);
    now = 0;
    begin_agreement(&common);
    if (games == 0 || below(2)) fill(secret.bytes, sizeof secret);
    fill(number.bytes, sizeof number);
    memset(all, 0, sizeof all);
    carry_over();
    for (uint32_t p = 0; p < players; p++) {
        all[p].comes = below(3) ? 0 : below(LATEST);
        all[p].quits = late + below(LAST);
    }
    make_strangers();
}

/* ---- The network ---- */

/* Turns a bit, cuts, puts a byte behind, makes all anew, or names another of the players as the sender. */
static void change(flight *f) {
    f->changed = 1;
    switch (below(7)) {
    case 0: f->length = below((uint32_t)f->length); break;
    case 1: f->bytes[f->length++] = (uint8_t)draw(); break;
    case 2: fill(f->bytes, f->length); break;
    case 3: f->bytes[10] = (uint8_t)((f->bytes[10] + 1 + below(players - 1)) % players); break;
    default: f->bytes[below((uint32_t)f->length)] ^= (uint8_t)(1u << below(8));
    }
}

static uint32_t delay(void) { return below(slowest) + (below(60) == 0 ? HELD : 0); }

/* A datagram is given to whom it is for, and now and then to another too, perhaps to its sender. */
static void carry(flight *f) {
    uint8_t to = f->to;
    for (uint32_t copies = below(100) < lost ? 0 : 1 + (below(8) == 0); copies; copies--) {
        flight g = *f;
        if (below(12) == 0) change(&g);
        post(&g, delay());
    }
    if (below(40) == 0) {
        f->to = (uint8_t)below(players);
        f->changed |= f->to != to;
        post(f, delay());
    }
}

static void give(unsigned from, uint8_t to) {
    static flight f;
    MUST(zmg_link_datagram(links[from], to, f.bytes, ZMG_DATAGRAM_SIZE - 1) == 0);
    f.length = zmg_link_datagram(links[from], to, f.bytes, ZMG_DATAGRAM_SIZE);
    MUST(f.length <= ZMG_DATAGRAM_SIZE);
    MUST(f.length == 0 || to != state_of(links[from]).me);
    if (f.length == 0) return;
    f.from = (uint8_t)from;
    f.to = to;
    f.changed = from == FORGER || from == OTHER_GAME;
    carry(&f);
}

/* At no tick of four in a row a link rests for a player. */
static void rest(uint8_t me, uint8_t to) {
    rested[me][to] = seen_by(links[me], to).is_resting ? rested[me][to] + 1 : 0;
    MUST(rested[me][to] < 4);
    rests += rested[me][to] > 0;
}

static void give_all(uint8_t me) {
    for (uint8_t to = 0; to < NODES + 1; to++)
        if (!seen_by(links[me], to).is_resting) give(me, to);
}

static void give_strange(void) {
    if (below(16) == 0) give(FORGER, (uint8_t)(1 + below(players - 1)));
    if (below(16) == 0) give(OTHER_GAME, (uint8_t)(1 + below(players - 1)));
    if (players < NODES && below(16) == 0) give(OUTSIDER, (uint8_t)below(players));
}

/* ---- An engine ---- */

static void run_all(uint8_t me) {
    player *p = &all[me];
    for (uint8_t k = 0; k < players; k++) tells_end(&common, k, seen_by(links[me], k).end);
    for (;;) {
        zmg_row row;
        zmg_run ran = run_node(links[me], p->world, &row);
        MUST(ran != ZMG_RUN_INCONSISTENT);
        if (ran != ZMG_RUN_RAN) return;
        runs_row(&common, players, &row);
        p->world = stepped(p->world, &row);
        p->last_run = now;
    }
}

static void run_and_catch_up(uint8_t me) {
    run_all(me);
    if (zmg_link_catch_up(links[me]) != ZMG_OK) return;
    MUST(zmg_link_catch_up(links[me]) != ZMG_OK);
    MUST(state_of(links[me]).made <= all[me].turns);
    caught_up++;
    give_all(me);
    run_all(me);
}

static void build(uint8_t me) {
    uint32_t can = state_of(links[me]).can_give;
    zmg_command c = { (int16_t)draw(), (int8_t)below(100), (int8_t)below(80), (uint8_t)draw(), 1 };
    if (below(2)) zmg_command_from_keys(&all[me].hold, draw(), &c);
    MUST((zmg_node_give(links[me], &c) == ZMG_OK) == can);
    MUST(state_of(links[me]).made <= ++all[me].turns);
}

static void tick(uint8_t me) {
    int32_t later;
    build(me);
    MUST(zmg_link_tick(links[me], &later) == ZMG_OK && -9 <= later && later <= 41);
    for (uint8_t to = 0; to < NODES; to++) rest(me, to);
    give_all(me);
    run_and_catch_up(me);
    if (below(200) == 0) all[me].stopped = now + below(STOP);
}

static void second(uint8_t me) {
    for (uint8_t to = 0; to < NODES; to++)
        if (seen_by(links[me], to).wants_second) {
            seconds++;
            give(me, to);
        }
}

/* What a link tells of itself. */
typedef struct told {
    zmg_node_state state;
    zmg_node_player players[4];
} told;

static told tell(uint8_t me) {
    told t;
    memset(&t, 0, sizeof t);
    MUST(zmg_node_state_get(links[me], &t.state, sizeof t.state) == ZMG_OK);
    for (uint8_t p = 0; p < 4; p++)
        MUST(zmg_node_player_get(links[me], p, &t.players[p], sizeof t.players[p]) == ZMG_OK);
    return t;
}

/* What no player of the game gave to this one opens nothing and changes nothing, but is counted. */
static void hear_other(const flight *f) {
    told before = tell(f->to), after;
    zmg_received r;
    MUST(zmg_link_receive(links[f->to], f->bytes, f->length, &r) == r.code);
    if (f->changed) {
        MUST(r.code == ZMG_RECEIVED_UNOPENED && r.reason < 16);
        unopened[r.reason]++;
    } else {
        MUST(r.code == ZMG_RECEIVED_STRANGER && r.player == NODES - 1);
        strangers++;
    }
    after = tell(f->to);
    before.state.refused += f->changed;
    MUST(memcmp(&before, &after, sizeof before) == 0);
}

/* Where the sender of what was heard has left, the cause is its own. */
static void look_at_sender(const flight *f) {
    zmg_cause left = seen_by(links[f->to], f->from).left;
    if (left == ZMG_CAUSE_NONE || all[f->from].is == GONE) return;
    zmg_node_state sender = state_of(links[f->from]);
    MUST(sender.phase == ZMG_PHASE_ENDED && sender.cause == left);
}

static void hear(const flight *f) {
    zmg_received r;
    if (f->changed || f->from == OUTSIDER) {
        hear_other(f);
        return;
    }
    MUST(zmg_link_receive(links[f->to], f->bytes, f->length, &r) == ZMG_RECEIVED_HEARD && r.player == f->from);
    heard++;
    look_at_sender(f);
    run_and_catch_up(f->to);
}

/* What is due now is heard, but by who is stopped after the stop. */
static void arrive(void) {
    uint32_t k = first_due();
    while (k) {
        flight f;
        const player *p;
        k = take_due(k, &f);
        p = &all[f.to];
        if (p->is != HERE && p->is != LEAVING) continue;
        if (p->stopped > now) post(&f, p->stopped - now);
        else hear(&f);
    }
}

/* ---- A player's coming and going ---- */

static void come(uint8_t me) {
    make(me, me, players, &secret, &number);
    memset(rested[me], 0, sizeof rested[me]);
    all[me].is = HERE;
    all[me].stopped = 0;
    all[me].last_run = now;
}

static void quit(uint8_t me) {
    player *p = &all[me];
    int ended = state_of(links[me]).phase == ZMG_PHASE_ENDED;
    full += (unsigned)ended;
    MUST(zmg_node_quit(links[me]) == (ended ? ZMG_ERR_NOT_NOW : ZMG_OK));
    MUST(zmg_node_quit(links[me]) == ZMG_ERR_NOT_NOW);
    p->is = LEAVING;
    p->may_leave = 0;
    p->quit_at = now;
}

/* Who may leave is needed by nobody: each other player has quit, or has all its commands and the end. */
static void look_for_leave(uint8_t me) {
    player *p = &all[me];
    int was = p->may_leave;
    zmg_node_state s = state_of(links[me]);
    p->may_leave = s.may_leave != 0;
    MUST(p->may_leave || !was || p->is == HERE);
    if (p->may_leave && !was) p->left_at = now;
    if (!p->may_leave) return;
    early += s.made == 0;
    MUST(s.unacknowledged == 0);
    for (uint8_t k = 0; k < players; k++)
        if (k != me && (all[k].is == ABSENT || all[k].is == HERE)) {
            MUST(p->is == LEAVING && all[k].is == HERE && seen_by(links[k], me).end != ZMG_NO_END);
            MUST(seen_by(links[k], me).got == s.made);
        }
}

static void look_at_demo(uint8_t me) {
    static uint8_t demo[MOST_DEMO];
    size_t length = zmg_node_demo(links[me], 0, demo, sizeof demo);
    MUST(length == state_of(links[me]).demo_length);
    tells_demo(&common, players, state_of(links[me]).ran, 1, demo, length);
}

static void go(uint8_t me) {
    look_at_demo(me);
    zmg_node_free(links[me]);
    links[me] = NULL;
    all[me].is = GONE;
}

/* It ends by itself where its demo is full. */
static int wants_to_quit(uint8_t me) {
    return now >= all[me].quits || state_of(links[me]).phase == ZMG_PHASE_ENDED;
}

static void live(uint8_t me) {
    player *p = &all[me];
    if (p->is == ABSENT && now >= p->comes) come(me);
    if (p->is == HERE && wants_to_quit(me)) quit(me);
    if (p->is == HERE) MUST(now - p->last_run < PATIENCE);
    if (p->is != HERE && p->is != LEAVING) return;
    look_for_leave(me);
    if (p->is != LEAVING) return;
    MUST(p->may_leave || now - p->quit_at < PATIENCE);
    if (p->may_leave && now > p->left_at + FAREWELL) go(me);
}

/* ---- A game ---- */

static int is_over(void) {
    for (uint32_t p = 0; p < players; p++)
        if (all[p].is != GONE) return 0;
    return 1;
}

static void turn(void) {
    unsigned here = 0;
    for (uint8_t p = 0; p < players; p++) {
        live(p);
        here += all[p].is == HERE;
    }
    alone += here == 1;
    for (uint8_t p = 0; p < players; p++)
        if ((all[p].is == HERE || all[p].is == LEAVING) && all[p].stopped <= now) tick(p);
    give_strange();
    arrive();
    for (uint8_t p = 0; p < players; p++)
        if ((all[p].is == HERE || all[p].is == LEAVING) && all[p].stopped <= now) second(p);
    MUST(++now < LONGEST);
}

static void game(void) {
    open_game();
    while (!is_over()) turn();
    for (unsigned k = NODES; k < LINKS; k++) {
        zmg_node_free(links[k]);
        links[k] = NULL;
    }
    games++;
}

int main(int argc, char **argv) {
    unsigned long count = argc > 1 ? strtoul(argv[1], NULL, 10) : 300;
    if (argc > 2) begin_chance(argv[2]);
    while (games < count) game();
    printf("%lu games: heard %lu, strangers %lu, full %lu, caught up %lu, second %lu, rests %lu, alone %lu,"
        " without a command %lu, carried over %lu\nunopened",
        games, heard, strangers, full, caught_up, seconds, rests, alone, early, carried);
    for (unsigned k = 1; k < 16; k++) printf(" %lu", unopened[k]);
    printf("\n");
    if (games < 100) return 0;
    /* in so many games all of it comes */
    MUST(unopened[ZMG_UNOPENED_TAG] > 0 && unopened[ZMG_UNOPENED_RECEIVER] > 0);
    MUST(unopened[ZMG_UNOPENED_GAME] > 0);
    MUST(strangers > 0 && full > 0 && caught_up > 0 && seconds > 0 && rests > 0 && alone > 0);
    MUST(early > 0 && carried > 0);
    return 0;
}
