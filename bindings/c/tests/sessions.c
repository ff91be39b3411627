/* Sessions of two to four players in one process, in virtual time, over a line that loses, repeats and delays:
 * their lobby, games, chat, and how they end; and what misuse and refused memory are answered with. C99 and
 * C++. sessions GAMES SEED. Ends with status 0, or names the line that failed. */
#include "chance.h"
#include "failing.h"
#include "must.h"
#include "zirmegat.h"
#include <stdio.h>
#include <stdlib.h>
#include <string.h>

enum { FLIGHTS = 4096, EVENTS = 64 };

typedef struct {
    uint32_t at, to, length;
    zmg_address from;
    uint8_t bytes[ZMG_DATAGRAM_SIZE];
} flight;

typedef struct {
    zmg_session *session;
    int alive, plays, no_memory;
    uint32_t world, tics, letters;
    zmg_event events[EVENTS];
    unsigned told;
} player;

static flight flights[FLIGHTS];
static unsigned flying, loss;
static player them[5];
static uint32_t now;
static const char *game = "nothing";

static void tell_where(FILE *out) { fprintf(out, "in %s at %u ms", game, (unsigned)now); }

static zmg_address address_of(unsigned who) {
    zmg_address a;
    memset(&a, 0, sizeof a);
    a.bytes[0] = (uint8_t)(who + 1);
    return a;
}

static void send_from(unsigned who) {
    zmg_address to;
    uint8_t bytes[ZMG_DATAGRAM_SIZE];
    size_t n;
    while ((n = zmg_session_transmit(them[who].session, &to, bytes, sizeof bytes)) > 0) {
        unsigned copies = below(100) < loss ? 0 : below(100) < 5 ? 2 : 1;
        MUST(n <= sizeof bytes && to.bytes[0] >= 1 && to.bytes[0] <= 5);
        while (copies-- && flying < FLIGHTS) {
            flight *f = &flights[flying++];
            f->at = now + 5 + below(60);
            f->to = to.bytes[0] - 1u;
            f->length = (uint32_t)n;
            f->from = address_of(who);
            memcpy(f->bytes, bytes, n);
        }
    }
}

static void hear_all(void) {
    unsigned k = 0;
    while (k < flying) {
        flight f = flights[k];
        if (f.at > now) {
            k++;
            continue;
        }
        flights[k] = flights[--flying];
        if (!them[f.to].alive) continue;
        zmg_session_receive(them[f.to].session, &f.from, f.bytes, f.length, now);
        send_from(f.to);
    }
}

static void see_events(player *p) {
    zmg_event e;
    while (zmg_session_event(p->session, &e) != ZMG_EVENT_NONE) {
        MUST(p->told < EVENTS);
        p->events[p->told++] = e;
        if (e.kind == ZMG_EVENT_BEGAN) p->plays = 1;
    }
}

static unsigned count(const player *p, zmg_event_kind kind) {
    unsigned n = 0, k;
    for (k = 0; k < p->told; k++) n += p->events[k].kind == kind;
    return n;
}

static zmg_state state_of(unsigned who) {
    zmg_state s;
    MUST(zmg_session_state(them[who].session, &s, sizeof s) == ZMG_OK);
    return s;
}

static zmg_player seen(unsigned who, unsigned of) {
    zmg_player s;
    MUST(zmg_session_player(them[who].session, (uint8_t)of, now, &s, sizeof s) == ZMG_OK);
    return s;
}

static void give_all(unsigned who) {
    zmg_command c;
    while (zmg_session_wants_input(them[who].session, now)) {
        memset(&c, 0, sizeof c);
        c.turn = (int16_t)draw();
        c.forward = (int8_t)below(50);
        c.chat = (uint8_t)(1 + below(200));
        MUST(zmg_session_give(them[who].session, &c, now) == ZMG_OK);
    }
}

static void run_all(unsigned who) {
    player *p = &them[who];
    for (;;) {
        zmg_row row;
        int16_t marks[4];
        unsigned k;
        for (k = 0; k < 4; k++) marks[k] = (int16_t)p->world;
        if (zmg_session_run(p->session, marks, &row) != ZMG_RUN_RAN) return;
        MUST(row.tic == p->tics);
        p->tics++;
        for (k = 0; k < 4; k++) {
            p->world = p->world * 31 + (uint16_t)row.commands[k].turn + row.commands[k].chat + row.present[k];
            p->letters += row.commands[k].chat != 0;
        }
    }
}

static void pass(uint32_t milliseconds, unsigned players) {
    uint32_t end = now + milliseconds;
    for (; now < end; now += 5) {
        unsigned k;
        hear_all();
        for (k = 0; k < players; k++) {
            if (!them[k].alive) continue;
            them[k].no_memory = zmg_session_poll(them[k].session, now) == ZMG_ERR_MEMORY;
            give_all(k);
            see_events(&them[k]);
            send_from(k);
            run_all(k);
            send_from(k);
        }
    }
}

static zmg_host_config host_config(unsigned players) {
    zmg_host_config c;
    zmg_host_config_init(&c);
    c.terms.players = (uint8_t)players;
    c.terms.limit = 1 << 20;
    c.terms.own[0] = 77;
    c.key.bytes[0] = 9;
    fill(c.random.bytes, sizeof c.random.bytes);
    memcpy(c.name.text, "host", 4);
    return c;
}

static zmg_join_config join_config(unsigned who) {
    zmg_join_config c;
    zmg_join_config_init(&c);
    c.host = address_of(0);
    c.key.bytes[0] = 9;
    fill(c.random.bytes, sizeof c.random.bytes);
    c.name.text[0] = (char)('a' + who);
    return c;
}

static void clear(const char *name) {
    unsigned k;
    for (k = 0; k < 5; k++) {
        zmg_session_free(them[k].session);
        memset(&them[k], 0, sizeof them[k]);
    }
    flying = 0;
    game = name;
    now = 1 + below(1000000);
}

static void join(unsigned who, const zmg_join_config *c) {
    MUST(zmg_session_join(&them[who].session, c, now) == ZMG_OK);
    them[who].alive = 1;
}

static void host(const zmg_host_config *c) {
    MUST(zmg_session_host(&them[0].session, c) == ZMG_OK);
    them[0].alive = 1;
}

/* A game of so many, until all play. */
static void begin(const char *name, unsigned players, zmg_policy policy) {
    zmg_host_config h;
    unsigned k;
    clear(name);
    h = host_config(players);
    h.terms.policy = policy;
    h.terms.seconds = 3;
    host(&h);
    for (k = 1; k < players; k++) {
        zmg_join_config j = join_config(k);
        j.seat = (uint8_t)k;
        join(k, &j);
    }
    for (k = 0; k < players; k++)
        while (!them[k].plays) {
            MUST(now < 100000000u);
            pass(5, players);
        }
}

/* Those who remain play on, and see the same. */
static void agree(unsigned players) {
    unsigned k, first = 5;
    uint32_t least;
    for (k = 0; k < players; k++)
        if (them[k].alive && first == 5) first = k;
    least = them[first].tics;
    pass(3000, players);
    for (k = 0; k < players; k++)
        if (them[k].alive) MUST(them[k].tics > least + 30);
    for (k = 0; k < players; k++) {
        uint8_t one[4096], other[4096];
        size_t n, m;
        if (!them[k].alive) continue;
        n = zmg_session_demo(them[first].session, 0, one, sizeof one);
        m = zmg_session_demo(them[k].session, 0, other, sizeof other);
        if (m < n) n = m;
        /* the header has the player whose view it shows; the last bytes may be an end marker */
        MUST(n > 500 && memcmp(one, other, 8) == 0 && memcmp(one + 9, other + 9, n - 200) == 0);
    }
}

static void leave_all(unsigned players) {
    unsigned k, other;
    for (k = players; k-- > 0;) {
        if (!them[k].alive) continue;
        zmg_session_quit(them[k].session, now);
        MUST(state_of(k).stage == ZMG_STAGE_LEAVING && state_of(k).why == ZMG_OVER_LEFT);
        pass(4000, players);
        for (other = 0; other < k; other++)
            if (them[other].alive && them[other].plays) MUST(seen(other, k).standing == ZMG_STANDING_LEFT);
    }
    pass(12000, players);
    for (k = 0; k < players; k++) {
        if (!them[k].alive) continue;
        MUST(state_of(k).stage == ZMG_STAGE_OVER && count(&them[k], ZMG_EVENT_OVER) == 1);
        MUST(them[k].events[them[k].told - 1].why == ZMG_OVER_LEFT);
    }
}

static void play(unsigned players) {
    unsigned k, other;
    begin("a game", players, ZMG_POLICY_WAIT);
    for (k = 0; k < players; k++) {
        zmg_state s = state_of(k);
        MUST(s.stage == ZMG_STAGE_PLAYING && s.me == k && s.terms.players == players && s.terms.own[0] == 77);
        MUST(s.terms.policy == ZMG_POLICY_WAIT && s.terms.settings.map == 1 && s.why == ZMG_OK);
        MUST(count(&them[k], ZMG_EVENT_SEATED) == (k > 0) && count(&them[k], ZMG_EVENT_BEGAN) == 1);
        for (other = 1; other < players; other++) {
            zmg_player seat = seen(k, other);
            MUST(seat.has_address && seat.address.bytes[0] == other + 1);
            MUST(seat.name.text[0] == (char)('a' + other));
        }
        if (k) MUST(memcmp(seen(k, 0).name.text, "host", 5) == 0);
        MUST(seen(k, players).seat == ZMG_SEAT_NONE && seen(k, players).standing == ZMG_STANDING_NONE);
        zmg_session_kick(them[k].session, 1);
    }
    agree(players);
    for (k = 0; k < players; k++) {
        zmg_state s = state_of(k);
        zmg_player one = seen(k, k ? 0 : 1);
        MUST(s.made > 60 && s.ran == them[k].tics && them[k].letters >= them[k].tics * (players - 1));
        MUST(one.standing == ZMG_STANDING_PLAYS && one.line.came > 60);
        MUST(one.got >= s.ran && one.end == ZMG_NO_END);
    }
    leave_all(players);
}

static void vanish(void) {
    begin("a game that somebody vanishes from", 3, ZMG_POLICY_GIVE_UP);
    agree(3);
    them[1].alive = 0;
    pass(8000, 3);
    MUST(count(&them[0], ZMG_EVENT_GIVEN_UP) == 1 && count(&them[2], ZMG_EVENT_GIVEN_UP) == 1);
    MUST(seen(0, 1).standing == ZMG_STANDING_GIVEN_UP && seen(2, 1).standing == ZMG_STANDING_GIVEN_UP);
    agree(3);
    /* who comes back is told so */
    them[1].alive = 1;
    pass(4000, 3);
    MUST(state_of(1).stage == ZMG_STAGE_OVER && state_of(1).why == ZMG_OVER_GIVEN_UP);
    them[1].alive = 0;
    leave_all(3);

    begin("a game that waits", 3, ZMG_POLICY_WAIT);
    agree(3);
    them[2].alive = 0;
    MUST(zmg_session_give_up(them[0].session, 2, now) == ZMG_ERR_NOT_NOW);
    pass(6000, 3);
    MUST(seen(0, 2).awaited >= 3000 && seen(0, 2).silent >= 3000 && seen(0, 1).awaited == 0);
    MUST(zmg_session_give_up(them[1].session, 2, now) == ZMG_ERR_NOT_NOW);
    MUST(zmg_session_give_up(them[0].session, 2, now) == ZMG_OK);
    pass(1000, 3);
    agree(3);
    MUST(seen(1, 2).standing == ZMG_STANDING_GIVEN_UP);

    begin("a game that ends", 2, ZMG_POLICY_END);
    agree(2);
    them[1].alive = 0;
    pass(20000, 2);
    MUST(state_of(0).stage == ZMG_STAGE_OVER && state_of(0).why == ZMG_OVER_LOST && state_of(0).number == 1);
}

/* A joiner of another kind is refused with this. */
static void refused(const char *name, zmg_join_config j, zmg_status reason, uint32_t number) {
    zmg_host_config h;
    clear(name);
    h = host_config(3);
    host(&h);
    join(1, &j);
    pass(20000, 2);
    MUST(state_of(1).stage == ZMG_STAGE_OVER && state_of(1).why == reason && state_of(1).number == number);
    MUST(them[1].events[them[1].told - 1].why == reason && *zmg_status_text(reason));
    MUST(state_of(0).stage == ZMG_STAGE_HOSTING);
}

static void lobby(void) {
    zmg_host_config h;
    zmg_join_config j = join_config(1);
    j.identity.bytes[3] = 1;
    refused("a lobby: another identity", j, ZMG_OVER_IDENTITY, 0);
    j = join_config(1);
    j.players = 4;
    refused("a lobby: another number of players", j, ZMG_OVER_PLAYERS, 3);
    j = join_config(1);
    j.key.bytes[1] = 1;
    refused("a lobby: another key", j, ZMG_OVER_OTHER_KEY, 0);
    j = join_config(1);
    j.keyless = 1;
    refused("a lobby: no key", j, ZMG_OVER_OTHER_KEY, 0);

    clear("a lobby: one is turned away");
    h = host_config(3);
    host(&h);
    j = join_config(1);
    join(1, &j);
    pass(3000, 2);
    MUST(state_of(1).stage == ZMG_STAGE_SEATED && state_of(1).me == 1 && seen(0, 1).seat == ZMG_SEAT_THERE);
    MUST(seen(0, 2).seat == ZMG_SEAT_FREE && seen(0, 3).seat == ZMG_SEAT_NONE);
    MUST(seen(1, 2).seat == ZMG_SEAT_FREE && seen(1, 0).seat == ZMG_SEAT_THERE);
    MUST(zmg_session_wait(them[1].session, now) < 10000);
    MUST(zmg_session_wait(them[0].session, now) == ZMG_WAIT_NONE);
    zmg_session_kick(them[0].session, 2);
    zmg_session_kick(them[0].session, 200);
    zmg_session_kick(them[0].session, 1);
    /* it learns so by an answer to one of its calls, which may be lost */
    pass(6000, 2);
    MUST(state_of(1).why == ZMG_OVER_KICKED && seen(0, 1).seat == ZMG_SEAT_FREE);
    /* another takes the seat, and is silent, and a third takes it over */
    j = join_config(2);
    join(2, &j);
    pass(3000, 3);
    MUST(seen(0, 1).seat == ZMG_SEAT_THERE);
    them[2].alive = 0;
    pass(4000, 3);
    MUST(seen(0, 1).seat == ZMG_SEAT_SILENT && state_of(0).stage == ZMG_STAGE_HOSTING);
}

/* The first game without memory begins once there is some. */
static void memory(void) {
    zmg_host_config h = host_config(2);
    zmg_join_config j = join_config(1);
    clear("refused memory");
    MUST(blocks_held() == 0);
    fail_every(1);
    MUST(zmg_session_host(&them[0].session, &h) == ZMG_ERR_MEMORY);
    MUST(zmg_session_join(&them[1].session, &j, now) == ZMG_ERR_MEMORY);
    MUST(them[0].session == NULL && them[1].session == NULL);
    fail_every(0);
    host(&h);
    join(1, &j);
    fail_every(1);
    pass(3000, 2);
    MUST(them[0].no_memory && !them[0].plays && state_of(0).stage == ZMG_STAGE_HOSTING);
    fail_every(2);
    pass(300, 2);
    fail_every(0);
    pass(1000, 2);
    MUST(!them[0].no_memory && them[0].plays && them[1].plays);
    agree(2);
}

static void faults(void) {
    zmg_host_config h = host_config(2), bad;
    zmg_join_config j = join_config(1), wrong;
    zmg_session *s = NULL;
    clear("faults of a config");
#define HOST(field, value, status) \
    do { \
        bad = h; \
        bad.field = value; \
        MUST(zmg_session_host(&s, &bad) == status && s == NULL && strcmp(zmg_status_text(status), "unknown")); \
    } while (0)
    HOST(size, sizeof bad - 8, ZMG_ERR_SIZE);
    HOST(size, sizeof bad + 8, ZMG_ERR_SIZE);
    HOST(size, 0, ZMG_ERR_SIZE);
    HOST(key.bytes[0], 0, ZMG_ERR_KEY);
    HOST(terms.players, 1, ZMG_ERR_PLAYERS);
    HOST(terms.players, 5, ZMG_ERR_PLAYERS);
    HOST(terms.window, 13, ZMG_ERR_WINDOW);
    HOST(terms.rate, 36, ZMG_ERR_RATE);
    HOST(terms.limit, 1023, ZMG_ERR_LIMIT);
    HOST(terms.policy, (zmg_policy)0, ZMG_ERR_POLICY);
    HOST(terms.policy, ZMG_POLICY_END, ZMG_ERR_POLICY);
    HOST(terms.policy, ZMG_POLICY_GIVE_UP, ZMG_ERR_POLICY);
    HOST(terms.settings.skill, 5, ZMG_ERR_SKILL);
    HOST(terms.settings.deathmatch, 3, ZMG_ERR_DEATHMATCH);
    HOST(terms.settings.episode, 4, ZMG_ERR_EPISODE);
    HOST(terms.settings.map, 33, ZMG_ERR_MAP);
    bad = h;
    memset(&bad.random, 0, sizeof bad.random);
    MUST(zmg_session_host(&s, &bad) == ZMG_ERR_RANDOM);
    bad = h;
    bad.key.bytes[0] = 0;
    bad.keyless = 1;
    MUST(zmg_session_host(&s, &bad) == ZMG_OK && s != NULL);
    zmg_session_free(s);
    wrong = j;
    wrong.seat = 4;
    MUST(zmg_session_join(&s, &wrong, 0) == ZMG_ERR_SEAT && s == NULL);
    wrong = j;
    wrong.players = 5;
    MUST(zmg_session_join(&s, &wrong, 0) == ZMG_ERR_PLAYERS);
    wrong.key.bytes[0] = 0;
    MUST(zmg_session_join(&s, &wrong, 0) == ZMG_ERR_KEY);
    MUST(zmg_session_join(&s, &j, 0) == ZMG_OK && s != NULL);
    zmg_session_free(s);
    wrong = j;
    wrong.size = sizeof wrong + 8;
    MUST(zmg_session_join(&s, &wrong, 0) == ZMG_ERR_SIZE && s == NULL);
    zmg_session_free(NULL);
}

static void misuse(void) {
    zmg_session *s = NULL;
    zmg_address to = address_of(7);
    uint8_t room[ZMG_DATAGRAM_SIZE];
    zmg_command c;
    zmg_row row;
    int16_t marks[4] = { 0, 0, 0, 0 };
    zmg_state state;
    zmg_player one;
    zmg_event event;
    zmg_join_config j = join_config(1);
    clear("misuse");
    memset(&c, 0, sizeof c);
    memset(room, 7, sizeof room);
    /* a joiner calls at once; a room that is too small loses nothing */
    MUST(zmg_session_join(&s, &j, 5) == ZMG_OK && zmg_session_poll(s, 5) == ZMG_OK);
    MUST(zmg_session_transmit(s, &to, room, sizeof room - 1) == 0 && to.bytes[0] == 8 && room[0] == 7);
    MUST(zmg_session_transmit(s, &to, room, sizeof room) > 0 && to.bytes[0] == 1);
    MUST(zmg_session_transmit(s, &to, room, sizeof room) == 0);
    memset(&row, 7, sizeof row);
    MUST(zmg_session_run(s, marks, &row) == ZMG_RUN_NOT_PLAYING && row.tic == 0 && row.present[3] == 0);
    MUST(zmg_session_give(s, &c, 5) == ZMG_ERR_NOT_NOW && !zmg_session_wants_input(s, 5));
    MUST(zmg_session_quit(s, 5) == ZMG_OK && zmg_session_kick(s, 1) == ZMG_OK);
    MUST(zmg_session_kick(s, 255) == ZMG_OK);
    MUST(zmg_session_demo(s, 0, room, sizeof room) == 0 && zmg_session_give_up(s, 0, 5) == ZMG_ERR_NOT_NOW);
    MUST(zmg_session_demo(s, SIZE_MAX, room, sizeof room) == 0);
    /* structs of other sizes: less is refused, more is filled as far as it is known */
    memset(&state, 7, sizeof state);
    MUST(zmg_session_state(s, &state, sizeof state - 1) == ZMG_ERR_SIZE && state.made == 0x07070707);
    MUST(zmg_session_state(s, &state, 0) == ZMG_ERR_SIZE && state.made == 0x07070707);
    MUST(zmg_session_state(s, &state, SIZE_MAX) == ZMG_OK);
    MUST(state.stage == ZMG_STAGE_CALLING && state.made == 0);
    memset(&one, 7, sizeof one);
    MUST(zmg_session_player(s, 1, 5, &one, sizeof one - 1) == ZMG_ERR_SIZE && one.got == 0x07070707);
    MUST(zmg_session_player(s, 255, 5, &one, sizeof one) == ZMG_OK && one.seat == ZMG_SEAT_NONE);
    MUST(one.standing == ZMG_STANDING_NONE && one.end == ZMG_NO_END && one.got == 0);
    memset(&event, 7, sizeof event);
    MUST(zmg_session_event(s, &event) == ZMG_EVENT_NONE && event.player == 0 && event.why == ZMG_OK);
    zmg_session_free(s);
}

/* Any bytes, from anywhere, at any time. */
static void noise(void) {
    unsigned k;
    begin("noise", 2, ZMG_POLICY_WAIT);
    for (k = 0; k < 20000; k++) {
        uint8_t bytes[1300];
        zmg_address from = address_of(below(5));
        size_t n = below(sizeof bytes);
        fill(bytes, n);
        if (flying && below(2)) {
            const flight *f = &flights[below(flying)];
            n = f->length;
            memcpy(bytes, f->bytes, n);
            bytes[below((uint32_t)n)] ^= (uint8_t)(1 << below(8));
        }
        zmg_session_receive(them[below(2)].session, &from, bytes, n, now);
        if (k % 20 == 0) pass(5, 2);
    }
    agree(2);
    leave_all(2);
}

int main(int argc, char **argv) {
    unsigned games = argc > 1 ? (unsigned)strtoul(argv[1], NULL, 10) : 1, k;
    begin_chance(argc > 2 ? argv[2] : "1");
    for (k = 0; k < games; k++) {
        loss = k % 3 * 10;
        play(2 + k % 3);
        vanish();
    }
    lobby();
    memory();
    faults();
    misuse();
    noise();
    clear("nothing");
    MUST(blocks_held() == 0);
    printf("sessions: %u games of each kind\n", games);
    return 0;
}
