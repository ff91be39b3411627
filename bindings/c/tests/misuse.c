/* Calls every function of both headers with any handle, any numbers and any bytes, in any order: misuse CALLS
 * SEED [N]. To be run under valgrind or with a compiler's sanitizers. With N, every Nth request for memory is
 * refused. A handle of another kind must be refused, and change nothing; a room must be kept. C99 and C++. */
#include "chance.h"
#include "failing.h"
#include "must.h"
#include "zirmegat_parts.h"
#include <stdio.h>
#include <stdlib.h>
#include <string.h>

typedef enum { NOTHING, SESSION, DEMO, LOCKSTEP, LINK, KINDS } kind;

enum { HANDLES = 10, ROOM = 1300 };

static struct {
    kind is;
    void *at;
} handles[HANDLES];
static uint8_t bytes[ROOM], room[ROOM + 16], demo[4096];
static size_t demo_length;
static zmg_address to;
static unsigned long calls, made[KINDS];
static uint32_t now;
static int scarce;

static void tell_where(FILE *out) { fprintf(out, "after %lu calls", calls); }

static uint8_t byte(void) { return (uint8_t)(below(3) ? below(6) : draw()); }

/* A key, random bytes or a secret: the same few, so that some meet; or any. */
static void some(uint8_t *at, size_t length) {
    memset(at, 0, length);
    if (below(8)) at[0] = (uint8_t)(1 + below(2));
    if (below(20) == 0) fill(at, length);
}

/* Any bytes; often those that were sent last. */
static size_t some_bytes(void) {
    size_t length = below(ROOM);
    if (below(2)) return below(4) ? strlen((const char *)bytes) % ROOM : length;
    fill(bytes, length);
    return length;
}

static void settle(unsigned k, kind is, zmg_status status, void *at) {
    MUST((status == ZMG_OK) == (at != NULL));
    MUST(status != ZMG_ERR_MEMORY || scarce);
    MUST(strcmp(zmg_status_text(status), "unknown") != 0);
    handles[k].is = at ? is : NOTHING;
    handles[k].at = at;
    if (at) made[is]++;
}

static void settings(zmg_settings *s) {
    s->skill = (uint8_t)below(below(9) ? 5 : 256);
    s->deathmatch = (uint8_t)below(below(9) ? 3 : 256);
    s->no_monsters = byte();
    s->respawn = byte();
    s->episode = (uint8_t)(1 + below(below(9) ? 3 : 256));
    s->map = (uint8_t)(1 + below(below(9) ? 32 : 256));
}

static void make_session(unsigned k) {
    zmg_session *session = NULL;
    zmg_status status;
    if (below(2)) {
        zmg_host_config c;
        zmg_host_config_init(&c);
        if (below(9) == 0) c.size = below(1000);
        c.terms.limit = below(9) ? 1024 + below(70000) : draw();
        c.terms.policy = (zmg_policy)(1 + below(3));
        c.terms.seconds = below(9) ? (uint8_t)(3 + below(5)) : byte();
        c.terms.players = below(9) ? (uint8_t)(2 + below(3)) : byte();
        c.terms.window = below(9) ? (uint8_t)(1 + below(12)) : byte();
        c.terms.rate = below(9) ? (uint8_t)(1 + below(35)) : byte();
        settings(&c.terms.settings);
        c.keyless = below(4) == 0;
        some(c.key.bytes, sizeof c.key);
        some(c.random.bytes, sizeof c.random);
        status = zmg_session_host(&session, &c);
        settle(k, SESSION, status, session);
        return;
    }
    zmg_join_config c;
    zmg_join_config_init(&c);
    if (below(9) == 0) c.size = below(1000);
    c.host.bytes[0] = (uint8_t)below(3);
    c.keyless = below(4) == 0;
    c.seat = below(9) ? (uint8_t)below(4) : byte();
    c.players = below(9) ? 0 : byte();
    some(c.key.bytes, sizeof c.key);
    some(c.random.bytes, sizeof c.random);
    status = zmg_session_join(&session, &c, now);
    settle(k, SESSION, status, session);
}

static void make_node(unsigned k) {
    zmg_node *node = NULL;
    zmg_node_config c;
    zmg_node_config_init(&c);
    if (below(9) == 0) c.size = below(1000);
    c.limit = below(9) ? 1024 + below(70000) : draw();
    c.players = below(9) ? (uint8_t)(2 + below(3)) : byte();
    c.me = below(9) ? (uint8_t)below(2) : byte();
    c.window = below(9) ? (uint8_t)(1 + below(12)) : byte();
    c.extra = byte();
    settings(&c.settings);
    some(c.secret.bytes, sizeof c.secret);
    some(c.game.bytes, sizeof c.game);
    kind is = below(2) ? LINK : LOCKSTEP;
    zmg_status status = is == LINK ? zmg_link_new(&node, &c) : zmg_lockstep_new(&node, &c);
    settle(k, is, status, node);
}

static void make_demo(unsigned k) {
    zmg_demo *read = NULL;
    size_t length = below(3) ? demo_length : below(sizeof demo);
    zmg_status status = zmg_demo_read(&read, demo, length);
    settle(k, DEMO, status, read);
}

static void drop(unsigned k) {
    if (below(2)) zmg_session_free((zmg_session *)handles[k].at);
    else if (below(2)) zmg_demo_free((zmg_demo *)handles[k].at);
    else zmg_node_free((zmg_node *)handles[k].at);
    handles[k].is = NOTHING;
    handles[k].at = NULL;
}

/* How much room; behind it nothing may be written. */
static size_t some_room(void) {
    size_t length = below(3) ? 1200 : below(1201);
    memset(room, 0xee, sizeof room);
    return length;
}

static void kept(size_t length, size_t written) {
    MUST(written <= length);
    for (size_t k = length; k < sizeof room; k++) MUST(room[k] == 0xee);
    if (written == 0) return;
    memcpy(bytes, room, written < ROOM - 1 ? written : ROOM - 1);
}

/* A status of a handle that may be of another kind. */
static void judge(int right, zmg_status status) {
    MUST((status == ZMG_ERR_HANDLE) == !right);
    MUST(strcmp(zmg_status_text(status), "unknown") != 0);
}

static void call_session(unsigned k, int right) {
    zmg_session *s = (zmg_session *)handles[k].at;
    static const int16_t marks[4] = { 0, 0, 0, 0 };
    size_t length = some_room(), n;
    zmg_command c = { (int16_t)draw(), (int8_t)draw(), (int8_t)draw(), byte(), byte() };
    zmg_row row;
    zmg_event event;
    zmg_state state;
    zmg_player player;
    memset(&row, 0x77, sizeof row);
    memset(&state, 0x77, sizeof state);
    memset(&player, 0x77, sizeof player);
    switch (below(14)) {
    case 0: judge(right, zmg_session_receive(s, &to, bytes, some_bytes(), now)); break;
    case 1: {
        zmg_status status = zmg_session_poll(s, now);
        judge(right, status);
        MUST(status == ZMG_OK || !right || (scarce && status == ZMG_ERR_MEMORY));
        break;
    }
    case 2: MUST(right || zmg_session_wait(s, now) == ZMG_WAIT_NONE); break;
    case 3:
        n = zmg_session_transmit(s, &to, room, length);
        MUST(n == 0 || (right && length >= ZMG_DATAGRAM_SIZE));
        kept(length, n);
        break;
    case 4:
        MUST((int)zmg_session_event(s, &event) == (int)event.kind && event.kind <= ZMG_EVENT_OVER);
        MUST(right || event.kind == ZMG_EVENT_NONE);
        break;
    case 5: MUST(right || !zmg_session_wants_input(s, now)); break;
    case 6: judge(right, zmg_session_give(s, &c, now)); break;
    case 7: {
        zmg_run ran = zmg_session_run(s, marks, &row);
        MUST(ran <= ZMG_RUN_HELD && (right || ran == ZMG_RUN_NOT_PLAYING));
        MUST(ran == ZMG_RUN_RAN || (row.tic == 0 && row.present[0] + row.present[3] == 0));
        MUST(ran == ZMG_RUN_RAN || row.commands[3].chat == 0);
        break;
    }
    case 8: judge(right, zmg_session_quit(s, now)); break;
    case 9: judge(right, zmg_session_give_up(s, byte(), now)); break;
    case 10: judge(right, zmg_session_kick(s, byte())); break;
    case 11:
        judge(right, zmg_session_state(s, &state, sizeof state));
        MUST(right ? state.stage >= ZMG_STAGE_HOSTING && state.stage <= ZMG_STAGE_OVER
                   : state.ran == 0x77777777);
        MUST(zmg_session_state(s, &state, below(sizeof state)) == ZMG_ERR_SIZE);
        break;
    case 12:
        judge(right, zmg_session_player(s, byte(), now, &player, sizeof player));
        MUST(right ? player.seat <= ZMG_SEAT_SILENT : player.got == 0x77777777);
        MUST(zmg_session_player(s, 0, now, &player, below(sizeof player)) == ZMG_ERR_SIZE);
        break;
    default:
        n = zmg_session_demo(s, below(2) ? 0 : draw(), room, length);
        MUST(right || n == 0);
        kept(length, n);
        if (n > 20) memcpy(demo, room, demo_length = n);
    }
}

static void call_demo(unsigned k, int right) {
    zmg_demo *d = (zmg_demo *)handles[k].at;
    zmg_demo_facts facts;
    zmg_row row;
    size_t length = some_room(), written = 99;
    memset(&facts, 0x77, sizeof facts);
    memset(&row, 0x77, sizeof row);
    switch (below(3)) {
    case 0:
        judge(right, zmg_demo_tell(d, &facts, sizeof facts));
        MUST(right ? facts.version == 109 || facts.version == 111 : facts.view == 0x77);
        MUST(zmg_demo_tell(d, &facts, below(sizeof facts)) == ZMG_ERR_SIZE);
        break;
    case 1: {
        size_t tic = below(9) ? below(200) : draw();
        zmg_status status = zmg_demo_row(d, tic, &row);
        judge(right, status);
        MUST(status == ZMG_OK ? row.tic == tic && row.player == 0 : row.tic == 0x77777777);
        break;
    }
    default: {
        size_t given = below(3) ? demo_length : below(sizeof demo);
        zmg_status status = zmg_demo_upgrade(demo, given, room, length, &written);
        MUST(status != ZMG_OK ? written == 0 : written <= length && written >= 14);
        MUST(length >= 1024 || status != ZMG_OK);
        for (size_t j = length; j < sizeof room; j++) MUST(room[j] == 0xee);
    }
    }
}

static void call_node(unsigned k, kind is) {
    zmg_node *node = (zmg_node *)handles[k].at;
    static const int16_t marks[4] = { 0, 0, 0, 0 };
    int any = is == LOCKSTEP || is == LINK, lockstep = is == LOCKSTEP, link = is == LINK;
    size_t length = some_room(), n;
    zmg_command c = { (int16_t)draw(), (int8_t)draw(), (int8_t)draw(), byte(), byte() };
    zmg_row row;
    zmg_node_state state;
    zmg_node_player player;
    zmg_aim aim;
    zmg_heard heard;
    zmg_received received;
    zmg_given_up given_up;
    int32_t later = 1000;
    memset(&state, 0x77, sizeof state);
    memset(&player, 0x77, sizeof player);
    switch (below(14)) {
    case 0: judge(any, zmg_node_give(node, &c)); break;
    case 1: {
        zmg_run ran = zmg_node_run(node, marks, &row);
        MUST(ran <= ZMG_RUN_INCONSISTENT && (any || ran == ZMG_RUN_NOT_PLAYING));
        break;
    }
    case 2:
        if (below(9) == 0) judge(any, zmg_node_quit(node));
        break;
    case 3:
        judge(any, zmg_node_state_get(node, &state, sizeof state));
        MUST(any ? state.phase >= ZMG_PHASE_LISTENING && state.phase <= ZMG_PHASE_ENDED
                 : state.ran == 0x77777777);
        MUST(!any || (state.ran <= state.made && state.made <= state.ran + 12));
        MUST(zmg_node_state_get(node, &state, below(sizeof state)) == ZMG_ERR_SIZE);
        break;
    case 4:
        judge(any, zmg_node_player_get(node, byte(), &player, sizeof player));
        MUST(any ? player.given_up <= 1 && (link || player.line.came == 0) : player.got == 0x77777777);
        MUST(zmg_node_player_get(node, 0, &player, below(sizeof player)) == ZMG_ERR_SIZE);
        break;
    case 5:
        n = zmg_node_demo(node, below(2) ? 0 : draw(), room, length);
        MUST(any || n == 0);
        kept(length, n);
        if (n > 20) memcpy(demo, room, demo_length = n);
        break;
    case 6:
        n = zmg_lockstep_packet(node, byte(), room, length);
        MUST(n == 0 || (lockstep && length >= ZMG_PACKET_SIZE));
        kept(length, n);
        break;
    case 7: judge(lockstep, zmg_lockstep_aim(node, byte(), &aim)); break;
    case 8:
        MUST(zmg_lockstep_receive(node, byte(), bytes, some_bytes(), &heard) == heard.code);
        MUST(lockstep || (heard.code == ZMG_HEARD_DROPPED && heard.number == 0));
        break;
    case 9:
        n = zmg_link_datagram(node, byte(), room, length);
        MUST(n == 0 || (link && length >= ZMG_DATAGRAM_SIZE));
        kept(length, n);
        break;
    case 10:
        MUST(zmg_link_receive(node, bytes, some_bytes(), &received) == received.code);
        MUST(link || (received.code == ZMG_RECEIVED_UNOPENED && received.reason == ZMG_UNOPENED_HANDLE));
        break;
    case 11:
        judge(link, zmg_link_tick(node, &later));
        MUST(link ? later >= -9 && later <= 41 : later == 1000);
        break;
    case 12: judge(link, zmg_link_catch_up(node)); break;
    default:
        if (below(9)) break;
        MUST(zmg_link_give_up(node, byte(), &given_up) == given_up.code);
        MUST(link || given_up.code == ZMG_GIVE_UP_NOT_PLAYING);
    }
}

static void call_none(void) {
    zmg_key key, again;
    char text[ZMG_KEY_TEXT_SIZE];
    zmg_packet packet;
    zmg_command command;
    zmg_status status;
    uint8_t hold = byte();
    size_t length = some_room(), n;
    switch (below(4)) {
    case 0:
        some(key.bytes, sizeof key);
        zmg_key_to_text(&key, text);
        n = below(9) ? sizeof text : below(sizeof text);
        memset(&again, 7, sizeof again);
        status = n < sizeof text ? ZMG_ERR_TEXT : key.bytes[0] ? ZMG_OK : ZMG_ERR_KEY;
        MUST(zmg_key_from_text(&again, text, n) == status || key.bytes[1]);
        break;
    case 1:
        if (zmg_packet_decode(bytes, some_bytes(), &packet) != 0) break;
        n = zmg_packet_encode(&packet, room, length);
        kept(length, n);
        break;
    case 2:
        fill((uint8_t *)&packet, sizeof packet);
        n = zmg_packet_encode(&packet, room, length);
        MUST(n == 0 || (packet.flags < 16 && packet.count <= 12));
        kept(length, n);
        break;
    default:
        zmg_command_from_keys(&hold, draw(), &command);
        MUST(hold <= 6 && command.forward >= -50 && command.forward <= 50 && command.chat == 0);
    }
}

/* A demo of two players, with some tics. */
static void make_bytes(void) {
    static const uint8_t header[13] = { 109, 2, 1, 1, 0, 0, 0, 0, 0, 1, 1, 0, 0 };
    memcpy(demo, header, sizeof header);
    for (demo_length = sizeof header; demo_length < 413; demo_length++) demo[demo_length] = byte() & 0x7f;
    demo[demo_length++] = 0x80;
}

/* One call, and often the making or freeing of a handle before it. */
static void act(void) {
    unsigned k = below(HANDLES);
    calls++;
    now += below(4) ? below(20) : below(400);
    if (handles[k].is != NOTHING && below(400) == 0) drop(k);
    if (handles[k].is == NOTHING) {
        unsigned what = below(4);
        drop(k); /* NULL may be freed */
        if (what < 2) make_session(k);
        else if (what == 2) make_node(k);
        else make_demo(k);
    }
    if (handles[k].is == NOTHING || below(20) == 0) call_none();
    else {
        kind is = handles[k].is, as = below(5) ? is : (kind)(1 + below(4));
        if (as == SESSION) call_session(k, is == SESSION);
        else if (as == DEMO) call_demo(k, is == DEMO);
        else call_node(k, is);
    }
}

static void finish(void) {
    for (unsigned k = 0; k < HANDLES; k++) drop(k);
    MUST(blocks_held() == 0);
}

#ifdef FUZZER
/* clang -g -DFUZZER -fsanitize=fuzzer,address,undefined misuse.c failing.c libzirmegat.a: the calls that bytes
 * name. */
#ifdef __cplusplus
extern "C"
#endif
int LLVMFuzzerTestOneInput(const uint8_t *data, size_t size);
int LLVMFuzzerTestOneInput(const uint8_t *data, size_t size) {
    seed = 1;
    now = 0;
    taken = data;
    left_to_take = size;
    make_bytes();
    while (left_to_take > 1) act();
    finish();
    return 0;
}
#else
int main(int argc, char **argv) {
    unsigned long most = argc > 1 ? strtoul(argv[1], NULL, 10) : 100000;
    begin_chance(argc > 2 ? argv[2] : "1");
    scarce = argc > 3;
    if (scarce) fail_every(strtoul(argv[3], NULL, 10));
    MUST(zmg_version() == ZMG_VERSION);
    make_bytes();
    while (calls < most) act();
    finish();
    printf("misuse: %lu calls, of %lu sessions, %lu demos, %lu locksteps and %lu links\n", calls, made[SESSION],
        made[DEMO], made[LOCKSTEP], made[LINK]);
    return 0;
}
#endif
