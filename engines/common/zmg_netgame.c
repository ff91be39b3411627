/* zmg_netgame.c: see zmg_netgame.h. */
#include "zmg_netgame.h"

#include <ctype.h>
#include <signal.h>
#include <stdarg.h>
#include <stdio.h>
#include <stdlib.h>
#include <string.h>
#include <time.h>

enum { PORT = 5029, WINDOW = 12, ASK = 3000, FAREWELL = 15000, SAID = 4, SAID_FOR = 6000 };
enum { WIDE = ZMG_NETGAME_WIDE };
typedef char line_of_text[WIDE];

zmg_udp zmg_netgame_udp;   /* not static: a trial makes its clock go wrong */

static zmg_engine engine;
static zmg_session *session;
static zmg_state state;     /* as `look` read it last */
static zmg_host_config host;
static zmg_join_config join;
static bool hosts, playing, leaving, shows;
static char record[512];
static int argc;
static char **argv;

static uint32_t now(void) { return zmg_udp_now(&zmg_netgame_udp); }

static void look(void) { zmg_session_state(session, &state, sizeof state); }

static zmg_player player(int p) {
    zmg_player told;
    zmg_session_player(session, (uint8_t)p, now(), &told, sizeof told);
    return told;
}

static void fail(const char *form, ...) {
    char text[256];
    va_list list;
    va_start(list, form);
    vsnprintf(text, sizeof text, form, list);
    va_end(list);
    engine.fail(text);
}

static line_of_text said[SAID];
static uint32_t said_at[SAID];
static int said_count;

/* A line for some seconds. */
static void tell(const char *form, ...) {
    va_list list;
    memmove(said[1], said[0], sizeof said - sizeof said[0]);
    memmove(said_at + 1, said_at, sizeof said_at - sizeof said_at[0]);
    va_start(list, form);
    vsnprintf(said[0], WIDE, form, list);
    va_end(list);
    said_at[0] = now();
    if (said_count < SAID) said_count++;
    engine.say(said[0]);
}

/* ---- signals ---- */

static volatile sig_atomic_t told_to_end;
static time_t first_told;

/* timeout(1) sends its signal twice at once: to the engine, and to the group in which it is. */
static void note(int number) {
    time_t at = time(NULL);
    signal(number, note);
    if (first_told == 0) first_told = at;
    told_to_end = 1;
    if (at - first_told < 2) return;
    signal(number, SIG_DFL);
    raise(number);
}

static void take_signal(int number) {
    if (signal(number, note) == SIG_IGN) signal(number, SIG_IGN);
}

bool zmg_netgame_must_end(void) {
    bool must = told_to_end != 0;
    told_to_end = 0;
    return must;
}

/* ---- the options ---- */

static bool same(const char *a, const char *b) {
    while (*a && tolower((unsigned char)*a) == tolower((unsigned char)*b)) a++, b++;
    return *a == *b;
}

/* Where an option stands that has so many words behind it, or 0. */
static int find(const char *option, int words) {
    for (int k = 1; k + words < argc; k++)
        if (same(argv[k], option)) return k;
    return 0;
}

const char *zmg_netgame_word(const char *option) {
    int k = find(option, 1);
    return k > 0 ? argv[k + 1] : NULL;
}

static int number(const char *option, int otherwise, int low, int high) {
    const char *text = zmg_netgame_word(option);
    int n = text ? atoi(text) : otherwise;
    if (n < low || n > high) fail("%s is %d to %d", option, low, high);
    return n;
}

void zmg_netgame_refuse(const char *const (*options)[2]) {
    for (; (*options)[0]; options++)
        if (find((*options)[0], 0) > 0)
            fail("%s is not possible in this netgame: %s", (*options)[0], (*options)[1]);
}

void zmg_netgame_record(void) {
    static char hidden[] = "-zmg-record";
    const char *name = zmg_netgame_word("-record");
    size_t length = name ? strlen(name) : 0;
    if (!name) return;
    snprintf(record, sizeof record, "%s%s", name, length >= 4 && same(name + length - 4, ".lmp") ? "" : ".lmp");
    argv[find("-record", 1)] = hidden;
}

/* What hosts and joiners have in common. */
static void read_common(zmg_key *key, zmg_random *random, zmg_name *name, uint8_t *keyless) {
    const char *file = zmg_netgame_word("-zmg-key"), *called = zmg_netgame_word("-zmg-name");
    if (!zmg_udp_random(random)) fail("no random bytes");
    for (size_t k = 0; called && k < sizeof name->text && called[k]; k++) name->text[k] = called[k];
    *keyless = !file;
    if (file && zmg_udp_key(file, key) != ZMG_OK)
        fail("%s is no file of 64 hex digits and a line end (netgame key FILE)", file);
    if (!file)
        engine.say("no -zmg-key: whoever can send here can take a place, play for others and end the game");
    engine.say("chat and moves can be read on the way");
}

static void read_policy(zmg_terms *terms) {
    bool gives_up = zmg_netgame_word("-zmg-give-up") != NULL, ends = zmg_netgame_word("-zmg-patience") != NULL;
    if (gives_up && ends) fail("either -zmg-give-up or -zmg-patience");
    if (!gives_up && !ends) return;
    terms->policy = gives_up ? ZMG_POLICY_GIVE_UP : ZMG_POLICY_END;
    terms->seconds = (uint8_t)number(gives_up ? "-zmg-give-up" : "-zmg-patience", 3, 3, 255);
}

static void read_host(void) {
    zmg_host_config_init(&host);
    host.terms.players = (uint8_t)number("-zmg-host", 0, 2, 4);
    host.terms.window = (uint8_t)number("-zmg-window", WINDOW, 1, 12);
    read_policy(&host.terms);
    read_common(&host.key, &host.random, &host.name, &host.keyless);
}

static void read_join(const char *to) {
    zmg_join_config_init(&join);
    if (!zmg_udp_find(&zmg_netgame_udp, to, PORT, &join.host)) fail("there is no %s", to);
    if (zmg_netgame_word("-zmg-me")) join.seat = (uint8_t)(number("-zmg-me", 0, 2, 4) - 1);
    read_common(&join.key, &join.random, &join.name, &join.keyless);
}

bool zmg_netgame_open(const zmg_engine *calls, int count, char **words) {
    const char *to;
    int port;
    engine = *calls;
    argc = count;
    argv = words;
    hosts = zmg_netgame_word("-zmg-host") != NULL;
    to = zmg_netgame_word("-zmg-join");
    if (!hosts && !to) return false;
    if (hosts && to) fail("either -zmg-host or -zmg-join");
    if (zmg_version() / 65536 != ZMG_VERSION / 65536) fail("another version of the library");
    shows = find("-zmg-show", 0) > 0;
    take_signal(SIGINT);
    take_signal(SIGTERM);
#ifdef SIGHUP
    take_signal(SIGHUP);
#endif
    port = number("-zmg-port", hosts ? PORT : 0, 0, 65535);
    if (!zmg_udp_open(&zmg_netgame_udp, (uint16_t)port)) fail("port %d cannot be opened", port);
    if (hosts) read_host();
    else read_join(to);
    return true;
}

void zmg_netgame_make(const zmg_settings *settings, const uint8_t own[256], const zmg_identity *identity) {
    zmg_status made;
    host.terms.settings = *settings;
    host.terms.identity = join.identity = *identity;
    memcpy(host.terms.own, own, sizeof host.terms.own);
    made = hosts ? zmg_session_host(&session, &host) : zmg_session_join(&session, &join, now());
    if (made != ZMG_OK) fail("no game: %s", zmg_status_text(made));
    look();
}

/* ---- what the screen shows ---- */

static void line_of(int p, line_of_text out) {
    zmg_player who = player(p);
    const char *what = who.seat == ZMG_SEAT_FREE     ? "not here yet"
                       : who.seat == ZMG_SEAT_SILENT ? "is silent"
                                                     : "here";
    char name[sizeof who.name.text + 1] = "", at[ZMG_UDP_TEXT_SIZE];
    memcpy(name, who.name.text, sizeof who.name.text);
    for (char *c = name; *c; c++)
        if (iscntrl((unsigned char)*c)) *c = '?';
    zmg_udp_text(&who.address, at);
    if (p == (int)state.me) snprintf(out, WIDE, "player %d: you", p + 1);
    else if (!who.has_address) snprintf(out, WIDE, "player %d: %s", p + 1, what);
    else snprintf(out, WIDE, "player %d %s%s(%s): %s", p + 1, name, *name ? " " : "", at, what);
}

static int show_lobby(line_of_text *lines) {
    char at[ZMG_UDP_TEXT_SIZE];
    int p = 0;
    zmg_udp_text(&join.host, at);
    if (state.stage == ZMG_STAGE_CALLING)
        snprintf(lines[0], WIDE, "no answer from %s yet; have you its -zmg-key?", at);
    else if (state.stage == ZMG_STAGE_WAITING) snprintf(lines[0], WIDE, "no place is free at %s yet", at);
    else for (; p < state.terms.players; p++) line_of(p, lines[p]);
    return p > 0 ? p : 1;
}

/* The one for whom the game waits, or -1. */
static int awaited(void) {
    for (int p = 0; p < state.terms.players; p++)
        if (player(p).awaited > 0) return p;
    return -1;
}

/* Whether this player may give up that one: if it leads, that is, has the lowest number of those who play, or
 * else the one that does. */
static bool asks(int p) {
    int leader = 0;
    if (p < 0 || player(p).awaited < ASK) return false;
    while (leader < 4 && player(leader).standing != ZMG_STANDING_PLAYS) leader++;
    return leader == (int)state.me || leader == p;
}

static void show_waiting(int p, const zmg_player *who, line_of_text out) {
    if (asks(p)) snprintf(out, WIDE, "player %d does not answer: F to play on without", p + 1);
    else if (who->silent > 1000)
        snprintf(out, WIDE, "waiting for player %d: silent for %u s", p + 1, who->silent / 1000);
    else snprintf(out, WIDE, "waiting for player %d for %u s", p + 1, who->awaited / 1000);
}

static unsigned percent(uint32_t part, uint32_t whole) {
    return whole ? (unsigned)(part * 100.0 / whole + .5) : 0;
}

/* Since the beginning: what of its datagrams was lost, and what came twice. Who leads whom by how many
 * commands. How many of the last datagrams to it did not come there, or came after newer ones, as it says. */
static void show_line_to(int p, const zmg_line *line, line_of_text out) {
    char there[16] = "";
    if (line->missing_there) snprintf(there, sizeof there, ", there %u", line->missing_there);
    snprintf(out, WIDE, "%d: lost %u%%, twice %u%%, lead %d/%d%s", p + 1,
             percent(line->lost, line->came + line->lost), percent(line->repeated, line->came), line->lead,
             line->lead_there, there);
}

int zmg_netgame_show(char lines[ZMG_NETGAME_LINES][WIDE]) {
    int count = 0, p = playing ? awaited() : -1;
    if (!session || leaving) return 0;
    if (!playing) return show_lobby(lines);
    if (p >= 0) {
        zmg_player who = player(p);
        if (who.awaited > 1000) show_waiting(p, &who, lines[count++]);
    }
    for (int k = 0; k < said_count; k++)
        if (now() - said_at[k] < SAID_FOR) memcpy(lines[count++], said[k], WIDE);
    for (p = 0; shows && p < state.terms.players; p++) {
        zmg_player who = player(p);
        if (p == (int)state.me || who.standing != ZMG_STANDING_PLAYS) continue;
        show_line_to(p, &who.line, lines[count++]);
    }
    return count;
}

bool zmg_netgame_give_up(void) {
    int p = playing && !leaving ? awaited() : -1;
    return asks(p) && zmg_session_give_up(session, (uint8_t)p, now()) == ZMG_OK;
}

/* ---- the lobby ---- */

static void exchange(void) {
    zmg_status polled;
    zmg_udp_exchange(&zmg_netgame_udp, session, &polled);
    if (polled == ZMG_ERR_MEMORY) fail("there is no memory");
    look();
}

/* The lobby's lines, where they have changed. */
static void say_lobby(void) {
    static line_of_text before[ZMG_NETGAME_LINES];
    line_of_text lines[ZMG_NETGAME_LINES];
    for (int k = 0, count = zmg_netgame_show(lines); k < count; k++) {
        if (strcmp(lines[k], before[k]) == 0) continue;
        memcpy(before[k], lines[k], WIDE);
        engine.say(lines[k]);
    }
}

bool zmg_netgame_gather(void) {
    exchange();
    if (state.stage == ZMG_STAGE_OVER && state.why == ZMG_OVER_PLAYERS)
        fail("the host says no: the game has %u players", state.number);
    if (state.stage == ZMG_STAGE_OVER) fail("the host says no: %s", zmg_status_text(state.why));
    playing = state.stage == ZMG_STAGE_PLAYING;
    if (playing) {
        engine.begin(&state.terms, (int)state.me);
        tell("the game begins: player %u of %d", state.me + 1, state.terms.players);
        return true;
    }
    say_lobby();
    zmg_udp_wait(&zmg_netgame_udp, session, 10);
    return false;
}

/* ---- the game ---- */

static zmg_command owed;  /* the command for which there was no room */
static bool owes;

/* Where the window is full, the session owes a command of this tick: it is made when a run makes room, with
 * what the player did until now. While it is owed, later ticks give the same command again and build none: so
 * the session counts their ticks, and what the player does in the meantime stays with the engine, for the next
 * command. */
static void tick(void) {
    uint32_t made = state.made;
    engine.input();
    if (!owes) {
        memset(&owed, 0, sizeof owed);
        engine.build(made, &owed);
    }
    zmg_session_give(session, &owed, now());
    look();
    owes = state.made == made;
    zmg_udp_send_all(&zmg_netgame_udp, session);
}

static void see_events(void) {
    zmg_event e;
    while (zmg_session_event(session, &e) != ZMG_EVENT_NONE) {
        if (e.kind == ZMG_EVENT_LEFT) tell("player %u has left", e.player + 1);
        if (e.kind == ZMG_EVENT_GIVEN_UP) tell("the game goes on without player %u", e.player + 1);
    }
}

static void end(void) {
    if (state.why == ZMG_OVER_LOST)
        fail("player %u was missing for %d s", state.number + 1, state.terms.seconds);
    if (state.why == ZMG_OVER_FULL) fail("the recording is full at tic %u", state.ran);
    fail("the game is over: %s", zmg_status_text(state.why));
}

void zmg_netgame_update(void) {
    if (leaving) return;
    exchange();
    see_events();
    if (state.stage != ZMG_STAGE_PLAYING) end();
    while (zmg_session_wants_input(session, now())) tick();
}

/* Runs a tic. The marks are of the world before it. */
static bool run_one(void) {
    zmg_row row;
    int16_t marks[4] = { 0, 0, 0, 0 };
    zmg_run ran;
    engine.marks(marks);
    ran = zmg_session_run(session, marks, &row);
    if (ran == ZMG_RUN_INCONSISTENT)
        fail("the worlds differ since tic %d or earlier: player %d had the mark %d, and here it is %d",
             (int)state.ran - 12, row.player + 1, row.was, row.should);
    if (ran == ZMG_RUN_RAN) engine.step(&row);
    look();
    return ran == ZMG_RUN_RAN;
}

static int run_all(void) {
    uint32_t made = state.made;
    int steps = 0;
    while (run_one()) steps++;
    if (state.made != made) owes = false;
    zmg_udp_send_all(&zmg_netgame_udp, session);
    return steps;
}

int zmg_netgame_run(uint32_t wait) {
    uint32_t entered = now();
    int steps;
    zmg_netgame_update();
    while ((steps = run_all()) == 0) {
        if (now() - entered >= wait) return 0;
        zmg_udp_wait(&zmg_netgame_udp, session, 5);
        zmg_netgame_update();
    }
    zmg_netgame_update();
    return steps;
}

/* ---- the end ---- */

static void save(void) {
    uint8_t bytes[4096];
    size_t at = 0, n;
    FILE *f = fopen(record, "wb");
    bool whole = f != NULL;
    for (; whole && (n = zmg_session_demo(session, at, bytes, sizeof bytes)) > 0; at += n)
        whole = fwrite(bytes, 1, n, f) == n;
    if (f && fclose(f) != 0) whole = false;
    if (whole) tell("%s has %u bytes", record, (unsigned)at);
    else tell("cannot write %s", record);
}

void zmg_netgame_leave(void) {
    uint32_t begun = now();
    if (!session || leaving) return;
    leaving = true;
    zmg_session_quit(session, begun);
    if (playing && *record) save();
    for (look(); playing && state.stage != ZMG_STAGE_OVER && now() - begun < FAREWELL;) {
        zmg_udp_wait(&zmg_netgame_udp, session, 5);
        exchange();
    }
    if (playing) tell("left after %u ms, %s", now() - begun, state.may_leave ? "all know" : "NOT ALL KNOW");
    zmg_session_free(session);
    zmg_udp_close(&zmg_netgame_udp);
}

/* ---- the identity ---- */

/* Two sums of 64 bits, each by a rule of its own. */
void zmg_identity_bytes(zmg_identity *identity, const void *bytes, size_t length) {
    const uint8_t *at = (const uint8_t *)bytes;
    uint64_t sums[2];
    memcpy(sums, identity->bytes, sizeof sums);
    for (size_t k = 0; k < length; k++) {
        sums[0] = (sums[0] ^ at[k]) * 1099511628211u;
        sums[1] = (sums[1] + at[k] + 1) * 6364136223846793005u;
    }
    memcpy(identity->bytes, sums, sizeof sums);
}

bool zmg_identity_file(zmg_identity *identity, const char *path) {
    static uint8_t bytes[65536];
    size_t n;
    FILE *f = fopen(path, "rb");
    if (!f) return false;
    while ((n = fread(bytes, 1, sizeof bytes, f)) > 0) zmg_identity_bytes(identity, bytes, n);
    return fclose(f) == 0;
}
