/* Players that are sessions: each has the loop of an engine that zirmegat.h describes. */
#include "sessions.h"
#include "hand.h"
#include "must.h"
#include "post.h"
#include <math.h>
#include <stdlib.h>
#include <string.h>

/* A session's clock has whole milliseconds: it is asked this much after one has begun, and no
 * earlier than the next one again. */
static const double JUST_AFTER = 1e-6, MILLISECOND = 1;

static seat seats[PLAYERS];
/* how far the sessions' clocks were when the game began */
static uint32_t begun;

/* ---- Time ---- */

static uint32_t clock_of(const game *g, int me) {
    return begun + (uint32_t)floor(game_clock(g, me, g->now - BEGIN_TIME));
}

/* The simulated time at which the player's clock has come to this. */
static double time_of(const game *g, int me, uint32_t clock) {
    return BEGIN_TIME + ((double)clock - begun) / game_clock(g, me, 1) + JUST_AFTER;
}

static void wake_at(game *g, int me, double time) {
    seat *s = &seats[me];
    if (time >= s->wakes) return;
    s->wakes = time;
    game_wait(g, time, DUE, me, ++s->number);
}

static void sleep(game *g, int me) {
    uint32_t now = clock_of(g, me), wait = zmg_session_wait(seats[me].session, now);
    double time;
    if (wait == ZMG_WAIT_NONE) return;
    time = time_of(g, me, now + wait);
    wake_at(g, me, time > g->now ? time : g->now + MILLISECOND);
}

/* ---- The engine ---- */

static void send_all(game *g, int me) {
    session_datagram d;
    while (post_next(seats[me].session, me, &d)) {
        must(d.head.to >= 0 && d.head.to < g->on->players, "a datagram goes to a player");
        game_send(g, &d.head);
    }
}

/* The player's command has become part of the game, if it has. */
static void note_made(game *g, int me, uint32_t before) {
    zmg_state state;
    zmg_session_state(seats[me].session, &state, sizeof state);
    must(state.made <= before + 1, "one command is made at once");
    if (state.made > before) record_command(&g->records[me], (int)before);
}

static uint32_t made_by(int me) {
    zmg_state state;
    zmg_session_state(seats[me].session, &state, sizeof state);
    must(state.stage == ZMG_STAGE_PLAYING, "the session plays");
    return state.made;
}

static void give(game *g, int me, uint32_t now) {
    seat *s = &seats[me];
    zmg_command command = hand_command(g->seed, me, s->ticks++);
    uint32_t before = made_by(me);
    record_tick(&g->records[me], g->now);
    must(zmg_session_give(s->session, &command, now) == ZMG_OK, "a command that is wanted is taken");
    note_made(g, me, before);
}

static int run(game *g, int me) {
    seat *s = &seats[me];
    uint32_t before = made_by(me);
    int16_t marks[4];
    zmg_row row;
    zmg_run ran;
    world_marks(&s->world, marks);
    ran = zmg_session_run(s->session, marks, &row);
    must(ran == ZMG_RUN_RAN || ran == ZMG_RUN_WAITING || ran == ZMG_RUN_HELD,
         "the worlds are the same");
    if (ran != ZMG_RUN_RAN) return 0;
    world_step(&s->world, &row);
    game_run(g, me, (int)row.tic);
    note_made(g, me, before);
    return 1;
}

static void hear(game *g, int me, const datagram *d) {
    post_hear(seats[me].session, d, clock_of(g, me));
    send_all(g, me);
}

static void hear_all(game *g, int me) {
    event e;
    while (queue_pop(&seats[me].inbox, &e)) {
        hear(g, me, e.datagram);
        free(e.datagram);
    }
}

static void wake(game *g, int me) {
    zmg_session *session = seats[me].session;
    zmg_event told;
    uint32_t now = clock_of(g, me);
    if (g->on->hears_once && zmg_session_wants_input(session, now)) hear_all(g, me);
    must(zmg_session_poll(session, now) == ZMG_OK, "a session has memory");
    while (zmg_session_wants_input(session, now)) give(g, me, now);
    send_all(g, me);
    must(zmg_session_event(session, &told) == ZMG_EVENT_NONE, "nobody leaves or is given up");
    while (game_can_run(g, me) && run(g, me)) continue;
    send_all(g, me);
    sleep(g, me);
}

/* ---- Events ---- */

/* An engine that hears whenever it calls does so now, and then what is due. */
static void arrive(game *g, int me, const event *e) {
    event kept = *e;
    if (g->on->hears_once) {
        kept.datagram = datagram_copy(e->datagram);
        queue_push(&seats[me].inbox, kept);
        return;
    }
    hear(g, me, e->datagram);
    wake_at(g, me, g->now);
}

static void happen(game *g, const event *e) {
    seat *s = &seats[e->player];
    if (e->datagram) {
        arrive(g, e->player, e);
    } else if (e->number == s->number) {
        s->wakes = INFINITY;
        wake(g, e->player);
    }
}

static void open(game *g) {
    memset(seats, 0, sizeof seats);
    begun = lobby_pass(g, seats);
    worlds_open((uint32_t)g->records[0].tics);
    for (int me = 0; me < g->on->players; me++) {
        world_begin(&seats[me].world);
        seats[me].wakes = INFINITY;
        wake_at(g, me, BEGIN_TIME);
    }
}

static void close(game *g) {
    worlds_close();
    for (int me = 0; me < g->on->players; me++) {
        zmg_session_free(seats[me].session);
        queue_clear(&seats[me].inbox);
    }
}

const netcode SESSIONS = { "sessions", 0, open, happen, close };
