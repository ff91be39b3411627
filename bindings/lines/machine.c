/* When a player's machine has time for its engine. */
#include "machine.h"
#include "chance.h"
#include <math.h>

/* What is nearer than this is one time. */
static const double CLOSE = 1e-9;

void machine_open(machine *m, const conditions *on, int player, uint64_t seed) {
    m->on = on;
    m->player = player;
    m->frame = chance(seed, FRAMES, (uint64_t)player, 0, 0) * 100;
    m->hang = chance(seed, HITCH, (uint64_t)player, 0, 0) * on->hitch_every;
    m->loaded = 0;
}

/* The end of the hitch that is on, or this time. */
static double after_hitch(const machine *m, double time) {
    const conditions *on = m->on;
    double begun;
    if (on->hitch <= 0 || (on->hitch_player != EACH && on->hitch_player != m->player)) return time;
    begun = m->hang + floor((time - m->hang) / on->hitch_every) * on->hitch_every;
    return time < begun + on->hitch ? begun + on->hitch : time;
}

/* The next frame, or this time. */
static double at_frame(const machine *m, double time) {
    double length, frame;
    if (m->on->frames[m->player] <= 0) return time;
    length = 1000 / m->on->frames[m->player];
    frame = m->frame + ceil((time - m->frame) / length - CLOSE) * length;
    return frame < time ? time : frame;
}

double machine_ready(const machine *m, double time) {
    enum { TURNS = 4 };
    for (int k = 0; k < TURNS; k++) {
        double next = after_hitch(m, time);
        next = at_frame(m, next < m->loaded ? m->loaded : next);
        if (next <= time + CLOSE) return next;
        time = next;
    }
    return time;
}

void machine_ran(machine *m, int tic, double now) {
    double load = m->on->load[m->player];
    if (m->on->level > 0 && tic == m->on->level && load > 0) m->loaded = now + load;
}
