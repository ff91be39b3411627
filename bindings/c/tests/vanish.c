/* Games of two to four links of which players vanish: `vanish [GAMES [SEED]]`. A line loses, delays and
 * reorders datagrams. Players crash, one or two of them, also while the others decide about another; one leaves
 * and its farewell is lost; one stands still, for a shorter or a longer time than the others' patience; and the
 * line parts two from two. Each engine gives up whom it has not heard for PATIENCE turns, and whom another has
 * given up that it goes on with. A datagram has a report exactly while its sender has given up somebody and
 * once it has left, if there is room; and once no report is missing, the ends are known. Players neither of
 * whom has given up the other must run the same rows, and of their demos one must be the beginning of the
 * other; of any two at all the commands of a player must be the same wherever both have them; and who remains
 * must play on. C99 and C++. Ends with status 0, or names the line that failed. */
#include "chance.h"
#include "due.h"
#include "engine.h"
#include "must.h"
#include <stdio.h>
#include <stdlib.h>
#include <string.h>

/* In turns, of which each player takes one, 35 in a second: how long a player may be silent, how long a game
 * takes, and within how many turns before its end who remains must have run a tic. */
enum { NODES = 4, PATIENCE = 175, LENGTH = 1400, LATELY = 60 };
/* Of a datagram: where the number of bytes of its report stands, and the most that it may be. */
enum { REPORT = 43, MOST_REPORT = 397 };
enum { MOST_ROWS = 2 * LENGTH, MOST_DEMO = 13 + MOST_ROWS * 4 * 5 + 1 };

/* Of a demo: its head, and where that tells whose view it is. */
enum { HEAD = 13, VIEW = 9 };

typedef enum plot {
    CRASH, TWO_CRASH, CRASH_WHILE_DECIDING, LOST_FAREWELL, SLOW, TOO_SLOW, PARTED, EARLY, PLOTS
} plot;

/* A player: when it crashes, leaves, stands still and wakes, when it last heard each other, how much came from
 * each by then, how many tics it ran and when the last, and its rows. */
typedef struct player {
    uint32_t crashes, leaves, sleeps, wakes, heard[NODES], came[NODES], ran, last_run;
    uint16_t world;
    uint8_t gone;
    zmg_row rows[MOST_ROWS];
} player;

static uint32_t players, lost, slowest, cut;
static plot what;
static zmg_node *links[NODES];
static player all[NODES];
static unsigned long games, plots[PLOTS], given[8], reports, crowded, decided, apart;

static void tell_where(FILE *out) {
    fprintf(out, "in game %lu (plot %u, %u players) at turn %u", games, (unsigned)what, (unsigned)players,
        (unsigned)now);
}

/* ---- The line ---- */

/* The line may be cut between the first two players and the others. */
static int is_cut(uint8_t from, uint8_t to) { return now >= cut && (from < 2) != (to < 2); }

static void carry(const flight *f) {
    if (is_cut(f->from, f->to)) return;
    for (uint32_t copies = below(100) < lost ? 0 : 1 + (below(16) == 0); copies; copies--)
        post(f, 1 + below(slowest));
}

static void look_for_report(const flight *f) {
    uint32_t size = f->bytes[REPORT] + 256u * f->bytes[REPORT + 1];
    int is_due = all[f->from].gone || state_of(links[f->from]).phase == ZMG_PHASE_ENDED;
    MUST(size <= MOST_REPORT);
    if (is_due) MUST(size > 0 || f->length + MOST_REPORT > ZMG_DATAGRAM_SIZE);
    else MUST(size == 0);
    reports += size > 0;
    crowded += is_due && size == 0;
}

static void give(uint8_t from, uint8_t to) {
    flight f;
    f.from = from;
    f.to = to;
    f.length = zmg_link_datagram(links[from], to, f.bytes, sizeof f.bytes);
    MUST((f.length == 0) == (from == to || to >= players || (all[from].gone >> to & 1)));
    if (f.length == 0) return;
    look_for_report(&f);
    carry(&f);
}

/* ---- An engine ---- */

static void run(uint8_t me) {
    player *p = &all[me];
    for (;;) {
        zmg_row row;
        zmg_run ran = run_node(links[me], p->world, &row);
        MUST(ran != ZMG_RUN_INCONSISTENT && ran != ZMG_RUN_DEMO_FULL);
        if (ran != ZMG_RUN_RAN) return;
        MUST(row.tic == p->ran && row.tic < MOST_ROWS);
        p->rows[p->ran++] = row;
        p->last_run = now;
        p->world = stepped(p->world, &row);
    }
}

static void give_up(uint8_t me, uint8_t of) {
    zmg_given_up answer;
    zmg_give_up_code code;
    if (all[me].gone >> of & 1) return;
    code = zmg_link_give_up(links[me], of, &answer);
    MUST(code == answer.code && code < 8);
    given[code]++;
    MUST(code == ZMG_GIVE_UP_WAITING || code == ZMG_GIVE_UP_DECIDED || code == ZMG_GIVE_UP_NOT_PLAYING);
    if (code == ZMG_GIVE_UP_NOT_PLAYING) return;
    all[me].gone |= (uint8_t)(1u << of);
    MUST(seen_by(links[me], of).given_up);
    MUST(zmg_link_give_up(links[me], of, &answer) == ZMG_GIVE_UP_ALREADY);
}

/* A player is silent of whom nothing new comes, and whose end is not known. */
static void look_for_silence(uint8_t me, uint8_t of) {
    player *p = &all[me];
    zmg_node_player other = seen_by(links[me], of);
    if (other.line.came != p->came[of] || other.end != ZMG_NO_END) p->heard[of] = now;
    p->came[of] = other.line.came;
    if (now - p->heard[of] > PATIENCE) give_up(me, of);
}

/* Whom another has given up is given up. One who is given up itself reports nobody. */
static void follow(uint8_t me, uint8_t of) {
    zmg_node_player other = seen_by(links[me], of);
    MUST(!other.reports[me]);
    for (uint8_t p = 0; p < players; p++) {
        if (!other.reports[p]) continue;
        MUST(!(all[me].gone >> of & 1));
        give_up(me, p);
    }
}

static void tick(uint8_t me) {
    zmg_command c = { (int16_t)draw(), (int8_t)below(100), (int8_t)below(80), (uint8_t)draw(), 1 };
    int32_t later;
    if (all[me].leaves == now) zmg_node_quit(links[me]);
    zmg_node_give(links[me], &c);
    MUST(zmg_link_tick(links[me], &later) == ZMG_OK);
    for (uint8_t p = 0; p < players; p++) {
        if (p != me) look_for_silence(me, p);
        if (p != me) follow(me, p);
    }
    for (uint8_t to = 0; to < NODES; to++) give(me, to);
    run(me);
    if (zmg_link_catch_up(links[me]) == ZMG_OK) run(me);
}

/* A report is missing, of those by which it is known where the players end who are given up. */
static int awaits_report(uint8_t me) { return all[me].gone && state_of(links[me]).is_undecided; }

/* Once none is missing, it is known. */
static void look_at_ends(uint8_t me) {
    if (awaits_report(me)) return;
    for (uint8_t p = 0; p < players; p++)
        if (all[me].gone >> p & 1) MUST(seen_by(links[me], p).end != ZMG_NO_END);
}

static void hear(const flight *f) {
    int awaited = awaits_report(f->to);
    zmg_received r;
    zmg_received_code code = zmg_link_receive(links[f->to], f->bytes, f->length, &r);
    MUST(r.code == code && r.player == f->from && r.reason == 0);
    if (all[f->to].gone >> f->from & 1) {
        MUST(r.code == ZMG_RECEIVED_GIVEN_UP);
        return;
    }
    MUST(r.code == ZMG_RECEIVED_HEARD);
    look_at_ends(f->to);
    decided += awaited && !awaits_report(f->to);
    run(f->to);
}

static int is_up(uint8_t p) {
    return now < all[p].crashes && !(all[p].sleeps <= now && now < all[p].wakes);
}

/* What comes to one that stands still waits for it in its socket. */
static void arrive(void) {
    uint32_t k = first_due();
    while (k) {
        flight f;
        k = take_due(k, &f);
        if (is_up(f.to)) hear(&f);
        else if (now < all[f.to].crashes && below(40)) post(&f, 1);
    }
}

/* ---- A game ---- */

static void make(uint8_t me) {
    zmg_node_config c = config_of(1 << 20, players, me);
    c.window = (uint8_t)(5 + games % 8);
    c.secret.bytes[0] = 1;
    c.game.bytes[0] = 2;
    memcpy(c.game.bytes + 1, &games, sizeof games);
    MUST(zmg_link_new(&links[me], &c) == ZMG_OK);
}

/* Who does what, and when. */
static void draw_plot(void) {
    uint32_t one = below(players), at = 120 + below(400);
    what = (plot)(games % PLOTS);
    if (what == PARTED) players = 4;
    if (what == TWO_CRASH || what == CRASH_WHILE_DECIDING) players = 3 + below(2);
    one = below(players);
    switch (what) {
    case TWO_CRASH: all[one].crashes = all[(one + 1) % players].crashes = at; break;
    case CRASH_WHILE_DECIDING:
        all[one].crashes = at;
        all[(one + 1) % players].crashes = at + PATIENCE - 20 + below(60);
        break;
    case LOST_FAREWELL:
        all[one].leaves = at;
        all[one].crashes = at + 1 + below(3);
        break;
    case SLOW:
        all[one].sleeps = at;
        all[one].wakes = at + below(PATIENCE - 60);
        break;
    case TOO_SLOW:
        all[one].sleeps = at;
        all[one].wakes = at + 280;
        break;
    case PARTED: cut = at; break;
    case EARLY: all[one].crashes = below(60); break;
    default: all[one].crashes = at;
    }
    plots[what]++;
}

static void open_game(void) {
    memset(all, 0, sizeof all);
    now = 0;
    cut = UINT32_MAX;
    players = 2 + below(3);
    lost = below(26);
    slowest = 1 + below(8);
    clear_line();
    for (uint8_t p = 0; p < NODES; p++) {
        all[p].crashes = all[p].sleeps = all[p].leaves = UINT32_MAX;
        all[p].wakes = 0;
    }
    draw_plot();
    for (uint8_t p = 0; p < players; p++) make(p);
}

static int have_parted(uint8_t one, uint8_t other) {
    return (all[one].gone >> other & 1) || (all[other].gone >> one & 1);
}

/* The commands of a player are the same wherever both have them; and if neither has given up the other, both
 * have them of the same players. */
static void compare_rows(uint8_t one, uint8_t other) {
    uint32_t common = all[one].ran < all[other].ran ? all[one].ran : all[other].ran;
    for (uint32_t tic = 0; tic < common; tic++)
        for (unsigned p = 0; p < 4; p++) {
            const zmg_row *a = &all[one].rows[tic], *b = &all[other].rows[tic];
            if (a->present[p] && b->present[p])
                MUST(memcmp(&a->commands[p], &b->commands[p], sizeof a->commands[p]) == 0);
            if (!have_parted(one, other)) MUST(a->present[p] == b->present[p]);
        }
}

static void compare_demos(uint8_t one, uint8_t other) {
    static uint8_t demos[2][MOST_DEMO];
    size_t lengths[2], shorter;
    lengths[0] = zmg_node_demo(links[one], 0, demos[0], MOST_DEMO);
    lengths[1] = zmg_node_demo(links[other], 0, demos[1], MOST_DEMO);
    shorter = lengths[0] < lengths[1] ? lengths[0] : lengths[1];
    if (shorter <= HEAD + 1) return;
    demos[1][VIEW - 1] = demos[0][VIEW - 1];
    /* the last byte may be the marker of the end */
    MUST(memcmp(demos[0] + VIEW, demos[1] + VIEW, shorter - 1 - VIEW) == 0);
}

static void compare(uint8_t one, uint8_t other) {
    compare_rows(one, other);
    compare_demos(one, other);
    apart += (unsigned)have_parted(one, other);
}

/* Who neither crashed nor left plays on. */
static void look_for_progress(uint8_t me) {
    if (all[me].crashes != UINT32_MAX || all[me].leaves != UINT32_MAX) return;
    MUST(all[me].last_run + LATELY > LENGTH);
}

static void game(void) {
    open_game();
    for (; now < LENGTH; now++) {
        for (uint8_t p = 0; p < players; p++)
            if (is_up(p)) tick(p);
        arrive();
    }
    for (uint8_t one = 0; one < players; one++) {
        look_for_progress(one);
        for (uint8_t other = 0; other < one; other++) compare(other, one);
    }
    for (uint8_t p = 0; p < players; p++) zmg_node_free(links[p]);
    games++;
}

int main(int argc, char **argv) {
    unsigned long count = argc > 1 ? strtoul(argv[1], NULL, 10) : 500;
    if (argc > 2) begin_chance(argv[2]);
    while (games < count) game();
    printf("%lu games: reports %lu, without room %lu, decided by one %lu, pairs that parted %lu; give-ups:",
        games, reports, crowded, decided, apart);
    for (unsigned k = 0; k < 8; k++) printf(" %lu", given[k]);
    printf("\n");
    if (games < 100) return 0;
    /* in so many games all of it comes */
    for (unsigned k = 0; k < PLOTS; k++) MUST(plots[k] > 0);
    MUST(given[ZMG_GIVE_UP_WAITING] > 0 && given[ZMG_GIVE_UP_DECIDED] > 0 && decided > 0 && apart > 0);
    return 0;
}
