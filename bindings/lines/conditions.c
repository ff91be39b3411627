/* Words that say what a game is played on. */
#include "conditions.h"
#include <stddef.h>
#include <stdlib.h>
#include <string.h>

enum { MOST = 4 };

typedef enum number_kind { NONE, NUMBER, PERCENT, WHOLE } number_kind;

/* A word sets so many fields, in this order; numbers that are left out leave their fields as
 * they are. */
typedef struct field {
    number_kind kind;
    size_t at;
} field;
typedef struct word {
    const char *name;
    field fields[MOST];
} word;

#define FIELD(kind, member) { kind, offsetof(conditions, member) }

static const word WORDS[] = {
    { "players", { FIELD(WHOLE, players) } },
    { "window", { FIELD(WHOLE, window) } },
    { "extra", { FIELD(WHOLE, extra) } },
    { "seconds", { FIELD(NUMBER, seconds) } },
    { "delay", { FIELD(NUMBER, delay) } },
    { "back", { FIELD(NUMBER, back) } },
    { "jitter", { FIELD(NUMBER, jitter) } },
    { "tail", { FIELD(NUMBER, tail), FIELD(NUMBER, tail_shape) } },
    { "order", { FIELD(WHOLE, in_order) } },
    { "loss", { FIELD(PERCENT, loss) } },
    { "repeat", { FIELD(PERCENT, repeat) } },
    { "burst", { FIELD(PERCENT, burst), FIELD(NUMBER, burst_length) } },
    { "pair", { FIELD(WHOLE, pair[0]), FIELD(WHOLE, pair[1]), FIELD(PERCENT, pair_loss),
        FIELD(NUMBER, pair_delay) } },
    { "cut", { FIELD(WHOLE, cut[0]), FIELD(WHOLE, cut[1]) } },
    { "outage", { FIELD(NUMBER, outage), FIELD(NUMBER, outage_every),
        FIELD(WHOLE, outage_player) } },
    { "queue", { FIELD(NUMBER, queue) } },
    { "traffic", { FIELD(NUMBER, traffic), FIELD(NUMBER, traffic_every),
        FIELD(WHOLE, traffic_player) } },
    { "batch", { FIELD(NUMBER, batch), FIELD(WHOLE, batch_player) } },
    { "once", { FIELD(WHOLE, hears_once) } },
    { "hitch", { FIELD(NUMBER, hitch), FIELD(NUMBER, hitch_every), FIELD(WHOLE, hitch_player) } },
    { "level", { FIELD(WHOLE, level) } },
};

/* These end with a player's number, and are its own. */
static const word OWN_WORDS[] = {
    { "delay", { FIELD(NUMBER, own_delay) } },
    { "jitter", { FIELD(NUMBER, own_jitter) } },
    { "loss", { FIELD(PERCENT, own_loss) } },
    { "uplink", { FIELD(NUMBER, uplink) } },
    { "drift", { FIELD(PERCENT, drift) } },
    { "frames", { FIELD(NUMBER, frames) } },
    { "load", { FIELD(NUMBER, load) } },
    { "behind", { FIELD(NUMBER, behind) } },
};

/* These are in OWN_WORDS too, and without a number they are of all players. */
static const char *const SHARED[] = { "uplink", "frames" };

#define COUNT(array) (sizeof(array) / sizeof *(array))

conditions conditions_plain(void) {
    conditions c;
    memset(&c, 0, sizeof c);
    c.players = 2;
    c.window = 12;
    c.extra = 1;
    c.seconds = 60;
    c.warm_up = 5000;
    c.tail_shape = 2;
    c.burst_length = 100;
    c.pair[0] = c.pair[1] = c.cut[0] = c.cut[1] = NOBODY;
    c.outage_player = c.traffic_player = c.batch_player = c.hitch_player = EACH;
    c.queue = 200;
    c.traffic_every = 4000;
    return c;
}

/* The word of this name, of so many letters. */
static const word *find(const word *words, size_t count, const char *name, size_t length) {
    for (size_t k = 0; k < count; k++)
        if (strlen(words[k].name) == length && memcmp(words[k].name, name, length) == 0)
            return &words[k];
    return NULL;
}

/* Sets the field that is the player's; of a field that is no array the player is 0. */
static void set(conditions *c, const field *f, int player, double number) {
    char *at = (char *)c + f->at;
    if (f->kind == WHOLE) ((int *)(void *)at)[player] = (int)number;
    else ((double *)(void *)at)[player] = f->kind == PERCENT ? number / 100 : number;
}

static int read_numbers(conditions *c, const word *w, int player, const char *text) {
    for (int k = 0; k < MOST && w->fields[k].kind != NONE; k++) {
        char *end;
        double number = strtod(text, &end);
        if (end == text) return 0;
        set(c, &w->fields[k], player, number);
        if (*end == 0) return 1;
        if (*end != '/') return 0;
        text = end + 1;
    }
    return 0;
}

static int read_shared(conditions *c, const char *name, size_t length, const char *numbers) {
    const word *w = NULL;
    for (size_t k = 0; k < COUNT(SHARED); k++)
        if (strlen(SHARED[k]) == length && memcmp(SHARED[k], name, length) == 0)
            w = find(OWN_WORDS, COUNT(OWN_WORDS), name, length);
    if (!w) return 0;
    for (int player = 0; player < PLAYERS; player++)
        if (!read_numbers(c, w, player, numbers)) return 0;
    return 1;
}

int conditions_read(conditions *c, const char *text) {
    const char *equals = strchr(text, '=');
    size_t length = equals ? (size_t)(equals - text) : 0;
    const word *w;
    int player;
    if (length < 2) return 0;
    w = find(WORDS, COUNT(WORDS), text, length);
    if (w) return read_numbers(c, w, 0, equals + 1);
    if (read_shared(c, text, length, equals + 1)) return 1;
    player = equals[-1] - '0';
    w = find(OWN_WORDS, COUNT(OWN_WORDS), text, length - 1);
    return w && player >= 0 && player < PLAYERS && read_numbers(c, w, player, equals + 1);
}
