/* What the datagrams of a link cost, beside OpenSSL's HMAC-SHA-256 of the same bytes.
 *
 *     seals time ROUNDS           the calls below in turn, ROUNDS times, 200 of each: nanoseconds of a call
 *     seals count CALL COMMANDS N a call N times, for datagrams of so many commands, 1 or 12
 *
 * give: a link gives a datagram with so many commands that are not acknowledged. repeated: a link hears one
 * that it has heard before. forged: one with another tag. stray: one of another game. hmac: HMAC in one call.
 * prepared: an EVP_MAC that has taken the key already, as a link's hashers have. Both are of the bytes under
 * the datagram's tag, and must come to that tag. turn: two nodes make so many commands each, give a packet,
 * hear the other's and run the tics. link_turn: the same of links. Needs OpenSSL 3. */
#define _POSIX_C_SOURCE 199309L
#include "zirmegat_parts.h"
#include <openssl/core_names.h>
#include <openssl/evp.h>
#include <openssl/hmac.h>
#include <stdio.h>
#include <stdlib.h>
#include <string.h>
#include <time.h>

enum { TAG = 16, GAME = 2, BATCH = 200, MOST_ROUNDS = 500 };

static const char LABEL[] = "zirmegat game key 1";

static const zmg_command forward = { 0, 25, 0, 0, 0 };
static const int16_t marks[4];
static zmg_key secret;
static zmg_game_number number;
static uint8_t key[32];
static uint8_t datagram[ZMG_DATAGRAM_SIZE], forged[ZMG_DATAGRAM_SIZE], stray[ZMG_DATAGRAM_SIZE], code[32];
static size_t length;
static unsigned commands;
/* those that take turns, and those that stay where they are */
static zmg_node *nodes[2], *going[2], *still[2];
static EVP_MAC_CTX *prepared;

static void must(int holds, const char *what) {
    if (holds) return;
    fprintf(stderr, "seals: not so: %s\n", what);
    exit(1);
}

/* ---- The calls ---- */

static size_t call_give(void) {
    static uint8_t out[ZMG_DATAGRAM_SIZE];
    return zmg_link_datagram(still[0], 1, out, sizeof out);
}

static size_t call_repeated(void) {
    zmg_received r;
    return zmg_link_receive(still[1], datagram, length, &r);
}

static size_t call_forged(void) {
    zmg_received r;
    zmg_link_receive(still[1], forged, length, &r);
    return r.reason;
}

static size_t call_stray(void) {
    zmg_received r;
    zmg_link_receive(still[1], stray, length, &r);
    return r.reason;
}

static size_t call_hmac(void) {
    unsigned n = 0;
    HMAC(EVP_sha256(), key, sizeof key, datagram, length - TAG, code, &n);
    return n;
}

static size_t call_prepared(void) {
    size_t n = 0;
    EVP_MAC_init(prepared, NULL, 0, NULL);
    EVP_MAC_update(prepared, datagram, length - TAG);
    EVP_MAC_final(prepared, code, &n, sizeof code);
    return n;
}

static size_t call_turn(void) {
    uint8_t bytes[2][ZMG_PACKET_SIZE];
    size_t n[2], ran = 0;
    for (uint8_t me = 0; me < 2; me++) {
        for (unsigned k = 0; k < commands; k++) zmg_node_give(nodes[me], &forward);
        n[me] = zmg_lockstep_packet(nodes[me], 1 - me, bytes[me], sizeof bytes[me]);
    }
    for (uint8_t me = 0; me < 2; me++) {
        zmg_heard heard;
        zmg_row row;
        zmg_lockstep_receive(nodes[me], 1 - me, bytes[1 - me], n[1 - me], &heard);
        for (unsigned k = 0; k < commands; k++) ran += zmg_node_run(nodes[me], marks, &row) == ZMG_RUN_RAN;
    }
    return ran;
}

static size_t call_link_turn(void) {
    uint8_t bytes[2][ZMG_DATAGRAM_SIZE];
    size_t n[2], ran = 0;
    for (uint8_t me = 0; me < 2; me++) {
        int32_t later;
        for (unsigned k = 0; k < commands; k++) zmg_node_give(going[me], &forward);
        zmg_link_tick(going[me], &later);
        n[me] = zmg_link_datagram(going[me], 1 - me, bytes[me], sizeof bytes[me]);
    }
    for (uint8_t me = 0; me < 2; me++) {
        zmg_received received;
        zmg_row row;
        zmg_link_receive(going[me], bytes[1 - me], n[1 - me], &received);
        for (unsigned k = 0; k < commands; k++) ran += zmg_node_run(going[me], marks, &row) == ZMG_RUN_RAN;
    }
    return ran;
}

enum { GIVE, REPEATED, FORGED, STRAY, ONCE, PREPARED, TURN, LINK_TURN, CALLS };

static const struct {
    const char *name;
    size_t (*call)(void);
} calls[CALLS] = {
    { "give", call_give }, { "repeated", call_repeated }, { "forged", call_forged }, { "stray", call_stray },
    { "hmac", call_hmac }, { "prepared", call_prepared }, { "turn", call_turn }, { "link_turn", call_link_turn },
};

/* ---- Games and keys ---- */

/* The game's key, as docs/PROTOCOL.md derives it. */
static void prepare(void) {
    uint8_t message[sizeof LABEL - 1 + sizeof number];
    char digest[] = "SHA256";
    OSSL_PARAM params[2];
    memcpy(message, LABEL, sizeof LABEL - 1);
    memcpy(message + sizeof LABEL - 1, number.bytes, sizeof number);
    HMAC(EVP_sha256(), secret.bytes, sizeof secret, message, sizeof message, key, NULL);
    params[0] = OSSL_PARAM_construct_utf8_string(OSSL_MAC_PARAM_DIGEST, digest, 0);
    params[1] = OSSL_PARAM_construct_end();
    prepared = EVP_MAC_CTX_new(EVP_MAC_fetch(NULL, "HMAC", NULL));
    must(prepared && EVP_MAC_init(prepared, key, sizeof key, params), "there is an HMAC");
}

static zmg_node_config config_of(uint8_t me) {
    zmg_node_config c;
    zmg_node_config_init(&c);
    c.me = me;
    c.window = 12;
    c.secret = secret;
    c.game = number;
    return c;
}

static void begin_nodes(void) {
    uint8_t bytes[ZMG_PACKET_SIZE];
    for (uint8_t me = 0; me < 2; me++) {
        zmg_node_config c = config_of(me);
        must(zmg_lockstep_new(&nodes[me], &c) == ZMG_OK, "a node");
    }
    for (uint8_t me = 0; me < 2; me++) {
        zmg_heard heard;
        size_t n = zmg_lockstep_packet(nodes[me], 1 - me, bytes, sizeof bytes);
        must(zmg_lockstep_receive(nodes[1 - me], me, bytes, n, &heard) == ZMG_HEARD_STARTED, "started");
    }
}

static void begin_links(zmg_node **links) {
    for (uint8_t me = 0; me < 2; me++) {
        zmg_node_config c = config_of(me);
        must(zmg_link_new(&links[me], &c) == ZMG_OK, "a link");
    }
}

/* Games that have begun. Of the links that stay, player 1 has heard a datagram of player 0 with all commands,
 * each of which was given in a packet of its own, and has acknowledged none. */
static void play(void) {
    zmg_node_player seen;
    begin_nodes();
    begin_links(going);
    begin_links(still);
    for (unsigned k = 0; k < commands; k++) {
        zmg_node_give(still[0], &forward);
        length = zmg_link_datagram(still[0], 1, datagram, sizeof datagram);
    }
    must(length == 65 + 8 * commands, "the datagram has all commands");
    memcpy(forged, datagram, length);
    forged[length - 1] ^= 1;
    memcpy(stray, datagram, length);
    stray[GAME] ^= 1;
    must(call_repeated() == ZMG_RECEIVED_HEARD, "heard");
    must(zmg_node_player_get(still[1], 0, &seen, sizeof seen) == ZMG_OK && seen.got == commands, "all are here");
    for (unsigned k = 0; k < 2; k++) {
        must(call_give() == length && call_repeated() == ZMG_RECEIVED_HEARD, "given and heard again");
        must(call_forged() == ZMG_UNOPENED_TAG && call_stray() == ZMG_UNOPENED_GAME, "not opened");
        must(call_turn() == 2 * commands && call_link_turn() == 2 * commands, "whole turns");
    }
    must(zmg_node_player_get(still[1], 0, &seen, sizeof seen) == ZMG_OK && seen.line.repeated == 2, "repeated");
    for (int k = ONCE; k <= PREPARED; k++) {
        memset(code, 0, sizeof code);
        must(calls[k].call() == 32 && memcmp(code, datagram + length - TAG, TAG) == 0, "OpenSSL's tag");
    }
}

static void give_up(void) {
    for (unsigned k = 0; k < 2; k++) {
        zmg_node_free(nodes[k]);
        zmg_node_free(going[k]);
        zmg_node_free(still[k]);
    }
}

/* ---- Times ---- */

static double times[CALLS][MOST_ROUNDS];
static volatile size_t kept;

static double batch(size_t (*call)(void)) {
    struct timespec a, b;
    clock_gettime(CLOCK_PROCESS_CPUTIME_ID, &a);
    for (int k = 0; k < BATCH; k++) kept = call();
    clock_gettime(CLOCK_PROCESS_CPUTIME_ID, &b);
    return ((double)(b.tv_sec - a.tv_sec) * 1e9 + (double)(b.tv_nsec - a.tv_nsec)) / BATCH;
}

static int by_size(const void *a, const void *b) {
    double x = *(const double *)a, y = *(const double *)b;
    return (x > y) - (x < y);
}

static double median(double *of, int count) {
    qsort(of, (size_t)count, sizeof *of, by_size);
    return of[count / 2];
}

static void time_all(int rounds) {
    for (int r = 0; r < rounds; r++)
        for (int k = 0; k < CALLS; k++) times[k][r] = batch(calls[k].call);
    for (int k = 0; k < CALLS; k++) printf("%s %s %.0f ns", k ? ";" : "   ", calls[k].name, median(times[k], rounds));
    printf("\n");
}

int main(int argc, char **argv) {
    for (unsigned k = 0; k < sizeof secret; k++) secret.bytes[k] = (uint8_t)(k + 1);
    for (unsigned k = 0; k < sizeof number; k++) number.bytes[k] = (uint8_t)(200 + k);
    prepare();
    if (argc == 3 && strcmp(argv[1], "time") == 0) {
        int rounds = atoi(argv[2]);
        must(0 < rounds && rounds <= MOST_ROUNDS, "rounds are 1 to 500");
        for (commands = 1; commands <= 12; commands += 11) {
            play();
            printf("a datagram of %zu bytes\n", length);
            time_all(rounds);
            give_up();
        }
        return 0;
    }
    must(argc == 5 && strcmp(argv[1], "count") == 0, "time ROUNDS, or count CALL COMMANDS N");
    commands = (unsigned)atoi(argv[3]);
    play();
    for (int k = 0; k < CALLS; k++)
        if (strcmp(argv[2], calls[k].name) == 0)
            for (long n = atol(argv[4]); n > 0; n--) kept = calls[k].call();
    give_up();
    return 0;
}
