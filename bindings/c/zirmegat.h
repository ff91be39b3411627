/* zirmegat.h: vanilla Doom's network play for an engine that has a world of its own. C99 and C++11.
 *
 * A session is one player of a netgame of two to four: its lobby, and then its part in the game. It opens no
 * socket and reads no clock. It is given what comes, and the time, and returns what is to be sent. Maps,
 * monsters and physics stay yours. A tic is 1/35 second, or as long as the rate of the terms says.
 *
 *     zmg_session *session = NULL;
 *     zmg_session_host(&session, &config) or zmg_session_join(&session, &config, now)
 *     at each datagram and as often as you draw, until ZMG_EVENT_OVER:
 *         each datagram: zmg_session_receive(session, &from, bytes, length, now), and send
 *         zmg_session_poll(session, now)
 *         while (zmg_session_wants_input(session, now)) zmg_session_give(session, &command, now)
 *         while (zmg_session_event(session, &event)) show it; with ZMG_EVENT_BEGAN begin the world
 *         while (zmg_session_run(session, marks, &row) == ZMG_RUN_RAN) step the world by row
 *         send: while ((length = zmg_session_transmit(session, &to, bytes, sizeof bytes))) send it to `to`
 *     zmg_session_free(session)
 *
 * Times are milliseconds of the player's own clock, which never goes back. Count them from the making of the
 * session, not from the machine's start: at 2^32 - 1, after 49 days, they stop, and the game with them.
 *
 * What the caller owes:
 *   - A handle is a pointer that a call of this library wrote, and that was not freed. A handle of another
 *     kind, as one that went through a void pointer, is refused: the call changes nothing, and returns
 *     ZMG_ERR_HANDLE, or 0 if it returns no status. NULL may be passed where this header says so, and nowhere
 *     else.
 *   - Other pointers are valid and aligned for what they point to, and not NULL, even if a length is 0. Memory
 *     that a call writes overlaps nothing else that the call is given.
 *   - Only one thread at a time uses a handle. A handle may pass from one thread to another if something orders
 *     the calls of the first before those of the second: a lock, or a thread's start or end. Different threads
 *     may use different handles at once.
 *   - No call is made from a signal handler, or from a forked child of a process with threads.
 *   - malloc, realloc and free come from one allocator, and work on each thread that uses a handle, also for
 *     blocks that another thread allocated. malloc and realloc align a block to each power of two up to 16 that
 *     divides its size: for 24 bytes, to 8.
 *   - zmg_session_run is given the marks of the caller's own world. That world began with the terms of
 *     zmg_session_state, and was stepped by every row that zmg_session_run returned, and by nothing else. Its
 *     marks follow from its state alone: no clock, no pointers, no random numbers but the world's own.
 * The library checks every number and every byte itself. Any bytes may come in, from anywhere and at any time.
 *
 * Memory is allocated by zmg_session_host, zmg_session_join, zmg_session_poll, zmg_demo_read and
 * zmg_demo_upgrade, and by no other call. zirmegat_parts.h has links and locksteps, for those who have a lobby
 * or a pace of their own. The names and numbers of this header do not change. New ones may be added.
 */
#ifndef ZIRMEGAT_H
#define ZIRMEGAT_H

#include <stdbool.h>
#include <stddef.h>
#include <stdint.h>
#include <string.h>

#ifdef __cplusplus
extern "C" {
#endif

/* ---- The version, and what a call returns --------------------------------------------------------------- */

/* The version of this header: 65,536 times the first number, plus the second. The first number changes only
 * if a program that was written for an earlier one would no longer work. */
#define ZMG_VERSION 65536u

/* Returns the version of the library that is linked. Check once that zmg_version() / 65536 is ZMG_VERSION /
 * 65536. */
uint32_t zmg_version(void);

/* How a call went, and why a session is over. A call that returns one of ZMG_ERR_ has changed nothing, unless
 * its own comment says so. */
typedef enum zmg_status {
    ZMG_OK = 0,
    ZMG_ERR_HANDLE = 1,        /* the handle is of another kind */
    ZMG_ERR_SIZE = 2,          /* the struct has a size that this library does not know: it is a newer header's,
                                * or was not filled by its _init */
    ZMG_ERR_MEMORY = 3,        /* there is no memory */
    ZMG_ERR_ROOM = 4,          /* there is too little room for what is to be written */
    ZMG_ERR_NOT_NOW = 5,       /* the call is not possible at this moment */
    ZMG_ERR_KEY = 6,           /* all bytes of the key are 0 */
    ZMG_ERR_RANDOM = 7,        /* all random bytes are 0 */
    ZMG_ERR_PLAYERS = 8,       /* not 2 to 4 players */
    ZMG_ERR_WINDOW = 9,        /* not 1 to 12 commands */
    ZMG_ERR_RATE = 10,         /* not 1 to 35 tics a second */
    ZMG_ERR_LIMIT = 11,        /* not 1,024 to 16,777,216 bytes */
    ZMG_ERR_POLICY = 12,       /* no policy, or one of fewer than three seconds */
    ZMG_ERR_SEAT = 13,         /* a seat above 3 */
    ZMG_ERR_SKILL = 14,        /* this and the next three: the settings are out of range */
    ZMG_ERR_DEATHMATCH = 15,
    ZMG_ERR_EPISODE = 16,
    ZMG_ERR_MAP = 17,
    ZMG_ERR_TEXT = 18,         /* not the text of a key */
    ZMG_ERR_DEMO_SHORT = 19,   /* this and the next three: the bytes are not a demo. Fewer than 13 bytes */
    ZMG_ERR_DEMO_VERSION = 20, /* neither 109 nor 111 */
    ZMG_ERR_DEMO_PLAYERS = 21, /* no seat is taken */
    ZMG_ERR_DEMO_MARKER = 22,  /* no end marker */
    ZMG_ERR_TIC = 23,          /* the demo has no such tic */
    ZMG_ERR_ME = 24,           /* zirmegat_parts.h: the number of the player is not below the number of
                                * players */
    ZMG_ERR_FULL = 25,         /* zirmegat_parts.h: as many commands wait to be run as the window allows */

    ZMG_OVER_LEFT = 65,         /* the player left: zmg_session_quit */
    ZMG_OVER_FULL = 66,         /* the demo is full */
    ZMG_OVER_INCONSISTENT = 67, /* number: the player whose world differs from this player's */
    ZMG_OVER_GIVEN_UP = 68,     /* the others have given this player up */
    ZMG_OVER_ALONE = 69,        /* all others are given up */
    ZMG_OVER_LOST = 70,         /* number: the player who vanished, under ZMG_POLICY_END */
    ZMG_OVER_BEGUN = 81,        /* the game has begun without this player */
    ZMG_OVER_PLAYERS = 82,      /* number: how many players the game has: not as many as it must have, or it has
                                 * no such seat */
    ZMG_OVER_IDENTITY = 83,     /* the host has another engine or other files */
    ZMG_OVER_KICKED = 84,       /* the host has turned this player away */
    ZMG_OVER_OTHER_KEY = 96,    /* the host has another key, or none. Nobody vouches for this and the next */
    ZMG_OVER_VERSION = 97       /* number: the host's version of the lobby's datagrams */
} zmg_status;

/* Returns what a status means, in English. */
static inline const char *zmg_status_text(zmg_status status)
{
    switch (status) {
    case ZMG_OK: return "done";
    case ZMG_ERR_HANDLE: return "the handle is of another kind";
    case ZMG_ERR_SIZE: return "the library does not know a struct of this size";
    case ZMG_ERR_MEMORY: return "there is no memory";
    case ZMG_ERR_ROOM: return "there is too little room";
    case ZMG_ERR_NOT_NOW: return "this is not possible now";
    case ZMG_ERR_KEY: return "the key was never set";
    case ZMG_ERR_RANDOM: return "the random bytes were never set";
    case ZMG_ERR_PLAYERS: return "a game has two to four players";
    case ZMG_ERR_WINDOW: return "the window is one to twelve commands";
    case ZMG_ERR_RATE: return "one to 35 tics a second are played";
    case ZMG_ERR_LIMIT: return "a demo has 1,024 to 16,777,216 bytes";
    case ZMG_ERR_POLICY: return "nobody is given up, and no game ends, in fewer than three seconds";
    case ZMG_ERR_SEAT: return "there are seats 1 to 3 for those who join";
    case ZMG_ERR_SKILL: return "this skill is not possible";
    case ZMG_ERR_DEATHMATCH: return "this deathmatch is not possible";
    case ZMG_ERR_EPISODE: return "episodes 1 to 3 are possible";
    case ZMG_ERR_MAP: return "maps 1 to 32 are possible";
    case ZMG_ERR_TEXT: return "a key is 64 hexadecimal digits and a line end";
    case ZMG_ERR_DEMO_SHORT: return "a demo has 13 bytes at least";
    case ZMG_ERR_DEMO_VERSION: return "demos of version 109 and 111 are read";
    case ZMG_ERR_DEMO_PLAYERS: return "the demo has no player";
    case ZMG_ERR_DEMO_MARKER: return "the demo has no end";
    case ZMG_ERR_TIC: return "the demo has no such tic";
    case ZMG_ERR_ME: return "the game has no such player";
    case ZMG_ERR_FULL: return "the window is full";
    case ZMG_OVER_LEFT: return "this player left";
    case ZMG_OVER_FULL: return "the demo is full";
    case ZMG_OVER_INCONSISTENT: return "the worlds differ";
    case ZMG_OVER_GIVEN_UP: return "the others have given this player up";
    case ZMG_OVER_ALONE: return "nobody else is left";
    case ZMG_OVER_LOST: return "a player has vanished";
    case ZMG_OVER_BEGUN: return "the game has begun";
    case ZMG_OVER_PLAYERS: return "the game has another number of players";
    case ZMG_OVER_IDENTITY: return "the host has another version or other files";
    case ZMG_OVER_KICKED: return "the host has turned this player away";
    case ZMG_OVER_OTHER_KEY: return "the host has another key, or none";
    case ZMG_OVER_VERSION: return "the host has another version of the library";
    }
    return "unknown";
}

/* ---- Keys, names and addresses --------------------------------------------------------------- */

/* 32 secret bytes that those share who may join a game. All zeros, as in a key that was never set, are
 * refused. */
typedef struct zmg_key {
    uint8_t bytes[32];
} zmg_key;

/* 32 bytes from the system's generator, drawn anew for each session and told to nobody. */
typedef struct zmg_random {
    uint8_t bytes[32];
} zmg_random;

/* A digest of what must be the same at all players: the engine's version, WAD files, patches. */
typedef struct zmg_identity {
    uint8_t bytes[16];
} zmg_identity;

/* What a player is called: UTF-8, filled up with zeros. A name of 16 bytes has no zero behind it. */
typedef struct zmg_name {
    char text[16];
} zmg_name;

/* Where a datagram comes from or goes to. The bytes are the caller's own, filled up with zeros. They are
 * compared, and handed to the other players by the host, but never read. All players pack them the same way.
 * UDP: the 16 bytes of an IPv6 address, or ::ffff:a.b.c.d for one of IPv4, then the port, its high byte
 * first. */
typedef struct zmg_address {
    uint8_t bytes[32];
} zmg_address;

/* How many bytes the text of a key has: 64 hexadecimal digits and a line end, as `netgame key` writes them to a
 * file. There is no zero behind them. */
#define ZMG_KEY_TEXT_SIZE 65u

/* Reads a key's text, whose digits may be of either case. ZMG_ERR_TEXT: the bytes are not 64 digits and a line
 * end. ZMG_ERR_KEY: all digits are 0. */
zmg_status zmg_key_from_text(zmg_key *key, const char *text, size_t length);

/* Writes a key's text, in lower case. */
void zmg_key_to_text(const zmg_key *key, char text[ZMG_KEY_TEXT_SIZE]);

/* ---- The terms of a game --------------------------------------------------------------------- */

/* The choice of game. skill: 0 to 4, 0 the easiest. deathmatch: 0 for cooperative play, 1, or 2 for
 * deathmatch 2.0. no_monsters and respawn: 0 for no, else yes. episode: 1 to 3. map: 1 to 32. Monsters are
 * never fast. */
typedef struct zmg_settings {
    uint8_t skill, deathmatch, no_monsters, respawn, episode, map;
} zmg_settings;

/* What becomes of a player who vanishes. ZMG_POLICY_WAIT: the others wait, until the one of them that leads
 * calls zmg_session_give_up; if it is the leader who vanishes, until each of them has done so.
 * ZMG_POLICY_GIVE_UP: it is given up after so many seconds, and they play on; of two who vanish together the
 * second is given up so many seconds after the first. ZMG_POLICY_END: the game ends then. The player leads
 * who has the lowest number of those who are neither given up nor have left. A player whose engine does not
 * call for so long has vanished too: let it go on polling, giving and sending while it loads a level, or
 * choose more seconds. */
typedef enum zmg_policy { ZMG_POLICY_WAIT = 1, ZMG_POLICY_GIVE_UP = 2, ZMG_POLICY_END = 3 } zmg_policy;

/* What is the same at all players: the host chooses, and the others are told with their seat.
 * limit: how many bytes the demo may have, 1,024 to 16,777,216. A tic takes 5 bytes for each player, and the
 *     game ends at a tic that does not fit: 1 MiB lasts 50 minutes for two players, 25 for four.
 * policy, seconds: what becomes of a player who vanishes, after 3 to 255 seconds.
 * players: 2 to 4.
 * window: how many commands a player may be ahead of the tics that it ran, 1 to 12. Each hides one tic more of
 *     the line's delay; once it is used, a key is felt one tic later.
 * rate: how many tics a second are played, 1 to 35.
 * settings: what is played.
 * identity: a joiner with another one gets no seat.
 * own: what the host's engine tells the others: a time limit, a seed, a level of compatibility. */
typedef struct zmg_terms {
    uint32_t limit;
    zmg_policy policy;
    uint8_t seconds, players, window, rate;
    zmg_settings settings;
    zmg_identity identity;
    uint8_t own[256];
} zmg_terms;

/* size: that of this struct, filled in by zmg_host_config_init. keyless: if not 0, key is not read, and anybody
 * who can send to the host may join, send as anybody and end the game. */
typedef struct zmg_host_config {
    size_t size;
    zmg_terms terms;
    zmg_key key;
    zmg_random random;
    zmg_name name;
    uint8_t keyless;
} zmg_host_config;

/* size: that of this struct, filled in by zmg_join_config_init. host: where the host is. identity: as in
 * zmg_terms. keyless: as in zmg_host_config. seat: the seat that it wants, 1 to 3, or 0 for any. players: how
 * many players the game must have, or 0 for any number. */
typedef struct zmg_join_config {
    size_t size;
    zmg_key key;
    zmg_random random;
    zmg_address host;
    zmg_identity identity;
    zmg_name name;
    uint8_t keyless, seat, players;
} zmg_join_config;

/* Fills in all fields: two players, a window of 12, 35 tics a second, a demo of 16 MiB, the first map at skill
 * 2 in cooperative play, ZMG_POLICY_WAIT; zeros for the rest. key, unless the game is keyless, and random are
 * to be set. */
static inline void zmg_host_config_init(zmg_host_config *config)
{
    memset(config, 0, sizeof *config);
    config->size = sizeof *config;
    config->terms.limit = 16777216u;
    config->terms.policy = ZMG_POLICY_WAIT;
    config->terms.players = 2;
    config->terms.window = 12;
    config->terms.rate = 35;
    config->terms.settings.skill = 2;
    config->terms.settings.episode = 1;
    config->terms.settings.map = 1;
}

/* Fills in all fields: any seat, any number of players; zeros for the rest. key, unless the game is keyless,
 * random and host are to be set. */
static inline void zmg_join_config_init(zmg_join_config *config)
{
    memset(config, 0, sizeof *config);
    config->size = sizeof *config;
}

/* ---- A session ------------------------------------------------------------------------------- */

/* One player of a netgame. One player hosts, the others join; each has a seat, 0 to 3, and the host has seat
 * 0. */
typedef struct zmg_session zmg_session;

/* Make a session, and write the handle to *out. Nothing is kept by reference. With anything but ZMG_OK *out is
 * NULL, and the first fault of the config is returned, in this order: ZMG_ERR_SIZE, ZMG_ERR_KEY,
 * ZMG_ERR_RANDOM; the settings (ZMG_ERR_SKILL to ZMG_ERR_MAP); the other terms (ZMG_ERR_PLAYERS to
 * ZMG_ERR_SEAT); ZMG_ERR_MEMORY. What *out held before is not freed. */
zmg_status zmg_session_host(zmg_session **out, const zmg_host_config *config);
zmg_status zmg_session_join(zmg_session **out, const zmg_join_config *config, uint32_t now);

/* Frees a session and its memory; NULL is fine. Before the game that is how to leave. In it the others see a
 * player vanish who has not left: see zmg_session_quit. */
void zmg_session_free(zmg_session *session);

/* Takes in any bytes that came from an address. Send what zmg_session_transmit returns before the next one: a
 * reply, or a datagram that goes on to another player, takes the place of one that was not sent. Returns
 * ZMG_OK, whatever the bytes are. */
zmg_status zmg_session_receive(zmg_session *session, const zmg_address *from, const uint8_t *bytes,
                               size_t length, uint32_t now);

/* Does what is due: calls of a joiner, who is awaited, given up and told so, second datagrams, the ticks of one
 * who leaves. Once the game has begun, makes the player's part in it. With ZMG_ERR_MEMORY there is no memory
 * for that, nothing is lost, and the next call tries again. Look at what it returns: the others wait for a
 * player who has no part in the game. A machine that did not call for more than a second counts as asleep: that
 * time is nobody's silence. */
zmg_status zmg_session_poll(zmg_session *session, uint32_t now);

/* What zmg_session_wait returns where the session waits for datagrams alone. */
#define ZMG_WAIT_NONE UINT32_MAX

/* Returns after how many milliseconds zmg_session_poll has something to do or a tick is due; 0 for now. A
 * handle of another kind has nothing to do: ZMG_WAIT_NONE. */
uint32_t zmg_session_wait(const zmg_session *session, uint32_t now);

/* How many bytes of room zmg_session_transmit needs: a datagram has no more. */
#define ZMG_DATAGRAM_SIZE 1200u

/* Writes the next datagram to the front of out, and where it goes to into *to, and returns how many bytes it
 * has. Returns 0, and leaves *to and out as they are, if there is none or room is below ZMG_DATAGRAM_SIZE. */
size_t zmg_session_transmit(zmg_session *session, zmg_address *to, uint8_t *out, size_t room);

/* What has happened, each thing once. */
typedef enum zmg_event_kind {
    ZMG_EVENT_NONE = 0,     /* nothing that was not told */
    ZMG_EVENT_SEATED = 1,   /* this joiner has the seat `player`. A host is told nothing:
                             * see zmg_session_player */
    ZMG_EVENT_UNSEATED = 2, /* it may lose its seat. ZMG_EVENT_OVER follows, or it calls again */
    ZMG_EVENT_BEGAN = 3,    /* the game has begun: begin the world by the state's terms */
    ZMG_EVENT_LEFT = 4,     /* `player` has left, and all its commands are here. It may still be given up. Where
                             * all others have left, the session plays on alone until its player quits */
    ZMG_EVENT_GIVEN_UP = 5, /* `player` is given up */
    ZMG_EVENT_OVER = 6      /* the last event: write the demo, and free the session */
} zmg_event_kind;

/* player: whose seat it is, or who has left or is given up, else 0. why, number: with ZMG_EVENT_OVER one of
 * ZMG_OVER_, and the number that belongs to it; else 0. */
typedef struct zmg_event {
    zmg_event_kind kind;
    uint32_t player;
    zmg_status why;
    uint32_t number;
} zmg_event;

/* Takes the next event into *event, and returns its kind; ZMG_EVENT_NONE, and an event of zeros, if there is
 * none. What came and went again between two calls is not told: a seat that was lost and had again, say. */
zmg_event_kind zmg_session_event(zmg_session *session, zmg_event *event);

/* ---- Commands and tics ------------------------------------------------------------------------ */

/* A tic command. forward and side: in units of 2048 in a world of 16 fractional bits, side to the right. turn:
 * to the left, in 65,536ths of a full turn. chat: a letter of chat, which the library carries and does not
 * read. buttons: bit 0 is attack, bit 1 use, bit 2 a change to the weapon in bits 3 to 5; other players'
 * commands may set any bits. A forward of -128 counts as -127, since -128 would end a demo. */
typedef struct zmg_command {
    int16_t turn;
    int8_t forward, side;
    uint8_t chat, buttons;
} zmg_command;

/* The bits of the keys for zmg_command_from_keys. */
#define ZMG_KEY_FORWARD (1u << 0)
#define ZMG_KEY_BACK (1u << 1)
#define ZMG_KEY_LEFT (1u << 2)
#define ZMG_KEY_RIGHT (1u << 3)
#define ZMG_KEY_STRAFE_LEFT (1u << 4)
#define ZMG_KEY_STRAFE_RIGHT (1u << 5)
#define ZMG_KEY_STRAFE (1u << 6)
#define ZMG_KEY_SPEED (1u << 7)
#define ZMG_KEY_ATTACK (1u << 8)
#define ZMG_KEY_USE (1u << 9)
#define ZMG_KEY_WEAPON(n) (1u << (9 + (n))) /* n is 1 to 8 */

/* Writes the command that vanilla Doom makes of these keys. Bits from 18 on are ignored. *hold counts for how
 * many commands a turn key was down, since turns by keys begin slowly: 0 at first, and then as it was left. */
void zmg_command_from_keys(uint8_t *hold, uint32_t keys, zmg_command *command);

/* Returns whether a tick is due, for which the player gives a command. Ask before you consume the motion of a
 * mouse. More than one may be due after a pause: missed ticks are made up for, up to eight. */
bool zmg_session_wants_input(const zmg_session *session, uint32_t now);

/* Takes the command of the tick that is due. ZMG_ERR_NOT_NOW: none is. If as many commands wait to be run as
 * the window allows, the state's `made` stays, and the command is owed: it is made by zmg_session_run as soon
 * as there is room, unless a later one takes its place. */
zmg_status zmg_session_give(zmg_session *session, const zmg_command *command, uint32_t now);

/* What came of a run. */
typedef enum zmg_run {
    ZMG_RUN_NOT_PLAYING = 0,
    ZMG_RUN_RAN = 1,          /* `tic` was run */
    ZMG_RUN_WAITING = 2,      /* the command of `player` is missing, the lowest such player */
    ZMG_RUN_DEMO_FULL = 3,    /* this call ended the game here */
    ZMG_RUN_INCONSISTENT = 4, /* so did this one: the mark of `player` was `was` in place of `should`. The
                               * worlds have differed since twelve tics before, or earlier */
    ZMG_RUN_HELD = 5          /* none is run before the next tick, whether one could be or not */
} zmg_run;

/* tic, player, was, should: as above, else 0. present, commands: with ZMG_RUN_RAN which players have a command
 * in the tic, and the whole of it, chat included; else all 0. */
typedef struct zmg_row {
    uint32_t tic;
    int16_t was, should;
    uint8_t player, present[4];
    zmg_command commands[4];
} zmg_row;

/* Runs the next tic, if it can, by each player's mark in the caller's world as it stands; any number for a seat
 * without a player. Fills in the whole of *row, and with ZMG_RUN_RAN the world is stepped by it. Where delays
 * vary, tics come together; once three gaps of three to eight ticks were felt in a short time, they are run one
 * by one, and the answer is ZMG_RUN_HELD if another was run since the last tick and none waits behind. Call it
 * until it does not run, and send then: a run may make the command that is owed. */
zmg_run zmg_session_run(zmg_session *session, const int16_t marks[4], zmg_row *row);

/* ---- Players who go --------------------------------------------------------------------------- */

/* The player leaves the game. Go on with the loop until ZMG_EVENT_OVER, ten seconds at most, so that the
 * others learn where its commands end. Before the game or after its end it does nothing, and returns ZMG_OK
 * too: in the lobby free the session. */
zmg_status zmg_session_quit(zmg_session *session, uint32_t now);

/* Gives up another player, for good. ZMG_ERR_NOT_NOW: it may not. The game must have stood still for three
 * seconds; for whom it waits does not matter. The player who leads (see zmg_policy) may then give up any
 * other, and the others follow; the others may give up nobody but the leader, and if the leader is missing,
 * each of them has to. */
zmg_status zmg_session_give_up(zmg_session *session, uint8_t player, uint32_t now);

/* Turns away the player who holds a seat, 1 to 3, if this is the host and the game has not begun; else does
 * nothing. Returns ZMG_OK in each case. */
zmg_status zmg_session_kick(zmg_session *session, uint8_t seat);

/* ---- What is known ---------------------------------------------------------------------------- */

/* Where a session stands. */
typedef enum zmg_stage {
    ZMG_STAGE_NONE = 0,    /* never returned */
    ZMG_STAGE_HOSTING = 1, /* a host, until its game begins */
    ZMG_STAGE_CALLING = 2, /* a joiner that has not been answered, or not by a seat */
    ZMG_STAGE_WAITING = 3, /* a joiner for whom no seat is free yet */
    ZMG_STAGE_SEATED = 4,
    ZMG_STAGE_PLAYING = 5,
    ZMG_STAGE_LEAVING = 6, /* its game has ended, and others may still need its commands. ZMG_EVENT_OVER comes
                            * two seconds after none does, and ten seconds after the end at most */
    ZMG_STAGE_OVER = 7
} zmg_stage;

/* why, number: why it is over, or with ZMG_STAGE_LEAVING will be; else 0. made: how many commands it built.
 * ran: how many tics it ran. unacknowledged: how many of its commands are not yet acknowledged for certain by
 * every player. may_leave: 1 if nobody needs anything of it any more. was, should: the marks with
 * ZMG_OVER_INCONSISTENT. All of these are 0 before the game. me: the number of its player, 0 until that has a
 * seat. terms: all 0 until they are known, so terms.players is too. After ZMG_EVENT_UNSEATED me and terms stay
 * as they were told last. */
typedef struct zmg_state {
    zmg_stage stage;
    zmg_status why;
    uint32_t number, made, ran, unacknowledged, may_leave;
    int16_t was, should;
    uint32_t me;
    zmg_terms terms;
} zmg_state;

/* Fills in what is known of the session. size: sizeof(zmg_state). ZMG_ERR_SIZE: it is below that of the
 * library; more is filled up to that of the library. */
zmg_status zmg_session_state(const zmg_session *session, zmg_state *state, size_t size);

/* A seat in the lobby, as it was told last, also after ZMG_EVENT_UNSEATED; once the game has begun it means
 * nothing any more. */
typedef enum zmg_seat {
    ZMG_SEAT_NONE = 0,  /* the game has no such seat, or it is not known yet */
    ZMG_SEAT_FREE = 1,
    ZMG_SEAT_THERE = 2,
    ZMG_SEAT_SILENT = 3 /* its holder was not heard by the host for two seconds */
} zmg_seat;

/* A player in the game. */
typedef enum zmg_standing {
    ZMG_STANDING_NONE = 0, /* the game has no such player, or has not begun */
    ZMG_STANDING_PLAYS = 1,
    ZMG_STANDING_LEFT = 2,
    ZMG_STANDING_GIVEN_UP = 3
} zmg_standing;

/* What is known of the line to another player. came: how many of its datagrams came, copies and too old ones
 * not counted. lost: how many of the numbers between the first datagram that came and the newest did not come
 * within 64; a datagram that was sent before the first and came after it takes one off. repeated: how many
 * copies came, less than 64 behind the newest. too_old: how many came 64 or more behind the newest.
 * missing_there: how many of the last datagrams to it did not come there, or came after newer ones. lead,
 * lead_there: how many commands this player was ahead of it, and it of this player, each at its own last tick.
 * Counts stop at the largest number. */
typedef struct zmg_line {
    uint32_t came, lost, repeated, too_old;
    uint8_t missing_there;
    int8_t lead, lead_there;
} zmg_line;

/* The tic after a player's last command, where it is not known. */
#define ZMG_NO_END UINT32_MAX

/* has_address: 1 if address is known. name: what its holder is called; zeros of the host's own seat, at the
 * host. awaited: for how many milliseconds the game has waited for its command or its report of who is given
 * up, or 0. silent: for how many milliseconds nothing new of it came, by any way; of the own player it means
 * nothing. got: how many of its commands are here. end: the tic after its last one, or ZMG_NO_END. line: of the
 * own player and before the game all 0. */
typedef struct zmg_player {
    zmg_seat seat;
    uint32_t has_address;
    zmg_address address;
    zmg_name name;
    zmg_standing standing;
    uint32_t awaited, silent, got, end;
    zmg_line line;
} zmg_player;

/* Fills in what is known of a player; of a number that no player of the game has, zeros and ZMG_NO_END. size:
 * sizeof(zmg_player), as in zmg_session_state. */
zmg_status zmg_session_player(const zmg_session *session, uint8_t player, uint32_t now, zmg_player *out,
                              size_t size);

/* Copies the demo from this byte on, as many bytes as there is room for, and returns how many. Before the
 * game it has none. It ends at the first tic without some player, and is complete once the game has ended
 * here. */
size_t zmg_session_demo(const zmg_session *session, size_t from, uint8_t *out, size_t room);

/* ---- Demos ------------------------------------------------------------------------------------ */

/* A demo that was read. */
typedef struct zmg_demo zmg_demo;

/* Reads a demo, of which a copy is kept, and writes the handle to *out. With anything but ZMG_OK *out is NULL:
 * ZMG_ERR_DEMO_SHORT to ZMG_ERR_DEMO_MARKER, the first of them that holds; ZMG_ERR_MEMORY. */
zmg_status zmg_demo_read(zmg_demo **out, const uint8_t *bytes, size_t length);

/* Frees a demo and its memory; NULL is fine. */
void zmg_demo_free(zmg_demo *demo);

/* How a game started, as a demo's header has it. */
typedef struct zmg_start {
    uint8_t skill, episode, map, deathmatch, respawn, fast, no_monsters;
} zmg_start;

/* tics: how many whole tics it has. cut: how many commands lie between them and the marker. after: how many
 * bytes follow the marker. version: 109, as Doom 1.9 records, or 111, whose turns have both bytes. view: the
 * player whose view it shows. present: 1 for each seat with a player. */
typedef struct zmg_demo_facts {
    size_t tics, cut, after;
    uint8_t version, view;
    zmg_start start;
    uint8_t present[4];
} zmg_demo_facts;

/* Fills in what a demo has beside its rows. size: sizeof(zmg_demo_facts), as in zmg_session_state. */
zmg_status zmg_demo_tell(const zmg_demo *demo, zmg_demo_facts *facts, size_t size);

/* Fills in the row of a tic, counted from 0, whose commands have no chat. ZMG_ERR_TIC: there is none. */
zmg_status zmg_demo_row(const zmg_demo *demo, size_t tic, zmg_row *row);

/* Writes a demo anew as version 111 to the front of out, and how many bytes that are to *written: the same
 * start, view, players and whole tics. It allocates as much memory as out and the demo have bytes, and frees it
 * again. It returns the first of these that holds, and then writes nothing but 0 to *written: the bytes are not
 * a demo (ZMG_ERR_DEMO_SHORT to ZMG_ERR_DEMO_MARKER); there is no memory for their copy (ZMG_ERR_MEMORY); the
 * room is not 1,024 to 16,777,216 bytes (ZMG_ERR_LIMIT); the new demo has more bytes than there is room for
 * (ZMG_ERR_ROOM); there is no memory for them (ZMG_ERR_MEMORY). */
zmg_status zmg_demo_upgrade(const uint8_t *bytes, size_t length, uint8_t *out, size_t room, size_t *written);

#ifdef __cplusplus
}
#endif
#endif
