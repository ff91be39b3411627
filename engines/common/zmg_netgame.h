/* zmg_netgame.h: a netgame for an engine that has none, or gives its own up: options, lobby, ticks, owed
 * commands, tics, players who vanish, what the screen says, leaving. It is a session of zirmegat.h over
 * zmg_udp.h, and all that it knows of the engine are seven calls. One game a process. C99 and C++11.
 *
 * The options are read from the command line, in capitals or not. Players count from 1 here, as people do.
 *
 *   -zmg-host PLAYERS        opens a game of two to four players, and is the first
 *   -zmg-join HOST[:PORT]    takes part in it, by name or address
 *   -zmg-key FILE            64 hex digits that the players share, as `netgame key` writes them; without it
 *                            anybody may send as any player
 *   -zmg-port PORT           where the host listens (5029), or where a joiner does (any)
 *   -zmg-me N                the place that a joiner asks for, 2 to 4
 *   -zmg-name NAME           what the others call this player, up to 16 bytes
 *   -zmg-show                show how the line to each player is
 *   -record NAME             the library's demo, in NAME.lmp
 * and of the host, for all:
 *   -zmg-window N            how many commands may wait to be run, 1 to 12 (12)
 *   -zmg-give-up SECONDS     play on without a player who was missing for so long, 3 to 255
 *   -zmg-patience SECONDS    end the game then
 */
#ifndef ZMG_NETGAME_H
#define ZMG_NETGAME_H

#include "zirmegat.h"
#include "zmg_udp.h"

#ifdef __cplusplus
extern "C" {
#endif

/* What the engine does.
 * input: reads events and runs the menu, once a tick.
 * build: writes what the player did since the last build, for the tic of this number. It is called for commands
 *     alone that will be made, so it may use up the motion of the mouse.
 * marks: writes each player's mark in the world as it stands.
 * begin: the game begins by these terms, and this player is `me`, counted from 0.
 * step: runs a tic.
 * say: a line for the standard output. What is for the screen is in zmg_netgame_show too.
 * fail: ends the engine with a text, and does not return. */
typedef struct zmg_engine {
    void (*input)(void);
    void (*build)(uint32_t tic, zmg_command *command);
    void (*marks)(int16_t marks[4]);
    void (*begin)(const zmg_terms *terms, int me);
    void (*step)(const zmg_row *row);
    void (*say)(const char *text);
    void (*fail)(const char *text);
} zmg_engine;

/* Reads the options, and returns whether they ask for a netgame; then its socket is open. */
bool zmg_netgame_open(const zmg_engine *engine, int argc, char **argv);

/* The word behind an option, or NULL. */
const char *zmg_netgame_word(const char *option);

/* Fails if one of these options is there. Each has a reason behind it; the last is NULL. */
void zmg_netgame_refuse(const char *const (*options)[2]);

/* Takes -record: the demo is the library's, and the engine does not see the option. */
void zmg_netgame_record(void);

/* Makes the session. settings and own are the host's, which a joiner is told: see zmg_terms. */
void zmg_netgame_make(const zmg_settings *settings, const uint8_t own[256], const zmg_identity *identity);

/* A moment of the lobby, of 10 ms at most. Returns whether the game has begun; `begin` was called then. */
bool zmg_netgame_gather(void);

/* In place of NetUpdate: what came, and the ticks that are due. It runs no tic: the engine may be drawing. */
void zmg_netgame_update(void);

/* In place of TryRunTics: runs tics, and returns how many; if none can be run, waits for one at most so many
 * milliseconds. */
int zmg_netgame_run(uint32_t wait);

/* Fills in the lines that the screen shows, of the lobby or above the game, and returns how many. */
#define ZMG_NETGAME_LINES 8
#define ZMG_NETGAME_WIDE 128
int zmg_netgame_show(char lines[ZMG_NETGAME_LINES][ZMG_NETGAME_WIDE]);

/* Gives up the player of whom the screen says that it can be, and returns whether there was one: for a key. */
bool zmg_netgame_give_up(void);

/* Whether the process was told to end, by Ctrl-C, say: then the engine quits as by its menu. A second time, two
 * seconds later, ends it at once. */
bool zmg_netgame_must_end(void);

/* At the exit: leaves the game, saves the demo, and waits until the others know, 15 seconds at most. */
void zmg_netgame_leave(void);

/* An identity is made of what must be the same at all players, in the same order: bytes, and the contents of
 * files, which are mixed into one of zeros. Of a file that cannot be read the second returns false. An identity
 * finds accidents, not cheats. */
void zmg_identity_bytes(zmg_identity *identity, const void *bytes, size_t length);
bool zmg_identity_file(zmg_identity *identity, const char *path);

#ifdef __cplusplus
}
#endif
#endif
