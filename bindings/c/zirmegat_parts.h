/* zirmegat_parts.h: the parts of a session, for an engine that has a lobby, a transport or a pace of its own.
 * C99 and C++11. Most engines need zirmegat.h alone.
 *
 * A node is one player's part of a game. It takes the player's commands, runs tics, compares the marks of the
 * worlds and records a demo. It is one of two kinds, which do not read each other's datagrams:
 *   - A link is for an untrusted network. It plays from the beginning on, seals what it sends, repeats it until
 *     it is acknowledged, and sets the pace. A session plays by one.
 *   - A lockstep has the packets of the 1997 source. Its transport knows who sent what, and hands in nothing
 *     that is old.
 * What zirmegat.h says of handles, pointers, threads, memory and marks holds here. zmg_lockstep_new and
 * zmg_link_new alone allocate memory.
 */
#ifndef ZIRMEGAT_PARTS_H
#define ZIRMEGAT_PARTS_H

#include "zirmegat.h"

#ifdef __cplusplus
extern "C" {
#endif

/* ---- Making a node ---------------------------------------------------------------------------- */

/* A lockstep or a link. A call for one kind refuses the other as a handle of another kind. */
typedef struct zmg_node zmg_node;

/* Sixteen random bytes that one player draws for each game, anew also when the same players play again. They
 * need not be secret, but each player must get the ones that were drawn: whoever can hand a player an old
 * number can replay that old game to the player. A number that is used twice under a secret lets the datagrams
 * of the old game into the new one. */
typedef struct zmg_game_number {
    uint8_t bytes[16];
} zmg_game_number;

/* Of a link all but me is the same at all players; of a lockstep limit, players, window and extra are.
 * size: that of this struct, filled in by zmg_node_config_init.
 * limit, window: as in zmg_terms. Nothing is promised of a game with two windows.
 * players: 2 to 4. me: the number of this player, 0 to players - 1.
 * extra: if not 0, each packet of a lockstep repeats the last command, which helps on lines that lose packets.
 *     A link gains nothing by it.
 * settings: those of a link's game. Of locksteps player 0 has them, and sends them to the others; those of
 *     other players are not read.
 * secret, game: a link's. secret: 32 random bytes, known to the players alone and used for nothing else.
 *     Whoever has it can send as any player, and whoever records a datagram can try guesses against it. */
typedef struct zmg_node_config {
    size_t size;
    uint32_t limit;
    uint8_t players, me, window, extra;
    zmg_settings settings;
    zmg_key secret;
    zmg_game_number game;
} zmg_node_config;

/* The window of the 1997 source. */
#define ZMG_WINDOW_1997 5u

/* Fills in all fields: two players, player 0, the window of 1997, a demo of 16 MiB, the first map at skill 2 in
 * cooperative play; zeros for the rest. A link's secret and game are to be set. */
static inline void zmg_node_config_init(zmg_node_config *config)
{
    memset(config, 0, sizeof *config);
    config->size = sizeof *config;
    config->limit = 16777216u;
    config->players = 2;
    config->window = ZMG_WINDOW_1997;
    config->settings.skill = 2;
    config->settings.episode = 1;
    config->settings.map = 1;
}

/* Make a node, and write the handle to *out. With anything but ZMG_OK *out is NULL, and the first fault of the
 * config is returned: ZMG_ERR_SIZE; of a link ZMG_ERR_KEY, a secret of zeros; the settings, where they are read
 * (ZMG_ERR_SKILL to ZMG_ERR_MAP); ZMG_ERR_WINDOW; ZMG_ERR_PLAYERS; ZMG_ERR_ME; ZMG_ERR_LIMIT; ZMG_ERR_MEMORY.
 * All memory of a node is allocated here, and nothing is kept by reference.
 *
 * A link plays at once, and its world begins at once. One player has one link: no second one with the same
 * number, and none that goes on from a copy of memory. */
zmg_status zmg_lockstep_new(zmg_node **out, const zmg_node_config *config);
zmg_status zmg_link_new(zmg_node **out, const zmg_node_config *config);

/* Frees a node and its memory; NULL is fine. */
void zmg_node_free(zmg_node *node);

/* ---- Commands and tics ------------------------------------------------------------------------- */

/* Takes the command for the next tic. ZMG_ERR_FULL: as many wait to be run as the window allows; a link then
 * owes the command, unless another is given before zmg_link_catch_up makes it. ZMG_ERR_NOT_NOW: the node does
 * not play. The tic of a command that was made is the state's `made` before the call. Ask for can_give of the
 * state before you consume the motion of a mouse, which would be lost with a command that a lockstep does not
 * make. */
zmg_status zmg_node_give(zmg_node *node, const zmg_command *command);

/* Runs the next tic, if it can, as zmg_session_run does; it is never ZMG_RUN_HELD. A link compares no mark of
 * players who are given up. */
zmg_run zmg_node_run(zmg_node *node, const int16_t marks[4], zmg_row *row);

/* Ends the node. ZMG_ERR_NOT_NOW: it had ended before. A lockstep that has played still gives packets, which
 * show the others where its commands end, and takes datagrams, which may ask for its last commands again: go on
 * sending and receiving for a second or so. A link goes on with ticks and bytes until may_leave of its state,
 * but not for ever, and two seconds more. */
zmg_status zmg_node_quit(zmg_node *node);

/* ---- What is known ----------------------------------------------------------------------------- */

typedef enum zmg_phase {
    ZMG_PHASE_NONE = 0,      /* never returned */
    ZMG_PHASE_LISTENING = 1, /* a lockstep that waits for player 0's settings */
    ZMG_PHASE_GATHERING = 2, /* player 0's lockstep, which waits to hear from every other */
    ZMG_PHASE_PLAYING = 3,
    ZMG_PHASE_ENDED = 4
} zmg_phase;

/* Why a node has ended, or another player has left. */
typedef enum zmg_cause {
    ZMG_CAUSE_NONE = 0,
    ZMG_CAUSE_QUIT = 1,        /* zmg_node_quit */
    ZMG_CAUSE_FULL = 2,        /* the demo had no room for the next tic; or 2,097,150 tics were run in a game
                                * that somebody has left */
    ZMG_CAUSE_INCONSISTENT = 3 /* the worlds differ */
} zmg_cause;

/* player, was, should: as in zmg_row with ZMG_RUN_INCONSISTENT, else 0. me, players: of the config. made: how
 * many commands it made. ran: how many tics it ran. can_give: 1 if zmg_node_give would make a command now.
 * knows_settings: 1 if settings are known: of a lockstep other than player 0's once the game has started.
 * demo_length: how many bytes the demo has so far.
 *
 * Of a link, and else 0: unacknowledged: how many of its commands are not yet acknowledged for certain by every
 * player who needs them. The oldest has been on its way for about so many ticks. refused: how often bytes came
 * that were not a datagram to this player in this game. may_leave: 1 if no other player needs anything more
 * from this one: each has left, or is given up, or has acknowledged all commands of this one and that it has
 * left. is_undecided, undecided: 1, and the lowest player whose report of who is given up is missing; ask while
 * somebody is given up. */
typedef struct zmg_node_state {
    size_t demo_length;
    zmg_phase phase;
    zmg_cause cause;
    int16_t was, should;
    uint32_t player, me, players, made, ran, can_give, knows_settings;
    uint32_t unacknowledged, refused, may_leave, is_undecided, undecided;
    zmg_settings settings;
} zmg_node_state;

/* Fills in what is known of the node. size: sizeof(zmg_node_state), as in zmg_session_state. */
zmg_status zmg_node_state_get(const zmg_node *node, zmg_node_state *state, size_t size);

/* got: how many commands of the player are here. end: the tic after its last one, or ZMG_NO_END.
 *
 * Of a link, and else 0: left: why another player has left, as its datagrams told with all of its commands and
 * its end. given_up: 1 if the player is given up by zmg_link_give_up. reports: for each player 1 if the newest
 * report of this one names it as given up. Those who play on together have to give up the same players.
 * is_resting: 1 if no datagram should go to the player at this tick, since this player's own line is full: then
 * leave the tick's datagram out. At one of any four ticks in a row, and once a line is empty at every tick, it
 * is 0. wants_second: 1 if the last datagrams to it did not come: then give it one more, half a tick after the
 * tick's own. line: to another player. */
typedef struct zmg_node_player {
    uint32_t got, end;
    zmg_cause left;
    uint8_t given_up, is_resting, wants_second, reports[4];
    zmg_line line;
} zmg_node_player;

/* Fills in what is known of a player; of a number that no player has, zeros and ZMG_NO_END. size:
 * sizeof(zmg_node_player), as in zmg_session_state. */
zmg_status zmg_node_player_get(const zmg_node *node, uint8_t player, zmg_node_player *out, size_t size);

/* Copies the demo from this byte on, as many bytes as there is room for, and returns how many. It is complete,
 * with its end marker, once a node that has played has ended, or a tic without some player was run. */
size_t zmg_node_demo(const zmg_node *node, size_t from, uint8_t *out, size_t room);

/* ---- Locksteps --------------------------------------------------------------------------------- */

/* A lockstep, 35 times a second:
 *     with can_give zmg_node_give(node, &command)
 *     each other player: n = zmg_lockstep_packet(node, player, bytes, sizeof bytes); if (n) send it
 *     each datagram: if (zmg_lockstep_receive(node, sender, bytes, n, &heard) == ZMG_HEARD_STARTED)
 *         begin the world
 *     while (zmg_node_run(node, marks, &row) == ZMG_RUN_RAN) step the world by row
 */

/* How many bytes of room zmg_lockstep_packet needs: a packet has no more. */
#define ZMG_PACKET_SIZE 104u

/* Writes the next packet to player `to` to the front of out, and returns how many bytes it has. The packet then
 * counts as sent. Returns 0, and leaves the node and out as they were, if room is below ZMG_PACKET_SIZE or if
 * there is no packet: to the node's own player, to a number that belongs to no player, at ZMG_PHASE_LISTENING,
 * and at ZMG_PHASE_ENDED if no game had started. */
size_t zmg_lockstep_packet(zmg_node *node, uint8_t to, uint8_t *out, size_t room);

/* The full tic numbers of a packet, which itself carries only their low bytes. asks, ask: 1, and the first tic
 * whose command is asked for again; as long as all callers do what they owe, at most the window before start.
 * start: the tic of the first command; 0 for set-up. count: how many commands. flags: as in zmg_packet. */
typedef struct zmg_aim {
    uint32_t asks, ask, start;
    uint8_t flags, count;
} zmg_aim;

/* Fills in the numbers of the packet that zmg_lockstep_packet would write for player `to` now. ZMG_ERR_NOT_NOW:
 * there is none. A transport may send start along, so that the receiver recognises old datagrams. */
zmg_status zmg_lockstep_aim(const zmg_node *node, uint8_t to, zmg_aim *aim);

/* What became of a datagram. */
typedef enum zmg_heard_code {
    ZMG_HEARD_DROPPED = 0, /* it changed nothing; number: one of ZMG_DROP_, or 0 for a handle of another kind */
    ZMG_HEARD_STARTED = 1, /* the game starts: begin your world */
    ZMG_HEARD_TAKEN = 2,   /* commands were new, and are kept; number: how many */
    ZMG_HEARD_STALE = 3,   /* no command was new */
    ZMG_HEARD_GAP = 4,     /* commands before its first are missing, and are asked for; the sender may have
                            * left */
    ZMG_HEARD_LEFT = 5,    /* the sender has left, and all its commands are here */
    ZMG_HEARD_NOTED = 6    /* at ZMG_PHASE_GATHERING: the sender was heard, but not yet all others; else this
                            * node has ended */
} zmg_heard_code;
typedef struct zmg_heard {
    zmg_heard_code code;
    uint32_t number;
} zmg_heard;

/* Why a datagram was dropped. */
typedef enum zmg_drop {
    ZMG_DROP_SHORT = 1,        /* fewer than 8 bytes */
    ZMG_DROP_MANY = 2,         /* it announces more than twelve commands */
    ZMG_DROP_LENGTH = 3,       /* its length does not match the commands that it announces */
    ZMG_DROP_SUM = 4,          /* its sum is wrong */
    ZMG_DROP_STRANGER = 5,     /* `from` is not another player of the game, or is not the player that it
                                * names */
    ZMG_DROP_OUT_OF_PLACE = 6, /* settings that are not from player 0, or that come once the game runs */
    ZMG_DROP_VERSION = 7,      /* the sender plays another version */
    ZMG_DROP_RANGE = 8,        /* settings out of range */
    ZMG_DROP_KILL = 9,         /* a KILL packet, which no node obeys */
    ZMG_DROP_TIC = 10,         /* its start is a tic below 0 */
    ZMG_DROP_COMMAND = 11,     /* a command that would end a demo */
    ZMG_DROP_OVERRUN = 12,     /* more tics ahead than the node keeps commands */
    ZMG_DROP_NOT_PLAYING = 13, /* the game has not started here, or this node has ended */
    ZMG_DROP_END = 14          /* it contradicts the sender's end */
} zmg_drop;

/* Takes in a datagram from player `from`, and returns the code of *heard. It is up to the transport to know who
 * sent it. A packet carries only the low bytes of tics, so the transport passes in none whose start or ask lies
 * more than 64 tics from the node's `made`. A set-up packet may come at any time. Let w be the window, and k
 * the number of commands that a node keeps of each player: 12, or 2 * w if that is more. Either of two rules
 * will do:
 *   - By number. The transport sends zmg_aim.start along, and drops at receipt what starts more than 64 - w
 *     away, since ask lies at most w before start, and never past the node's `made`.
 *   - By age. It drops what is older than 64 - k - w tics (47 with five: 1.3 seconds), since a new packet may
 *     already lie up to k + w away. To a node that has ended it passes nothing later than 64 - w tics after its
 *     end, since those who play on leave its `made` behind. These tics are commands: those that the receiver
 *     has made since the packet was given, and those that a sender makes after the receiver's end. A node that
 *     makes several in a tic, as after a pause, counts each.
 * The packets that a player gives after it has left keep their start while the others play on, so their age
 * does not show how far away they lie. Once `ran` has reached that player's end, the transport drops all
 * packets of that player. Until then, at a node that has not ended, packets that were given after the player
 * left are near at any age, and those that were given before go by age. */
zmg_heard_code zmg_lockstep_receive(zmg_node *node, uint8_t from, const uint8_t *bytes, size_t length,
                                    zmg_heard *heard);

/* ---- Links ------------------------------------------------------------------------------------- */

/* A link's datagram has its sender, its receiver and full tic numbers, under a tag that only the players of the
 * game can make (HMAC-SHA-256, of which 16 bytes are sent). As long as nobody without the secret makes a tag,
 * the games of the links agree, whatever the network loses, repeats, reorders, delays, alters, forges or gives
 * another sender. The caller owes delivery: if nothing gets through, the game waits, and nothing worse happens.
 * Nothing is encrypted, and keys are not wiped from memory.
 *
 *     a tick, 35 times a second by the caller's own clock:
 *         zmg_node_give(node, &command)
 *         zmg_link_tick(node, &later); the next tick is due (1 + later / 32.0) / 35 s after this one was
 *         send to each other player who is not resting what zmg_link_datagram gives, and run
 *     half a tick later:
 *         send one more datagram to each player who wants a second
 *     whenever bytes come, also between ticks:
 *         zmg_link_receive(node, bytes, length, &received), and run
 *     to run:
 *         while (zmg_node_run(node, marks, &row) == ZMG_RUN_RAN) step the world by row
 *         if (zmg_link_catch_up(node) == ZMG_OK) send as above, and run once more
 *     where a player has vanished for good, and the others are to play on, at each of them:
 *         zmg_link_give_up(node, player, &given_up); and go on with ticks: their datagrams tell the others
 *
 * A mouse: if zmg_link_catch_up returns ZMG_ERR_FULL before a tick's zmg_node_give, the last command was not
 * made, and this one takes its place. So put the motion of both into it.
 */

/* Writes the current datagram to player `to` to the front of out, and returns how many bytes it has. It has
 * every packet that is kept for the player, oldest first, as far as they fit, also once the link has ended.
 * Behind them, if there is room, it may hand on commands of third players of whom the player seems to hear
 * nothing. A second one to the player since the last tick is a brief one, which has the newest four commands
 * alone; so is each other one while the line is full, and in the first seconds. While somebody is given up, and
 * once the link has left, it also has the report: what this link has of the others, whom it has given up, and
 * whether it has left. Returns 0, and leaves the link and out as they were, if room is below ZMG_DATAGRAM_SIZE,
 * if `to` is not another player's number, or if that player is given up. */
size_t zmg_link_datagram(zmg_node *node, uint8_t to, uint8_t *out, size_t room);

/* What a link made of bytes. Nothing changed but with ZMG_RECEIVED_HEARD, and with ZMG_RECEIVED_UNOPENED the
 * count of `refused`. */
typedef enum zmg_received_code {
    ZMG_RECEIVED_UNOPENED = 0, /* not a datagram to this player in this game; reason says why */
    ZMG_RECEIVED_HEARD = 1,    /* a datagram of `player`, which was taken in */
    ZMG_RECEIVED_STRANGER = 2, /* sealed in this game, under a number that is not another player's */
    ZMG_RECEIVED_GIVEN_UP = 3, /* sealed in this game by `player`, who is given up by zmg_link_give_up */
    ZMG_RECEIVED_EXCLUDED = 4  /* sealed in this game by `player`, who tells that it has given up this player.
                                * No call of a link writes such a datagram; one of a session does */
} zmg_received_code;

/* Why bytes are not a datagram: the first of these that holds. */
typedef enum zmg_unopened {
    ZMG_UNOPENED_HANDLE = 0,   /* the handle is of another kind */
    ZMG_UNOPENED_SHORT = 1,    /* fewer than 62 bytes */
    ZMG_UNOPENED_LONG = 2,     /* more than ZMG_DATAGRAM_SIZE */
    ZMG_UNOPENED_SUITE = 3,    /* another suite, or not a sealed datagram at all */
    ZMG_UNOPENED_KIND = 4,     /* sealed, but not a link's datagram: a greeting of a host, say */
    ZMG_UNOPENED_GAME = 5,     /* another game's number: its first eight bytes differ */
    ZMG_UNOPENED_RECEIVER = 6, /* to another player */
    ZMG_UNOPENED_TAG = 7,      /* altered or forged, or the secrets or the last eight bytes of the numbers
                                * differ */
    ZMG_UNOPENED_FORM = 8      /* its content has a form that no link writes */
} zmg_unopened;

/* reason: with ZMG_RECEIVED_UNOPENED, else 0. player: the sender; 0 with ZMG_RECEIVED_UNOPENED. */
typedef struct zmg_received {
    zmg_received_code code;
    zmg_unopened reason;
    uint32_t player;
} zmg_received;

/* Takes in any bytes, whoever sent them and whenever they come, and returns the code of *received. */
zmg_received_code zmg_link_receive(zmg_node *node, const uint8_t *bytes, size_t length, zmg_received *received);

/* Call it once a tick, after zmg_node_give. Writes to *later by how many 32nds of a tick the next tick comes
 * later than one tick after this one, or sooner if it is below 0: -9 to 41. It evens out how far the players
 * are ahead of each other, so that nobody carries another's delay. On a line that is longer than the window,
 * and loses little, it also stretches ticks once commands were dropped for a while, so that less is dropped. A
 * caller that does not follow the number loses no more than that; but make the call at each tick all the same,
 * also after zmg_node_quit: it is the clock by which the link sees that a player's commands are overdue at
 * another.
 *
 * Count from when this tick was due, not from when you handled it; else each late frame slows the player down.
 * If ticks were missed, as in a slow frame, make up for them at once, one after another. After a longer
 * standstill let the next tick be due now instead. */
zmg_status zmg_link_tick(zmg_node *node, int32_t *later);

/* Makes the command that is owed, and the datagrams with it should go at once. ZMG_ERR_FULL: there is still no
 * room, and it stays owed. ZMG_ERR_NOT_NOW: none is owed, or the link has ended, and then none is owed any
 * longer. */
zmg_status zmg_link_catch_up(zmg_node *node);

typedef enum zmg_give_up_code {
    ZMG_GIVE_UP_NOT_PLAYING = 0, /* the link has ended, or the handle is of another kind */
    ZMG_GIVE_UP_WAITING = 1,     /* the player is given up; reports are missing */
    ZMG_GIVE_UP_DECIDED = 2,     /* the player is given up, and where the commands of all who are given up end
                                  * is known */
    ZMG_GIVE_UP_UNTAKEN = 3,     /* the player is given up, and all reports are there; but the end of `player`,
                                  * who need not be the one just given up, cannot be taken: some report is
                                  * false, and reason says how it shows, but nothing says whose */
    ZMG_GIVE_UP_ALREADY = 4,     /* the player was given up before */
    ZMG_GIVE_UP_NOT_A_PLAYER = 5 /* the number is not another player's */
} zmg_give_up_code;

/* Why an end cannot be taken. */
typedef enum zmg_unsettled {
    ZMG_UNSETTLED_NOT = 0,
    ZMG_UNSETTLED_NOT_A_PLAYER = 1, /* the number is not another player's */
    ZMG_UNSETTLED_NOT_PLAYING = 2,  /* the link has ended */
    ZMG_UNSETTLED_GAP = 3,          /* a command before the end is missing, and no report has it */
    ZMG_UNSETTLED_BEHIND = 4,       /* the end lies before the last command that is there */
    ZMG_UNSETTLED_OVERRUN = 5,      /* there is no room for the commands yet */
    ZMG_UNSETTLED_STOPPER = 6,      /* a missing command would end a demo */
    ZMG_UNSETTLED_OTHER_END = 7     /* an earlier end is known, or all tics before another one were run */
} zmg_unsettled;

/* reason and player are 0 except with ZMG_GIVE_UP_UNTAKEN. */
typedef struct zmg_given_up {
    zmg_give_up_code code;
    zmg_unsettled reason;
    uint32_t player;
} zmg_given_up;

/* Gives up a player who vanished, for good, so that the others play on, and returns the code of *given_up: from
 * here on no datagram goes to the player, nothing of it is taken, and may_leave does not wait for it. All who
 * play on must give it up, and hear each other's reports; until then zmg_node_run waits whenever it lacks a
 * command of the player. Then its commands end at the same tic at all of them, and the game goes on from there
 * without it. */
zmg_give_up_code zmg_link_give_up(zmg_node *node, uint8_t player, zmg_given_up *given_up);

/* ---- Packets of 1997 as fields ----------------------------------------------------------------- */

#define ZMG_FLAG_KILL 1u       /* ends a game; no node sends or obeys it */
#define ZMG_FLAG_SETUP 2u      /* player 0's settings */
#define ZMG_FLAG_RETRANSMIT 4u /* the sender asks for the commands from ask on again */
#define ZMG_FLAG_EXIT 8u       /* the sender has left, and its commands end with these */
#define ZMG_MOST_COMMANDS 12

/* A command as a packet has it. mark: the consistency mark of the player's own world twelve tics before, 0
 * below tic 12. The rest is as in zmg_command. */
typedef struct zmg_sent_command {
    int16_t turn, mark;
    int8_t forward, side;
    uint8_t chat, buttons;
} zmg_sent_command;

/* ask and start: low bytes of tics; a set-up packet has the settings in ask and start, and the version in
 * player. */
typedef struct zmg_packet {
    uint8_t flags, ask, start, player, count;
    zmg_sent_command commands[ZMG_MOST_COMMANDS];
} zmg_packet;

/* Reads a datagram into *packet, whose commands from count on are 0, and returns 0. If the bytes are not a
 * datagram, returns why and leaves *packet as it is: ZMG_DROP_SHORT, ZMG_DROP_MANY, ZMG_DROP_LENGTH or
 * ZMG_DROP_SUM. */
uint32_t zmg_packet_decode(const uint8_t *bytes, size_t length, zmg_packet *packet);

/* Writes a datagram to the front of out, and returns how many bytes it has, at most ZMG_PACKET_SIZE. Returns 0
 * if flags is above 15, count is above 12, or the room is too small, and then writes nothing. */
size_t zmg_packet_encode(const zmg_packet *packet, uint8_t *out, size_t room);

#ifdef __cplusplus
}
#endif
#endif
