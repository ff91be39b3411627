/* zmg_woof.c: Woof over zmg_netgame.h, in place of the engine's client and server. */
#include <ctype.h>
#include <stdio.h>
#include <stdlib.h>
#include <string.h>

#include "d_event.h"
#include "d_loop.h"
#include "d_main.h"
#include "d_player.h"
#include "doomkeys.h"
#include "doomstat.h"
#include "g_game.h"
#include "i_system.h"
#include "i_timer.h"
#include "i_video.h"
#include "m_argv.h"
#include "m_random.h"
#include "m_swap.h"
#include "mn_menu.h"
#include "p_mobj.h"
#include "p_tick.h"
#include "r_defs.h"
#include "r_state.h"
#include "s_sound.h"
#include "st_sbardef.h"
#include "st_stuff.h"
#include "textscreen.h"
#include "v_video.h"
#include "w_wad.h"
#include "zmg.h"
#include "zmg_netgame.h"

void D_ProcessEvents(void);
void G_BuildTiccmd(ticcmd_t *cmd);
void RunTic(ticcmd_t *cmds, boolean *ingame);      /* d_net.c */
extern byte consistancy[MAXPLAYERS][BACKUPTICS];   /* g_game.c: no longer static */

#define ZMG_IS_MOBJ(t) ((t)->function.p1 == (actionf_p1) P_MobjThinker)
#define ZMG_RANDOM rng.rndindex   /* in engines that descend from Boom prndindex is that of menus and sounds */
#define ZMG_CONSISTENCY(p) consistancy[p][gametic % BACKUPTICS]
#define ZMG_IS_GAME(lump) (lumpinfo[lump].wad_file && strcmp(lumpinfo[lump].wad_file, "woof.pk3") != 0)
#define ZMG_NAME_OF(lump) lumpinfo[lump].name
#define ZMG_QUIT I_SafeExit(0)
#define ZMG_HAS_FONT (hu_font != NULL)
#define ZMG_DRAW V_DrawPatch
#include "zmg_doom.inc"

enum { RING = 64, MESSAGE_AFTER = 1000 };

static boolean on, playing;
static net_gamesettings_t *settings;   /* while the game begins */
static ticcmd_t own[RING];             /* what the player's own view has, and no command of a session */
static uint64_t ran_at;                /* when a tic was run last */

/* ---- what zmg_netgame.h calls ---- */

static void input(void)
{
    I_StartTic();
    D_ProcessEvents();
    M_Ticker();
}

static void build(uint32_t tic, zmg_command *command)
{
    ticcmd_t cmd;
    memset(&cmd, 0, sizeof cmd);
    maketic = (int) tic;
    G_BuildTiccmd(&cmd);
    if (asks_alone(&cmd))
    {
        cmd.buttons = 0;
        displaymsg("a netgame is neither saved nor begun again");
    }
    own[tic % RING] = cmd;
    from_engine(&cmd, command);
}

/* The marks of vanilla's rules; and of others what only engines that descend from Boom have: a seed for each
 * class of numbers. */
static void marks(int16_t out[4])
{
    get_marks(out);
    if (demo_compatibility) return;
    uint32_t h = 0;
    for (int k = 0; k < NUMPRCLASS; k++)
        if (k != pr_misc) h = mix(h, (uint32_t) rng.seed[k]);
    for (int p = 0; p < 4; p++) out[p] ^= (int16_t) (h ^ h >> 16);
}

/* own[0] of the terms is the time limit. Behind it are the level of compatibility, whether turns are coarse,
 * since the host records a demo of Boom's form, and the options, with the seed. By vanilla's rules nobody reads
 * them. */
enum { VERSION_AT = 1, COARSE_AT = 3, OPTIONS_AT = 4 };

static void write_own(const net_gamesettings_t *s, uint8_t terms[256])
{
    terms[VERSION_AT] = (uint8_t) s->demo_version;
    terms[VERSION_AT + 1] = (uint8_t) (s->demo_version >> 8);
    terms[COARSE_AT] = !demo_compatibility && s->lowres_turn;
    memcpy(terms + OPTIONS_AT, s->options, NET_GAME_OPTION_SIZE);
}

static void begin(const zmg_terms *terms, int me)
{
    to_settings(terms, me, settings);
    if (demo_compatibility) return;
    settings->demo_version = terms->own[VERSION_AT] | terms->own[VERSION_AT + 1] << 8;
    settings->lowres_turn = terms->own[COARSE_AT];
    memcpy(settings->options, terms->own + OPTIONS_AT, NET_GAME_OPTION_SIZE);
    if (M_CheckParm("-record") > 0 && !mbf21 && !settings->lowres_turn)
        I_Error("zmg: a demo of these rules can be recorded where the host records one");
}

/* A demo of the engine's own form cannot show that a player leaves, so it ends there. The game goes on. */
static void end_recording(const boolean *ingame)
{
    gameaction_t next = gameaction;
    boolean all = true;
    for (int p = 0; p < MAXPLAYERS; p++) all &= !playeringame[p] || ingame[p];
    if (all || !demorecording) return;
    gameaction = ga_newgame;   /* else the engine ends with its recording */
    G_CheckDemoStatus();
    gameaction = next;
}

static void step(const zmg_row *row)
{
    static ticcmd_t cmds[NET_MAXPLAYERS];
    boolean ingame[NET_MAXPLAYERS];
    const ticcmd_t *mine = &own[row->tic % RING];
    int me = consoleplayer;
    if ((int) row->tic != gametic) I_Error("zmg: tic %u, and the engine is at %d", row->tic, gametic);
    to_engine(row, cmds, ingame);
    cmds[me].pitch = mine->pitch;
    cmds[me].ticangleturn = mine->ticangleturn;
    end_recording(ingame);
    RunTic(cmds, ingame);
    gametic++;
    ran_at = I_GetTimeUS();
}

static void say(const char *text)
{
    printf("zmg: %s\n", text);
    fflush(stdout);
}

static void fail(const char *text) { I_Error("zmg: %s", text); }

/* ---- what the engine calls ---- */

boolean ZMG_Update(void)
{
    if (!playing) return false;
    if (zmg_netgame_must_end()) I_SafeExit(0);
    zmg_netgame_update();
    return true;
}

/* For frames between two tics: how far the next one is, by when a tic was run, since they do not come by the
 * engine's clock. */
static int fraction(void)
{
    uint64_t passed = (I_GetTimeUS() - ran_at) * TICRATE;
    return passed < 1000000 ? (int) (passed * FRACUNIT / 1000000) : FRACUNIT - 1;
}

/* Where frames are drawn between tics it does not wait; else for 143 ms at most, so that the screen lives. */
boolean ZMG_Run(void)
{
    if (!playing) return false;
    if (zmg_netgame_must_end()) I_SafeExit(0);
    I_GetFracTime = fraction;
    if (zmg_netgame_run(uncapped && screenvisible ? 0 : 143) > 0) S_UpdateSounds(players[displayplayer].mo);
    return true;
}

void ZMG_Drawer(void)
{
    M_Drawer();
    if (!playing) return;
    write_lines(2, 10);
    zmg_netgame_update();   /* a wipe draws for a second, and asks for nothing else */
}

boolean ZMG_Responder(event_t *event)
{
    return playing && event->type == ev_keydown && event->data1.i == 'f' && zmg_netgame_give_up();
}

boolean ZMG_Init(void)
{
    static const zmg_engine calls = { input, build, marks, begin, step, say, fail };
    static const char *const refused[][2] = {
        { "-fast", "the others are not told of it" }, { "-coop_spawns", "the others are not told of it" },
        { "-blockmap", "the others are not told of it" }, { "-bsp", "the others are not told of it" },
        { "-turbo", "it is no game of equals" },
        { "-loadgame", "a netgame begins at its beginning" },
        { "-recordfrom", "a netgame begins at its beginning" },
        { "-shorttics", "turns have both bytes" },
        { "-left", "there are no screens beside" }, { "-right", "there are no screens beside" },
        { "-playdemo", "a demo is played alone" }, { "-timedemo", "a demo is played alone" },
        { "-fastdemo", "a demo is played alone" }, { "-solo-net", "it is the engine's own netgame" },
        { "-connect", "it is the engine's own netgame" }, { "-autojoin", "it is the engine's own netgame" },
        { "-server", "it is the engine's own netgame" }, { "-privateserver", "it is the engine's own netgame" },
        { "-drone", "everybody plays" }, { "-dup", "each tic has a command of its own" },
        { NULL, NULL } };
    on = zmg_netgame_open(&calls, myargc, myargv);
    if (!on) return false;
    zmg_netgame_refuse(refused);
    if (demo_compatibility) zmg_netgame_record();   /* else the engine records its own */
    return true;
}

boolean ZMG_IsOn(void) { return on; }

/* The rules, in words: of vanilla's as every engine says them. */
static void rules_of(char *text, size_t room)
{
    if (demo_compatibility) vanilla_rules(text, room);
    else snprintf(text, room, "%s%s", mbf21 ? "mbf21" : demo_version == DV_MBF ? "mbf" : "boom",
                  strictmode ? " strict" : "");
    if (M_CheckParm("-nodeh") > 0) strcat(text, " without DeHackEd");
    if (M_CheckParm("-nomapinfo") > 0) strcat(text, " without MAPINFO");
    if (M_CheckParm("-nooptions") > 0) strcat(text, " without OPTIONS");
}

void ZMG_Start(net_gamesettings_t *s)
{
    zmg_settings z;
    zmg_identity identity;
    uint8_t terms[256] = { 0 };
    char rules[128];
    if (!on) return;
    settings = s;
    from_settings(s, &z, terms);
    write_own(s, terms);
    rules_of(rules, sizeof rules);
    identify(rules, &identity);
    zmg_netgame_make(&z, terms, &identity);
    I_AtExit(zmg_netgame_leave, true);
    open_lobby();
    while (!zmg_netgame_gather())
    {
        if (zmg_netgame_must_end()) I_SafeExit(0);
        show_lobby();
    }
    close_lobby();
    playing = true;
}
