/* zmg_chocolate.c: Chocolate Doom over zmg_netgame.h, in place of the engine's client and server. */
#include <ctype.h>
#include <stdio.h>
#include <stdlib.h>
#include <string.h>

#include "d_event.h"
#include "d_loop.h"
#include "doomkeys.h"
#include "doomstat.h"
#include "g_game.h"
#include "hu_stuff.h"
#include "i_swap.h"
#include "i_system.h"
#include "i_video.h"
#include "m_argv.h"
#include "m_menu.h"
#include "p_local.h"
#include "r_main.h"
#include "r_state.h"
#include "textscreen.h"
#include "v_video.h"
#include "w_wad.h"
#include "zmg.h"
#include "zmg_netgame.h"

extern int prndindex;                                         /* m_random.c */
extern byte consistancy[MAXPLAYERS][BACKUPTICS];              /* g_game.c */
extern loop_interface_t *zmg_loop;                            /* d_loop.c */
extern void (*zmg_update_hook)(void), (*zmg_run_hook)(void);  /* d_loop.c */
extern boolean main_loop_started;   /* d_main.c: whether a screen of farewell is shown, which waits for a key */

#define ZMG_IS_MOBJ(t) ((t)->function.acp1 == (actionf_p1) P_MobjThinker)
#define ZMG_RANDOM prndindex
#define ZMG_CONSISTENCY(p) consistancy[p][gametic % BACKUPTICS]
#define ZMG_IS_GAME(lump) true
#define ZMG_NAME_OF(lump) lumpinfo[lump]->name
#define ZMG_QUIT I_Quit()
#define ZMG_HAS_FONT (hu_font[0] != NULL)
#define ZMG_DRAW V_DrawPatchDirect
#include "zmg_doom.inc"

static boolean on, playing;
static net_gamesettings_t *settings;   /* while the game begins */

/* ---- what zmg_netgame.h calls ---- */

static void input(void)
{
    G_ZMG_SetMouseAside();
    I_StartTic();
    zmg_loop->ProcessEvents();
    G_ZMG_TakeMouseBack();
    zmg_loop->RunMenu();
}

static void build(uint32_t tic, zmg_command *command)
{
    ticcmd_t cmd;
    memset(&cmd, 0, sizeof cmd);
    zmg_loop->BuildTiccmd(&cmd, (int) tic);
    if (asks_alone(&cmd))
    {
        cmd.buttons = 0;
        players[consoleplayer].message = "a netgame cannot be saved";
    }
    from_engine(&cmd, command);
}

static void begin(const zmg_terms *terms, int me) { to_settings(terms, me, settings); }

static void step(const zmg_row *row)
{
    static ticcmd_t cmds[NET_MAXPLAYERS];
    boolean ingame[NET_MAXPLAYERS];
    if ((int) row->tic != gametic) I_Error("zmg: tic %u, and the engine is at %d", row->tic, gametic);
    to_engine(row, cmds, ingame);
    zmg_loop->RunTic(cmds, ingame);
    gametic++;
}

static void say(const char *text)
{
    printf("zmg: %s\n", text);
    fflush(stdout);
}

static void fail(const char *text) { I_Error("zmg: %s", text); }

/* ---- what the engine calls ---- */

static void obey_signals(void)
{
    if (!zmg_netgame_must_end()) return;
    main_loop_started = false;
    I_Quit();
}

static void update(void)
{
    obey_signals();
    zmg_netgame_update();
}

/* For at most 143 ms, so that the screen and the menu live. */
static void run(void)
{
    obey_signals();
    zmg_netgame_run(143);
}

void ZMG_Drawer(void)
{
    boolean in_view = gamestate == GS_LEVEL;   /* the frame around it is not drawn anew with each picture */
    M_Drawer();
    if (!playing) return;
    write_lines(in_view ? viewwindowx + 2 : 2, in_view ? viewwindowy + 10 : 10);
    update();   /* a wipe draws for a second, and asks for nothing else */
}

boolean ZMG_Responder(event_t *event)
{
    return playing && event->type == ev_keydown && event->data1 == 'f' && zmg_netgame_give_up();
}

boolean ZMG_Init(void)
{
    static const zmg_engine calls = { input, build, get_marks, begin, step, say, fail };
    static const char *const refused[][2] = {
        { "-fast", "the others are not told of it" },
        { "-turbo", "it is no game of equals" },
        { "-loadgame", "a netgame begins at its beginning" },
        { "-shorttics", "turns have both bytes" },
        { "-left", "there are no screens beside" }, { "-right", "there are no screens beside" },
        { "-playdemo", "a demo is played alone" }, { "-timedemo", "a demo is played alone" },
        { "-connect", "it is the engine's own netgame" }, { "-autojoin", "it is the engine's own netgame" },
        { "-server", "it is the engine's own netgame" }, { "-privateserver", "it is the engine's own netgame" },
        { "-drone", "everybody plays" }, { "-dup", "each tic has a command of its own" },
        { NULL, NULL } };
    on = zmg_netgame_open(&calls, myargc, myargv);
    if (!on) return false;
    zmg_netgame_refuse(refused);
    zmg_netgame_record();
    return true;
}

void ZMG_Start(net_gamesettings_t *s)
{
    zmg_settings z;
    zmg_identity identity;
    uint8_t own[256] = { 0 };
    char rules[64];
    if (!on) return;
    settings = s;
    from_settings(s, &z, own);
    vanilla_rules(rules, sizeof rules);
    identify(rules, &identity);
    zmg_netgame_make(&z, own, &identity);
    I_AtExit(zmg_netgame_leave, true);
    open_lobby();
    while (!zmg_netgame_gather())
    {
        obey_signals();
        show_lobby();
    }
    close_lobby();
    playing = true;
    zmg_update_hook = update;
    zmg_run_hook = run;
}
