/* zmg_trial.c: bots for check and hard. Compiled only after `apply --trial`. zmg_trial.inc has the options and
 * the records. */
#include <stdio.h>
#include <stdlib.h>
#include <string.h>
#include <time.h>
#include <unistd.h>

#include "d_event.h"
#include "d_main.h"
#include "d_player.h"
#include "doomkeys.h"
#include "doomstat.h"
#include "g_game.h"
#include "i_system.h"
#include "m_argv.h"
#include "p_mobj.h"
#include "zmg_netgame.h"
#include "zmg_trial.h"

void D_ProcessEvents(void);
void G_BuildTiccmd(ticcmd_t *cmd);

#define ZMG_QUIT I_SafeExit(0)
#include "zmg_trial.inc"

static void press(int key, boolean down)
{
    event_t e = { down ? ev_keydown : ev_keyup };
    e.data1.i = key;
    D_PostEvent(&e);
}

static void bot_keys(void)
{
    static boolean down[32];
    static const int keys[] = { 'w', 'w', 'w', KEY_LEFTARROW, KEY_RIGHTARROW, KEY_RCTRL, KEY_RCTRL, 'e',
                                KEY_RSHIFT, 's', 'a', 'd', '1', '2', '3', '4', '5', '6', '7' };
    uint32_t k = draw(sizeof keys / sizeof *keys);
    if (draw(3)) return;
    down[k] = !down[k];
    press(keys[k], down[k]);
}

static void bot_mouse(void)
{
    event_t mouse = { ev_mouse };
    mouse.data1.i = (int) draw(81) - 40;
    mouse.data2.i = (int) draw(21) - 10;
    if (draw(2)) D_PostEvent(&mouse);
}

static void bot_chat(void)
{
    static int at;
    static const char text[] = "thello\r";
    if (gametic > 100 && gametic % 100 < 10 && at < 7 && gamestate == GS_LEVEL)
    {
        press(text[at], true);
        press(text[at], false);
        at++;
    }
    else if (gametic % 100 > 50) at = 0;
    if (gametic > 150 && draw(200) == 0) { press(KEY_PAUSE, true); press(KEY_PAUSE, false); }
    if (draw(50) == 0) { press('f', true); press('f', false); }
    if (draw(100) == 0) { press(KEY_F12, true); press(KEY_F12, false); }
}

void ZMG_ProcessEvents(void)
{
    open_all();
    drift();
    if (bot && gametic > 0 && !demoplayback)
    {
        bot_keys();
        if (M_CheckParm("-zmg-mouse") > 0) bot_mouse();
        if (M_CheckParm("-zmg-chat") > 0) bot_chat();
    }
    D_ProcessEvents();
}

void ZMG_BuildTiccmd(ticcmd_t *cmd)
{
    G_BuildTiccmd(cmd);
    was_built(cmd, maketic);
}
