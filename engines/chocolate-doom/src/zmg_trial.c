/* zmg_trial.c: bots for check, hard and measure, in the engine's own netgames too. Compiled only after
 * `apply --trial`. zmg_trial.inc has the options and the records. */
#include <stdio.h>
#include <stdlib.h>
#include <string.h>
#include <time.h>
#include <unistd.h>

#include "d_event.h"
#include "d_loop.h"
#include "d_main.h"
#include "doomstat.h"
#include "g_game.h"
#include "i_system.h"
#include "m_argv.h"
#include "m_controls.h"
#include "zmg_netgame.h"
#include "zmg_trial.h"

#define ZMG_QUIT I_Quit()
#include "zmg_trial.inc"

extern double zmg_clock;   /* d_loop.c: the same for the engine's own netgames */

static void press(int key, boolean down)
{
    event_t e = { down ? ev_keydown : ev_keyup, key, key, key, 0, 0 };
    if (key) D_PostEvent(&e);
}

static void bot_keys(void)
{
    static boolean down[32];
    int keys[] = { key_up, key_up, key_up, key_left, key_right, key_fire, key_fire, key_use, key_speed,
                   key_down, key_strafeleft, key_straferight, key_strafe, key_weapon1, key_weapon2, key_weapon3,
                   key_weapon4, key_weapon5, key_weapon6, key_weapon7, key_nextweapon };
    uint32_t k = draw(sizeof keys / sizeof *keys);
    if (draw(3)) return;
    down[k] = !down[k];
    press(keys[k], down[k]);
}

static void bot_mouse(void)
{
    event_t mouse = { ev_mouse, 0, 0, 0, 0, 0 };
    static event_t pad = { ev_joystick, 0, 0, 0, 0, 0 };
    mouse.data2 = (int) draw(81) - 40;
    mouse.data3 = (int) draw(21) - 10;
    if (draw(2)) D_PostEvent(&mouse);
    if (draw(8) == 0) pad.data2 = (int) draw(3) - 1;
    if (draw(8) == 0) pad.data3 = (int) draw(3) - 1;
    if (draw(8) == 0) pad.data4 = (int) draw(3) - 1;
    D_PostEvent(&pad);
}

static void bot_chat(void)
{
    static int at;
    static const char text[] = "thello\r";
    if (gametic > 100 && gametic % 100 < 10 && at < 7 && gamestate == GS_LEVEL)
    {
        press(text[at], true);
        press(text[at], false);
        at++;
    }
    else if (gametic % 100 > 50) at = 0;
    if (gametic > 150 && draw(200) == 0) { press(key_pause, true); press(key_pause, false); }
    if (draw(50) == 0) { press('f', true); press('f', false); }
    if (draw(100) == 0) { press(key_spy, true); press(key_spy, false); }
}

void ZMG_ProcessEvents(void)
{
    open_all();
    drift();
    zmg_clock = zmg_clock_rate;
    if (bot && gametic > 0 && !demoplayback)
    {
        bot_keys();
        if (M_CheckParm("-zmg-mouse") > 0) bot_mouse();
        if (M_CheckParm("-zmg-chat") > 0) bot_chat();
    }
    D_ProcessEvents();
}

void ZMG_BuildTiccmd(ticcmd_t *cmd, int maketic)
{
    G_BuildTiccmd(cmd, maketic);
    was_built(cmd, maketic);
}
