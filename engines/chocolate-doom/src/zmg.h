/* zmg.h: what the engine's own files call. Chocolate Doom plays its netgames over a session of zirmegat.h; see
 * zmg_start.c for the options, zmg_play.c for the loop. */
#ifndef ZMG_H
#define ZMG_H

#include "d_event.h"
#include "doomtype.h"
#include "net_defs.h"

boolean ZMG_Init(void);                       /* whether there is -zmg-host or -zmg-join */
void ZMG_Start(net_gamesettings_t *settings); /* waits for the players; tells the settings of player 0 */
void ZMG_Drawer(void);                        /* the menu, and above it what there is to say */
boolean ZMG_Responder(event_t *event);        /* F, where the screen offers it */

/* zmg_input.inc, in g_game.c: motion of the mouse that no command has taken. */
void G_ZMG_SetMouseAside(void);
void G_ZMG_TakeMouseBack(void);

#endif
