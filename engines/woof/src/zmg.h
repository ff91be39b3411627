/* zmg.h: what the engine's own files call. Woof plays its netgames over a session of zirmegat.h; zmg_netgame.h
 * has the options, zmg_woof.c the calls. */
#ifndef ZMG_H
#define ZMG_H

#include "d_event.h"
#include "doomtype.h"
#include "net_defs.h"

boolean ZMG_Init(void);                       /* whether there is -zmg-host or -zmg-join */
boolean ZMG_IsOn(void);                       /* whether there was */
void ZMG_Start(net_gamesettings_t *settings); /* waits for the players; tells the settings of player 0 */
boolean ZMG_Update(void);                     /* in place of NetUpdate, if it returns true */
boolean ZMG_Run(void);                        /* in place of TryRunTics, likewise */
void ZMG_Drawer(void);                        /* the menu, and above it what there is to say */
boolean ZMG_Responder(event_t *event);        /* F, where the screen offers it */

#endif
