/* zmg_trial.h: what check and hard put between the engine and its loop; see zmg_trial.c. */
#ifndef ZMG_TRIAL_H
#define ZMG_TRIAL_H

#include "d_ticcmd.h"

void ZMG_ProcessEvents(void);
void ZMG_BuildTiccmd(ticcmd_t *cmd);
void ZMG_Ticker(void);

#endif
