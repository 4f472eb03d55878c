/* The proved functions that are called by handle, of the build that the processor takes, as chosen.c has the others. */
#include "device_calls.h"
#include "processor.h"

static bool takes_v3;

__attribute__((constructor)) static void choose(void) { takes_v3 = yuzuratchet_takes_v3(); }

#define CHOSEN(RESULT, NAME, PARAMETERS, ARGUMENTS) \
    RESULT NAME##_v2 PARAMETERS;                    \
    RESULT NAME##_v3 PARAMETERS;                    \
    RESULT NAME PARAMETERS { return takes_v3 ? NAME##_v3 ARGUMENTS : NAME##_v2 ARGUMENTS; }
ALL_CALLS(CHOSEN)
