/*
 * Which build of the proved code a processor takes. The crates are compiled twice: for x86-64-v2 (SSE4.2, POPCNT), and
 * for x86-64-v3 (AVX2, BMI2, FMA).
 */
#ifndef YUZURATCHET_PROCESSOR_H
#define YUZURATCHET_PROCESSOR_H

#include <stdbool.h>

/* Whether the processor has all of x86-64-v2. */
bool yuzuratchet_has_v2(void);

/* Whether the build for x86-64-v3 is to run: the processor and the system have all of it, and the environment's
 * YUZURATCHET_PROCESSOR isn't x86-64-v2. */
bool yuzuratchet_takes_v3(void);

#endif
