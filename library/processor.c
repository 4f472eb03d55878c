#include "processor.h"

#include <cpuid.h>
#include <stdlib.h>
#include <string.h>

/* Features by their bits, as the processor's manual lists them; compilers have other names for some. */
enum {
    V2_C = 1 << 0 | 1 << 9 | 1 << 13 | 1 << 19 | 1 << 20 | 1 << 23,  /* SSE3, SSSE3, CX16, SSE4.1, SSE4.2, POPCNT */
    V3_C = 1 << 12 | 1 << 22 | 1 << 26 | 1 << 27 | 1 << 28 | 1 << 29, /* FMA, MOVBE, XSAVE, OSXSAVE, AVX, F16C */
    V3_B = 1 << 3 | 1 << 5 | 1 << 8,                                  /* BMI1, AVX2, BMI2 */
    V2_EXTENDED_C = 1 << 0,                                           /* LAHF */
    V3_EXTENDED_C = 1 << 5                                            /* LZCNT */
};

struct features {
    unsigned a, b, c, d;
};

/* What the processor tells of a leaf; nothing where it doesn't know it. */
static struct features features_of(unsigned leaf) {
    struct features found = {0, 0, 0, 0};
    return __get_cpuid_count(leaf, 0, &found.a, &found.b, &found.c, &found.d) ? found : (struct features){0, 0, 0, 0};
}

static bool has(unsigned features, unsigned wanted) { return (features & wanted) == wanted; }

/* Whether the system keeps the wide registers of a thread. It is asked only where the processor has XGETBV. */
static bool keeps_wide_registers(void) {
    unsigned low, high;
    __asm__ volatile("xgetbv" : "=a"(low), "=d"(high) : "c"(0));
    return has(low, 1 << 1 | 1 << 2);
}

bool yuzuratchet_has_v2(void) {
    return has(features_of(1).c, V2_C) && has(features_of(0x80000001).c, V2_EXTENDED_C);
}

bool yuzuratchet_takes_v3(void) {
    const char *asked = getenv("YUZURATCHET_PROCESSOR");
    if (asked != NULL && strcmp(asked, "x86-64-v2") == 0) return false;
    return yuzuratchet_has_v2() && has(features_of(1).c, V3_C) && keeps_wide_registers() &&
           has(features_of(7).b, V3_B) && has(features_of(0x80000001).c, V3_EXTENDED_C);
}
