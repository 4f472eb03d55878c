/*
 * Where the program starts: it goes on as the build that the processor takes. A processor that takes neither is told so.
 */
#include <stdio.h>

#include "../processor.h"
#include "of_glibc.h"

int tiledraw_v2(void);
int tiledraw_v3(void);

enum { NOT_STARTED = 3 };

int main(int number, char **words) {
    tell_words(number, words);
    if (yuzuratchet_takes_v3()) return tiledraw_v3();
    if (yuzuratchet_has_v2()) return tiledraw_v2();
    fputs("tiledraw: this processor lacks x86-64-v2 (SSE4.2, POPCNT)\n", stderr);
    return NOT_STARTED;
}
