/* Calls the library 10,000 times with a target of 64 by 64 and a clear, and prints the processor time of one, in
 * microseconds. */
#include <time.h>

#include "check.h"

int main(void) {
    static const char script[] = "target 64 64\ni clearc 1 2 3 4\n";
    static uint8_t lines[64], image[18 + 4 * 64 * 64];
    enum { CALLS = 10000 };
    struct yuzuratchet_report report;
    struct timespec begun, ended;
    clock_gettime(CLOCK_PROCESS_CPUTIME_ID, &begun);
    for (int i = 0; i < CALLS; i++)
        CHECK(yuzuratchet_draw(bytes_of(script), sizeof script - 1, lines, sizeof lines, image, sizeof image,
                               &report) == YUZURATCHET_DONE);
    clock_gettime(CLOCK_PROCESS_CPUTIME_ID, &ended);
    const double seconds = (double)(ended.tv_sec - begun.tv_sec) + (double)(ended.tv_nsec - begun.tv_nsec) / 1e9;
    printf("%.1f\n", seconds / CALLS * 1e6);
    return 0;
}
