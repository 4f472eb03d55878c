/* Four threads draw side by side, each into areas of its own. */
#include <pthread.h>

#include "check.h"

enum { THREADS = 4, DRAWINGS = 500 };

/* Draws one scene in a colour of its own many times. */
static void *draws(void *number) {
    const unsigned red = *(const unsigned *)number;
    char script[100], answer[100];
    uint8_t lines[100], image[18 + 4 * 40 * 40];
    struct yuzuratchet_report report;
    for (unsigned i = 0; i < DRAWINGS; i++) {
        const int size =
            snprintf(script, sizeof script, "target 40 40\ni clearc %u 2 3 %u\ni pixel 39 39\n", red, i % 256);
        const int told = snprintf(answer, sizeof answer, "pixel 39 39 %u 2 3 %u 16777215 0\n", red, i % 256);
        CHECK(yuzuratchet_draw(bytes_of(script), (size_t)size, lines, sizeof lines, image, sizeof image, &report) ==
              YUZURATCHET_DONE);
        CHECK(report.lines_size == (uint64_t)told && memcmp(lines, answer, (size_t)told) == 0);
        CHECK(image[18] == 3 && image[20] == red && image[sizeof image - 1] == i % 256);
    }
    return NULL;
}

int main(void) {
    static unsigned numbers[THREADS];
    pthread_t threads[THREADS];
    for (unsigned i = 0; i < THREADS; i++) {
        numbers[i] = i;
        CHECK(pthread_create(&threads[i], NULL, draws, &numbers[i]) == 0);
    }
    for (unsigned i = 0; i < THREADS; i++) CHECK(pthread_join(threads[i], NULL) == 0);
    return 0;
}
