/* A report at an address that is none of a report is refused, and nothing is written. */
#include "check.h"

enum { FREE = 0xa5, LINES = 64, IMAGE = 128, REPORT = 64 };

int main(void) {
    static const char script[] = "target 4 4\n";
    uint8_t *const lines = taken(LINES), *const image = taken(IMAGE), *const block = taken(REPORT);
    for (size_t shift = 1; shift < _Alignof(struct yuzuratchet_report); shift++) {
        struct yuzuratchet_report *const report = (void *)(block + shift);
        memset(lines, FREE, LINES), memset(image, FREE, IMAGE), memset(block, FREE, REPORT);
        CHECK(yuzuratchet_draw(bytes_of(script), strlen(script), lines, LINES, image, IMAGE, report) ==
              YUZURATCHET_MISALIGNED);
        CHECK(yuzuratchet_sizes(bytes_of(script), strlen(script), report) == YUZURATCHET_MISALIGNED);
        CHECK(all_are(lines, LINES, FREE) && all_are(image, IMAGE, FREE) && all_are(block, REPORT, FREE));
    }
    free(lines), free(image), free(block);
    return 0;
}
