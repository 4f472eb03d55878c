/*
 * Draws many scripts into areas of the sizes by which they are bounded. On standard input stands each as its size in
 * decimal digits, a line feed and its bytes; on standard output goes for each `STATUS LINES_SIZE IMAGE_SIZE LINE
 * REFUSAL`, a line feed, its answer lines and its image.
 */
#include "check.h"

int main(void) {
    size_t size;
    while (scanf("%zu", &size) == 1) {
        CHECK(getchar() == '\n');
        uint8_t *const script = taken(size);
        CHECK(fread(script, 1, size, stdin) == size);
        const size_t lines_size = yuzuratchet_lines_bound(script, size),
                     image_size = yuzuratchet_image_bound(script, size);
        uint8_t *const lines = taken(lines_size), *const image = taken(image_size);
        struct yuzuratchet_report report;
        const uint32_t status = yuzuratchet_draw(script, size, lines, lines_size, image, image_size, &report);
        CHECK(status <= YUZURATCHET_REFUSED && status == report.status);
        CHECK(status == YUZURATCHET_REFUSED || report.image_size == image_size);
        printf("%" PRIu32 " %" PRIu64 " %" PRIu64 " %" PRIu64 " %" PRIu32 "\n", status, report.lines_size,
               report.image_size, report.refused_line, report.refusal);
        fwrite(lines, 1, report.lines_size, stdout);
        fwrite(image, 1, report.image_size, stdout);
        CHECK(fflush(stdout) == 0);
        free(script), free(lines), free(image);
    }
    return 0;
}
