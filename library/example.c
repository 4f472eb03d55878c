/* Draws a script: `example SCRIPT OUT.tga` prints its answer lines and writes its image, as tiledraw does. */
#include <stdio.h>
#include <stdlib.h>

#include "yuzuratchet.h"

/* All bytes of a file, or null. */
static uint8_t *bytes_of(const char *name, size_t *size) {
    FILE *file = fopen(name, "rb");
    if (file == NULL) return NULL;
    uint8_t *bytes = NULL;
    size_t room = 0, read = 0;
    *size = 0;
    do {
        *size += read;
        if (*size == room) bytes = realloc(bytes, room = 2 * room + 4096);
        read = bytes == NULL ? 0 : fread(bytes + *size, 1, room - *size, file);
    } while (read > 0);
    fclose(file);
    return bytes;
}

/* Says why a script isn't drawn. */
static void tell(uint32_t status, const struct yuzuratchet_report *report) {
    fprintf(stderr, "example: %s\n", yuzuratchet_status_text(status));
    if (status == YUZURATCHET_REFUSED)
        fprintf(stderr, "line %llu: %s\n", (unsigned long long)report->refused_line,
                yuzuratchet_refusal_text(report->refusal));
}

int main(int count, char **words) {
    if (count != 3) return fprintf(stderr, "usage: example SCRIPT OUT.tga\n"), 2;
    size_t size;
    uint8_t *script = bytes_of(words[1], &size);
    if (script == NULL) return fprintf(stderr, "example: cannot read script\n"), 3;
    const size_t lines_size = yuzuratchet_lines_bound(script, size), image_size = yuzuratchet_image_bound(script, size);
    uint8_t *lines = malloc(lines_size), *image = malloc(image_size);
    struct yuzuratchet_report report;
    const uint32_t status = yuzuratchet_draw(script, size, lines, lines_size, image, image_size, &report);
    if (status != YUZURATCHET_DONE) tell(status, &report);
    if (status > YUZURATCHET_REFUSED) return 3;
    fwrite(lines, 1, report.lines_size, stdout);
    if (status == YUZURATCHET_DONE) {
        FILE *out = fopen(words[2], "wb");
        if (out == NULL || fwrite(image, 1, report.image_size, out) < report.image_size || fclose(out) != 0)
            return fprintf(stderr, "example: cannot write image\n"), 3;
    }
    free(script), free(lines), free(image);
    return (int)status;
}
