/* Refuses each request for memory in turn, in the drawing of a script from standard input, and looks at what comes of
 * it. */
#include "check.h"

enum { FREE = 0xa5 };

static size_t asked, refused, held;

static bool is_refused(void) { return ++asked == refused; }

static void *take(size_t size) {
    void *at = is_refused() ? NULL : malloc(size);
    held += at != NULL;
    return at;
}

static void *resize(void *block, size_t size) { return is_refused() ? NULL : realloc(block, size); }

static void give(void *block) {
    held -= block != NULL;
    free(block);
}

static uint8_t *read_all(size_t *size) {
    uint8_t *bytes = NULL;
    size_t room = 0, read;
    *size = 0;
    do {
        if (*size == room) bytes = realloc(bytes, room = 2 * room + 4096);
        CHECK(bytes != NULL);
        read = fread(bytes + *size, 1, room - *size, stdin);
        *size += read;
    } while (read > 0);
    return bytes;
}

/* The lines are those of a whole drawing up to some line, and the refusal of one for want of memory behind them. */
static void are_cut_short(const uint8_t *lines, const struct yuzuratchet_report *report, const uint8_t *whole,
                          size_t whole_size) {
    char last[40];
    const size_t size = (size_t)snprintf(last, sizeof last, "refused %" PRIu64 " 1\n", report->refused_line);
    CHECK(report->refusal == 1 && report->image_size == 0 && report->lines_size >= size);
    const size_t before = report->lines_size - size;
    CHECK(memcmp(lines + before, last, size) == 0);
    CHECK(before <= whole_size && memcmp(lines, whole, before) == 0);
    CHECK(before == 0 || lines[before - 1] == '\n');
}

int main(void) {
    size_t size;
    uint8_t *const script = read_all(&size);
    const struct yuzuratchet_memory counting = {take, resize, give};
    yuzuratchet_use_memory(&counting);
    struct yuzuratchet_report whole, report;
    const uint32_t status = yuzuratchet_sizes(script, size, &whole);
    CHECK(status <= YUZURATCHET_REFUSED && held == 0);
    const size_t lines_size = whole.lines_size + 40, image_size = whole.image_size + 1;
    uint8_t *const whole_lines = taken(lines_size), *const whole_image = taken(image_size),
                   *const lines = taken(lines_size), *const image = taken(image_size);
    asked = 0;
    CHECK(yuzuratchet_draw(script, size, whole_lines, lines_size, whole_image, image_size, &whole) == status &&
          held == 0);
    const size_t requests = asked;
    size_t told = 0;
    for (refused = 1; refused <= requests; refused++) {
        asked = 0;
        memset(lines, FREE, lines_size);
        memset(image, FREE, image_size);
        const uint32_t now = yuzuratchet_draw(script, size, lines, lines_size, image, image_size, &report);
        CHECK(held == 0 && now == report.status);
        if (now == YUZURATCHET_NO_MEMORY) {
            CHECK(all_are(lines, lines_size, FREE) && all_are(image, image_size, FREE));
            CHECK(report.lines_size == 0 && report.image_size == 0);
        } else if (memcmp(&report, &whole, sizeof report) == 0) {
            CHECK(memcmp(lines, whole_lines, whole.lines_size) == 0 &&
                  memcmp(image, whole_image, whole.image_size) == 0);
            continue;
        } else {
            CHECK(now == YUZURATCHET_REFUSED && all_are(image, image_size, FREE));
            are_cut_short(lines, &report, whole_lines, whole.lines_size);
        }
        told++;
    }
    yuzuratchet_use_memory(NULL);
    CHECK(yuzuratchet_draw(script, size, lines, lines_size, image, image_size, &report) == status);
    CHECK(memcmp(lines, whole_lines, whole.lines_size) == 0 && memcmp(image, whole_image, whole.image_size) == 0);
    printf("%zu requests for memory, of which %zu end the drawing where they are refused\n", requests, told);
    free(script), free(lines), free(image), free(whole_lines), free(whole_image);
    return 0;
}
