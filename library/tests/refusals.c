/* Areas that don't fit are refused by name, and nothing is written beyond what the header says. */
#include "check.h"

enum { FREE = 0xa5, LINES = 27, IMAGE = 18 + 4 * 16 };

static const char drawn[] = "target 4 4\ni clearc 1 2 3 4\ni pixel 3 3\n";
static const char answers[] = "pixel 3 3 1 2 3 4 16777215 0\n";
static const char stopped[] = "target 4 4\ni pixel 0 0\ni pixel 4 0\n";
static const char stopped_answers[] = "pixel 0 0 0 0 0 0 16777215 0\nrefused 3 15\n";

/* The three areas of a call, each a block of its own, filled with one byte. */
struct areas {
    uint8_t *lines, *image;
    size_t lines_size, image_size;
    struct yuzuratchet_report report;
};

static struct areas areas_of(size_t lines_size, size_t image_size) {
    struct areas areas = {
        .lines = taken(lines_size), .image = taken(image_size), .lines_size = lines_size, .image_size = image_size};
    memset(areas.lines, FREE, lines_size);
    memset(areas.image, FREE, image_size);
    memset(&areas.report, FREE, sizeof areas.report);
    return areas;
}

static uint32_t draw(const char *script, struct areas *areas) {
    return yuzuratchet_draw(bytes_of(script), strlen(script), areas->lines, areas->lines_size, areas->image,
                            areas->image_size, &areas->report);
}

static void leave(struct areas areas) {
    free(areas.lines);
    free(areas.image);
}

static bool are_untouched(const struct areas *areas) {
    return all_are(areas->lines, areas->lines_size, FREE) && all_are(areas->image, areas->image_size, FREE);
}

/* Each pair of sizes around those that are needed. */
static void sizes_of_areas(const char *script, const char *lines, size_t image, uint32_t status) {
    const size_t needed = strlen(lines);
    for (size_t lines_size = 1; lines_size < needed + 3; lines_size++) {
        for (size_t image_size = image > 2 ? image - 2 : 1; image_size < image + 3; image_size++) {
            struct areas areas = areas_of(lines_size, image_size);
            const uint32_t told = draw(script, &areas);
            CHECK(told == areas.report.status);
            CHECK(areas.report.lines_size == needed && areas.report.image_size == image);
            if (lines_size < needed) {
                CHECK(told == YUZURATCHET_LINES_TOO_SMALL && are_untouched(&areas));
            } else if (image_size < image) {
                CHECK(told == YUZURATCHET_IMAGE_TOO_SMALL && are_untouched(&areas));
            } else {
                CHECK(told == status);
                CHECK(memcmp(areas.lines, lines, needed) == 0);
                CHECK(all_are(areas.lines + needed, lines_size - needed, FREE));
                CHECK(all_are(areas.image + image, image_size - image, FREE));
            }
            leave(areas);
        }
    }
}

static void image_is_drawn(void) {
    struct areas areas = areas_of(sizeof answers, 100);
    CHECK(draw(drawn, &areas) == YUZURATCHET_DONE);
    static const uint8_t header[] = {0, 0, 2, 0, 0, 0, 0, 0, 0, 0, 0, 0, 4, 0, 4, 0, 32, 0x28};
    static const uint8_t color[] = {3, 2, 1, 4};
    CHECK(areas.report.image_size == IMAGE && memcmp(areas.image, header, sizeof header) == 0);
    for (size_t at = sizeof header; at < IMAGE; at += sizeof color)
        CHECK(memcmp(areas.image + at, color, sizeof color) == 0);
    CHECK(areas.report.refused_line == 0 && areas.report.refusal == 0);
    leave(areas);
}

static void refusal_is_told(void) {
    struct areas areas = areas_of(sizeof stopped_answers, 1);
    CHECK(draw(stopped, &areas) == YUZURATCHET_REFUSED);
    CHECK(areas.report.refused_line == 3 && areas.report.refusal == 15 && areas.report.image_size == 0);
    CHECK(areas.image[0] == FREE);
    struct yuzuratchet_report report;
    CHECK(yuzuratchet_sizes(bytes_of(stopped), strlen(stopped), &report) == YUZURATCHET_REFUSED);
    CHECK(memcmp(&report, &areas.report, sizeof report) == 0);
    leave(areas);
}

/* A call whose areas don't fit: nothing is written. */
static void refuses(uint32_t status, const void *script, size_t script_size, void *lines, size_t lines_size,
                    void *image, size_t image_size, void *report, struct areas *areas) {
    const struct yuzuratchet_report before = areas->report;
    CHECK(yuzuratchet_draw(script, script_size, lines, lines_size, image, image_size, report) == status);
    CHECK(are_untouched(areas) && memcmp(&before, &areas->report, sizeof before) == 0);
}

static void misfits(void) {
    struct areas areas = areas_of(64, 128);
    uint8_t *const lines = areas.lines, *const image = areas.image;
    const size_t size = strlen(drawn);
    const size_t large[] = {(size_t)1 << 63, ((size_t)1 << 63) + 1, SIZE_MAX};
    void *const report = &areas.report;
    refuses(YUZURATCHET_NULL_POINTER, NULL, size, lines, 64, image, 128, report, &areas);
    refuses(YUZURATCHET_NULL_POINTER, drawn, size, NULL, 64, image, 128, report, &areas);
    refuses(YUZURATCHET_NULL_POINTER, drawn, size, lines, 64, NULL, 128, report, &areas);
    refuses(YUZURATCHET_NULL_POINTER, drawn, size, lines, 64, image, 128, NULL, &areas);
    refuses(YUZURATCHET_EMPTY_AREA, drawn, 0, lines, 64, image, 128, report, &areas);
    refuses(YUZURATCHET_EMPTY_AREA, drawn, size, lines, 0, image, 128, report, &areas);
    refuses(YUZURATCHET_EMPTY_AREA, drawn, size, lines, 64, image, 0, report, &areas);
    for (size_t i = 0; i < sizeof large / sizeof *large; i++) {
        refuses(YUZURATCHET_SIZE_TOO_LARGE, drawn, large[i], lines, 64, image, 128, report, &areas);
        refuses(YUZURATCHET_SIZE_TOO_LARGE, drawn, size, lines, large[i], image, 128, report, &areas);
        refuses(YUZURATCHET_SIZE_TOO_LARGE, drawn, size, lines, 64, image, large[i], report, &areas);
    }
    refuses(YUZURATCHET_SIZE_TOO_LARGE, drawn, size, (void *)(UINTPTR_MAX - 15), 64, image, 128, report, &areas);
    refuses(YUZURATCHET_OVERLAP, drawn, size, lines, 64, lines, 64, report, &areas);
    refuses(YUZURATCHET_OVERLAP, drawn, size, lines, 64, lines + 63, 1, report, &areas);
    refuses(YUZURATCHET_OVERLAP, lines, 64, lines + 32, 1, image, 128, report, &areas);
    refuses(YUZURATCHET_OVERLAP, image + 127, 1, lines, 64, image, 128, report, &areas);
    refuses(YUZURATCHET_OVERLAP, drawn, size, lines, 64, image, 128, image, &areas);
    refuses(YUZURATCHET_OVERLAP, report, 32, lines, 64, image, 128, report, &areas);
    refuses(YUZURATCHET_OVERLAP, drawn, size, (uint8_t *)report + 31, 1, image, 128, report, &areas);
    leave(areas);
}

/* Areas that touch don't overlap. */
static void neighbours(void) {
    uint8_t *const block = taken(64 + 128 + 40 + sizeof drawn);
    uint8_t *const script = block, *const lines = script + 40, *const image = lines + 64, *const report = image + 128;
    CHECK(strlen(drawn) == 40);
    memcpy(script, drawn, 40);
    CHECK(yuzuratchet_draw(script, 40, lines, 64, image, 128, (struct yuzuratchet_report *)(void *)report) ==
          YUZURATCHET_DONE);
    CHECK(memcmp(script, drawn, 40) == 0 && memcmp(lines, answers, sizeof answers - 1) == 0);
    free(block);
}

static void misfits_of_sizes(void) {
    struct yuzuratchet_report report;
    CHECK(yuzuratchet_sizes(NULL, 1, &report) == YUZURATCHET_NULL_POINTER);
    CHECK(yuzuratchet_sizes(bytes_of(drawn), 1, NULL) == YUZURATCHET_NULL_POINTER);
    CHECK(yuzuratchet_sizes(bytes_of(drawn), 0, &report) == YUZURATCHET_EMPTY_AREA);
    CHECK(yuzuratchet_sizes(bytes_of(drawn), (size_t)1 << 63, &report) == YUZURATCHET_SIZE_TOO_LARGE);
    CHECK(yuzuratchet_sizes((uint8_t *)&report, 1, &report) == YUZURATCHET_OVERLAP);
}

int main(void) {
    sizes_of_areas(drawn, answers, IMAGE, YUZURATCHET_DONE);
    sizes_of_areas(stopped, stopped_answers, 0, YUZURATCHET_REFUSED);
    image_is_drawn();
    refusal_is_told();
    misfits();
    neighbours();
    misfits_of_sizes();
    printf("version %" PRIu32 "\n", yuzuratchet_version());
    return 0;
}
