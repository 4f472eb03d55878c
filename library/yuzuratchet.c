/*
 * What lies between C and the functions that are proved. A call's areas are examined as numbers, and only areas that
 * fit are handed on: the proved functions take each as a slice, so it must be there, apart from the others, and have 1
 * to 2^63 - 1 bytes; and a report lies where one of its type may.
 */
#include "yuzuratchet.h"

_Static_assert(sizeof(struct yuzuratchet_report) == 32, "a report has no gaps");
_Static_assert(sizeof(struct yuzuratchet_history_report) == 24, "nor has that of a history");
_Static_assert(sizeof(struct yuzuratchet_event) == 48, "nor an event");
_Static_assert(sizeof(size_t) == 8 && sizeof(void *) == 8, "sizes and addresses have 64 bits");

struct area {
    uint64_t at;
    uint64_t size;
    uint64_t align;
};

/* The proved functions, as crates/yuzuratchet exports them. */
uint32_t yuzuratchet_examine(const struct area *areas, size_t count);
void yuzuratchet_draw_fitting(const uint8_t *script, size_t script_size, uint8_t *lines, size_t lines_size,
                              uint8_t *image, size_t image_size, struct yuzuratchet_report *report);
void yuzuratchet_sizes_fitting(const uint8_t *script, size_t script_size, struct yuzuratchet_report *report);
void yuzuratchet_history_fitting(const uint8_t *script, size_t script_size, uint32_t x, uint32_t y,
                                 struct yuzuratchet_event *events, size_t room,
                                 struct yuzuratchet_history_report *report);

static struct area area_of(const void *at, size_t size) { return (struct area){(uint64_t)(uintptr_t)at, size, 0}; }

static struct area area_of_report(const struct yuzuratchet_report *report) {
    return (struct area){(uint64_t)(uintptr_t)report, sizeof *report, _Alignof(struct yuzuratchet_report)};
}

uint32_t yuzuratchet_draw(const uint8_t *script, size_t script_size, uint8_t *lines, size_t lines_size, uint8_t *image,
                          size_t image_size, struct yuzuratchet_report *report) {
    const struct area areas[] = {area_of(script, script_size), area_of(lines, lines_size), area_of(image, image_size),
                                 area_of_report(report)};
    const uint32_t misfit = yuzuratchet_examine(areas, sizeof areas / sizeof *areas);
    if (misfit != YUZURATCHET_DONE) return misfit;
    yuzuratchet_draw_fitting(script, script_size, lines, lines_size, image, image_size, report);
    return report->status;
}

uint32_t yuzuratchet_sizes(const uint8_t *script, size_t script_size, struct yuzuratchet_report *report) {
    const struct area areas[] = {area_of(script, script_size), area_of_report(report)};
    const uint32_t misfit = yuzuratchet_examine(areas, sizeof areas / sizeof *areas);
    if (misfit != YUZURATCHET_DONE) return misfit;
    yuzuratchet_sizes_fitting(script, script_size, report);
    return report->status;
}

/* So many events; more than there is room for in any memory has the largest size. */
static struct area area_of_events(const struct yuzuratchet_event *events, size_t room) {
    const size_t size = room > SIZE_MAX / sizeof *events ? SIZE_MAX : room * sizeof *events;
    return (struct area){(uint64_t)(uintptr_t)events, size, _Alignof(struct yuzuratchet_event)};
}

uint32_t yuzuratchet_history(const uint8_t *script, size_t script_size, uint32_t x, uint32_t y,
                             struct yuzuratchet_event *events, size_t room,
                             struct yuzuratchet_history_report *report) {
    const struct area areas[] = {
        area_of(script, script_size), area_of_events(events, room),
        (struct area){(uint64_t)(uintptr_t)report, sizeof *report, _Alignof(struct yuzuratchet_history_report)}};
    const uint32_t misfit = yuzuratchet_examine(areas, sizeof areas / sizeof *areas);
    if (misfit != YUZURATCHET_DONE) return misfit;
    yuzuratchet_history_fitting(script, script_size, x, y, events, room, report);
    return report->status;
}
