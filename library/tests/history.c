/* The history of a pixel: its events and their names, an area that is too small, pixels outside, refused lines, and
 * areas that don't fit. */
#include "check.h"

enum { FREE = 0xa5, ROOM = 8 };

/* Two clears, and behind them a list that is executed twice: of its two triangles the second covers (1, 1). */
static const char script[] = "target 8 8\n"
                             "i clearc 1 2 3 4\n"
                             "i cleards 1000 7\n"
                             "d0 topology 4\n"
                             "d0 vb 6553600 0 0 9 9 9 9 7077888 0 0 9 9 9 9 6553600 524288 0 9 9 9 9"
                             " 0 0 100 10 20 30 40 524288 0 100 0 0 0 0 0 524288 100 0 0 0 0\n"
                             "d0 draw 6 0\n"
                             "d0 finish 0\n"
                             "i exec d0 0 0\n"
                             "i exec d0 0 1\n";

static struct yuzuratchet_event *events;
static struct yuzuratchet_history_report *report;

static uint32_t history_of(const char *text, uint32_t x, uint32_t y, size_t room) {
    memset(events, FREE, ROOM * sizeof *events), memset(report, FREE, sizeof *report);
    return yuzuratchet_history(bytes_of(text), strlen(text), x, y, events, room, report);
}

/* Whether the events from one on were written. */
static bool are_free(size_t from) {
    return all_are((const uint8_t *)(events + from), (ROOM - from) * sizeof *events, FREE);
}

static void told(void) {
    static const struct yuzuratchet_event first = {
        0, 2, 0, 0, 16777215, 16777215, {0, 0, 0, 0}, {1, 2, 3, 4}, 0, 0, 1, 1, 1};
    static const struct yuzuratchet_event drawn = {
        3, 8, 2, 1, 1000, 100, {1, 2, 3, 4}, {10, 20, 30, 40}, 7, 7, 1, 1, 1};
    static const struct yuzuratchet_event hidden = {
        5, 9, 2, 1, 100, 100, {10, 20, 30, 40}, {10, 20, 30, 40}, 7, 7, 1, 0, 0};
    CHECK(history_of(script, 1, 1, ROOM) == YUZURATCHET_DONE);
    CHECK(report->count == 4 && report->refused_line == 0 && report->refusal == 0);
    CHECK(report->status == YUZURATCHET_DONE);
    CHECK(memcmp(&events[0], &first, sizeof first) == 0);
    CHECK(events[1].item == 1 && events[1].line == 3 && events[1].depth_after == 1000 && events[1].stencil_after == 7);
    CHECK(memcmp(&events[2], &drawn, sizeof drawn) == 0 && memcmp(&events[3], &hidden, sizeof hidden) == 0);
    CHECK(are_free(4));
    CHECK(history_of(script, 1, 1, 4) == YUZURATCHET_DONE && are_free(4));
}

static void none(void) {
    CHECK(history_of(script, 1, 1, 3) == YUZURATCHET_EVENTS_TOO_SMALL && report->count == 4 && are_free(0));
    CHECK(history_of(script, 8, 0, ROOM) == YUZURATCHET_PIXEL_RANGE && report->count == 0 && are_free(0));
    CHECK(history_of(script, 0, 8, ROOM) == YUZURATCHET_PIXEL_RANGE && report->status == YUZURATCHET_PIXEL_RANGE);
    CHECK(history_of("target 8 8\ni flush 1\n", 0, 0, ROOM) == YUZURATCHET_REFUSED && are_free(0));
    CHECK(report->count == 0 && report->refused_line == 2 && report->refusal == 105);
}

static void misfits(void) {
    const uint8_t *const text = bytes_of(script);
    const size_t size = strlen(script);
    CHECK(history_of(script, 1, 1, 0) == YUZURATCHET_EMPTY_AREA);
    CHECK(history_of(script, 1, 1, SIZE_MAX) == YUZURATCHET_SIZE_TOO_LARGE);
    CHECK(history_of(script, 1, 1, SIZE_MAX / sizeof *events + 2) == YUZURATCHET_SIZE_TOO_LARGE);
    CHECK(yuzuratchet_history(NULL, size, 1, 1, events, ROOM, report) == YUZURATCHET_NULL_POINTER);
    CHECK(yuzuratchet_history(text, size, 1, 1, NULL, ROOM, report) == YUZURATCHET_NULL_POINTER);
    CHECK(yuzuratchet_history(text, size, 1, 1, events, ROOM, NULL) == YUZURATCHET_NULL_POINTER);
    CHECK(yuzuratchet_history(text, 0, 1, 1, events, ROOM, report) == YUZURATCHET_EMPTY_AREA);
    CHECK(yuzuratchet_history(text, size, 1, 1, events, ROOM, (void *)events) == YUZURATCHET_OVERLAP);
    CHECK(are_free(0) && all_are((const uint8_t *)report, sizeof *report, FREE));
    uint8_t *const block = taken(2 * sizeof *events);
    for (size_t shift = 1; shift < _Alignof(struct yuzuratchet_event); shift++)
        CHECK(yuzuratchet_history(text, size, 1, 1, (void *)(block + shift), 1, report) == YUZURATCHET_MISALIGNED);
    free(block);
}

int main(void) {
    events = taken(ROOM * sizeof *events), report = taken(sizeof *report);
    told(), none(), misfits();
    free(events), free(report);
    return 0;
}
