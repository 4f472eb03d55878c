/*
 * The proved functions of the build that the processor takes. It is chosen once, when the library is loaded, or when the
 * program starts whose part it is.
 */
#include <stddef.h>
#include <stdint.h>

#include "processor.h"
#include "yuzuratchet.h"

#define BUILD(name)                                                                                                    \
    void yuzuratchet_draw_fitting_##name(const uint8_t *script, size_t script_size, uint8_t *lines, size_t lines_size, \
                                         uint8_t *image, size_t image_size, struct yuzuratchet_report *report);        \
    void yuzuratchet_sizes_fitting_##name(const uint8_t *script, size_t script_size,                                   \
                                          struct yuzuratchet_report *report);                                          \
    void yuzuratchet_history_fitting_##name(const uint8_t *script, size_t script_size, uint32_t x, uint32_t y,         \
                                            struct yuzuratchet_event *events, size_t room,                             \
                                            struct yuzuratchet_history_report *report);
BUILD(v2)
BUILD(v3)

void yuzuratchet_draw_fitting(const uint8_t *script, size_t script_size, uint8_t *lines, size_t lines_size,
                              uint8_t *image, size_t image_size, struct yuzuratchet_report *report);
void yuzuratchet_sizes_fitting(const uint8_t *script, size_t script_size, struct yuzuratchet_report *report);
void yuzuratchet_history_fitting(const uint8_t *script, size_t script_size, uint32_t x, uint32_t y,
                                 struct yuzuratchet_event *events, size_t room,
                                 struct yuzuratchet_history_report *report);

static bool takes_v3;

__attribute__((constructor)) static void choose(void) { takes_v3 = yuzuratchet_takes_v3(); }

void yuzuratchet_draw_fitting(const uint8_t *script, size_t script_size, uint8_t *lines, size_t lines_size,
                              uint8_t *image, size_t image_size, struct yuzuratchet_report *report) {
    (takes_v3 ? yuzuratchet_draw_fitting_v3 : yuzuratchet_draw_fitting_v2)(script, script_size, lines, lines_size, image,
                                                                           image_size, report);
}

void yuzuratchet_sizes_fitting(const uint8_t *script, size_t script_size, struct yuzuratchet_report *report) {
    (takes_v3 ? yuzuratchet_sizes_fitting_v3 : yuzuratchet_sizes_fitting_v2)(script, script_size, report);
}

void yuzuratchet_history_fitting(const uint8_t *script, size_t script_size, uint32_t x, uint32_t y,
                                 struct yuzuratchet_event *events, size_t room,
                                 struct yuzuratchet_history_report *report) {
    (takes_v3 ? yuzuratchet_history_fitting_v3 : yuzuratchet_history_fitting_v2)(script, script_size, x, y, events,
                                                                                 room, report);
}
