/*
 * The proved functions by which objects are used, as crates/device_calls exports them, and the objects: an object
 * begins with the handle that these functions know, one pointer, which is null while the handle holds nothing.
 */
#ifndef DEVICE_CALLS_H
#define DEVICE_CALLS_H

#include <stdbool.h>

#include "yuzuratchet_device.h"

struct handle {
    void *at;
};

/* States as the proved functions are told them. */
struct raster {
    uint32_t cull, front_ccw, scissor;
    int32_t depth_bias;
};
struct depth_stencil {
    uint32_t depth, write, compare, stencil;
    yz_face_desc front, back;
    uint8_t read_mask, write_mask;
};
struct blend {
    uint32_t logic, op, mask;
};

/* How many bytes a line has that was played, and its answer line. */
struct line_told {
    uint64_t taken, answer;
};

/* All of them: CALL(what it returns, its name, its parameters, the arguments that hand these on). */
#define RECORDING_CALLS(CALL, NAME)                                                                                    \
    CALL(uint32_t, NAME##_set_vertices, (struct handle *on, const yz_vertex *vertices, size_t count),                  \
         (on, vertices, count))                                                                                        \
    CALL(uint32_t, NAME##_set_indices, (struct handle *on, const uint16_t *indices, size_t count),                     \
         (on, indices, count))                                                                                         \
    CALL(uint32_t, NAME##_set_topology, (struct handle *on, uint32_t topology), (on, topology))                        \
    CALL(uint32_t, NAME##_set_raster, (struct handle *on, const struct raster *state), (on, state))                    \
    CALL(uint32_t, NAME##_set_scissor,                                                                                 \
         (struct handle *on, uint32_t left, uint32_t top, uint32_t right, uint32_t bottom),                            \
         (on, left, top, right, bottom))                                                                               \
    CALL(uint32_t, NAME##_set_depth_stencil,                                                                           \
         (struct handle *on, const struct depth_stencil *state, uint8_t reference), (on, state, reference))            \
    CALL(uint32_t, NAME##_set_blend, (struct handle *on, const struct blend *state), (on, state))                      \
    CALL(uint32_t, NAME##_set_predication, (struct handle *on, uint32_t query, bool value), (on, query, value))        \
    CALL(uint32_t, NAME##_clear_predication, (struct handle *on), (on))                                                \
    CALL(uint32_t, NAME##_draw, (struct handle *on, uint32_t count, uint32_t start), (on, count, start))               \
    CALL(uint32_t, NAME##_draw_indexed, (struct handle *on, uint32_t count, uint32_t start, int32_t base),             \
         (on, count, start, base))                                                                                     \
    CALL(uint32_t, NAME##_clear_color,                                                                                 \
         (struct handle *on, uint8_t red, uint8_t green, uint8_t blue, uint8_t alpha), (on, red, green, blue, alpha))  \
    CALL(uint32_t, NAME##_clear_depth_stencil, (struct handle *on, uint32_t depth, uint8_t stencil),                   \
         (on, depth, stencil))                                                                                         \
    CALL(uint32_t, NAME##_begin, (struct handle *on, uint32_t query), (on, query))                                     \
    CALL(uint32_t, NAME##_end, (struct handle *on, uint32_t query), (on, query))

#define OTHER_CALLS(CALL)                                                                                              \
    CALL(uint32_t, yz_handle_device_create, (struct handle *on, uint32_t width, uint32_t height), (on, width, height)) \
    CALL(void, yz_handle_device_destroy, (struct handle *on), (on))                                                    \
    CALL(uint32_t, yz_handle_device_flush, (struct handle *on), (on))                                                  \
    CALL(uint32_t, yz_handle_device_execute, (struct handle *on, struct handle *list, bool keep), (on, list, keep))    \
    CALL(uint32_t, yz_handle_device_pixel, (struct handle *on, uint32_t x, uint32_t y, yz_pixel *pixel),               \
         (on, x, y, pixel))                                                                                            \
    CALL(uint32_t, yz_handle_device_get_data, (struct handle *on, uint32_t query, uint64_t *count),                    \
         (on, query, count))                                                                                           \
    CALL(uint32_t, yz_handle_device_history,                                                                           \
         (struct handle *on, uint32_t x, uint32_t y, struct yuzuratchet_event *events, size_t room, uint64_t *count),  \
         (on, x, y, events, room, count))                                                                              \
    CALL(uint32_t, yz_handle_device_read_colors,                                                                       \
         (struct handle *on, uint32_t y, uint32_t left, bool bgra, void *row, size_t pixels),                          \
         (on, y, left, bgra, row, pixels))                                                                             \
    CALL(uint32_t, yz_handle_device_read_depths,                                                                       \
         (struct handle *on, uint32_t y, uint32_t left, void *row, size_t pixels), (on, y, left, row, pixels))         \
    CALL(uint32_t, yz_handle_device_read_stencils,                                                                     \
         (struct handle *on, uint32_t y, uint32_t left, void *row, size_t pixels), (on, y, left, row, pixels))         \
    CALL(uint32_t, yz_handle_context_create, (struct handle *on), (on))                                                \
    CALL(void, yz_handle_context_destroy, (struct handle *on), (on))                                                   \
    CALL(uint32_t, yz_handle_context_finish, (struct handle *on, bool keep, struct handle *list), (on, keep, list))    \
    CALL(void, yz_handle_list_destroy, (struct handle *on), (on))                                                      \
    CALL(uint32_t, yz_handle_player_create, (struct handle *on), (on))                                                 \
    CALL(void, yz_handle_player_destroy, (struct handle *on), (on))                                                    \
    CALL(uint32_t, yz_handle_play_line,                                                                                \
         (struct handle *on, struct handle *device, const char *text, size_t size, struct line_told *told,             \
          char *answer, size_t room),                                                                                  \
         (on, device, text, size, told, answer, room))

#define ALL_CALLS(CALL)                       \
    RECORDING_CALLS(CALL, yz_handle_device)   \
    RECORDING_CALLS(CALL, yz_handle_context)  \
    OTHER_CALLS(CALL)

#define DECLARED(RESULT, NAME, PARAMETERS, ARGUMENTS) RESULT NAME PARAMETERS;
ALL_CALLS(DECLARED)

#endif
