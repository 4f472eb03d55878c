/*
 * Yuzuratchet by calls: a software Direct3D 11 device that a program drives call by call, and that lives as long as the
 * program wants.
 *
 * A device has a target and an immediate context. Deferred contexts record command lists, which a device executes. What
 * a call means is what Direct3D 11 says of the call of the same name; docs/API.md has both names side by side, and
 * docs/SCRIPT.md the units and the limits.
 *
 * Answers. Each call but a destroy returns YZ_OK or why it was refused. A refused call changes nothing, but that
 * without memory the pending commands may have run; the object stays usable.
 *
 * Memory. It comes from malloc, or from the functions that yuzuratchet_use_memory names. What a call is handed it
 * copies: no call keeps an address of the caller's. A list stays usable when the context that made it is destroyed, and
 * what a device drew when the list is destroyed.
 *
 * Threads. No call starts a thread, waits or locks. An object is in one call at a time: each may be used on any thread,
 * and two threads may use different ones side by side, where the program orders the calls on each by a lock, or by a
 * thread's start or end. So eight threads may record eight contexts while a ninth draws. An execution uses its list:
 * two devices execute the same list one behind the other.
 *
 * What isn't looked for. An object has to come from its create and not be destroyed yet, and a pointer that isn't null
 * has to lead to what its type says, apart from the objects. A library that is installed by `install_library.py
 * --checked`, whose C is compiled with YZ_CHECKED, looks for the first: a call with an object that was destroyed, or
 * that is of another kind, prints its name and ends the process by abort(). Its calls lock, and take longer.
 *
 * Growth. A description begins with its size, so that later versions may have more fields: begin with the macro of its
 * defaults. What stays is said in yuzuratchet.h.
 */
#ifndef YUZURATCHET_DEVICE_H
#define YUZURATCHET_DEVICE_H

#include <stddef.h>
#include <stdint.h>

#include "yuzuratchet.h"

/* A compiler warns where the answer of such a call is thrown away. */
#if defined(__cplusplus) && __cplusplus >= 201703L || defined(__STDC_VERSION__) && __STDC_VERSION__ >= 202311L
#define YZ_MUST_USE [[nodiscard]]
#elif defined(__GNUC__)
#define YZ_MUST_USE __attribute__((warn_unused_result))
#else
#define YZ_MUST_USE
#endif

#ifdef __cplusplus
extern "C" {
#endif

/* A target with its immediate context; a deferred context; a command list, which nothing changes any more. */
typedef struct yz_device yz_device;
typedef struct yz_context yz_context;
typedef struct yz_list yz_list;

/* YZ_OK, or why a call was refused. Up to 20 the numbers are those of the refusals of a script. */
typedef uint32_t yz_result;
enum yz_results {
    YZ_OK = 0,
    YZ_OUT_OF_MEMORY = 1,
    YZ_TARGET_SIZE = 2,
    YZ_VERTEX_RANGE = 3,
    YZ_VERTEX_COUNT = 4,
    YZ_DRAW_RANGE = 5,
    YZ_INDEX_RANGE = 6,
    YZ_TOPOLOGY_UNSET = 7,
    YZ_SCISSOR_RECT = 8,
    YZ_QUERY_OPEN = 9,
    YZ_QUERY_NOT_OPEN = 10,
    YZ_QUERY_NUMBER = 11,
    YZ_QUERY_LEFT_OPEN = 12,
    YZ_LIST_TOO_LONG = 13,
    YZ_TOO_MANY_ISSUES = 14,
    YZ_PIXEL_RANGE = 15,
    YZ_NOT_ISSUED = 17,
    YZ_PREDICATE_IN_LIST = 20,
    /* A choice is none of those that have a name here, or a description has a size that no version of it had. */
    YZ_BAD_DESCRIPTION = 32,
    /* A pointer is null. */
    YZ_NULL_POINTER = 33,
    /* An area is misaligned, is 2^63 bytes or more, runs past the last address, or has no room for the rows. */
    YZ_BAD_AREA = 34,
    /* Of yz_device_history alone: the area has no room for all events. It is as it was. */
    YZ_EVENTS_TOO_SMALL = 35,
    /* What is wrong with a line of a script (docs/SCRIPT.md). */
    YZ_LINE_FORM = 101,
    YZ_ACTOR = 103,
    YZ_COMMAND = 104,
    YZ_ARGUMENT_COUNT = 105,
    YZ_ARGUMENT = 106,
    YZ_NO_SUCH_LIST = 107
};

/* The name of a result, as "YZ_DRAW_RANGE", and a text for people. Neither is ever null. */
const char *yz_result_name(yz_result result);
const char *yz_result_text(yz_result result);

/* A vertex: a place in 1/65,536 pixel, y downwards, a depth from 0 to 16,777,215, and a colour. 16 bytes. */
typedef struct yz_vertex {
    int32_t x, y;
    uint32_t z;
    uint8_t red, green, blue, alpha;
} yz_vertex;

/* The pixels with left <= x < right and top <= y < bottom. */
typedef struct yz_rect {
    uint32_t left, top, right, bottom;
} yz_rect;

/* What a pixel holds. */
typedef struct yz_pixel {
    uint32_t depth;
    uint8_t red, green, blue, alpha;
    uint8_t stencil;
} yz_pixel;

/* Choices, by the numbers of the Direct3D 11 headers. */
enum yz_topology { YZ_TRIANGLE_LIST = 4, YZ_TRIANGLE_STRIP = 5 };
enum yz_cull { YZ_CULL_NONE = 1, YZ_CULL_FRONT = 2, YZ_CULL_BACK = 3 };
enum yz_compare {
    YZ_NEVER = 1,
    YZ_LESS = 2,
    YZ_EQUAL = 3,
    YZ_LESS_EQUAL = 4,
    YZ_GREATER = 5,
    YZ_NOT_EQUAL = 6,
    YZ_GREATER_EQUAL = 7,
    YZ_ALWAYS = 8
};
enum yz_stencil_op {
    YZ_KEEP = 1,
    YZ_ZERO = 2,
    YZ_REPLACE = 3,
    YZ_INCR_SAT = 4,
    YZ_DECR_SAT = 5,
    YZ_INVERT = 6,
    YZ_INCR = 7,
    YZ_DECR = 8
};
enum yz_logic_op {
    YZ_LOGIC_CLEAR = 0,
    YZ_LOGIC_SET = 1,
    YZ_LOGIC_COPY = 2,
    YZ_LOGIC_COPY_INVERTED = 3,
    YZ_LOGIC_NOOP = 4,
    YZ_LOGIC_INVERT = 5,
    YZ_LOGIC_AND = 6,
    YZ_LOGIC_NAND = 7,
    YZ_LOGIC_OR = 8,
    YZ_LOGIC_NOR = 9,
    YZ_LOGIC_XOR = 10,
    YZ_LOGIC_EQUIV = 11,
    YZ_LOGIC_AND_REVERSE = 12,
    YZ_LOGIC_AND_INVERTED = 13,
    YZ_LOGIC_OR_REVERSE = 14,
    YZ_LOGIC_OR_INVERTED = 15
};

/* What is read of each pixel: four bytes of colour, its depth as a uint32_t, or its stencil as a byte. */
enum yz_plane { YZ_PLANE_RGBA8 = 0, YZ_PLANE_BGRA8 = 1, YZ_PLANE_DEPTH32 = 2, YZ_PLANE_STENCIL8 = 3 };

/* A target's size, in pixels: 1 to 4,096 each way. */
typedef struct yz_device_desc {
    size_t struct_size;
    uint32_t width, height;
} yz_device_desc;
#define YZ_DEVICE_DESC(width, height) {sizeof(yz_device_desc), (width), (height)}

/* A rasterizer state: an enum yz_cull, and switches, which are on but at 0. The bias is in steps of depth. */
typedef struct yz_raster_desc {
    size_t struct_size;
    uint32_t cull;
    uint32_t front_counter_clockwise;
    uint32_t scissor;
    int32_t depth_bias;
} yz_raster_desc;
#define YZ_RASTER_DESC_DEFAULT {sizeof(yz_raster_desc), YZ_CULL_BACK, 0, 0, 0}

/* What is done to the stencil by triangles that face one way: three of enum yz_stencil_op, and an enum yz_compare. */
typedef struct yz_face_desc {
    uint32_t fail, depth_fail, pass, compare;
} yz_face_desc;

/* A depth-stencil state: switches, an enum yz_compare, both faces and the masks. */
typedef struct yz_depth_stencil_desc {
    size_t struct_size;
    uint32_t depth, write, compare;
    uint32_t stencil;
    yz_face_desc front, back;
    uint8_t read_mask, write_mask;
} yz_depth_stencil_desc;
#define YZ_FACE_DESC_DEFAULT {YZ_KEEP, YZ_KEEP, YZ_KEEP, YZ_ALWAYS}
#define YZ_DEPTH_STENCIL_DESC_DEFAULT \
    {sizeof(yz_depth_stencil_desc), 1, 1, YZ_LESS, 0, YZ_FACE_DESC_DEFAULT, YZ_FACE_DESC_DEFAULT, 255, 255}

/* A blend state: whether the logic operation is done, which it is, and the channels that are written: 1 red, 2 green, 4
 * blue, 8 alpha. */
typedef struct yz_blend_desc {
    size_t struct_size;
    uint32_t logic, op;
    uint32_t channels;
} yz_blend_desc;
#define YZ_BLEND_DESC_DEFAULT {sizeof(yz_blend_desc), 0, YZ_LOGIC_NOOP, 15}

/* ---- objects. A create writes `*out` where it returns YZ_OK, and else leaves it; it begins in the default state. A
 * destroy gives an object's memory back; it takes null, and then does nothing. */

/* Refused with TARGET_SIZE, OUT_OF_MEMORY. The target is black, transparent, farthest, of stencil 0. */
YZ_MUST_USE yz_result yz_device_create(const yz_device_desc *desc, yz_device **out);
void yz_device_destroy(yz_device *device);

/* Refused with OUT_OF_MEMORY. */
YZ_MUST_USE yz_result yz_context_create(yz_context **out);
void yz_context_destroy(yz_context *context);

/* The list that a context has recorded. The context begins the next one, in its state where `keep` isn't 0, else in the
 * default state. Refused with QUERY_LEFT_OPEN, OUT_OF_MEMORY. */
YZ_MUST_USE yz_result yz_context_finish(yz_context *context, int keep, yz_list **out);
void yz_list_destroy(yz_list *list);

/* ---- what a device runs and tells */

/* Executes a list, which begins in the default state. The device goes on in its own state where `keep` isn't 0, else in
 * the default state. The list may be executed again. It may run at the call, or before what asks for what it leaves.
 * Refused with QUERY_OPEN, OUT_OF_MEMORY. */
yz_result yz_device_execute(yz_device *device, yz_list *list, int keep);

/* Runs all that is pending. Refused with QUERY_OPEN, OUT_OF_MEMORY. */
yz_result yz_device_flush(yz_device *device);

/* The count of the last issue of a query: pixels that passed. Refused with QUERY_NUMBER, QUERY_OPEN, NOT_ISSUED,
 * OUT_OF_MEMORY. */
YZ_MUST_USE yz_result yz_device_get_data(yz_device *device, uint32_t query, uint64_t *count);

/* What a pixel holds. Refused with PIXEL_RANGE, QUERY_OPEN, OUT_OF_MEMORY. */
YZ_MUST_USE yz_result yz_device_pixel(yz_device *device, uint32_t x, uint32_t y, yz_pixel *pixel);

/* The pixels of a rectangle, into `size` bytes, in rows that begin `stride` bytes apart. A row of depths is aligned as
 * a uint32_t. What lies between and behind the rows is as it was, and all of it where the call is refused: with
 * BAD_AREA, PIXEL_RANGE, QUERY_OPEN, OUT_OF_MEMORY. An empty rectangle is a flush. */
YZ_MUST_USE yz_result yz_device_read(yz_device *device, enum yz_plane plane, const yz_rect *rect, void *bytes,
                                     size_t size, size_t stride);

/* The history of a pixel under the pending commands, which run none: what each clear and triangle that touches the pixel
 * found and left there, from what it holds before them. A call that runs or executes leaves none of them pending.
 * `count` is how many events there are; where `room` is for all, they go to the front of `events`, which may be null
 * where `room` is 0. An event has line 0; `item` counts what is pending, and so does `command`, of which a state that is
 * kept is the first. Refused with PIXEL_RANGE, QUERY_OPEN, OUT_OF_MEMORY, and EVENTS_TOO_SMALL, with the count told. */
YZ_MUST_USE yz_result yz_device_history(yz_device *device, uint32_t x, uint32_t y, struct yuzuratchet_event *events,
                                        size_t room, uint64_t *count);

/* ---- a script, line by line */

/* What was played: so many bytes and lines, and the last one's answer line, if it asked, with its line feed. */
enum { YZ_ANSWER_ROOM = 176 };
typedef struct yz_played {
    size_t size, lines;
    size_t answer_size;
    char answer[YZ_ANSWER_ROOM];
} yz_played;

/* Plays lines of a script, as they stand behind its `target` line, up to the first that answers: go on behind these.
 * Lines of `i` are calls of the device, those of `d0` to `d7` of contexts that the device keeps for scripts, with the
 * lists that they finish. A line that has a fault or is refused ends the call with its number: `played` has the lines
 * before it, it changed nothing, and the next ones may be played. */
YZ_MUST_USE yz_result yz_play(yz_device *device, const char *lines, size_t size, yz_played *played);

/* ---- calls that record, on a device's immediate context. Each may be refused with LIST_TOO_LONG, OUT_OF_MEMORY. */

/* Refused with VERTEX_COUNT, VERTEX_RANGE. */
yz_result yz_device_set_vertices(yz_device *device, const yz_vertex *vertices, size_t count);
/* Refused with VERTEX_COUNT. */
yz_result yz_device_set_indices(yz_device *device, const uint16_t *indices, size_t count);
yz_result yz_device_set_topology(yz_device *device, enum yz_topology topology);
yz_result yz_device_set_raster(yz_device *device, const yz_raster_desc *desc);
/* Refused with SCISSOR_RECT. */
yz_result yz_device_set_scissor(yz_device *device, const yz_rect *rect);
yz_result yz_device_set_depth_stencil(yz_device *device, const yz_depth_stencil_desc *desc, uint8_t reference);
yz_result yz_device_set_blend(yz_device *device, const yz_blend_desc *desc);
/* From now on draws and clears are left out where a query's result, whether anything passed, is `value` (0 or not), as
 * SetPredication has it; without a predicate all are done again. Refused with QUERY_NUMBER, PREDICATE_IN_LIST. */
yz_result yz_device_set_predication(yz_device *device, uint32_t query, int value);
yz_result yz_device_clear_predication(yz_device *device);
/* Refused with TOPOLOGY_UNSET, DRAW_RANGE. */
yz_result yz_device_draw(yz_device *device, uint32_t count, uint32_t start);
/* Refused with TOPOLOGY_UNSET, DRAW_RANGE, INDEX_RANGE. */
yz_result yz_device_draw_indexed(yz_device *device, uint32_t count, uint32_t start, int32_t base);
yz_result yz_device_clear_color(yz_device *device, uint8_t red, uint8_t green, uint8_t blue, uint8_t alpha);
/* Refused with VERTEX_RANGE. */
yz_result yz_device_clear_depth_stencil(yz_device *device, uint32_t depth, uint8_t stencil);
/* An issue of a query, 0 to 63. Refused with QUERY_NUMBER, QUERY_OPEN, TOO_MANY_ISSUES, PREDICATE_IN_LIST. */
yz_result yz_device_begin(yz_device *device, uint32_t query);
/* Refused with QUERY_NUMBER, QUERY_NOT_OPEN. */
yz_result yz_device_end(yz_device *device, uint32_t query);

/* ---- the same calls on a deferred context */

yz_result yz_context_set_vertices(yz_context *context, const yz_vertex *vertices, size_t count);
yz_result yz_context_set_indices(yz_context *context, const uint16_t *indices, size_t count);
yz_result yz_context_set_topology(yz_context *context, enum yz_topology topology);
yz_result yz_context_set_raster(yz_context *context, const yz_raster_desc *desc);
yz_result yz_context_set_scissor(yz_context *context, const yz_rect *rect);
yz_result yz_context_set_depth_stencil(yz_context *context, const yz_depth_stencil_desc *desc, uint8_t reference);
yz_result yz_context_set_blend(yz_context *context, const yz_blend_desc *desc);
yz_result yz_context_set_predication(yz_context *context, uint32_t query, int value);
yz_result yz_context_clear_predication(yz_context *context);
yz_result yz_context_draw(yz_context *context, uint32_t count, uint32_t start);
yz_result yz_context_draw_indexed(yz_context *context, uint32_t count, uint32_t start, int32_t base);
yz_result yz_context_clear_color(yz_context *context, uint8_t red, uint8_t green, uint8_t blue, uint8_t alpha);
yz_result yz_context_clear_depth_stencil(yz_context *context, uint32_t depth, uint8_t stencil);
yz_result yz_context_begin(yz_context *context, uint32_t query);
yz_result yz_context_end(yz_context *context, uint32_t query);

#ifdef __cplusplus
}
#endif

#endif
