/*
 * What lies between C and the functions that are proved. These require that a handle holds something, and that what
 * they are lent is there, aligned and apart. Null pointers, alignment and room for rows are looked at here, and all
 * else there.
 */
#include "yuzuratchet_device.h"

#include "live_objects.h"

_Static_assert(sizeof(yz_vertex) == 16 && _Alignof(yz_vertex) == 4, "a vertex has no gaps");
_Static_assert(sizeof(yz_pixel) == 12 && _Alignof(yz_pixel) == 4, "a pixel is as the proved functions have it");
_Static_assert(sizeof(struct yuzuratchet_event) == 48 && _Alignof(struct yuzuratchet_event) == 8, "so is an event");
_Static_assert(sizeof(struct depth_stencil) == 52, "a description is as the proved functions have it");
_Static_assert(sizeof(size_t) == 8 && sizeof(void *) == 8, "sizes and addresses have 64 bits");

/* The memory of the proved functions, of which the objects' own blocks come too. */
struct tried {
    bool ok;
    void *at;
};
struct tried rattle_alloc(size_t size, size_t align);
void rattle_dealloc(void *block);

/* Where a slice of nothing lies. */
static const yz_vertex no_vertex;
static const uint16_t no_index;
static struct yuzuratchet_event no_event;

static bool is_area(const void *at, size_t count, size_t each, size_t align) {
    const uintptr_t address = (uintptr_t)at;
    return address % align == 0 && count <= (SIZE_MAX >> 1) / each && address <= UINTPTR_MAX - count * each;
}

/* ---- objects */

/* A block for an object, whose handle holds nothing, or null. */
static void *object_block(size_t size) {
    const struct tried block = rattle_alloc(size, _Alignof(max_align_t));
    if (!block.ok) return NULL;
    ((struct handle *)block.at)->at = NULL;
    return block.at;
}

yz_result yz_device_create(const yz_device_desc *desc, yz_device **out) {
    if (desc == NULL || out == NULL) return YZ_NULL_POINTER;
    if (desc->struct_size != sizeof *desc) return YZ_BAD_DESCRIPTION;
    yz_device *const made = object_block(sizeof *made);
    if (made == NULL) return YZ_OUT_OF_MEMORY;
    const yz_result result = yz_handle_device_create(HANDLE(made), desc->width, desc->height);
    if (result != YZ_OK) return rattle_dealloc(made), result;
    made->player.at = NULL;
    NOTE(made, DEVICE);
    *out = made;
    return YZ_OK;
}

yz_result yz_context_create(yz_context **out) {
    if (out == NULL) return YZ_NULL_POINTER;
    yz_context *const made = object_block(sizeof *made);
    if (made == NULL) return YZ_OUT_OF_MEMORY;
    const yz_result result = yz_handle_context_create(HANDLE(made));
    if (result != YZ_OK) return rattle_dealloc(made), result;
    NOTE(made, CONTEXT);
    *out = made;
    return YZ_OK;
}

yz_result yz_context_finish(yz_context *context, int keep, yz_list **out) {
    ENTER(context, CONTEXT);
    if (out == NULL) return YZ_NULL_POINTER;
    yz_list *const made = object_block(sizeof *made);
    if (made == NULL) return YZ_OUT_OF_MEMORY;
    const yz_result result = yz_handle_context_finish(HANDLE(context), keep != 0, HANDLE(made));
    if (result != YZ_OK) return rattle_dealloc(made), result;
    NOTE(made, LIST);
    *out = made;
    return YZ_OK;
}

void yz_device_destroy(yz_device *device) {
    if (device == NULL) return;
    FORGET(device, DEVICE);
    yz_handle_device_destroy(HANDLE(device));
    if (device->player.at != NULL) yz_handle_player_destroy(&device->player);
    rattle_dealloc(device);
}

void yz_context_destroy(yz_context *context) {
    if (context == NULL) return;
    FORGET(context, CONTEXT);
    yz_handle_context_destroy(HANDLE(context));
    rattle_dealloc(context);
}

void yz_list_destroy(yz_list *list) {
    if (list == NULL) return;
    FORGET(list, LIST);
    yz_handle_list_destroy(HANDLE(list));
    rattle_dealloc(list);
}

/* ---- what a device runs and tells */

yz_result yz_device_execute(yz_device *device, yz_list *list, int keep) {
    ENTER(device, DEVICE);
    ENTER(list, LIST);
    return yz_handle_device_execute(HANDLE(device), HANDLE(list), keep != 0);
}

yz_result yz_device_flush(yz_device *device) {
    ENTER(device, DEVICE);
    return yz_handle_device_flush(HANDLE(device));
}

yz_result yz_device_get_data(yz_device *device, uint32_t query, uint64_t *count) {
    ENTER(device, DEVICE);
    if (count == NULL) return YZ_NULL_POINTER;
    return yz_handle_device_get_data(HANDLE(device), query, count);
}

yz_result yz_device_pixel(yz_device *device, uint32_t x, uint32_t y, yz_pixel *pixel) {
    ENTER(device, DEVICE);
    if (pixel == NULL) return YZ_NULL_POINTER;
    return yz_handle_device_pixel(HANDLE(device), x, y, pixel);
}

yz_result yz_device_history(yz_device *device, uint32_t x, uint32_t y, struct yuzuratchet_event *events, size_t room,
                            uint64_t *count) {
    ENTER(device, DEVICE);
    if (count == NULL || (events == NULL && room != 0)) return YZ_NULL_POINTER;
    if (!is_area(events, room, sizeof *events, _Alignof(struct yuzuratchet_event))) return YZ_BAD_AREA;
    struct yuzuratchet_event *const at = room == 0 ? &no_event : events;
    const yz_result result = yz_handle_device_history(HANDLE(device), x, y, at, room, count);
    return result == YZ_OK && *count > room ? YZ_EVENTS_TOO_SMALL : result;
}

static yz_result read_row(struct handle *device, enum yz_plane plane, uint32_t y, uint32_t left, void *row,
                          size_t pixels) {
    switch (plane) {
        case YZ_PLANE_DEPTH32: return yz_handle_device_read_depths(device, y, left, row, pixels);
        case YZ_PLANE_STENCIL8: return yz_handle_device_read_stencils(device, y, left, row, pixels);
        default: return yz_handle_device_read_colors(device, y, left, plane == YZ_PLANE_BGRA8, row, pixels);
    }
}

/* The last row comes first: where it is refused nothing was written; where it is taken nothing is pending any more, and
 * the others are inside too. */
yz_result yz_device_read(yz_device *device, enum yz_plane plane, const yz_rect *rect, void *bytes, size_t size,
                         size_t stride) {
    ENTER(device, DEVICE);
    if (rect == NULL || bytes == NULL) return YZ_NULL_POINTER;
    if ((uint32_t)plane > YZ_PLANE_STENCIL8) return YZ_BAD_DESCRIPTION;
    if (rect->left > rect->right || rect->top > rect->bottom) return YZ_PIXEL_RANGE;
    const size_t pixels = rect->right - rect->left, rows = rect->bottom - rect->top;
    const size_t row = pixels * (plane == YZ_PLANE_STENCIL8 ? 1 : 4), align = plane == YZ_PLANE_DEPTH32 ? 4 : 1;
    if (row == 0 || rows == 0) return yz_handle_device_flush(HANDLE(device));
    if (!is_area(bytes, size, 1, align) || stride % align != 0) return YZ_BAD_AREA;
    if (stride < row || size < row || (size - row) / stride < rows - 1) return YZ_BAD_AREA;
    for (size_t y = rows; y-- > 0;) {
        uint8_t *const at = (uint8_t *)bytes + y * stride;
        const yz_result result = read_row(HANDLE(device), plane, rect->top + (uint32_t)y, rect->left, at, pixels);
        if (result != YZ_OK) return result;
    }
    return YZ_OK;
}

/* ---- a script, line by line */

yz_result yz_play(yz_device *device, const char *lines, size_t size, yz_played *played) {
    ENTER(device, DEVICE);
    if (played == NULL || (lines == NULL && size != 0)) return YZ_NULL_POINTER;
    if (!is_area(lines, size, 1, 1)) return YZ_BAD_AREA;
    played->size = played->lines = played->answer_size = 0;
    if (device->player.at == NULL) {
        const yz_result made = yz_handle_player_create(&device->player);
        if (made != YZ_OK) return made;
    }
    while (played->size < size && played->answer_size == 0) {
        struct line_told told;
        const yz_result result = yz_handle_play_line(&device->player, HANDLE(device), lines + played->size,
                                                     size - played->size, &told, played->answer, YZ_ANSWER_ROOM);
        if (result != YZ_OK) return result;
        played->size += told.taken, played->lines++, played->answer_size = told.answer;
    }
    return YZ_OK;
}

/* ---- calls that record */

#define OBJECT yz_device
#define KIND DEVICE
#define CALL(name) yz_device_##name
#define PROVED(name) yz_handle_device_##name
#include "recording.inc"
#undef OBJECT
#undef KIND
#undef CALL
#undef PROVED

#define OBJECT yz_context
#define KIND CONTEXT
#define CALL(name) yz_context_##name
#define PROVED(name) yz_handle_context_##name
#include "recording.inc"

/* ---- results */

const char *yz_result_name(yz_result result) {
    static const char *const names[] = {
#define NAME(result) [result] = #result
        NAME(YZ_OK), NAME(YZ_OUT_OF_MEMORY), NAME(YZ_TARGET_SIZE), NAME(YZ_VERTEX_RANGE), NAME(YZ_VERTEX_COUNT),
        NAME(YZ_DRAW_RANGE), NAME(YZ_INDEX_RANGE), NAME(YZ_TOPOLOGY_UNSET), NAME(YZ_SCISSOR_RECT), NAME(YZ_QUERY_OPEN),
        NAME(YZ_QUERY_NOT_OPEN), NAME(YZ_QUERY_NUMBER), NAME(YZ_QUERY_LEFT_OPEN), NAME(YZ_LIST_TOO_LONG),
        NAME(YZ_TOO_MANY_ISSUES), NAME(YZ_PIXEL_RANGE), NAME(YZ_NOT_ISSUED), NAME(YZ_PREDICATE_IN_LIST),
        NAME(YZ_BAD_DESCRIPTION), NAME(YZ_NULL_POINTER), NAME(YZ_BAD_AREA), NAME(YZ_EVENTS_TOO_SMALL),
        NAME(YZ_LINE_FORM), NAME(YZ_ACTOR), NAME(YZ_COMMAND), NAME(YZ_ARGUMENT_COUNT), NAME(YZ_ARGUMENT),
        NAME(YZ_NO_SUCH_LIST)
#undef NAME
    };
    const char *const name = result < sizeof names / sizeof *names ? names[result] : NULL;
    return name != NULL ? name : "YZ_UNKNOWN";
}

const char *yz_result_text(yz_result result) {
    switch (result) {
        case YZ_OK: return "the call was taken";
        case YZ_BAD_DESCRIPTION: return "a choice is none, or a description has a size that no version of it had";
        case YZ_NULL_POINTER: return "a pointer is null";
        case YZ_BAD_AREA: return "an area is misaligned, too large or too small";
        case YZ_EVENTS_TOO_SMALL: return "the area has no room for all events";
        default: return yuzuratchet_refusal_text(result);
    }
}
