/*
 * What calls by objects do at their edges: null pointers, bad descriptions and areas, refusals that leave all as it
 * was, histories of pixels, each request for memory refused in turn, and eight threads that record beside one another.
 */
#include <pthread.h>

#include "check.h"
#include "yuzuratchet_device.h"

static const yz_vertex CORNERS[] = {
    {0, 0, 0, 200, 30, 40, 255}, {4194304, 0, 0, 200, 30, 40, 255}, {0, 4194304, 0, 200, 30, 40, 255}};
static const yz_device_desc DESC = YZ_DEVICE_DESC(64, 64);

static yz_device *created(void) {
    yz_device *device = NULL;
    CHECK(yz_device_create(&DESC, &device) == YZ_OK && device != NULL);
    return device;
}

static void creations(void) {
    yz_device *device = NULL;
    CHECK(yz_device_create(NULL, &device) == YZ_NULL_POINTER && yz_device_create(&DESC, NULL) == YZ_NULL_POINTER);
    CHECK(yz_device_create(&(yz_device_desc){8, 64, 64}, &device) == YZ_BAD_DESCRIPTION);
    CHECK(yz_device_create(&(yz_device_desc){sizeof DESC + 8, 64, 64}, &device) == YZ_BAD_DESCRIPTION);
    CHECK(yz_device_create(&(yz_device_desc)YZ_DEVICE_DESC(0, 64), &device) == YZ_TARGET_SIZE);
    CHECK(yz_device_create(&(yz_device_desc)YZ_DEVICE_DESC(4097, 64), &device) == YZ_TARGET_SIZE && device == NULL);
    CHECK(yz_context_create(NULL) == YZ_NULL_POINTER);
    yz_device_destroy(NULL), yz_context_destroy(NULL), yz_list_destroy(NULL);
}

static void descriptions(void) {
    yz_device *const device = created();
    yz_raster_desc raster = YZ_RASTER_DESC_DEFAULT;
    yz_blend_desc blend = YZ_BLEND_DESC_DEFAULT;
    yz_depth_stencil_desc state = YZ_DEPTH_STENCIL_DESC_DEFAULT;
    CHECK(yz_device_set_raster(device, NULL) == YZ_NULL_POINTER);
    CHECK(yz_device_set_blend(device, NULL) == YZ_NULL_POINTER);
    CHECK(yz_device_set_raster(device, &raster) == YZ_OK && yz_device_set_blend(device, &blend) == YZ_OK);
    CHECK(yz_device_set_depth_stencil(device, &state, 0) == YZ_OK);
    raster.cull = 4, blend.channels = 16, state.back.pass = 9;
    CHECK(yz_device_set_raster(device, &raster) == YZ_BAD_DESCRIPTION);
    CHECK(yz_device_set_blend(device, &blend) == YZ_BAD_DESCRIPTION);
    CHECK(yz_device_set_depth_stencil(device, &state, 0) == YZ_BAD_DESCRIPTION);
    blend.channels = 15, blend.op = 16, state.back.pass = YZ_KEEP, state.struct_size--;
    CHECK(yz_device_set_blend(device, &blend) == YZ_BAD_DESCRIPTION);
    CHECK(yz_device_set_depth_stencil(device, &state, 0) == YZ_BAD_DESCRIPTION);
    CHECK(yz_device_set_topology(device, (enum yz_topology)6) == YZ_BAD_DESCRIPTION);
    CHECK(yz_device_draw(device, 3, 0) == YZ_TOPOLOGY_UNSET);
    yz_device_destroy(device);
}

static void areas(void) {
    yz_device *const device = created();
    CHECK(yz_device_set_vertices(device, NULL, 1) == YZ_NULL_POINTER);
    CHECK(yz_device_set_vertices(device, NULL, 0) == YZ_OK && yz_device_set_indices(device, NULL, 0) == YZ_OK);
    CHECK(yz_device_set_vertices(device, CORNERS, SIZE_MAX / 16) == YZ_BAD_AREA);
    CHECK(yz_device_set_indices(device, (const uint16_t *)(uintptr_t)0x1001, 1) == YZ_BAD_AREA);
    CHECK(yz_device_set_scissor(device, &(yz_rect){3, 0, 2, 4}) == YZ_SCISSOR_RECT);
    CHECK(yz_device_pixel(device, 0, 0, NULL) == YZ_NULL_POINTER && yz_device_get_data(device, 0, NULL) != YZ_OK);
    CHECK(yz_device_execute(device, NULL, 0) == YZ_NULL_POINTER && yz_device_draw(NULL, 3, 0) == YZ_NULL_POINTER);
    yz_device_destroy(device);
}

/* Reads of colours: what fits is written, and nothing else. */
static void colours(void) {
    yz_device *const device = created();
    const yz_rect corner = {60, 60, 63, 63}, outside = {62, 60, 65, 63}, turned = {3, 0, 2, 4};
    uint8_t bytes[64];
    memset(bytes, 99, sizeof bytes);
    CHECK(yz_device_clear_color(device, 1, 2, 3, 4) == YZ_OK);
    CHECK(yz_device_read(device, YZ_PLANE_RGBA8, &corner, bytes, 43, 16) == YZ_BAD_AREA);
    CHECK(yz_device_read(device, YZ_PLANE_RGBA8, &corner, bytes, 44, 11) == YZ_BAD_AREA);
    CHECK(yz_device_read(device, YZ_PLANE_RGBA8, &corner, bytes, 44, SIZE_MAX) == YZ_BAD_AREA);
    CHECK(yz_device_read(device, YZ_PLANE_RGBA8, &outside, bytes, 44, 16) == YZ_PIXEL_RANGE);
    CHECK(yz_device_read(device, YZ_PLANE_RGBA8, &turned, bytes, 44, 16) == YZ_PIXEL_RANGE);
    CHECK(yz_device_read(device, (enum yz_plane)4, &corner, bytes, 44, 16) == YZ_BAD_DESCRIPTION);
    CHECK(yz_device_read(device, YZ_PLANE_RGBA8, NULL, bytes, 44, 16) == YZ_NULL_POINTER);
    CHECK(yz_device_read(device, YZ_PLANE_RGBA8, &corner, NULL, 44, 16) == YZ_NULL_POINTER);
    CHECK(all_are(bytes, sizeof bytes, 99));
    CHECK(yz_device_read(device, YZ_PLANE_RGBA8, &corner, bytes, 44, 16) == YZ_OK);
    CHECK(bytes[0] == 1 && bytes[11] == 4 && bytes[12] == 99 && bytes[15] == 99 && bytes[16] == 1);
    CHECK(bytes[43] == 4 && bytes[44] == 99);
    CHECK(yz_device_read(device, YZ_PLANE_BGRA8, &corner, bytes, 44, 16) == YZ_OK);
    CHECK(bytes[0] == 3 && bytes[1] == 2 && bytes[2] == 1 && bytes[3] == 4);
    CHECK(yz_device_read(device, YZ_PLANE_BGRA8, &(yz_rect){5, 5, 5, 9}, bytes, 0, 0) == YZ_OK);
    yz_device_destroy(device);
}

/* Reads of depths and stencils. */
static void depths(void) {
    yz_device *const device = created();
    uint32_t read[8] = {7, 7, 7, 7, 7, 7, 7, 7};
    uint8_t bytes[8];
    const yz_rect corner = {1, 1, 3, 3};
    memset(bytes, 99, sizeof bytes);
    CHECK(yz_device_clear_depth_stencil(device, 12345678, 77) == YZ_OK);
    CHECK(yz_device_read(device, YZ_PLANE_DEPTH32, &corner, (uint8_t *)read + 1, 24, 12) == YZ_BAD_AREA);
    CHECK(yz_device_read(device, YZ_PLANE_DEPTH32, &corner, read, sizeof read, 10) == YZ_BAD_AREA);
    CHECK(read[0] == 7);
    CHECK(yz_device_read(device, YZ_PLANE_DEPTH32, &corner, read, sizeof read, 12) == YZ_OK);
    CHECK(read[0] == 12345678 && read[1] == 12345678 && read[2] == 7 && read[3] == 12345678 && read[4] == 12345678);
    CHECK(read[5] == 7);
    CHECK(yz_device_read(device, YZ_PLANE_STENCIL8, &(yz_rect){1, 62, 3, 65}, bytes, 8, 3) == YZ_PIXEL_RANGE);
    CHECK(all_are(bytes, sizeof bytes, 99));
    CHECK(yz_device_read(device, YZ_PLANE_STENCIL8, &(yz_rect){1, 62, 3, 64}, bytes, 5, 3) == YZ_OK);
    CHECK(bytes[0] == 77 && bytes[1] == 77 && bytes[2] == 99 && bytes[3] == 77 && bytes[4] == 77 && bytes[5] == 99);
    yz_device_destroy(device);
}

/* A refused call leaves objects, areas and results as they were, and the next call is taken. */
static void refusals(void) {
    yz_device *const device = created();
    yz_context *context = NULL;
    yz_list *list = NULL;
    yz_pixel pixel = {.depth = 5};
    uint64_t count = 5;
    CHECK(yz_context_create(&context) == YZ_OK && yz_context_begin(context, 5) == YZ_OK);
    CHECK(yz_context_finish(context, 1, &list) == YZ_QUERY_LEFT_OPEN && list == NULL);
    CHECK(yz_context_end(context, 5) == YZ_OK && yz_context_finish(context, 1, &list) == YZ_OK && list != NULL);
    CHECK(yz_device_begin(device, 64) == YZ_QUERY_NUMBER && yz_device_get_data(device, 0, &count) == YZ_NOT_ISSUED);
    CHECK(yz_device_begin(device, 0) == YZ_OK && yz_device_flush(device) == YZ_QUERY_OPEN);
    CHECK(yz_device_execute(device, list, 1) == YZ_QUERY_OPEN);
    CHECK(yz_device_pixel(device, 0, 0, &pixel) == YZ_QUERY_OPEN);
    CHECK(yz_device_pixel(device, 64, 0, &pixel) == YZ_PIXEL_RANGE && pixel.depth == 5 && count == 5);
    CHECK(yz_device_end(device, 0) == YZ_OK && yz_device_end(device, 0) == YZ_QUERY_NOT_OPEN);
    CHECK(yz_device_execute(device, list, 1) == YZ_OK && yz_device_execute(device, list, 0) == YZ_OK);
    CHECK(yz_device_get_data(device, 5, &count) == YZ_OK && count == 0);
    CHECK(yz_device_pixel(device, 63, 63, &pixel) == YZ_OK && pixel.depth == 16777215 && pixel.alpha == 0);
    yz_list_destroy(list), yz_context_destroy(context), yz_device_destroy(device);
}

/* ---- histories of pixels */

enum { EVENTS = 4 };
static struct yuzuratchet_event events[EVENTS];
static uint64_t count;

/* Asks for the history of a pixel, into events of which each byte is 99; whether the call ends with this result. */
static bool tells(yz_device *device, uint32_t x, uint32_t y, size_t room, yz_result wanted) {
    memset(events, 99, sizeof events);
    return yz_device_history(device, x, y, events, room, &count) == wanted;
}

/* Whether nothing was told behind so many events. */
static bool are_left(size_t from) {
    return all_are((const uint8_t *)(events + from), (EVENTS - from) * sizeof *events, 99);
}

/* A clear, and the same triangle twice: the second is hidden. What is pending runs none for a history. */
static void pending(yz_device *device) {
    static const struct yuzuratchet_event told[] = {
        {0, 0, 0, 0, 16777215, 16777215, {0, 0, 0, 0}, {1, 2, 3, 4}, 0, 0, 1, 1, 1},
        {1, 0, 3, 0, 16777215, 0, {1, 2, 3, 4}, {200, 30, 40, 255}, 0, 0, 1, 1, 1},
        {2, 0, 4, 0, 0, 0, {200, 30, 40, 255}, {200, 30, 40, 255}, 0, 0, 1, 0, 0}};
    CHECK(yz_device_clear_color(device, 1, 2, 3, 4) == YZ_OK);
    CHECK(yz_device_set_topology(device, YZ_TRIANGLE_LIST) == YZ_OK);
    CHECK(yz_device_set_vertices(device, CORNERS, 3) == YZ_OK);
    CHECK(yz_device_draw(device, 3, 0) == YZ_OK && yz_device_draw(device, 3, 0) == YZ_OK);
    for (int again = 0; again < 2; again++) {
        CHECK(tells(device, 31, 31, EVENTS, YZ_OK) && count == 3 && are_left(3));
        CHECK(memcmp(events, told, sizeof told) == 0);
        CHECK(tells(device, 31, 32, EVENTS, YZ_OK) && count == 1 && are_left(1));
        CHECK(memcmp(events, told, sizeof *told) == 0);
    }
    CHECK(tells(device, 31, 31, 3, YZ_OK) && count == 3 && memcmp(events, told, sizeof told) == 0 && are_left(3));
    CHECK(tells(device, 31, 31, 2, YZ_EVENTS_TOO_SMALL) && count == 3 && are_left(0));
    CHECK(yz_device_history(device, 31, 31, NULL, 0, &count) == YZ_EVENTS_TOO_SMALL && count == 3);
}

/* What was executed lies before what is pending, whether it has run or waits; the kept state is the first command. */
static void behind_an_execution(yz_device *device) {
    yz_context *context = NULL;
    yz_list *list = NULL;
    CHECK(yz_context_create(&context) == YZ_OK && yz_context_clear_depth_stencil(context, 77, 5) == YZ_OK);
    CHECK(yz_context_finish(context, 0, &list) == YZ_OK && yz_device_execute(device, list, 1) == YZ_OK);
    CHECK(tells(device, 31, 31, EVENTS, YZ_OK) && count == 0 && are_left(0));
    CHECK(yz_device_history(device, 31, 31, NULL, 0, &count) == YZ_OK && count == 0);
    CHECK(yz_device_clear_color(device, 9, 8, 7, 6) == YZ_OK && yz_device_draw(device, 3, 0) == YZ_OK);
    static const struct yuzuratchet_event told[] = {
        {0, 0, 1, 0, 77, 77, {200, 30, 40, 255}, {9, 8, 7, 6}, 5, 5, 1, 1, 1},
        {1, 0, 2, 0, 77, 0, {9, 8, 7, 6}, {200, 30, 40, 255}, 5, 5, 1, 1, 1}};
    CHECK(tells(device, 31, 31, EVENTS, YZ_OK) && count == 2 && are_left(2));
    CHECK(memcmp(events, told, sizeof told) == 0);
    CHECK(yz_device_flush(device) == YZ_OK && tells(device, 31, 31, EVENTS, YZ_OK) && count == 0);
    yz_list_destroy(list), yz_context_destroy(context);
}

static void histories(void) {
    yz_device *const device = created();
    CHECK(tells(device, 0, 0, EVENTS, YZ_OK) && count == 0 && are_left(0));
    pending(device), behind_an_execution(device);
    count = 5;
    CHECK(tells(device, 64, 0, EVENTS, YZ_PIXEL_RANGE) && tells(device, 0, 64, EVENTS, YZ_PIXEL_RANGE));
    CHECK(yz_device_begin(device, 0) == YZ_OK && tells(device, 0, 0, EVENTS, YZ_QUERY_OPEN));
    CHECK(yz_device_history(device, 0, 0, NULL, 1, &count) == YZ_NULL_POINTER);
    CHECK(yz_device_history(device, 0, 0, events, EVENTS, NULL) == YZ_NULL_POINTER);
    CHECK(yz_device_history(NULL, 0, 0, events, EVENTS, &count) == YZ_NULL_POINTER);
    CHECK(tells(device, 0, 0, SIZE_MAX / sizeof *events, YZ_BAD_AREA));
    CHECK(yz_device_history(device, 0, 0, (void *)((uint8_t *)events + 4), 1, &count) == YZ_BAD_AREA);
    CHECK(count == 5 && are_left(0));
    yz_device_destroy(device);
}

/* ---- lines of a script */

static yz_played played;

/* Plays some lines; whether the last call ended with this result, behind so many lines. */
static bool plays(yz_device *device, const char *lines, yz_result wanted, size_t count) {
    const yz_result result = yz_play(device, lines, strlen(lines), &played);
    return result == wanted && played.lines == count;
}

static bool answers(const char *line) {
    return played.answer_size == strlen(line) && memcmp(played.answer, line, played.answer_size) == 0;
}

/* Contexts and lists stay from call to call, and refused lines leave them as they were. */
static void lines_stay(void) {
    yz_device *const device = created();
    CHECK(plays(device, "d3 clearc 9 8 7 6\n", YZ_OK, 1) && plays(device, "d3 begin 5\nd3 finish 0\n", 12, 1));
    CHECK(plays(device, "d3 end 5\nd3 finish 1\nd3 end 5\n", YZ_QUERY_NOT_OPEN, 2));
    CHECK(plays(device, "i exec d4 0 0\n", YZ_NO_SUCH_LIST, 0) && plays(device, "i exec d3 1 0\n", YZ_NO_SUCH_LIST, 0));
    CHECK(plays(device, "i exec d3 0 1\ni exec d3 0 0\ni pixel 1 2\ni pixel 3 4\n", YZ_OK, 3));
    CHECK(answers("pixel 1 2 9 8 7 6 16777215 0\n"));
    CHECK(plays(device, "i begin 1\ni pixel 1 2\n", YZ_QUERY_OPEN, 1) && answers(""));
    CHECK(yz_device_clear_color(device, 1, 1, 1, 1) == YZ_OK && plays(device, "i end 1\ni query 1\n", YZ_OK, 2));
    CHECK(answers("query 1 0\n") && plays(device, "i pixel 0 0\n", YZ_OK, 1));
    CHECK(answers("pixel 0 0 1 1 1 1 16777215 0\n"));
    yz_device_destroy(device);
}

static void lines_of_nothing(void) {
    yz_device *const device = created();
    CHECK(yz_play(NULL, "", 0, &played) == YZ_NULL_POINTER && yz_play(device, NULL, 1, &played) == YZ_NULL_POINTER);
    CHECK(yz_play(device, "", 0, NULL) == YZ_NULL_POINTER && yz_play(device, "i", SIZE_MAX, &played) == YZ_BAD_AREA);
    CHECK(yz_play(device, NULL, 0, &played) == YZ_OK && played.size == 0 && plays(device, "\n", YZ_LINE_FORM, 0));
    CHECK(strcmp(yz_result_name(YZ_NO_SUCH_LIST), "YZ_NO_SUCH_LIST") == 0);
    yz_device_destroy(device);
}

static void results(void) {
    CHECK(strcmp(yz_result_name(YZ_OK), "YZ_OK") == 0 && strcmp(yz_result_name(YZ_BAD_AREA), "YZ_BAD_AREA") == 0);
    CHECK(strcmp(yz_result_name(16), "YZ_UNKNOWN") == 0 && strcmp(yz_result_name(UINT32_MAX), "YZ_UNKNOWN") == 0);
    CHECK(strcmp(yz_result_text(YZ_TOPOLOGY_UNSET), yuzuratchet_refusal_text(7)) == 0);
    for (yz_result result = 0; result < 40; result++) CHECK(yz_result_text(result)[0] != '\0');
}

/* ---- memory */

static size_t asked, refused_at, held;

static void *take(size_t size) {
    if (asked++ == refused_at) return NULL;
    held++;
    return malloc(size);
}

static void *resize(void *block, size_t size) { return asked++ == refused_at ? NULL : realloc(block, size); }

static void give(void *block) {
    held--;
    free(block);
}

/* Records a list, of which each call may be refused; whether all were taken. */
static bool is_recorded(yz_context *context, yz_list **list) {
    return yz_context_set_vertices(context, CORNERS, 3) == YZ_OK &&
           yz_context_set_topology(context, YZ_TRIANGLE_LIST) == YZ_OK && yz_context_begin(context, 1) == YZ_OK &&
           yz_context_draw(context, 3, 0) == YZ_OK && yz_context_end(context, 1) == YZ_OK &&
           yz_context_finish(context, 1, list) == YZ_OK && yz_context_draw(context, 3, 0) == YZ_OK;
}

/* A picture by a list; whether each call was taken. */
static bool is_pictured(void) {
    yz_device *device = NULL;
    yz_context *context = NULL;
    yz_list *list = NULL;
    yz_pixel pixel = {0};
    uint64_t count = 0;
    bool all = yz_device_create(&DESC, &device) == YZ_OK && yz_context_create(&context) == YZ_OK;
    all = all && is_recorded(context, &list) && yz_device_clear_color(device, 0, 0, 9, 255) == YZ_OK;
    all = all && yz_device_execute(device, list, 1) == YZ_OK && yz_device_get_data(device, 1, &count) == YZ_OK;
    all = all && yz_device_pixel(device, 5, 5, &pixel) == YZ_OK;
    if (all) CHECK(pixel.red == 200 && count == 2016);
    yz_device_destroy(device), yz_context_destroy(context), yz_list_destroy(list);
    return all;
}

/* The same by lines of a script: one that memory is refused for is played once more, and goes on from what was. */
static bool is_played(void) {
    static const char script[] =
        "d2 vb 0 0 0 200 30 40 255 4194304 0 0 200 30 40 255 0 4194304 0 200 30 40 255\nd2 topology 4\nd2 begin 1\n"
        "d2 draw 3 0\nd2 end 1\nd2 finish 1\nd2 draw 3 0\ni clearc 0 0 9 255\ni exec d2 0 1\ni query 1\n"
        "d2 finish 0\ni exec d2 1 0\ni pixel 5 5\n";
    yz_device *device = NULL;
    bool all = yz_device_create(&DESC, &device) == YZ_OK, counted = false;
    for (const char *at = script; device != NULL && *at != '\0'; at += played.size) {
        const yz_result result = yz_play(device, at, strlen(at), &played);
        all = all && result == YZ_OK;
        CHECK(result == YZ_OK || (result == YZ_OUT_OF_MEMORY && played.answer_size == 0));
        counted = counted || answers("query 1 2016\n");
    }
    CHECK(device == NULL || (counted && answers("pixel 5 5 200 30 40 255 0 0\n")));
    yz_device_destroy(device);
    return all;
}

static void memory(bool (*draws)(void)) {
    yuzuratchet_use_memory(&(struct yuzuratchet_memory){take, resize, give});
    size_t refusals = 0;
    for (bool done = false; !done; refusals++) {
        asked = 0, refused_at = refusals;
        const bool all = draws();
        done = all && asked <= refused_at; /* some requests are for room that may be done without */
        CHECK(held == 0 && refusals < 1000);
    }
    CHECK(refusals > 10);
    yuzuratchet_use_memory(NULL);
}

/* ---- threads */

static yz_context *contexts[8];
static yz_list *lists[8];

static void *record(void *which) {
    const uint32_t i = (uint32_t)(uintptr_t)which;
    yz_context *const context = contexts[i];
    for (int k = 0; k < 50; k++) {
        CHECK(yz_context_set_vertices(context, CORNERS, 3) == YZ_OK);
        CHECK(yz_context_set_topology(context, YZ_TRIANGLE_LIST) == YZ_OK && yz_context_begin(context, i) == YZ_OK);
        CHECK(yz_context_draw(context, 3, 0) == YZ_OK && yz_context_end(context, i) == YZ_OK);
        yz_list_destroy(lists[i]);
        CHECK(yz_context_finish(context, k % 2, &lists[i]) == YZ_OK);
    }
    return NULL;
}

static void threads(void) {
    pthread_t started[8];
    yz_device *const device = created();
    uint64_t count;
    for (uintptr_t i = 0; i < 8; i++) {
        CHECK(yz_context_create(&contexts[i]) == YZ_OK);
        CHECK(pthread_create(&started[i], NULL, record, (void *)i) == 0);
    }
    for (int i = 0; i < 8; i++) CHECK(pthread_join(started[i], NULL) == 0);
    for (uint32_t i = 0; i < 8; i++) {
        CHECK(yz_device_clear_depth_stencil(device, 16777215, 0) == YZ_OK);
        CHECK(yz_device_execute(device, lists[i], 1) == YZ_OK);
        CHECK(yz_device_get_data(device, i, &count) == YZ_OK && count == 2016);
        yz_context_destroy(contexts[i]), yz_list_destroy(lists[i]);
    }
    yz_device_destroy(device);
}

int main(void) {
    creations();
    descriptions();
    areas();
    colours();
    depths();
    refusals();
    histories();
    lines_stay();
    lines_of_nothing();
    results();
    memory(is_pictured);
    memory(is_played);
    threads();
    return 0;
}
