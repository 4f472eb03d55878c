/*
 * What a frame costs on a device that stays: `frames [FRAMES]` clears a target of 64 by 64 pixels, draws 100 triangles,
 * executes a list that a deferred context records, asks for a count, has a call refused and reads the image. It prints
 * the microseconds of processor time of a frame, and by how many kilobytes the process grew behind the first tenth of
 * them. What the library holds then are no more blocks and bytes behind any frame.
 */
#define _DEFAULT_SOURCE
#include <malloc.h>
#include <sys/resource.h>
#include <time.h>

#include "check.h"
#include "yuzuratchet_device.h"

enum { SIDE = 64, TRIANGLES = 100 };

/* What the library holds: blocks, and their bytes. */
static struct {
    long blocks, bytes;
} held;

static void *counted(void *block) {
    if (block != NULL) held.blocks++, held.bytes += (long)malloc_usable_size(block);
    return block;
}

static void uncount(void *block) {
    if (block != NULL) held.blocks--, held.bytes -= (long)malloc_usable_size(block);
}

static void *take(size_t size) { return counted(malloc(size)); }

static void *resize(void *block, size_t size) {
    uncount(block);
    void *const other = realloc(block, size);
    return counted(other != NULL ? other : block) == other ? other : NULL;
}

static void give(void *block) {
    uncount(block);
    free(block);
}

static void set_triangles(yz_vertex *vertices) {
    for (int i = 0; i < 3 * TRIANGLES; i++) {
        const int at = i / 3, corner = i % 3;
        vertices[i].x = 65536 * (at % 10 * 6 + (corner == 1 ? 8 : 0));
        vertices[i].y = 65536 * (at / 10 * 6 + (corner == 2 ? 8 : 0));
        vertices[i].z = (uint32_t)(1000 * at);
        vertices[i].red = (uint8_t)(2 * at), vertices[i].green = 100, vertices[i].blue = 50, vertices[i].alpha = 255;
    }
}

/* A list that counts the pixels of the first triangle. */
static yz_list *recorded(yz_context *context, const yz_vertex *vertices) {
    yz_list *list;
    CHECK(yz_context_set_vertices(context, vertices, 3) == YZ_OK);
    CHECK(yz_context_set_topology(context, YZ_TRIANGLE_LIST) == YZ_OK && yz_context_begin(context, 0) == YZ_OK);
    CHECK(yz_context_draw(context, 3, 0) == YZ_OK && yz_context_end(context, 0) == YZ_OK);
    CHECK(yz_context_finish(context, 0, &list) == YZ_OK);
    return list;
}

static void draw_frame(yz_device *device, yz_context *context, const yz_vertex *vertices, uint8_t *image) {
    const yz_rect all = {0, 0, SIDE, SIDE};
    uint64_t count;
    yz_list *const list = recorded(context, vertices);
    CHECK(yz_device_clear_color(device, 0, 0, 64, 255) == YZ_OK);
    CHECK(yz_device_clear_depth_stencil(device, 16777215, 0) == YZ_OK);
    CHECK(yz_device_execute(device, list, 1) == YZ_OK);
    yz_list_destroy(list);
    CHECK(yz_device_set_vertices(device, vertices, 3 * TRIANGLES) == YZ_OK);
    CHECK(yz_device_set_topology(device, YZ_TRIANGLE_LIST) == YZ_OK);
    CHECK(yz_device_draw(device, 3 * TRIANGLES, 1) == YZ_DRAW_RANGE);
    CHECK(yz_device_draw(device, 3 * TRIANGLES, 0) == YZ_OK);
    CHECK(yz_device_get_data(device, 0, &count) == YZ_OK && count == 28);
    CHECK(yz_device_read(device, YZ_PLANE_BGRA8, &all, image, 4 * SIDE * SIDE, 4 * SIDE) == YZ_OK);
}

static double seconds(void) { return (double)clock() / CLOCKS_PER_SEC; }

static long kilobytes(void) {
    struct rusage used;
    CHECK(getrusage(RUSAGE_SELF, &used) == 0);
    return used.ru_maxrss;
}

int main(int count, char **words) {
    const long frames = count > 1 ? atol(words[1]) : 2000;
    static yz_vertex vertices[3 * TRIANGLES];
    static uint8_t image[4 * SIDE * SIDE];
    yz_device *device;
    yz_context *context;
    yuzuratchet_use_memory(&(struct yuzuratchet_memory){take, resize, give});
    CHECK(yz_device_create(&(yz_device_desc)YZ_DEVICE_DESC(SIDE, SIDE), &device) == YZ_OK);
    CHECK(yz_context_create(&context) == YZ_OK);
    set_triangles(vertices);
    for (long i = 0; i < frames / 10 + 1; i++) draw_frame(device, context, vertices, image);
    const long before = kilobytes(), blocks = held.blocks, bytes = held.bytes;
    const double begun = seconds();
    for (long i = 0; i < frames; i++) {
        draw_frame(device, context, vertices, image);
        CHECK(held.blocks <= blocks && held.bytes <= bytes);
    }
    const double each = 1e6 * (seconds() - begun) / (double)frames;
    CHECK(image[0] == 50 && image[2] == 0 && image[4 * SIDE * SIDE - 1] == 255);
    printf("%.1f %ld\n", each, kilobytes() - before);
    yz_context_destroy(context), yz_device_destroy(device);
    CHECK(held.blocks == 0 && held.bytes == 0);
    return 0;
}
