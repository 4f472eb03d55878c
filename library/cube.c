/*
 * A lit cube that turns: `cube OUT.tga [FRAMES]` draws frames of 256 by 256 pixels on one device (1 where no number is
 * told), prints how many pixels of the cube each shows, and writes the last. A deferred context records the cube. The
 * program turns, lights and projects its corners; the device sorts out what is in front.
 */
#include <inttypes.h>
#include <math.h>
#include <stdio.h>
#include <stdlib.h>

#include "yuzuratchet_device.h"

enum { SIDE = 256, FACES = 6, CORNERS = 4 * FACES, INDICES = 6 * FACES };

static void try(yz_result result, const char *call) {
    if (result == YZ_OK) return;
    fprintf(stderr, "cube: %s: %s\n", call, yz_result_text(result));
    exit(1);
}
#define TRY(call) try((call), #call)

struct point {
    double x, y, z;
};

/* Turned about the upright axis, and tilted towards the eye. */
static struct point turned(struct point p, double turn) {
    const double c = cos(turn), s = sin(turn), tilt = 0.6;
    const struct point q = {c * p.x + s * p.z, p.y, c * p.z - s * p.x};
    return (struct point){q.x, cos(tilt) * q.y - sin(tilt) * q.z, sin(tilt) * q.y + cos(tilt) * q.z};
}

/* A corner on the target, in a light: the cube stands four units in front of the eye, at depths from 2 to 6. */
static yz_vertex projected(struct point p, double light) {
    const double away = 4.0 - p.z, scale = 0.95 * SIDE / away;
    yz_vertex vertex = {.alpha = 255};
    vertex.x = (int32_t)lround(65536.0 * (SIDE / 2 + scale * p.x));
    vertex.y = (int32_t)lround(65536.0 * (SIDE / 2 - scale * p.y));
    vertex.z = (uint32_t)lround(16777215.0 * (away - 2.0) / 4.0);
    vertex.red = (uint8_t)lround(235 * light);
    vertex.green = (uint8_t)lround(150 * light);
    vertex.blue = (uint8_t)lround(70 * light);
    return vertex;
}

/* A point by an axis that points to it, and its places along the next two. */
static struct point along(int axis, double a, double b, double c) {
    const struct point all[] = {{a, b, c}, {c, a, b}, {b, c, a}};
    return all[axis];
}

/* The corners of a face, clockwise as one sees them. */
static void set_face(yz_vertex *corners, int face, double turn) {
    const double sign = face % 2 == 0 ? 1 : -1;
    const struct point normal = turned(along(face / 2, sign, 0, 0), turn);
    const double facing = 0.3 * normal.x + 0.55 * normal.y + 0.78 * normal.z;
    for (int k = 0; k < 4; k++) {
        const double u = k == 1 || k == 2 ? 1 : -1, v = k >= 2 ? 1 : -1;
        const struct point corner = turned(along(face / 2, sign, -u * sign, v), turn);
        corners[k] = projected(corner, 0.2 + 0.8 * fmax(facing, 0));
    }
}

/* Records a turned cube, whose pixels query 0 counts. */
static yz_list *recorded(yz_context *context, double turn) {
    static const uint16_t quad[6] = {0, 1, 2, 0, 2, 3};
    yz_vertex corners[CORNERS];
    uint16_t indices[INDICES];
    yz_list *list;
    for (int face = 0; face < FACES; face++) {
        set_face(&corners[4 * face], face, turn);
        for (int k = 0; k < 6; k++) indices[6 * face + k] = (uint16_t)(4 * face + quad[k]);
    }
    TRY(yz_context_set_vertices(context, corners, CORNERS));
    TRY(yz_context_set_indices(context, indices, INDICES));
    TRY(yz_context_set_topology(context, YZ_TRIANGLE_LIST));
    TRY(yz_context_begin(context, 0));
    TRY(yz_context_draw_indexed(context, INDICES, 0, 0));
    TRY(yz_context_end(context, 0));
    TRY(yz_context_finish(context, 0, &list));
    return list;
}

static void draw_frame(yz_device *device, yz_context *context, double turn) {
    yz_list *const list = recorded(context, turn);
    uint64_t visible;
    TRY(yz_device_clear_color(device, 24, 28, 40, 255));
    TRY(yz_device_clear_depth_stencil(device, 16777215, 0));
    TRY(yz_device_execute(device, list, 1));
    TRY(yz_device_get_data(device, 0, &visible));
    printf("%" PRIu64 " pixels\n", visible);
    yz_list_destroy(list);
}

/* Whether a device's image is written, as a Truevision TGA file. */
static int is_written(yz_device *device, const char *name) {
    static const uint8_t header[18] = {[2] = 2,          [12] = SIDE % 256, [13] = SIDE / 256, [14] = SIDE % 256,
                                       [15] = SIDE / 256, [16] = 32,        [17] = 0x28};
    static uint8_t image[4 * SIDE * SIDE];
    TRY(yz_device_read(device, YZ_PLANE_BGRA8, &(yz_rect){0, 0, SIDE, SIDE}, image, sizeof image, 4 * SIDE));
    FILE *const out = fopen(name, "wb");
    if (out == NULL) return 0;
    const int whole = fwrite(header, sizeof header, 1, out) == 1 && fwrite(image, sizeof image, 1, out) == 1;
    return fclose(out) == 0 && whole;
}

int main(int count, char **words) {
    if (count < 2) return fprintf(stderr, "usage: cube OUT.tga [FRAMES]\n"), 2;
    const int frames = count > 2 ? atoi(words[2]) : 1;
    const yz_device_desc desc = YZ_DEVICE_DESC(SIDE, SIDE);
    yz_device *device;
    yz_context *context;
    TRY(yz_device_create(&desc, &device));
    TRY(yz_context_create(&context));
    for (int frame = 0; frame < frames; frame++) draw_frame(device, context, 0.7 + 0.1 * frame);
    const int written = is_written(device, words[1]);
    yz_context_destroy(context);
    yz_device_destroy(device);
    return written ? 0 : (fprintf(stderr, "cube: cannot write image\n"), 3);
}
