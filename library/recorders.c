/*
 * Eight threads that record: `recorders` has a context for each, on which it records a square that a query counts. The
 * first thread executes the lists in their order, and prints how many pixels of each square are seen. A call that is
 * refused meanwhile is told, and the device goes on as if it hadn't been made.
 */
#include <inttypes.h>
#include <pthread.h>
#include <stdio.h>
#include <stdlib.h>

#include "yuzuratchet_device.h"

enum { THREADS = 8, SIDE = 176, SQUARE = 64, STEP = 16 };

/* What a thread has: a number, a context, and the list that it finishes. */
struct recorder {
    uint32_t number;
    yz_context *context;
    yz_list *list;
};

static void try(yz_result result, const char *call) {
    if (result == YZ_OK) return;
    fprintf(stderr, "recorders: %s: %s\n", call, yz_result_text(result));
    exit(1);
}
#define TRY(call) try((call), #call)

/* A corner of a square, each of which lies behind the one before it. */
static yz_vertex corner(uint32_t number, int32_t right, int32_t down) {
    const int32_t at = STEP * (int32_t)number;
    yz_vertex vertex = {.red = (uint8_t)(31 * number), .green = 128, .blue = 90, .alpha = 255};
    vertex.x = 65536 * (at + SQUARE * right);
    vertex.y = 65536 * (at + SQUARE * down);
    vertex.z = 1000 * number;
    return vertex;
}

static void *record(void *given) {
    struct recorder *const it = given;
    const uint32_t n = it->number;
    const yz_vertex corners[] = {corner(n, 0, 0), corner(n, 1, 0), corner(n, 0, 1), corner(n, 1, 1)};
    TRY(yz_context_set_vertices(it->context, corners, 4));
    TRY(yz_context_set_topology(it->context, YZ_TRIANGLE_STRIP));
    TRY(yz_context_begin(it->context, n));
    TRY(yz_context_draw(it->context, 4, 0));
    TRY(yz_context_end(it->context, n));
    TRY(yz_context_finish(it->context, 0, &it->list));
    return NULL;
}

/* Executes a list, and prints how many pixels it drew. */
static void draw(yz_device *device, const struct recorder *it) {
    uint64_t seen;
    TRY(yz_device_execute(device, it->list, 1));
    TRY(yz_device_get_data(device, it->number, &seen));
    printf("%" PRIu64 " pixels\n", seen);
}

int main(void) {
    const yz_device_desc desc = YZ_DEVICE_DESC(SIDE, SIDE);
    struct recorder recorders[THREADS];
    pthread_t threads[THREADS];
    yz_device *device;
    TRY(yz_device_create(&desc, &device));
    for (uint32_t i = 0; i < THREADS; i++) {
        recorders[i].number = i;
        TRY(yz_context_create(&recorders[i].context));
        if (pthread_create(&threads[i], NULL, record, &recorders[i]) != 0) return fputs("no thread\n", stderr), 1;
    }
    /* (nothing says yet how vertices make triangles) */
    printf("refused with %" PRIu32 "\n", yz_device_draw(device, 3, 0));
    for (uint32_t i = 0; i < THREADS; i++) {
        pthread_join(threads[i], NULL);
        draw(device, &recorders[i]);
        yz_list_destroy(recorders[i].list);
        yz_context_destroy(recorders[i].context);
    }
    yz_device_destroy(device);
    return 0;
}
