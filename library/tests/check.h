/* What the tests share. */
#ifndef CHECK_H
#define CHECK_H

#include <inttypes.h>
#include <stdbool.h>
#include <stdio.h>
#include <stdlib.h>
#include <string.h>

#include "yuzuratchet.h"

/* Ends the test where something doesn't hold, and says where. */
#define CHECK(holds)                                                                  \
    do {                                                                              \
        if (!(holds)) {                                                               \
            fprintf(stderr, "%s:%d: not so: %s\n", __FILE__, __LINE__, #holds);        \
            exit(1);                                                                  \
        }                                                                             \
    } while (0)

static inline const uint8_t *bytes_of(const char *text) { return (const uint8_t *)text; }

/* A block of its own, so that valgrind and the address sanitizer see each byte beyond it. */
static inline void *taken(size_t size) {
    void *at = malloc(size);
    CHECK(at != NULL);
    return at;
}

/* Whether all bytes of an area are this one. */
static inline bool all_are(const uint8_t *area, size_t size, uint8_t byte) {
    for (size_t i = 0; i < size; i++)
        if (area[i] != byte) return false;
    return true;
}

#endif
