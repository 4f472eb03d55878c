/*
 * The memory of the proved functions, which call the three functions below. What they rest on is what C says of malloc,
 * realloc and free, or the like of those that the caller names.
 */
#include <stdbool.h>
#include <stdlib.h>

#include "yuzuratchet.h"

/* A block, or where there is none an address at which nothing is read or written. */
struct tried {
    bool ok;
    void *at;
};

static const struct yuzuratchet_memory standard = {malloc, realloc, free};
static struct yuzuratchet_memory used = {malloc, realloc, free};
static char nothing;

void yuzuratchet_use_memory(const struct yuzuratchet_memory *memory) { used = memory != NULL ? *memory : standard; }

static struct tried tried_of(void *at) { return (struct tried){at != NULL, at != NULL ? at : &nothing}; }

struct tried rattle_alloc(size_t size, size_t align);
struct tried rattle_realloc(void *block, size_t kept, size_t size, size_t align);
void rattle_dealloc(void *block);

/* A block without bytes has the bytes of its alignment, so that no call asks for none. */
struct tried rattle_alloc(size_t size, size_t align) { return tried_of(used.take(size != 0 ? size : align)); }

struct tried rattle_realloc(void *block, size_t kept, size_t size, size_t align) {
    (void)kept;
    return tried_of(used.resize(block, size != 0 ? size : align));
}

void rattle_dealloc(void *block) { used.give(block); }
