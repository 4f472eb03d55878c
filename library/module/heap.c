/*
 * The heap of the WebAssembly module, behind `malloc`, `realloc` and `free`: blocks of powers of two with 16 bytes
 * before each, which say its power. A block that is given back waits in the list of its power. New ones come from the
 * end of the memory, which grows by a part of itself, since some browsers copy all of it each time. It is neither
 * proved nor for threads.
 */
#include "../yuzuratchet.h"

enum { PAGE = 65536, HEAD = 16, LEAST = 5, POWERS = 48, PART = 4 };

/* What lies before a block: the power of its size with this head, and the next block in its list. */
struct head {
    uint64_t power;
    struct head *next;
};

extern unsigned char __heap_base;

static struct head *waiting[POWERS];
static uintptr_t end;
static unsigned char nothing;

/* The least power of two that holds so many bytes and a head. */
static unsigned power_of(size_t size) {
    unsigned power = LEAST;
    while (power < POWERS && ((size_t)1 << power) - HEAD < size) power++;
    return power;
}

/* Whether the memory has so many pages more now, or a part of itself where that is more. */
static _Bool grows(size_t pages) {
    const size_t part = __builtin_wasm_memory_size(0) / PART;
    if (pages < part && __builtin_wasm_memory_grow(0, part) != (size_t)-1) return 1;
    return __builtin_wasm_memory_grow(0, pages) != (size_t)-1;
}

/* New memory behind all that was taken before, or null. */
static void *taken(size_t size) {
    if (end == 0) end = ((uintptr_t)&__heap_base + HEAD - 1) / HEAD * HEAD;
    const uintptr_t room = __builtin_wasm_memory_size(0) * (uintptr_t)PAGE;
    if (end + size > room && !grows((end + size - room + PAGE - 1) / PAGE)) return NULL;
    void *const at = (void *)end;
    end += size;
    return at;
}

void *malloc(size_t size) {
    const unsigned power = power_of(size);
    if (power >= POWERS) return NULL;
    struct head *head = waiting[power];
    if (head != NULL) {
        waiting[power] = head->next;
    } else {
        head = taken((size_t)1 << power);
        if (head == NULL) return NULL;
        head->power = power;
    }
    return (unsigned char *)head + HEAD;
}

void free(void *block) {
    if (block == NULL) return;
    struct head *const head = (struct head *)((unsigned char *)block - HEAD);
    head->next = waiting[head->power];
    waiting[head->power] = head;
}

static void *realloc(void *block, size_t size) {
    const struct head *const head = (const struct head *)((unsigned char *)block - HEAD);
    const unsigned power = power_of(size);
    if (power == head->power) return block;
    void *const other = malloc(size);
    if (other == NULL) return NULL;
    const size_t kept = ((size_t)1 << (power < head->power ? power : head->power)) - HEAD;
    __builtin_memcpy(other, block, kept < size ? kept : size);
    free(block);
    return other;
}

/* What the proved functions call, as in ../memory.c. */
struct tried {
    _Bool ok;
    void *at;
};

static struct tried tried_of(void *at) { return (struct tried){at != NULL, at != NULL ? at : &nothing}; }

struct tried rattle_alloc(size_t size, size_t align) { return tried_of(malloc(size != 0 ? size : align)); }

struct tried rattle_realloc(void *block, size_t kept, size_t size, size_t align) {
    (void)kept;
    return tried_of(realloc(block, size != 0 ? size : align));
}

void rattle_dealloc(void *block) { free(block); }
