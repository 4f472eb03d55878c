/*
 * The memory of the proved functions in the program, which call the three functions below: jemalloc's, and in pages of
 * 2 MB behind the first few MB, since waiting for pages of 4 KB was a third of what a large target took. A small script
 * never comes so far, and would wait longer for one large page.
 */
#define _DEFAULT_SOURCE /* (madvise) */
#include <jemalloc/jemalloc.h>
#include <pthread.h>
#include <stdatomic.h>
#include <stdbool.h>
#include <stddef.h>
#include <stdint.h>
#include <sys/mman.h>

/* What is taken, in all, before large pages pay: a small script takes less. */
enum { SMALL_IN_ALL = 4 << 20 };

/* All threads share one store, and none keeps some for itself: few take memory, and mostly much of it. */
const char *malloc_conf = "narenas:1,tcache:false";

/* A block, or where there is none an address at which nothing is read or written. */
struct tried {
    bool ok;
    void *at;
};

static char nothing;
static atomic_size_t taken;
static pthread_once_t once = PTHREAD_ONCE_INIT;
static extent_hooks_t plain, large;
static int flags_of_large;

/* New memory from the system, for which large pages are asked. Where there are none it stays as it is. */
static void *take_large(extent_hooks_t *hooks, void *at, size_t size, size_t align, bool *zero, bool *commit,
                        unsigned arena) {
    (void)hooks;
    void *const extent = plain.alloc(&plain, at, size, align, zero, commit, arena);
    if (extent != NULL) (void)madvise(extent, size, MADV_HUGEPAGE);
    return extent;
}

/* Makes the second store, whose memory comes in large pages. Where it can't be made the first one is kept. */
static void make_large(void) {
    extent_hooks_t *first, *second = &large;
    unsigned arena;
    size_t size = sizeof first;
    if (mallctl("arena.0.extent_hooks", &first, &size, NULL, 0) != 0) return;
    plain = large = *first;
    large.alloc = take_large;
    size = sizeof arena;
    if (mallctl("arenas.create", &arena, &size, &second, sizeof second) != 0) return;
    flags_of_large = MALLOCX_ARENA(arena);
}

/* How so many bytes more are to be taken. */
static int flags_for(size_t size) {
    if (atomic_fetch_add_explicit(&taken, size, memory_order_relaxed) + size < SMALL_IN_ALL) return 0;
    (void)pthread_once(&once, make_large);
    return flags_of_large;
}

static struct tried tried_of(void *at) { return (struct tried){at != NULL, at != NULL ? at : &nothing}; }

struct tried rattle_alloc(size_t size, size_t align);
struct tried rattle_realloc(void *block, size_t kept, size_t size, size_t align);
void rattle_dealloc(void *block);

/* A block without bytes has the bytes of its alignment, so that no call asks for none. */
struct tried rattle_alloc(size_t size, size_t align) {
    const size_t bytes = size != 0 ? size : align;
    return tried_of(mallocx(bytes, flags_for(bytes)));
}

struct tried rattle_realloc(void *block, size_t kept, size_t size, size_t align) {
    const size_t bytes = size != 0 ? size : align;
    return tried_of(rallocx(block, bytes, flags_for(bytes > kept ? bytes - kept : 0)));
}

void rattle_dealloc(void *block) { dallocx(block, 0); }

/* jemalloc names these for profiles, which aren't made, and the C compiler's library of them asks for glibc. */
int _Unwind_Backtrace(void *visit, void *of);
uintptr_t _Unwind_GetIP(void *of);

int _Unwind_Backtrace(void *visit, void *of) {
    (void)visit, (void)of;
    return 0;
}

uintptr_t _Unwind_GetIP(void *of) {
    (void)of;
    return 0;
}
