/*
 * Draws a script from standard input on a thread with a stack of so many kilobytes, `stack KILOBYTES`, and prints how
 * many bytes of it the thread has touched. Below the stack lies a page that can't be touched.
 */
#define _DEFAULT_SOURCE
#include <pthread.h>
#include <sys/mman.h>
#include <unistd.h>

#include "check.h"

enum { FREE = 0xa5, LONGEST = 1 << 20 };

static uint8_t script[LONGEST];
static size_t script_size;

static void *draws(void *nothing) {
    (void)nothing;
    const size_t lines_size = yuzuratchet_lines_bound(script, script_size),
                 image_size = yuzuratchet_image_bound(script, script_size);
    uint8_t *const lines = taken(lines_size), *const image = taken(image_size);
    struct yuzuratchet_report report;
    CHECK(yuzuratchet_draw(script, script_size, lines, lines_size, image, image_size, &report) <= YUZURATCHET_REFUSED);
    free(lines), free(image);
    return NULL;
}

int main(int count, char **words) {
    CHECK(count == 2);
    const size_t page = (size_t)sysconf(_SC_PAGESIZE), size = strtoul(words[1], NULL, 10) * 1024;
    script_size = fread(script, 1, sizeof script, stdin);
    uint8_t *const block = mmap(NULL, page + size, PROT_READ | PROT_WRITE, MAP_PRIVATE | MAP_ANONYMOUS, -1, 0);
    CHECK(block != MAP_FAILED && mprotect(block, page, PROT_NONE) == 0);
    uint8_t *const stack = block + page;
    memset(stack, FREE, size);
    pthread_attr_t attributes;
    pthread_t thread;
    CHECK(pthread_attr_init(&attributes) == 0 && pthread_attr_setstack(&attributes, stack, size) == 0);
    CHECK(pthread_create(&thread, &attributes, draws, NULL) == 0 && pthread_join(thread, NULL) == 0);
    size_t untouched = 0;
    while (untouched < size && stack[untouched] == FREE) untouched++;
    printf("%zu\n", size - untouched);
    return 0;
}
