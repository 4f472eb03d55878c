/* How large answer lines and image can be, of texts that are scripts and of others. */
#include "check.h"

enum { HEADER = 18, PIXEL = 45, QUERY = 30, REFUSED = 33 };

/* Each text is a block of its own, with no byte behind it. */
static void bounds(const char *text, size_t questions, size_t image) {
    const size_t size = strlen(text);
    uint8_t *const script = taken(size + 1);
    memcpy(script, text, size);
    uint8_t *const exact = realloc(script, size != 0 ? size : 1);
    CHECK(exact != NULL);
    CHECK(yuzuratchet_lines_bound(exact, size) == questions + REFUSED);
    CHECK(yuzuratchet_image_bound(exact, size) == image);
    free(exact);
}

static void of_first_lines(void) {
    bounds("target 4 4\n", 0, HEADER + 4 * 16);
    bounds("target 4096 4096\n", 0, HEADER + 4 * 4096 * 4096);
    bounds("target 4097 1\n", 0, HEADER);
    bounds("target 1 99999999999999999999999\n", 0, HEADER);
    bounds("target 0 7\n", 0, HEADER);
    bounds("target 3", 0, HEADER);
    bounds("target 3 ", 0, HEADER);
    bounds("target  3 3\n", 0, HEADER);
    bounds("targe", 0, HEADER);
    bounds("i clearc 1 2 3 4\n", 0, HEADER);
    bounds("\n", 0, HEADER);
    bounds("", 0, HEADER);
}

static void of_questions(void) {
    bounds("target 1 1\ni pixel 0 0\ni query 0\ni pixel 0 0\n", 2 * PIXEL + QUERY, HEADER + 4);
    bounds("target 1 1\nd0 pixel 0 0\ni pixels\ni pixel", 0, HEADER + 4);
    bounds("target 1 1\n\n\ni query", 0, HEADER + 4);
    bounds("i query 1", QUERY, HEADER);
}

int main(void) {
    of_first_lines();
    of_questions();
    CHECK(yuzuratchet_lines_bound(NULL, 0) == REFUSED && yuzuratchet_image_bound(NULL, 0) == HEADER);
    return 0;
}
