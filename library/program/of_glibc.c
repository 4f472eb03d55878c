/*
 * What the proved program asks of glibc, and musl hasn't: the words that it was called with, which glibc tells before
 * `main`, and two functions of glibc's own.
 */
#include "of_glibc.h"

#include <stddef.h>
#include <unistd.h>

enum { NO_WORD = -1, TOO_LONG = -2 };

static size_t count;
static char **all;

void tell_words(int number, char **words) {
    count = (size_t)number;
    all = words;
}

size_t rattle_arg_count(void) { return count; }

/* Writes a word without its end to an area of `room` bytes, and gives its length. */
int64_t rattle_arg(size_t at, char *to, size_t room) {
    if (at >= count || all[at] == NULL) return NO_WORD;
    size_t length = 0;
    for (const char *word = all[at]; word[length] != '\0'; length++) {
        if (length == room) return TOO_LONG;
        to[length] = word[length];
    }
    return (int64_t)length;
}

/* What each build asks as it begins: whether the processor is the one that it was compiled for. start.c has seen to
 * that, so each feature is told to be there. */
const struct processor_features *__x86_get_cpuid_feature_leaf(unsigned leaf) {
    static const struct processor_features each = {{~0U, ~0U, ~0U, ~0U}, {~0U, ~0U, ~0U, ~0U}};
    (void)leaf;
    return &each;
}

ssize_t __write(int file, const void *bytes, size_t size) { return write(file, bytes, size); }
