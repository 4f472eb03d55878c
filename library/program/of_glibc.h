#ifndef YUZURATCHET_OF_GLIBC_H
#define YUZURATCHET_OF_GLIBC_H

#include <stddef.h>
#include <stdint.h>
#include <sys/types.h>

/* Tells which words the program was called with, before the proved code runs. */
void tell_words(int number, char **words);

/* What the proved code calls. */
size_t rattle_arg_count(void);
int64_t rattle_arg(size_t at, char *to, size_t room);

/* What of a leaf of the processor's features there is, and what of it can be used, as glibc has them. */
struct processor_features {
    unsigned there[4], usable[4];
};
const struct processor_features *__x86_get_cpuid_feature_leaf(unsigned leaf);
ssize_t __write(int file, const void *bytes, size_t size);

#endif
