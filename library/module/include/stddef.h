/* What the library needs of stddef.h where there is no C library. */
typedef __SIZE_TYPE__ size_t;
typedef long double max_align_t;
#define NULL ((void *)0)
