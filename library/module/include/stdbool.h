/* What the library needs of stdbool.h where there is no C library. */
#define bool _Bool
