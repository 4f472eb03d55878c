/* The module's steps on numbers of 128 bits, held against those of this processor. */
#include "check.h"

#define __multi3 product
#define __lshrti3 shifted_right
#define __ashrti3 shifted_right_signed
#define __ashlti3 shifted_left
#include "../module/wide.c"

/* The next of a row of random numbers. */
static uint64_t next(void) {
    static uint64_t state = 39;
    state ^= state << 13;
    state ^= state >> 7;
    state ^= state << 17;
    return state;
}

/* Random, or near to where a carry or a sign changes. */
static wide number(void) {
    static const uint64_t halves[] = {0, 1, UINT64_MAX, (uint64_t)1 << 63, UINT32_MAX, (uint64_t)1 << 32};
    const uint64_t choice = next();
    return of_halves(choice % 3 == 0 ? halves[choice / 3 % 6] : next(),
                     choice % 5 == 0 ? halves[choice / 5 % 6] : next());
}

int main(void) {
    for (int i = 0; i < 1000000; i++) {
        const wide one = number(), other = number();
        const int bits = (int)(next() % 128);
        CHECK(product(one, other) == one * other);
        CHECK(shifted_right(one, bits) == one >> bits);
        CHECK(shifted_left(one, bits) == one << bits);
        CHECK(shifted_right_signed(one, bits) == (wide)((__int128)one >> bits));
    }
    return 0;
}
