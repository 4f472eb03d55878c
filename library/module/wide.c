/*
 * Steps on numbers of 128 bits, for which the target has no instruction. The compiler calls them by these names. Shifts
 * are of 0 to 127 bits.
 */
#include <stdint.h>

typedef unsigned __int128 wide;

static wide of_halves(uint64_t high, uint64_t low) { return (wide)high << 64 | low; }

wide __multi3(wide one, wide other) {
    const uint64_t a = (uint64_t)one, b = (uint64_t)other, low = 0xffffffff;
    const uint64_t least = (a & low) * (b & low), left = (a >> 32) * (b & low), right = (a & low) * (b >> 32);
    const uint64_t middle = (least >> 32) + (left & low) + (right & low);
    const uint64_t high = (a >> 32) * (b >> 32) + (left >> 32) + (right >> 32) + (middle >> 32);
    return of_halves(high + (uint64_t)(one >> 64) * b + a * (uint64_t)(other >> 64), middle << 32 | (least & low));
}

wide __lshrti3(wide number, int bits) {
    const uint64_t high = (uint64_t)(number >> 64), low = (uint64_t)number;
    if (bits == 0) return number;
    if (bits >= 64) return high >> (bits - 64);
    return of_halves(high >> bits, high << (64 - bits) | low >> bits);
}

wide __ashrti3(wide number, int bits) {
    const int64_t high = (int64_t)(uint64_t)(number >> 64);
    const uint64_t low = (uint64_t)number;
    if (bits == 0) return number;
    if (bits >= 64) return of_halves((uint64_t)(high >> 63), (uint64_t)(high >> (bits - 64)));
    return of_halves((uint64_t)(high >> bits), (uint64_t)high << (64 - bits) | low >> bits);
}

wide __ashlti3(wide number, int bits) {
    const uint64_t high = (uint64_t)(number >> 64), low = (uint64_t)number;
    if (bits == 0) return number;
    if (bits >= 64) return of_halves(low << (bits - 64), 0);
    return of_halves(high << bits | low >> (64 - bits), low << bits);
}
