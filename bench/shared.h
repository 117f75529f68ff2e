/* What the programs in C of this folder share: the clock, numbers that look random, and the numbers of subscribers. Define
 * _POSIX_C_SOURCE as 200809L before the first include. */
#ifndef BENCH_SHARED_H
#define BENCH_SHARED_H

#include <stdint.h>
#include <time.h>

#define FIRST_SEED 88172645463325252u

/* The next number that a seed draws. No seed is 0. */
static inline uint64_t drawn_from(uint64_t *seed) {
    *seed ^= *seed << 13;
    *seed ^= *seed >> 7;
    *seed ^= *seed << 17;
    return *seed >> 16;
}

/* Draws some of the first bits, as many as `count` says. */
static inline unsigned bits_drawn_from(uint64_t *seed, unsigned bits, unsigned count) {
    unsigned chosen = 0;
    while (count > 0) {
        unsigned bit = 1u << drawn_from(seed) % bits;
        count -= !(chosen & bit);
        chosen |= bit;
    }
    return chosen;
}

/* Seconds that a clock shows. */
static inline double seconds_of(clockid_t clock) {
    struct timespec time = {0};
    clock_gettime(clock, &time);
    return (double)time.tv_sec + (double)time.tv_nsec / 1e9;
}

/* The number of a subscriber, which tells nothing of the order of the s_ids. No two have the same one. */
static inline uint64_t number(uint64_t s_id) { return s_id * 2654435761u % 1000000007u; }

#endif
