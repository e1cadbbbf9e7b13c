/* Random numbers (SplitMix64), the same ones in each run. */
#ifndef RANDOM_H
#define RANDOM_H

#include <stddef.h>
#include <stdint.h>

static inline uint64_t random_u64(void)
{
    static uint64_t state = 20261115;
    uint64_t z = state += 0x9E3779B97F4A7C15;
    z = (z ^ z >> 30) * 0xBF58476D1CE4E5B9;
    z = (z ^ z >> 27) * 0x94D049BB133111EB;
    return z ^ z >> 31;
}

static inline size_t random_below(size_t n)
{
    return (size_t)(random_u64() % n);
}

#endif
