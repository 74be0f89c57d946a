/* Numbers of a fixed sequence, by its seed. */
#ifndef CHANCE_H
#define CHANCE_H
#include <math.h>
#include <stdbool.h>
#include <stdint.h>

static uint64_t chance_state;

static inline uint64_t chance(void) {
    uint64_t z = chance_state += 0x9E3779B97F4A7C15u;
    z = (z ^ z >> 30) * 0xBF58476D1CE4E5B9u;
    z = (z ^ z >> 27) * 0x94D049BB133111EBu;
    return z ^ z >> 31;
}

/* 0 to n - 1. */
static inline uint32_t below(uint32_t n) {
    return (uint32_t)((chance() >> 32) * n >> 32);
}

/* True n times of a hundred. */
static inline bool percent(uint32_t n) {
    return below(100) < n;
}

/* From low to high; a limit itself now and then. */
static inline double between(double low, double high) {
    uint32_t k = below(20);
    if (k < 2) return k ? high : low;
    return low + (high - low) * ((double)(chance() >> 11) / 9007199254740992.0);
}

static inline uint32_t whole_between(uint32_t low, uint32_t high) {
    uint32_t k = below(20);
    if (k < 2) return k ? high : low;
    return low + below(high - low + 1);
}
#endif
