/*
 * dice.h: random numbers from a seed, so that a street runs alike every time. A product takes them from hardware: peers must not foresee
 * them.
 */
#ifndef STREET_DICE_H
#define STREET_DICE_H

#include <stdint.h>

struct dice {
    uint64_t state;
};

/* scatters a number over all 64 bits (splitmix64) */
static inline uint64_t mix(uint64_t x)
{
    x += UINT64_C(0x9E3779B97F4A7C15);
    x = (x ^ x >> 30) * UINT64_C(0xBF58476D1CE4E5B9);
    x = (x ^ x >> 27) * UINT64_C(0x94D049BB133111EB);
    return x ^ x >> 31;
}

static inline uint64_t random_below(struct dice *dice, uint64_t n)
{
    dice->state++;
    return mix(dice->state) % n;
}

#endif
