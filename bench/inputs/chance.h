/* Seeded chance: the same seed gives the same inputs on every machine. */
#ifndef CHANCE_H
#define CHANCE_H

#include <stdint.h>

struct chance {
    uint64_t state;
};

/* A number below n: the upper bits of a linear congruence of 64 bits. */
static inline uint32_t below(struct chance *c, uint32_t n)
{
    c->state = c->state * 6364136223846793005u + 1442695040888963407u;
    return (uint32_t)((c->state >> 33) % n);
}

/* The numbers below n in some order. */
static inline void shuffle(struct chance *c, uint16_t *order, uint32_t n)
{
    for (uint32_t i = 0; i < n; i++) {
        uint32_t k = below(c, i + 1);
        order[i] = order[k];
        order[k] = (uint16_t)i;
    }
}

#endif
