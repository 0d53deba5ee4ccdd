/* Sizes within their ranges, drawn for tests: the same ones in every run. C and C++. */
#ifndef DRAWN_SIZES_H
#define DRAWN_SIZES_H

#include <stdint.h>

struct sizes {
    uint32_t h, mu, nu, w, l, eta, beta, m;
};

static inline uint32_t below(uint32_t bound)
{
    static uint64_t state = 1;

    state = state * 6364136223846793005u + 1442695040888963407u;
    return (uint32_t)((state >> 33) % bound);
}

static inline uint32_t least(uint32_t a, uint32_t b)
{
    return a < b ? a : b;
}

/* Small ones as often as large ones: at the ends of the ranges there is most to get wrong. */
static inline uint32_t from_one_to(uint32_t most)
{
    switch (below(4)) {
    case 0: return 1;
    case 1: return most;
    case 2: return 1 + below(least(most, 8));
    default: return 1 + below(most);
    }
}

static inline struct sizes draw_sizes(void)
{
    struct sizes s;

    s.h = from_one_to(12);
    s.mu = from_one_to(64);
    s.w = from_one_to(least(256, (1u << s.h) - 1));
    s.nu = from_one_to(least(256, (1u << s.h) - 1) / s.w);
    s.l = from_one_to(least(64, (1u << s.h) - s.w * s.nu));
    s.eta = from_one_to(4);
    s.beta = from_one_to(1 + least(16, least(s.mu, 64 - s.mu))) - 1;
    s.m = from_one_to(8);
    return s;
}

#endif
