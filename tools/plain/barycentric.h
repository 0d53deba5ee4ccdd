/* Interpolation at a leaf x over the points N + t, t = 0, .., d, in the barycentric form: with the weights
 * u_t = (-1)^t / (t! (d - t)!), the value is the sum of u_t a_t / (N + t - x) over that of u_t / (N + t - x).
 * The weights are the same for all leaves, and the inverses at a leaf are a run of those of 1, 2, .. Products
 * of all other distances, which are the inverses times a common factor, do as well, and with them the sum of
 * the weights is 1. */
#ifndef BARYCENTRIC_H
#define BARYCENTRIC_H

#include "field.h"
#include "sizes.h"
#include "table.h"

static inline void fill_weights(uint32_t *weights, uint32_t width)
{
    for (uint32_t t = 0; t < width; t++) {
        weights[t] = multiply(inverse_factorials[t], inverse_factorials[width - 1 - t]);
        if (t % 2 != 0)
            weights[t] = Q - weights[t];
    }
}

/* The inverses of 1, .., end - 1: k times q / k is minus q % k. */
static inline void fill_inverses(uint32_t *inverses, uint32_t end)
{
    inverses[1] = 1;
    for (uint32_t k = 2; k < end; k++)
        inverses[k] = multiply(Q - Q / k, inverses[Q % k]);
}

/* For each of `width` consecutive numbers the product of all the others: of those below and those above, in
 * two chains side by side. */
static inline void fill_products(uint32_t first, uint32_t *out, uint32_t width)
{
    uint32_t below = 1, above = 1, from_above[MAX_WIDTH];

    for (uint32_t t = 0; t < width; t++) {
        uint32_t last = width - 1 - t;
        out[t] = below;
        from_above[last] = above;
        below = multiply(below, first + t);
        above = multiply(above, first + last);
    }
    for (uint32_t t = 0; t < width; t++)
        out[t] = multiply(out[t], from_above[t]);
}

/* Whether a table of all inverses takes less time than products at each leaf. */
static inline bool wants_table(const struct sizes *s)
{
    return s->l * s->width * 2 > s->leaves + s->width;
}

#endif
