/* Coefficients of the polynomial through values at any points that differ: Newton's form by divided differences, then
 * expanded. Behind place k stand what is left of each value and the product of its point's differences to the first k
 * points, so that places do not wait for one another; the weights are inverted a block at a time. */
#ifndef ANY_POINTS_H
#define ANY_POINTS_H

#include <string.h>

#include "bytes.h"
#include "field.h"
#include "plain.h"

#define MAX_SAMPLES 320
#define INVERTED 8 /* weights inverted at once */
#define FACTORS 4  /* factors of Newton's form expanded at once */

/* a - b without a branch: which of two points is larger cannot be foretold. */
static inline uint32_t difference(uint32_t a, uint32_t b)
{
    return a - b - (EXCESS & -(uint32_t)(a < b));
}

/* The inverses of the products of each point's differences to all before it, for `count` points from `from` on;
 * 0 where one of the products is. */
static inline int block_weights(const uint32_t *points, size_t from, size_t count, const uint32_t *products,
                                uint32_t *weights)
{
    uint32_t before[INVERTED], all = 1;

    for (size_t k = 0; k < count; k++) {
        uint32_t product = products[from + k];
        for (size_t j = 0; j < k; j++)
            product = multiply(product, difference(points[from + k], points[from + j]));
        weights[k] = product;
        before[k] = all;
        all = multiply(all, product);
    }
    if (all == 0)
        return 0;
    all = inverse(all);
    for (size_t k = count; k-- > 0;) {
        uint32_t product = weights[k];
        weights[k] = multiply(all, before[k]);
        all = multiply(all, product);
    }
    return 1;
}

/* Takes a coefficient, `minus` that modulo q, off the rests behind place k, and its point into the products. Two places
 * at a time, with all loads first. Rests are not reduced: each of at most 319 steps adds less than 2^35. */
static inline void take_off(const uint32_t *restrict points, size_t k, size_t n, uint32_t minus,
                            uint64_t *restrict rests, uint32_t *restrict products)
{
    uint32_t x = points[k];
    size_t i = k + 1;

    for (; i + 1 < n; i += 2) {
        uint32_t a = products[i], b = products[i + 1];
        uint64_t c = (uint64_t)a * difference(points[i], x), d = (uint64_t)b * difference(points[i + 1], x);
        rests[i] += fold((uint64_t)minus * a);
        rests[i + 1] += fold((uint64_t)minus * b);
        products[i] = reduce(c);
        products[i + 1] = reduce(d);
    }
    if (i < n) {
        rests[i] += fold((uint64_t)minus * products[i]);
        products[i] = multiply(products[i], difference(points[i], x));
    }
}

/* The coefficients of Newton's form; 0 where two points are equal. */
static inline int divide(const uint32_t *restrict points, const uint32_t *values, size_t n, uint32_t *restrict out)
{
    uint64_t rests[MAX_SAMPLES];
    uint32_t products[MAX_SAMPLES], weights[INVERTED];

    for (size_t i = 0; i < n; i++) {
        rests[i] = values[i];
        products[i] = 1;
    }
    for (size_t k = 0; k < n; k++) {
        if (k % INVERTED == 0 && !block_weights(points, k, n - k < INVERTED ? n - k : INVERTED, products, weights))
            return 0;
        out[k] = multiply(reduce(rests[k]), weights[k % INVERTED]);
        take_off(points, k, n, Q - out[k], rests, products);
    }
    return 1;
}

/* s_0 + (x - point) (s_1 + s_2 x + ..) */
static inline void expand_one(uint32_t point, uint32_t *s, size_t count)
{
    uint32_t minus = Q - point;

    for (size_t i = 0; i + 1 < count; i++)
        s[i] = reduce(s[i] + (uint64_t)minus * s[i + 1]);
}

/* s_0 and the products of e_from, .., e_FACTORS with the places so far behind it. */
static inline uint32_t with_products(const uint32_t *s, const uint32_t *e, size_t from)
{
    uint64_t sum = s[0];

#pragma GCC unroll 4
    for (size_t j = from; j <= FACTORS; j++)
        sum += fold((uint64_t)e[j] * s[j]);
    return reduce(sum);
}

/* The same with as many points as FACTORS says: the first places among themselves, and what stands behind them times
 * the product of the factors, in which e_j is the coefficient of x^(FACTORS - j). */
static inline void expand_factors(const uint32_t *restrict points, uint32_t *restrict s, size_t count)
{
    uint32_t e[FACTORS + 1] = {1};

    for (size_t k = FACTORS - 1; k-- > 0;)
        expand_one(points[k], s + k, FACTORS - k);
    for (size_t k = 0; k < FACTORS; k++)
        for (size_t j = k + 1; j > 0; j--)
            e[j] = reduce(e[j] + (uint64_t)(Q - points[k]) * e[j - 1]);
    for (size_t i = 0; i < FACTORS; i++)
        s[i] = with_products(s + i, e, FACTORS - i);
    for (size_t i = FACTORS; i < count; i++)
        s[i] = with_products(s + i, e, 1);
}

/* In place; s has FACTORS places more. */
static inline void expand_any(const uint32_t *restrict points, uint32_t *restrict s, size_t n)
{
    size_t k = n;

    memset(s + n, 0, FACTORS * sizeof *s);
    for (; k % FACTORS != 0; k--)
        expand_one(points[k - 1], s + k - 1, n - k + 1);
    for (; k > 0; k -= FACTORS)
        expand_factors(points + k - FACTORS, s + k - FACTORS, n - k + FACTORS);
}

uint32_t PLAIN(interpolate)(const uint32_t *points, size_t point_count, const uint32_t *values,
                            size_t value_count, uint32_t *coefficients, size_t coefficient_count)
{
    uint32_t s[MAX_SAMPLES + FACTORS];

    if (point_count < 1 || point_count > MAX_SAMPLES)
        return 1;
    if (value_count != point_count || coefficient_count != point_count)
        return 2;
    if (!are_elements(points, point_count) || !are_elements(values, value_count))
        return 3;
    if (!divide(points, values, point_count, s))
        return 13;
    expand_any(points, s, point_count);
    memcpy(coefficients, s, 4 * point_count);
    return 0;
}

#endif
