/* The field of q = 2^32 - 5 elements. An element is a word below q. */
#ifndef FIELD_H
#define FIELD_H

#include <stddef.h>
#include <stdint.h>

#define Q 4294967291u
#define EXCESS 5u /* 2^32 modulo q */

/* Modulo 2^32, x - (x / q) q is x + 5 (x / q). */
static inline uint32_t reduce(uint64_t x)
{
    return (uint32_t)x + EXCESS * (uint32_t)(x / Q);
}

/* Congruent to x, and below 2^32 + 5 * 2^(bits of x - 32). */
static inline uint64_t fold(uint64_t x)
{
    return (uint32_t)x + EXCESS * (x >> 32);
}

static inline uint32_t negate(uint32_t a)
{
    return a == 0 ? 0 : Q - a;
}

static inline uint32_t add(uint32_t a, uint32_t b)
{
    return a < Q - b ? a + b : a - (Q - b);
}

static inline uint32_t subtract(uint32_t a, uint32_t b)
{
    return a >= b ? a - b : a + (Q - b);
}

static inline uint32_t multiply(uint32_t a, uint32_t b)
{
    return reduce((uint64_t)a * b);
}

/* For a > 0: a times q / a is minus q % a. */
static inline uint32_t inverse(uint32_t a)
{
    uint32_t product = 1;

    for (; a > 1; a = Q % a)
        product = multiply(product, Q - Q / a);
    return product;
}

/* A sum of products: modulo 2^64, and the sum of their upper halves. The sum of the lower halves is what
 * the two leave, for up to 2^31 products. */
struct sum {
    uint64_t all, upper;
};

static inline void add_product(struct sum *sum, uint32_t a, uint32_t b)
{
    uint64_t product = (uint64_t)a * b;

    sum->all += product;
    sum->upper += product >> 32;
}

static inline uint32_t reduce_sum(struct sum sum)
{
    return reduce(sum.all - (sum.upper << 32) + EXCESS * sum.upper);
}

static inline uint32_t dot(const uint32_t *a, const uint32_t *b, size_t count)
{
    struct sum sum = {0, 0};

    for (size_t i = 0; i < count; i++)
        add_product(&sum, a[i], b[i]);
    return reduce_sum(sum);
}

/* The dot products of the same factors with `rows` rows, which begin `stride` words apart; four rows share
 * the loads of the factors. */
static inline void dots(const uint32_t *factors, size_t count, const uint32_t *row, size_t stride,
                        size_t rows, uint32_t *out)
{
    size_t r = 0;

    for (; r + 4 <= rows; r += 4, row += 4 * stride) {
        struct sum a = {0, 0}, b = {0, 0}, c = {0, 0}, d = {0, 0};
        for (size_t i = 0; i < count; i++) {
            add_product(&a, factors[i], row[i]);
            add_product(&b, factors[i], row[stride + i]);
            add_product(&c, factors[i], row[2 * stride + i]);
            add_product(&d, factors[i], row[3 * stride + i]);
        }
        out[r] = reduce_sum(a);
        out[r + 1] = reduce_sum(b);
        out[r + 2] = reduce_sum(c);
        out[r + 3] = reduce_sum(d);
    }
    for (; r < rows; r++, row += stride)
        out[r] = dot(factors, row, count);
}

#define CHAINS 8

/* 1, x, x^2, .. in chains that do not wait for one another. */
static inline void powers(uint32_t x, uint32_t *out, size_t count)
{
    uint32_t power = 1;
    size_t i = 0;

    for (; i < count && i < CHAINS; i++) {
        out[i] = power;
        power = multiply(power, x);
    }
    for (; i < count; i++)
        out[i] = multiply(out[i - CHAINS], power);
}

#endif
