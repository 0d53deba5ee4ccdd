/* Coefficients of polynomials from their values at consecutive points: Newton's form from differences, then
 * expanded. The coefficients of Newton's form are the differences over k!, the same wherever x = 0 is. */
#ifndef INTERPOLATION_H
#define INTERPOLATION_H

#include "centred.h"
#include "differences.h"
#include "field.h"
#include "plain.h"
#include "sizes.h"
#include "table.h"

#define NARROW 32 /* up to this width, one row at a time */
#define WIDE 128  /* above it, doubles save more than going to the middle and back costs */

/* Expands the sum over k of s_k (x + first) .. (x + first + k - 1) in place, from the last factor to the
 * first, two at a time and folded once: points are below 2^13, so places stay below 2^33. */
static inline void expand(uint32_t first, uint64_t *s, size_t width)
{
    size_t k = width - 1;

    for (; k > 1; k -= 2) {
        uint64_t a = first + k - 2, b = first + k - 1;
        s[k - 2] = fold(s[k - 2] + a * s[k - 1] + a * b * s[k]);
        for (size_t i = k - 1; i + 2 < width; i++)
            s[i] = fold(s[i] + (a + b) * s[i + 1] + a * b * s[i + 2]);
        s[width - 2] = fold(s[width - 2] + (a + b) * s[width - 1]);
    }
    if (k == 1)
        for (size_t i = 0; i + 1 < width; i++)
            s[i] = fold(s[i] + (uint64_t)first * s[i + 1]);
}

/* Newton's form in -x, of which s has the coefficients, to the coefficients in x. */
static inline void expand_row(uint32_t first, uint64_t *s, size_t width, line *out, size_t lane)
{
    expand(first, s, width);
    for (size_t k = 0; k < width; k++)
        out[k][lane] = k % 2 == 0 ? reduce(s[k]) : negate(reduce(s[k]));
}

/* Differences are taken the other way round, x0 - x1: then the signs are those of the expansion in -x. */
static inline void interpolate_narrow(uint32_t first, line *values, size_t width, size_t lanes)
{
    for (size_t j = 0; j < lanes; j++) {
        uint64_t s[NARROW];
        uint32_t v[NARROW];
        for (size_t k = 0; k < width; k++)
            v[k] = (uint32_t)values[k][j];
        for (size_t k = 0; k < width; k++) {
            s[k] = multiply(v[0], inverse_factorials[k]);
            for (size_t i = 0; i + k + 1 < width; i++)
                v[i] = subtract(v[i], v[i + 1]);
        }
        expand_row(first, s, width, values, j);
    }
}

static inline void interpolate_in_integers(uint32_t first, line *values, size_t width, size_t lanes)
{
    take_differences(values, width, lanes);
    for (size_t j = 0; j < lanes; j++) {
        uint64_t s[MAX_WIDTH];
        for (size_t k = 0; k < width; k++)
            s[k] = multiply(reduce(values[k][j]), inverse_factorials[k]);
        expand_row(first, s, width, values, j);
    }
}

/* Values at first, first + 1, .. to coefficients, lowest first. */
static inline void interpolate(uint32_t first, line *values, size_t width, size_t lanes)
{
    if (width <= NARROW)
        interpolate_narrow(first, values, width, lanes);
    else if (PLAIN_PAIRS && width > WIDE)
        interpolate_in_doubles(first, values, width, lanes);
    else
        interpolate_in_integers(first, values, width, lanes);
}

#endif
