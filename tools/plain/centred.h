/* Newton's form of a wide row in doubles, expanded around the middle of the points. */
#ifndef CENTRED_H
#define CENTRED_H

#include "differences.h"
#include "field.h"
#include "sizes.h"
#include "table.h"

/* Between -q/2 and q/2, for an integer below 2^53. Adding and taking away 1.5 * 2^52 rounds. */
static inline double balance(double x)
{
    const double rounding = 6755399441055744.0;
    double quotient = x * (1.0 / Q) + rounding - rounding;

    return x - quotient * Q;
}

static inline double to_balanced(uint32_t a)
{
    return a > Q / 2 ? (double)a - Q : (double)a;
}

static inline uint32_t from_balanced(double a)
{
    return (uint32_t)(int64_t)(a < 0 ? a + Q : a);
}

/* Expands the sum over k of s_k (y - y_0) .. (y - y_(k-1)) with y_k = k - width / 2, three factors at a time:
 * with |y_k| <= 160 and balanced s_k the sums of products are below 2^53, so that doubles have them exactly,
 * and places next to one another are independent. s has three places more, which are 0. */
static inline void expand_centred(double *s, size_t width)
{
    size_t k = width - 1;

    for (; k > 2; k -= 3) {
        double c = (double)(width / 2) - (double)(k - 1), b = c + 1, a = c + 2;
        double e1 = a + b + c, e2 = a * b + b * c + c * a, e3 = a * b * c;
        s[k - 3] = balance(s[k - 3] + a * s[k - 2] + a * b * s[k - 1] + e3 * s[k]);
        s[k - 2] = balance(s[k - 2] + (a + b) * s[k - 1] + e2 * s[k] + e3 * s[k + 1]);
        for (size_t i = k - 1; i < width; i++)
            s[i] = balance(s[i] + e1 * s[i + 1] + e2 * s[i + 2] + e3 * s[i + 3]);
    }
    for (; k > 0; k--) {
        double a = (double)(width / 2) - (double)(k - 1);
        for (size_t i = k - 1; i < width; i++)
            s[i] = balance(s[i] + a * s[i + 1]);
    }
}

/* With y = x - c, the polynomial in y is that in z = -x / c by p((-c) (1 + z)). */
static inline void interpolate_in_doubles(uint32_t first, line *values, size_t width, size_t lanes)
{
    uint32_t c = first + (uint32_t)(width / 2), scales[MAX_WIDTH];

    take_differences(values, width, lanes);
    powers(Q - c, scales, width);
    for (size_t j = 0; j < lanes; j++) {
        double s[MAX_WIDTH + 3];
        for (size_t k = 0; k < width; k++) {
            s[k] = to_balanced(multiply(reduce(values[k][j]), inverse_factorials[k]));
            if (k % 2 != 0)
                s[k] = -s[k];
        }
        s[width] = s[width + 1] = s[width + 2] = 0;
        expand_centred(s, width);
        for (size_t k = 0; k < width; k++)
            values[k][j] = multiply(from_balanced(s[k]), scales[k]);
    }
    shift(values, width, lanes);
    powers(Q - inverse(c), scales, width);
    for (size_t k = 0; k < width; k++)
        for (size_t j = 0; j < lanes; j++)
            values[k][j] = multiply(reduce(values[k][j]), scales[k]);
}

#endif
