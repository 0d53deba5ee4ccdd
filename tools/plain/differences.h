/* Polynomials by their differences at consecutive points, which cost additions alone.
 *
 * A step of a ladder adds to each line the line above it as it was, and an input to the uppermost. With the
 * differences of a polynomial at x as lines, the highest order first, a step goes on to x + 1, and what the
 * lowest line was is the value. The lines are not reduced during a run of steps: each step adds a bit. */
#ifndef DIFFERENCES_H
#define DIFFERENCES_H

#include <string.h>

#include "field.h"
#include "sizes.h"

#define LANES 4  /* polynomials side by side, two to a vector */
#define PAIR 2
#define BLOCK 10 /* lines in registers during a run; MAX_WIDTH is a multiple */
#define RUN 26   /* steps; with at most 29, folding after each run keeps lines below 2^(64 - RUN) */

typedef uint64_t line[LANES];

#define STEP(n)                                                                                    \
    {                                                                                              \
        uint64_t input = feed[(n) * LANES + j];                                                    \
        feed[(n) * LANES + j] = v9;                                                                \
        v9 += v8, v8 += v7, v7 += v6, v6 += v5, v5 += v4;                                          \
        v4 += v3, v3 += v2, v2 += v1, v1 += v0, v0 += input;                                       \
    }

/* A run of one block for a pair of polynomials. The feed has the inputs, and then what went out below. With
 * the steps written out, the compiler keeps the lines in registers and makes the pair a vector. */
static inline void run_block(uint64_t *restrict v, uint64_t *restrict feed)
{
    for (int j = 0; j < PAIR; j++) {
        uint64_t v0 = v[0 * LANES + j], v1 = v[1 * LANES + j], v2 = v[2 * LANES + j];
        uint64_t v3 = v[3 * LANES + j], v4 = v[4 * LANES + j], v5 = v[5 * LANES + j];
        uint64_t v6 = v[6 * LANES + j], v7 = v[7 * LANES + j], v8 = v[8 * LANES + j];
        uint64_t v9 = v[9 * LANES + j];
        STEP(0) STEP(1) STEP(2) STEP(3) STEP(4) STEP(5) STEP(6) STEP(7) STEP(8)
        STEP(9) STEP(10) STEP(11) STEP(12) STEP(13) STEP(14) STEP(15) STEP(16) STEP(17)
        STEP(18) STEP(19) STEP(20) STEP(21) STEP(22) STEP(23) STEP(24) STEP(25)
        v[0 * LANES + j] = fold(v0), v[1 * LANES + j] = fold(v1), v[2 * LANES + j] = fold(v2);
        v[3 * LANES + j] = fold(v3), v[4 * LANES + j] = fold(v4), v[5 * LANES + j] = fold(v5);
        v[6 * LANES + j] = fold(v6), v[7 * LANES + j] = fold(v7), v[8 * LANES + j] = fold(v8);
        v[9 * LANES + j] = fold(v9);
    }
}

/* A run of the blocks from `first` up to `end`, each feeding the next. */
static inline void run(line *ladder, size_t first, size_t end, size_t lanes, line *feed)
{
    for (size_t b = first; b < end; b++)
        for (size_t j = 0; j < lanes; j += PAIR)
            run_block(&ladder[BLOCK * b][j], &feed[0][j]);
}

static inline size_t blocks_of(size_t lines)
{
    return (lines + BLOCK - 1) / BLOCK;
}

/* Values at consecutive points become, in order n, (-1)^n times the difference of order n at the first: the
 * differences there of the points taken backwards. The ladder begins with the values, of changing signs;
 * lines that reach the lowest only after the last order are left out. */
static inline void take_differences(line *values, size_t width, size_t lanes)
{
    line ladder[MAX_WIDTH], feed[RUN];
    size_t blocks = blocks_of(width), blank = BLOCK * blocks - width;

    memset(ladder, 0, blank * sizeof(line));
    for (size_t k = 0; k < width; k++)
        for (size_t j = 0; j < LANES; j++)
            ladder[blank + width - 1 - k][j] = k % 2 == 0 ? values[k][j] : Q - values[k][j];
    for (size_t n = 0; n < width; n += RUN) {
        memset(feed, 0, sizeof feed);
        run(ladder, (blank + n) / BLOCK, blocks, lanes, feed);
        for (size_t i = 0; i < RUN && n + i < width; i++)
            for (size_t j = 0; j < LANES; j++)
                values[n + i][j] = fold(feed[i][j]);
    }
}

/* The coefficients of p(1 + y) from those of p, lowest first: a line for each coefficient, the lowest uppermost,
 * and p's coefficients as inputs, the highest first. Lines that are still 0 are left out. */
static inline void shift(line *coefficients, size_t width, size_t lanes)
{
    line ladder[MAX_WIDTH], feed[RUN];
    size_t blocks = blocks_of(width), runs = (width + RUN - 1) / RUN, lead = RUN * runs - width;

    memset(ladder, 0, BLOCK * blocks * sizeof(line));
    for (size_t r = 0; r < runs; r++) {
        size_t reached = blocks_of(RUN * (r + 1) - lead);
        for (size_t n = 0; n < RUN; n++)
            if (RUN * r + n < lead)
                memset(feed[n], 0, sizeof(line));
            else
                memcpy(feed[n], coefficients[width + lead - 1 - (RUN * r + n)], sizeof(line));
        run(ladder, 0, reached < blocks ? reached : blocks, lanes, feed);
    }
    memcpy(coefficients, ladder, width * sizeof(line));
}

/* The ladder that walks down from x, from the values at x, x + 1, .. With D_k for what take_differences
 * leaves, line k + 1 is the coefficient of y^k in the sum of D_i (1 + y)^(i - 1) over i > 0. */
static inline void build_ladder(line *values, size_t width, size_t lanes, line *ladder)
{
    size_t blank = BLOCK * blocks_of(width) - width;

    take_differences(values, width, lanes);
    if (width > 1)
        shift(values + 1, width - 1, lanes);
    memset(ladder, 0, blank * sizeof(line));
    for (size_t k = 0; k < width; k++)
        memcpy(ladder[blank + width - 1 - k], values[k], sizeof(line));
}

#endif
