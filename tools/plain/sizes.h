/* The sizes of a commitment, their ranges, and the lengths that follow from them. */
#ifndef SIZES_H
#define SIZES_H

#include <stdbool.h>
#include <stddef.h>
#include <stdint.h>

#include "shake.h"

#define NONCE_BYTES 32
#define SALT_BYTES 32

/* The largest sizes. */
#define MAX_LEAVES 4096
#define MAX_ROWS 64 /* blinding rows too */
#define MAX_BLINDING 16
#define MAX_COLUMNS 256
#define MAX_WIDTH 320
#define MAX_OPENED 64
#define MAX_REPETITIONS 4
#define MAX_POINTS 8

struct sizes {
    uint32_t h, mu, nu, w, l, eta, m, beta;
    uint32_t rows;    /* mu + beta */
    uint32_t each;    /* coefficients of a polynomial */
    uint32_t leaves;  /* N */
    uint32_t columns; /* w nu */
    uint32_t width;   /* d + 1 */
    uint32_t record;  /* values of one leaf */
};

/* Fills the sums and products once the sizes are in their ranges. */
static inline bool complete(struct sizes *s)
{
    if (s->h < 1 || s->h > 12 || s->mu < 1 || s->mu > MAX_ROWS || s->nu < 1 || s->nu > MAX_COLUMNS ||
        s->w < 1 || s->w > MAX_COLUMNS || s->w * s->nu > MAX_COLUMNS || s->l < 1 ||
        s->l > MAX_OPENED || s->eta < 1 || s->eta > MAX_REPETITIONS || s->m < 1 || s->m > MAX_POINTS ||
        s->beta > MAX_BLINDING || s->beta > s->mu || s->mu + s->beta > MAX_ROWS)
        return false;
    s->rows = s->mu + s->beta;
    s->each = s->mu * s->nu + s->beta;
    s->leaves = (uint32_t)1 << s->h;
    s->columns = s->w * s->nu;
    s->width = s->columns + s->l;
    s->record = s->rows + s->eta;
    return s->width <= s->leaves;
}

/* Of the leaf's values and nonce in a reply. */
static inline size_t record_size(const struct sizes *s)
{
    return 4 * (size_t)s->record + NONCE_BYTES;
}

/* Of all batching and evaluation answers. */
static inline size_t answers_size(const struct sizes *s)
{
    return 4 * (size_t)s->width * (s->eta + s->m);
}

static inline size_t reply_size(const struct sizes *s, size_t nodes)
{
    return answers_size(s) + record_size(s) * s->l + DIGEST_BYTES * nodes;
}

/* Of what committing is lent, and opening after it. */
static inline bool lengths_hold(const struct sizes *s, size_t coefficients, size_t tails, size_t blinds,
                                size_t masks, size_t nonces, size_t salt, size_t table, size_t tree)
{
    return coefficients == (size_t)s->w * s->each && tails == (size_t)s->rows * s->l &&
           blinds == (size_t)s->w * (s->nu - 1) * s->beta &&
           masks == (size_t)s->eta * s->width && nonces == NONCE_BYTES * (size_t)s->leaves &&
           salt == SALT_BYTES && table == (size_t)s->leaves * s->record &&
           tree == DIGEST_BYTES * (2 * (size_t)s->leaves - 1);
}

#endif
