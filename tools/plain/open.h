/* Opening: the reply to a question. */
#ifndef OPEN_H
#define OPEN_H

#include "bytes.h"
#include "columns.h"
#include "interpolation.h"
#include "plain.h"
#include "question.h"
#include "tree.h"

#define MAX_COMBINATIONS (MAX_REPETITIONS + MAX_POINTS)

/* The challenges' powers from the first on, then the points' powers from 0 on. */
static inline void fill_factors(const struct question *q, uint32_t (*factors)[MAX_ROWS])
{
    const struct sizes *s = &q->sizes;

    for (uint32_t k = 0; k < s->eta; k++) {
        uint32_t from_power_0[MAX_ROWS + 1];
        powers(q->challenges[k], from_power_0, s->rows + 1);
        copy(factors[k], from_power_0 + 1, 4 * s->rows);
    }
    for (uint32_t p = 0; p < s->m; p++)
        powers(q->points[p], factors[s->eta + p], s->rows);
}

/* For each column and tail, and each line of factors, the sum of factor j times the entry of row j. */
static inline void combine(const struct sizes *s, uint32_t (*factors)[MAX_ROWS], const struct lent *lent,
                           uint32_t (*out)[MAX_COMBINATIONS])
{
    uint32_t room[MAX_ROWS];

    for (uint32_t c = 0; c < s->columns; c++)
        dots(column_of(s, lent, c, room), s->rows, factors[0], MAX_ROWS, s->eta + s->m, out[c]);
    for (uint32_t b = 0; b < s->l; b++) {
        for (uint32_t j = 0; j < s->rows; j++)
            room[j] = lent->tails[j * s->l + b];
        dots(room, s->rows, factors[0], MAX_ROWS, s->eta + s->m, out[s->columns + b]);
    }
}

static inline uint8_t *store_batchings(const struct sizes *s, uint32_t (*combined)[MAX_COMBINATIONS],
                                       const uint32_t *masks, uint8_t *to)
{
    line values[MAX_WIDTH];

    for (uint32_t c = 0; c < s->width; c++)
        for (uint32_t k = 0; k < LANES; k++)
            values[c][k] = k < s->eta ? combined[c][k] : 0;
    interpolate(s->leaves, values, s->width, s->eta);
    for (uint32_t k = 0; k < s->eta; k++) {
        uint32_t answer[MAX_WIDTH];
        for (uint32_t c = 0; c < s->width; c++)
            answer[c] = add((uint32_t)values[c][k], masks[k * s->width + c]);
        to = store_words(to, answer, s->width);
    }
    return to;
}

static inline uint8_t *store_answers(const struct sizes *s, uint32_t (*combined)[MAX_COMBINATIONS],
                                     uint8_t *to)
{
    for (uint32_t p = 0; p < s->m; p++) {
        uint32_t answer[MAX_WIDTH];
        for (uint32_t c = 0; c < s->width; c++)
            answer[c] = combined[c][s->eta + p];
        to = store_words(to, answer, s->width);
    }
    return to;
}

static inline uint8_t *store_records(const struct question *q, const uint32_t *table,
                                     const uint8_t *nonces, uint8_t *to)
{
    for (uint32_t b = 0; b < q->sizes.l; b++) {
        uint32_t i = q->opened.indices[b];
        to = store_words(to, table + (size_t)i * q->sizes.record, q->sizes.record);
        memcpy(to, nonces + NONCE_BYTES * (size_t)i, NONCE_BYTES);
        to += NONCE_BYTES;
    }
    return to;
}

/* All batching and evaluation answers. */
static inline uint8_t *store_all_answers(const struct question *q, const struct lent *lent, uint8_t *to)
{
    uint32_t factors[MAX_COMBINATIONS][MAX_ROWS], combined[MAX_WIDTH][MAX_COMBINATIONS];

    fill_factors(q, factors);
    combine(&q->sizes, factors, lent, combined);
    to = store_batchings(&q->sizes, combined, lent->masks, to);
    return store_answers(&q->sizes, combined, to);
}

uint32_t PLAIN(open)(const uint8_t *question, size_t question_bytes, const uint32_t *coefficients,
                     size_t coefficient_count, const uint32_t *tails, size_t tail_count,
                     const uint32_t *blinds, size_t blind_count, const uint32_t *masks,
                     size_t mask_count, const uint32_t *table, size_t table_count,
                     const uint8_t *nonces, size_t nonce_bytes, const uint8_t *salt,
                     size_t salt_bytes, const uint8_t *tree, size_t tree_bytes, uint8_t *reply,
                     size_t reply_bytes, uint64_t *length)
{
    struct lent lent = {coefficients, tails, blinds, masks};
    struct question q;
    const struct sizes *s = &q.sizes;
    uint8_t *to = reply;
    uint32_t number = read_question(question, question_bytes, &q);

    if (number != 0)
        return number;
    if (reply_bytes != exact_size(&q) ||
        !lengths_hold(s, coefficient_count, tail_count, blind_count, mask_count, nonce_bytes,
                      salt_bytes, table_count, tree_bytes))
        return 2;
    if (!are_elements(coefficients, coefficient_count) || !are_elements(tails, tail_count) ||
        !are_elements(blinds, blind_count) || !are_elements(masks, mask_count) ||
        !are_elements(table, table_count))
        return 3;
    if (!names(&q, tree + tree_bytes - DIGEST_BYTES, salt))
        return 8;
    to = store_all_answers(&q, &lent, to);
    to = store_records(&q, table, nonces, to);
    to = copy_missing(s->h, &q.opened, tree, to);
    *length = (uint64_t)(to - reply);
    return 0;
}

#endif
