/* Checking a reply, and the values that an accepted one gives. */
#ifndef CHECK_H
#define CHECK_H

#include "barycentric.h"
#include "bytes.h"
#include "plain.h"
#include "polynomials.h"
#include "question.h"
#include "tree.h"

#define MAX_RECORD (MAX_ROWS + MAX_REPETITIONS)

struct reply {
    uint32_t batchings[MAX_REPETITIONS][MAX_WIDTH];
    uint32_t answers[MAX_POINTS][MAX_WIDTH];
    uint32_t values[MAX_OPENED][MAX_RECORD];
    const uint8_t *records; /* the first leaf's */
    const uint8_t *nodes;
};

/* Reads a reply that has its length; false when a word is no element. */
static inline bool read_reply(const struct sizes *s, const uint8_t *bytes, struct reply *r)
{
    bool good = true;

    for (uint32_t k = 0; k < s->eta; k++, bytes += 4 * s->width) {
        load_words(r->batchings[k], bytes, s->width);
        good &= are_elements(r->batchings[k], s->width);
    }
    for (uint32_t p = 0; p < s->m; p++, bytes += 4 * s->width) {
        load_words(r->answers[p], bytes, s->width);
        good &= are_elements(r->answers[p], s->width);
    }
    r->records = bytes;
    for (uint32_t b = 0; b < s->l; b++, bytes += record_size(s)) {
        load_words(r->values[b], bytes, s->record);
        good &= are_elements(r->values[b], s->record);
    }
    r->nodes = bytes;
    return good;
}

static inline bool root_holds(const struct question *q, const struct reply *r)
{
    const struct sizes *s = &q->sizes;
    uint8_t strings[MAX_LEAF_STRING * MAX_OPENED], *end = strings;
    uint8_t digests[MAX_OPENED][DIGEST_BYTES];
    const uint8_t *record = r->records;
    size_t length = leaf_size(s);

    put_salts(strings, length, s->l, LEAF_MARK, q->salt);
    for (uint32_t b = 0; b < s->l; b++, record += record_size(s))
        end = put_leaf(end, q->opened.indices[b], record, s->record, record + 4 * s->record);
    hash(strings, length, s->l, digests[0]);
    find_root(s->h, &q->opened, q->salt, digests, r->nodes);
    return memcmp(digests[0], q->root, DIGEST_BYTES) == 0;
}

static inline bool batchings_hold(const struct question *q, const struct reply *r)
{
    const struct sizes *s = &q->sizes;
    uint32_t factors[MAX_REPETITIONS][MAX_ROWS + 1], rows[MAX_REPETITIONS];

    for (uint32_t k = 0; k < s->eta; k++)
        powers(q->challenges[k], factors[k], s->rows + 1);
    for (uint32_t b = 0; b < s->l; b++) {
        struct power_table table;
        fill_power_table(q->opened.indices[b], &table, s->width);
        dots(r->values[b], s->rows, factors[0] + 1, MAX_ROWS + 1, s->eta, rows);
        for (uint32_t k = 0; k < s->eta; k++)
            if (evaluate(&table, r->batchings[k], s->width) != add(r->values[b][s->rows + k], rows[k]))
                return false;
    }
    return true;
}

/* Lines of the answers times the weights, and a last one of the weights. */
static inline void scale_answers(const struct sizes *s, const struct reply *r,
                                 uint32_t (*scaled)[MAX_WIDTH])
{
    const uint32_t *weights = scaled[s->m];

    fill_weights(scaled[s->m], s->width);
    for (uint32_t p = 0; p < s->m; p++)
        for (uint32_t t = 0; t < s->width; t++)
            scaled[p][t] = multiply(weights[t], r->answers[p][t]);
}

/* With products for inverses the total is 1. */
static inline bool answers_hold(const struct question *q, const struct reply *r)
{
    const struct sizes *s = &q->sizes;
    uint32_t factors[MAX_POINTS][MAX_ROWS], rows[MAX_POINTS];
    uint32_t scaled[MAX_POINTS + 1][MAX_WIDTH], sums[MAX_POINTS + 1];
    uint32_t inverses[MAX_LEAVES + MAX_WIDTH], products[MAX_WIDTH];
    bool tabled = wants_table(s);

    scale_answers(s, r, scaled);
    if (tabled)
        fill_inverses(inverses, s->leaves + s->width);
    for (uint32_t p = 0; p < s->m; p++)
        powers(q->points[p], factors[p], s->rows);
    for (uint32_t b = 0; b < s->l; b++) {
        uint32_t distance = s->leaves - q->opened.indices[b];
        sums[s->m] = 1;
        if (!tabled)
            fill_products(distance, products, s->width);
        dots(tabled ? inverses + distance : products, s->width, scaled[0], MAX_WIDTH, s->m + tabled,
             sums);
        dots(r->values[b], s->rows, factors[0], MAX_ROWS, s->m, rows);
        for (uint32_t p = 0; p < s->m; p++)
            if (sums[p] != multiply(sums[s->m], rows[p]))
                return false;
    }
    return true;
}

/* Point by point, the polynomials' values: sums of z^(t mu) times column value t. */
static inline void store_values(const struct question *q, const struct reply *r, uint8_t *to)
{
    const struct sizes *s = &q->sizes;
    uint32_t factors[MAX_COLUMNS], values[MAX_COLUMNS];

    for (uint32_t p = 0; p < s->m; p++) {
        uint32_t step = 1;
        for (uint32_t j = 0; j < s->mu; j++)
            step = multiply(step, q->points[p]);
        powers(step, factors, s->nu);
        dots(factors, s->nu, r->answers[p], s->nu, s->w, values);
        to = store_words(to, values, s->w);
    }
}

/* The tests of a reply of its length that are left after its elements, and the values. */
static inline uint32_t verify(const struct question *q, const struct reply *r, uint8_t *values)
{
    if (!root_holds(q, r))
        return 8;
    if (!batchings_hold(q, r))
        return 9;
    if (!answers_hold(q, r))
        return 10;
    store_values(q, r, values);
    return 0;
}

uint32_t PLAIN(check)(const uint8_t *question, size_t question_bytes, const uint8_t *reply,
                      size_t reply_bytes, uint8_t *values, size_t value_bytes)
{
    struct question q;
    struct reply r;
    uint32_t number = read_question(question, question_bytes, &q);

    if (number != 0)
        return number;
    if (value_bytes != 4 * (size_t)q.sizes.w * q.sizes.m)
        return 2;
    if (reply_bytes != exact_size(&q))
        return 7;
    if (!read_reply(&q.sizes, reply, &r))
        return 3;
    return verify(&q, &r, values);
}

#endif
