/* Committing: the table of all leaves' values by differences, and the tree over it. */
#ifndef COMMIT_H
#define COMMIT_H

#include "bytes.h"
#include "columns.h"
#include "differences.h"
#include "plain.h"
#include "polynomials.h"
#include "sizes.h"
#include "tree.h"

/* The masks' values at N, N + 1, .., as many as the rows have. */
static inline void fill_mask_values(const struct sizes *s, const uint32_t *masks,
                                    uint32_t (*values)[MAX_WIDTH])
{
    for (uint32_t c = 0; c < s->width; c++) {
        struct power_table table;
        fill_power_table(s->leaves + c, &table, s->width);
        for (uint32_t k = 0; k < s->eta; k++)
            values[k][c] = evaluate(&table, masks + k * s->width, s->width);
    }
}

/* The values at N, N + 1, .. of the rows from `first` on. */
static inline void gather_rows(const struct sizes *s, const struct lent *lent, uint32_t first, uint32_t count,
                               line *values)
{
    for (uint32_t c = 0; c < s->columns; c++) {
        uint32_t room[MAX_ROWS];
        const uint32_t *column = column_of(s, lent, c, room);
        for (uint32_t j = 0; j < count; j++)
            values[c][j] = column[first + j];
    }
    for (uint32_t j = 0; j < count; j++)
        for (uint32_t b = 0; b < s->l; b++)
            values[s->columns + b][j] = lent->tails[(first + j) * s->l + b];
}

/* The values at N - 1, .., 0 of the ladder's polynomials, to the columns from `first` on of the table. */
static inline void walk_down(const struct sizes *s, line *ladder, uint32_t first, uint32_t lanes,
                             uint32_t *table)
{
    for (uint32_t n = 0; n <= s->leaves; n += RUN) {
        line feed[RUN];
        memset(feed, 0, sizeof feed);
        run(ladder, 0, blocks_of(s->width), lanes, feed);
        for (uint32_t i = n == 0; i < RUN && n + i <= s->leaves; i++) {
            uint32_t *record = table + (size_t)(s->leaves - n - i) * s->record;
            for (uint32_t j = 0; j < lanes; j++)
                record[first + j] = reduce(feed[i][j]);
        }
    }
}

static inline void fill_table(const struct sizes *s, const struct lent *lent, uint32_t *table)
{
    uint32_t mask_values[MAX_REPETITIONS][MAX_WIDTH];

    fill_mask_values(s, lent->masks, mask_values);
    for (uint32_t first = 0; first < s->record; first += LANES) {
        uint32_t lanes = s->record - first < LANES ? s->record - first : LANES;
        uint32_t rows = first > s->rows ? 0 : s->rows - first < lanes ? s->rows - first : lanes;
        line values[MAX_WIDTH], ladder[MAX_WIDTH];
        memset(values, 0, s->width * sizeof(line));
        if (rows > 0)
            gather_rows(s, lent, first, rows, values);
        for (uint32_t j = rows; j < lanes; j++)
            for (uint32_t c = 0; c < s->width; c++)
                values[c][j] = mask_values[first + j - s->rows][c];
        build_ladder(values, s->width, lanes, ladder);
        walk_down(s, ladder, first, lanes, table);
    }
}

/* Leaves come in pairs. */
static inline void hash_leaves(const struct sizes *s, const uint32_t *table, const uint8_t *nonces,
                               const uint8_t *salt, uint8_t *digests)
{
    uint8_t strings[2 * MAX_LEAF_STRING], *second;
    size_t length = leaf_size(s);

    put_salts(strings, length, 2, LEAF_MARK, salt);
    for (uint32_t i = 0; i < s->leaves; i += 2) {
        second = put_leaf(strings, i, table, s->record, nonces);
        put_leaf(second, i + 1, table + s->record, s->record, nonces + NONCE_BYTES);
        hash(strings, length, 2, digests);
        table += 2 * s->record;
        nonces += 2 * NONCE_BYTES;
        digests += 2 * DIGEST_BYTES;
    }
}

uint32_t PLAIN(commit)(uint32_t h, uint32_t mu, uint32_t nu, uint32_t w, uint32_t l, uint32_t eta,
                       uint32_t beta, const uint32_t *coefficients, size_t coefficient_count,
                       const uint32_t *tails, size_t tail_count, const uint32_t *blinds,
                       size_t blind_count, const uint32_t *masks, size_t mask_count,
                       const uint8_t *nonces, size_t nonce_bytes, const uint8_t *salt,
                       size_t salt_bytes, uint32_t *table, size_t table_count, uint8_t *tree,
                       size_t tree_bytes)
{
    struct sizes s = {.h = h, .mu = mu, .nu = nu, .w = w, .l = l, .eta = eta, .m = 1, .beta = beta};
    struct lent lent = {coefficients, tails, blinds, masks};

    if (!complete(&s))
        return 1;
    if (!lengths_hold(&s, coefficient_count, tail_count, blind_count, mask_count, nonce_bytes,
                      salt_bytes, table_count, tree_bytes))
        return 2;
    if (!are_elements(coefficients, coefficient_count) || !are_elements(tails, tail_count) ||
        !are_elements(blinds, blind_count) || !are_elements(masks, mask_count))
        return 3;
    fill_table(&s, &lent, table);
    hash_leaves(&s, table, nonces, salt, tree);
    fill_tree(tree, s.leaves, salt);
    return 0;
}

#endif
