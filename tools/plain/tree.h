/* The hash tree over the leaves, and walks over it from the opened ones. */
#ifndef TREE_H
#define TREE_H

#include <string.h>

#include "bytes.h"
#include "plain.h"
#include "shake.h"
#include "sizes.h"

#define LEAF_MARK 0x00
#define NODE_MARK 0x01
#define SALTED_PREFIX (1 + SALT_BYTES)
#define INDEX_BYTES 2
#define LEAF_PREFIX (SALTED_PREFIX + INDEX_BYTES)
#define MAX_LEAF_STRING (LEAF_PREFIX + 4 * (MAX_ROWS + MAX_REPETITIONS) + NONCE_BYTES)
#define NODE_STRING (SALTED_PREFIX + 2 * DIGEST_BYTES)

/* Of the string of a leaf. */
static inline size_t leaf_size(const struct sizes *s)
{
    return LEAF_PREFIX + record_size(s);
}

#ifdef PLAIN_OPENSSL
#define ONE_DIGEST evp_digest
#else
#define ONE_DIGEST keccak_digest
#endif

/* The digests of `count` strings of the same length, one behind the other. */
static inline void hash(const uint8_t *strings, size_t length, size_t count, uint8_t *digests)
{
    for (; PLAIN_PAIRS && count > 1; count -= 2, strings += 2 * length, digests += 2 * DIGEST_BYTES)
        keccak_digests(strings, strings + length, length, digests, digests + DIGEST_BYTES);
    for (; count > 0; count--, strings += length, digests += DIGEST_BYTES)
        ONE_DIGEST(strings, length, digests);
}

/* Mark and salt of `count` strings of the same length, one behind the other. The rest is put behind them, and again
 * for the next digests: mark and salt stay. */
static inline void put_salts(uint8_t *strings, size_t length, size_t count, uint8_t mark, const uint8_t *salt)
{
    for (; count > 0; count--, strings += length) {
        strings[0] = mark;
        memcpy(strings + 1, salt, SALT_BYTES);
    }
}

/* The string of a leaf behind its salt, of which the values are words in the machine's order; returns what follows. */
static inline uint8_t *put_leaf(uint8_t *to, uint32_t index, const void *values, size_t count,
                                const uint8_t *nonce)
{
    to[SALTED_PREFIX] = (uint8_t)index;
    to[SALTED_PREFIX + 1] = (uint8_t)(index >> 8);
    to += LEAF_PREFIX;
    copy(to, values, 4 * count);
    memcpy(to + 4 * count, nonce, NONCE_BYTES);
    return to + 4 * count + NONCE_BYTES;
}

/* The string of a node behind its salt. */
static inline uint8_t *put_node(uint8_t *to, const uint8_t *left, const uint8_t *right)
{
    memcpy(to + SALTED_PREFIX, left, DIGEST_BYTES);
    memcpy(to + SALTED_PREFIX + DIGEST_BYTES, right, DIGEST_BYTES);
    return to + NODE_STRING;
}

/* From the leaves' digests at its start, all levels of the tree. */
static inline void fill_tree(uint8_t *tree, uint32_t leaves, const uint8_t *salt)
{
    uint8_t *above = tree + DIGEST_BYTES * (size_t)leaves, strings[2 * NODE_STRING];

    put_salts(strings, NODE_STRING, 2, NODE_MARK, salt);
    for (uint32_t made = 0, batch; made + 1 < leaves; made += batch) {
        uint8_t *end = strings;
        batch = made + 2 < leaves ? 2 : 1;
        for (uint32_t i = 0; i < batch; i++, tree += 2 * DIGEST_BYTES)
            end = put_node(end, tree, tree + DIGEST_BYTES);
        hash(strings, NODE_STRING, batch, above);
        above += DIGEST_BYTES * (size_t)batch;
    }
}

/* A walk over the nodes above the opened leaves, level by level. The rising indices of one level become
 * those of the next; a node whose sibling is not among them has it listed. */
struct level {
    uint32_t count;
    uint32_t indices[MAX_OPENED];
};

static inline bool sibling_follows(const struct level *level, uint32_t at)
{
    return at + 1 < level->count && level->indices[at + 1] == (level->indices[at] ^ 1);
}

/* The place of the highest bit. */
static inline uint32_t highest_bit(uint32_t x)
{
    return 31 - (uint32_t)__builtin_clz(x);
}

/* The nodes above the opened leaves, each once. Those of leaf b are new up to the highest bit in which it differs
 * from leaf b - 1; those of leaf 0 all are. */
static inline size_t count_above(uint32_t h, const struct level *opened)
{
    size_t above = h;

    for (uint32_t b = 1; b < opened->count; b++)
        above += highest_bit(opened->indices[b] ^ opened->indices[b - 1]);
    return above;
}

/* Level by level, nodes and missing ones together are twice the nodes above. */
static inline size_t count_missing(uint32_t h, const struct level *opened)
{
    return count_above(h, opened) - (opened->count - 1);
}

static inline void begin_walk(struct level *level, const struct level *opened)
{
    level->count = opened->count;
    copy(level->indices, opened->indices, opened->count * sizeof opened->indices[0]);
}

static inline uint8_t *copy_missing(uint32_t h, const struct level *opened, const uint8_t *tree,
                                    uint8_t *to)
{
    struct level level;

    begin_walk(&level, opened);
    for (; h > 0; h--) {
        uint32_t above = 0;
        for (uint32_t at = 0; at < level.count; at++) {
            uint32_t index = level.indices[at];
            if (sibling_follows(&level, at)) {
                at++;
            } else {
                memcpy(to, tree + DIGEST_BYTES * (size_t)(index ^ 1), DIGEST_BYTES);
                to += DIGEST_BYTES;
            }
            level.indices[above++] = index / 2;
        }
        level.count = above;
        tree += DIGEST_BYTES * ((size_t)1 << h);
    }
    return to;
}

/* The opened leaves' digests become the root's, which ends in digests[0]. */
static inline void find_root(uint32_t h, const struct level *opened, const uint8_t *salt,
                             uint8_t (*digests)[DIGEST_BYTES], const uint8_t *missing)
{
    struct level level;
    uint8_t strings[NODE_STRING * MAX_OPENED];

    put_salts(strings, NODE_STRING, opened->count, NODE_MARK, salt);
    begin_walk(&level, opened);
    for (; h > 0; h--) {
        uint8_t *end = strings;
        uint32_t above = 0;
        for (uint32_t at = 0; at < level.count; at++) {
            uint32_t index = level.indices[at];
            const uint8_t *own = digests[at], *sibling;
            if (sibling_follows(&level, at)) {
                sibling = digests[++at];
            } else {
                sibling = missing;
                missing += DIGEST_BYTES;
            }
            end = index % 2 == 0 ? put_node(end, own, sibling) : put_node(end, sibling, own);
            level.indices[above++] = index / 2;
        }
        hash(strings, NODE_STRING, above, digests[0]);
        level.count = above;
    }
}

#endif
