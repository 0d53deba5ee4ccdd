/* A question as it is read, the length of its reply, and the work of checking it. */
#ifndef QUESTION_H
#define QUESTION_H

#include "bytes.h"
#include "sizes.h"
#include "tree.h"

#define HEADER_BYTES 15
#define NAMING_BYTES (HEADER_BYTES + DIGEST_BYTES + SALT_BYTES) /* header, root and salt: every question's start */

struct question {
    struct sizes sizes;
    const uint8_t *root, *salt;
    uint32_t challenges[MAX_REPETITIONS];
    uint32_t points[MAX_POINTS];
    struct level opened;
};

static inline uint32_t read_header(const uint8_t *bytes, struct sizes *s)
{
    if (memcmp(bytes, "SWQ\3", 5) != 0)
        return 5;
    s->h = bytes[5];
    s->mu = bytes[6];
    s->nu = load16(bytes + 7);
    s->w = load16(bytes + 9);
    s->l = bytes[11];
    s->eta = bytes[12];
    s->m = bytes[13];
    s->beta = bytes[14];
    return complete(s) ? 0 : 1;
}

static inline void read_commitment(const uint8_t *bytes, struct question *q)
{
    q->root = bytes + HEADER_BYTES;
    q->salt = q->root + DIGEST_BYTES;
}

/* Whether it is about the commitment with this root and this salt. */
static inline bool names(const struct question *q, const uint8_t *root, const uint8_t *salt)
{
    return memcmp(q->root, root, DIGEST_BYTES) == 0 && memcmp(q->salt, salt, SALT_BYTES) == 0;
}

static inline uint32_t read_question(const uint8_t *bytes, size_t length, struct question *q)
{
    struct sizes *s = &q->sizes;
    uint32_t number;

    if (length < HEADER_BYTES)
        return 6;
    number = read_header(bytes, s);
    if (number != 0)
        return number;
    if (length != NAMING_BYTES + 4 * (s->eta + s->m) + 2 * s->l)
        return 6;
    read_commitment(bytes, q);
    bytes += NAMING_BYTES;
    load_words(q->challenges, bytes, s->eta);
    load_words(q->points, bytes + 4 * s->eta, s->m);
    bytes += 4 * (s->eta + s->m);
    if (!are_elements(q->challenges, s->eta) || !are_elements(q->points, s->m))
        return 3;
    q->opened.count = s->l;
    for (uint32_t b = 0; b < s->l; b++) {
        q->opened.indices[b] = load16(bytes + 2 * b);
        if (q->opened.indices[b] >= s->leaves ||
            (b > 0 && q->opened.indices[b] <= q->opened.indices[b - 1]))
            return 4;
    }
    return 0;
}

/* The most zero bits that a leaf draw may have to begin with. */
#define MAX_KAPPA 16

/* A proof's question; challenges and indices are left to the draws. */
static inline uint32_t read_proof_question(const uint8_t *bytes, size_t length, uint32_t kappa,
                                           struct question *q)
{
    struct sizes *s = &q->sizes;
    uint32_t number;

    if (length < HEADER_BYTES)
        return 6;
    number = read_header(bytes, s);
    if (number != 0)
        return number;
    if (kappa > MAX_KAPPA)
        return 1;
    if (length != NAMING_BYTES + 4 * s->m)
        return 6;
    read_commitment(bytes, q);
    load_words(q->points, bytes + NAMING_BYTES, s->m);
    return are_elements(q->points, s->m) ? 0 : 3;
}

/* The permutations of Keccak in a check that comes to hash: of the opened leaves and of the nodes above them. */
static inline uint64_t hashing_work(const struct question *q)
{
    const struct sizes *s = &q->sizes;

    return s->l * permutations_of(leaf_size(s)) + count_above(s->h, &q->opened) * permutations_of(NODE_STRING);
}

/* The length of the reply to a question. */
static inline size_t exact_size(const struct question *q)
{
    return reply_size(&q->sizes, count_missing(q->sizes.h, &q->opened));
}

#endif
