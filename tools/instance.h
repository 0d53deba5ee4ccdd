/* Drawn inputs of all entries for given sizes, for soak.c, bench.c, permutations.c and what includes secrets.h. */
#ifndef INSTANCE_H
#define INSTANCE_H

#include "entries.h"

#define Q 4294967291u
#define MAX_POINTS 8
#define HEADER_BYTES 15
#define ROOT_BYTES 32
#define SALT_BYTES 32
#define NONCE_BYTES 32
#define COUNTER_BYTES 4 /* of a proof */
#define INDEX_BYTES 2   /* of a leaf */
#define NAMING_BYTES (HEADER_BYTES + ROOT_BYTES + SALT_BYTES) /* header, root and salt: every question's start */

struct sizes {
    uint32_t h, mu, nu, w, l, eta, m, beta;
};

/* What the entries are lent, with lengths in elements, and the drawn question's points and indices. */
struct instance {
    struct sizes s;
    size_t coefficient_count, tail_count, blind_count, mask_count, table_count;
    size_t nonce_bytes, salt_bytes, tree_bytes, question_bytes, value_bytes;
    size_t reply_bytes; /* of the drawn question's reply, counted without the library */
    uint32_t *coefficients, *tails, *blinds, *masks, *table;
    uint8_t *nonces, *salt, *tree, *question, *reply, *values;
    uint64_t length; /* of the reply, as an entry wrote it */
    uint64_t count;  /* of a check's permutations, as an entry wrote it */
    size_t proof_question_bytes, proof_bytes; /* the latter of the buffer */
    uint8_t *proof_question, *proof;
    uint64_t proof_length; /* as an entry wrote it */
    uint32_t points[MAX_POINTS], indices[64];
    /* For an older library, whose strings have no salt: the tree that it makes, the questions about it, and its
     * replies and proofs to these. The table is the same. */
    uint8_t *older_tree, *older_question, *older_reply, *older_proof_question, *older_proof;
    uint64_t older_proof_length;
};

/* The entries under one name. With `older` commit, open and prove are those of older.h, and there is no `permutations`. */
struct implementation {
    const char *name;
    uint32_t (*commit)(uint32_t, uint32_t, uint32_t, uint32_t, uint32_t, uint32_t, uint32_t,
                       const uint32_t *, size_t, const uint32_t *, size_t, const uint32_t *, size_t,
                       const uint32_t *, size_t, const uint8_t *, size_t, const uint8_t *, size_t,
                       uint32_t *, size_t, uint8_t *, size_t);
    uint32_t (*reply_length)(const uint8_t *, size_t, uint64_t *);
    uint32_t (*permutations)(const uint8_t *, size_t, uint64_t *);
    uint32_t (*open)(const uint8_t *, size_t, const uint32_t *, size_t, const uint32_t *, size_t,
                     const uint32_t *, size_t, const uint32_t *, size_t, const uint32_t *, size_t,
                     const uint8_t *, size_t, const uint8_t *, size_t, const uint8_t *, size_t,
                     uint8_t *, size_t, uint64_t *);
    uint32_t (*check)(const uint8_t *, size_t, const uint8_t *, size_t, uint8_t *, size_t);
    uint32_t (*prove)(const uint8_t *, size_t, uint32_t, uint32_t, const uint32_t *, size_t,
                      const uint32_t *, size_t, const uint32_t *, size_t, const uint32_t *, size_t,
                      const uint32_t *, size_t, const uint8_t *, size_t, const uint8_t *, size_t,
                      const uint8_t *, size_t, uint8_t *, size_t, uint64_t *);
    uint32_t (*check_proof)(const uint8_t *, size_t, uint32_t, const uint8_t *, size_t, uint8_t *, size_t);
    int older;
};

#define IMPLEMENTATION(prefix)                                                                     \
    {#prefix, prefix##_commit, prefix##_reply_length, prefix##_permutations, prefix##_open,        \
     prefix##_check, prefix##_prove, prefix##_check_proof, 0}

/* Ends the program with a message. */
void fail(const char *message) __attribute__((noreturn));

/* Memory, or the end of the program. */
void *allocate(size_t bytes);

/* Drawn numbers, the same in every run; `draw_again` goes back to the first. */
uint32_t draw_below(uint32_t bound);
void draw_again(void);

/* An instance with drawn coefficients, tails, blinds, masks, nonces and salt; table and tree are empty. */
struct instance *make_instance(struct sizes s);
void free_instance(struct instance *a);

/* Another number of points. */
void set_points(struct instance *a, uint32_t m);

/* Draws a question to the commitment that the tree has, and a proof's question with the same points. */
void ask(struct instance *a);

/* The same with the leaves first, first + step, and so on. */
void ask_leaves(struct instance *a, uint32_t first, uint32_t step);

/* Makes the older questions those that the others are now, about the older tree's root. */
void renew_older(struct instance *a);

/* How many nodes are above the drawn question's leaves, the root too. */
size_t nodes_above(const struct instance *a);

/* d + 1 */
size_t width_of(const struct sizes *s);

/* Of a polynomial's coefficients. */
size_t coefficients_each(const struct sizes *s);

/* Of a leaf's values: all rows, then masks. */
size_t record_of(const struct sizes *s);

/* Of these values and the nonce in a reply. */
size_t record_bytes(const struct sizes *s);

uint32_t commit_with(const struct implementation *with, struct instance *a);
uint32_t reply_length_with(const struct implementation *with, struct instance *a);
uint32_t permutations_with(const struct implementation *with, struct instance *a);
uint32_t open_with(const struct implementation *with, struct instance *a);
uint32_t check_with(const struct implementation *with, struct instance *a);

/* The reply that follows a proof's counter, as the answer to the question; an older library checks its own reply. */
uint32_t check_drawn_with(const struct implementation *with, struct instance *a);
uint32_t prove_with(const struct implementation *with, struct instance *a, uint32_t kappa, uint32_t limit);
uint32_t check_proof_with(const struct implementation *with, struct instance *a, uint32_t kappa);

/* A number as little-endian bytes; returns what follows. */
uint8_t *put(uint8_t *to, uint32_t number, int bytes);

#endif
