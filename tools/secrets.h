/* What timing.sh and stack.sh have in common: calls of the entries, prepared by plain C, at sizes from the least to the
 * largest, and what of them is secret. */
#ifndef SECRETS_H
#define SECRETS_H

#include <stdio.h>
#include <stdlib.h>

#include "instance.h"
#include "lent_slices.h"

ENTRIES(smallwood);
ENTRIES(plain);

static const struct implementation library = IMPLEMENTATION(smallwood), plain = IMPLEMENTATION(plain);

/* Those that are lent secrets first. */
enum entry { COMMIT, OPEN, PROVE, INTERPOLATE, CHECK, CHECK_PROOF, REPLY_LENGTH, PERMUTATIONS, ENTRY_COUNT };

#define SECRET_ENTRIES CHECK

static const char *const entry_names[ENTRY_COUNT] = {
    "commit", "open", "prove", "interpolate", "check", "check_proof", "reply_length", "permutations",
};

#define KAPPA 4 /* of the proofs: some counters are tried */
#define LIMIT (~(uint32_t)0)

static const struct sizes secret_sizes[] = {
    {1, 1, 1, 1, 1, 1, 1, 0},
    {2, 1, 2, 1, 1, 1, 1, 1},
    {4, 4, 2, 2, 4, 1, 1, 2},
    /* one column to a polynomial, without and with blinding rows */
    {5, 6, 1, 4, 7, 2, 2, 0},
    {5, 6, 1, 4, 7, 2, 2, 3},
    /* each number of repetitions, the last with more points than rows */
    {6, 9, 4, 2, 10, 1, 3, 3},
    {6, 8, 4, 4, 8, 2, 1, 2},
    {6, 6, 3, 3, 9, 3, 2, 2},
    {6, 4, 3, 3, 9, 4, 1, 1},
    {6, 2, 3, 5, 20, 4, 8, 1},
    {7, 13, 5, 3, 33, 3, 5, 4},
    {8, 16, 8, 8, 16, 2, 2, 2},
    {10, 48, 32, 2, 40, 3, 4, 16},
    /* the largest: square, one column, one polynomial with the most blinding rows */
    {12, 64, 16, 16, 64, 4, 8, 0},
    {12, 64, 1, 256, 64, 4, 8, 0},
    {12, 48, 256, 1, 64, 4, 8, 16},
};

#define SECRET_SIZES (sizeof secret_sizes / sizeof secret_sizes[0])
#define MIDDLE_SIZES secret_sizes[11] /* none of the secrets is empty */

#define MOST_SAMPLES 320

static const size_t sample_counts[] = {1, 2, 3, 7, 8, 9, 64, 319, MOST_SAMPLES};

#define SAMPLE_COUNTS (sizeof sample_counts / sizeof sample_counts[0])

/* Points and values to interpolate, and what is found. */
struct samples {
    size_t count;
    int equal; /* whether two points are */
    uint32_t points[MOST_SAMPLES], values[MOST_SAMPLES], coefficients[MOST_SAMPLES];
};

/* A call, and what it is lent: an instance, but for INTERPOLATE, which is lent samples. */
struct lent {
    enum entry entry;
    struct instance *a;
    struct samples *x;
};

static inline uint32_t call(const struct implementation *with, const struct lent *lent)
{
    struct samples *x = lent->x;

    switch (lent->entry) {
    case COMMIT:
        return commit_with(with, lent->a);
    case OPEN:
        return open_with(with, lent->a);
    case PROVE:
        return prove_with(with, lent->a, KAPPA, LIMIT);
    case CHECK:
        return check_with(with, lent->a);
    case CHECK_PROOF:
        return check_proof_with(with, lent->a, KAPPA);
    case REPLY_LENGTH:
        return reply_length_with(with, lent->a);
    case PERMUTATIONS:
        return permutations_with(with, lent->a);
    default:
        return (with == &library ? smallwood_interpolate : plain_interpolate)(x->points, x->count, x->values, x->count,
                                                                              x->coefficients, x->count);
    }
}

static inline void call_plain(struct lent lent, enum entry entry)
{
    lent.entry = entry;
    if (call(&plain, &lent) != 0)
        fail("plain C refuses an honest call");
}

#define DRAWS_APART 1000000 /* no inputs take so many */

/* Inputs depend on the number of their draw and on nothing else, and two draws have none in common. */
static inline void begin_draw(uint32_t number)
{
    draw_again();
    for (uint32_t i = 0; i < number * DRAWS_APART; i++)
        draw_below(2);
}

/* What comes before the call is done, by plain C. */
static inline struct lent prepare(enum entry entry, struct sizes s, uint32_t draw)
{
    struct lent lent = {entry, NULL, NULL};

    begin_draw(draw);
    lent.a = make_instance(s);
    if (entry == COMMIT)
        return lent;
    call_plain(lent, COMMIT);
    ask(lent.a);
    if (entry == CHECK)
        call_plain(lent, OPEN);
    if (entry == CHECK_PROOF)
        call_plain(lent, PROVE);
    return lent;
}

/* Points differ: they are rising, by drawn steps. */
static inline struct lent prepare_samples(size_t count, uint32_t draw)
{
    struct lent lent = {INTERPOLATE, NULL, allocate(sizeof(struct samples))};
    uint32_t point = 0;

    begin_draw(draw);
    lent.x->count = count;
    for (size_t i = 0; i < count; i++) {
        point += 1 + draw_below(Q / MOST_SAMPLES - 1);
        lent.x->points[i] = point;
        lent.x->values[i] = draw_below(Q);
    }
    return lent;
}

static inline struct lent prepare_equal_samples(size_t count, uint32_t draw)
{
    struct lent lent = prepare_samples(count, draw);

    lent.x->equal = 1;
    lent.x->points[count - 1] = lent.x->points[0];
    return lent;
}

enum number { DONE = 0, BAD_ELEMENT = 3, EQUAL_POINTS = 13 };

/* What the call has to return. */
static inline uint32_t number_of(const struct lent *lent)
{
    return lent->x != NULL && lent->x->equal ? EQUAL_POINTS : DONE;
}

static inline void release(struct lent *lent)
{
    if (lent->a != NULL)
        free_instance(lent->a);
    free(lent->x);
}

/* How a row of a table begins. */
static inline void print_lent(const struct lent *lent)
{
    printf("| %s ", entry_names[lent->entry]);
    if (lent->a == NULL) {
        printf("| %zu points%s ", lent->x->count, lent->x->equal ? ", two equal" : "");
    } else {
        const struct sizes *s = &lent->a->s;
        printf("| %u %u %u %u %u %u %u %u ", s->h, s->mu, s->nu, s->w, s->l, s->eta, s->m, s->beta);
    }
}

/* A part of memory under its name. */
struct part {
    const char *name;
    void *at;
    size_t bytes;
    int elements; /* its words are to be below q */
};

enum { COEFFICIENTS_PART, TAILS_PART, BLINDS_PART, MASKS_PART, NONCES_PART, TABLE_PART, TREE_PART, MOST_PARTS };

/* One of several parts, as a bit. */
#define PART(number) (1u << (number))

/* What a call is lent to read and nobody else may know: the parts above, but a commit is lent no table and no tree. Of
 * a tree the root is public. An interpolate has one part. */
static inline size_t secrets_of(const struct lent *lent, struct part *parts)
{
    const struct instance *a = lent->a;

    if (lent->entry == INTERPOLATE) {
        parts[0] = (struct part){"values", lent->x->values, 4 * lent->x->count, 1};
        return 1;
    }
    parts[COEFFICIENTS_PART] = (struct part){"coefficients", a->coefficients, 4 * a->coefficient_count, 1};
    parts[TAILS_PART] = (struct part){"tails", a->tails, 4 * a->tail_count, 1};
    parts[BLINDS_PART] = (struct part){"blinds", a->blinds, 4 * a->blind_count, 1};
    parts[MASKS_PART] = (struct part){"masks", a->masks, 4 * a->mask_count, 1};
    parts[NONCES_PART] = (struct part){"nonces", a->nonces, a->nonce_bytes, 0};
    parts[TABLE_PART] = (struct part){"table", a->table, 4 * a->table_count, 1};
    parts[TREE_PART] = (struct part){"tree", a->tree, a->tree_bytes - ROOT_BYTES, 0};
    return lent->entry == COMMIT ? TABLE_PART : MOST_PARTS;
}

#endif
