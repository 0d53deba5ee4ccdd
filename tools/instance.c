#include "instance.h"

#include "lent_slices.h"
#include "older.h"

#include <stdio.h>
#include <stdlib.h>
#include <string.h>

#define VERSION_AT 3 /* after the mark */
#define VERSION 3
#define OLDER_VERSION 2

void fail(const char *message)
{
    fprintf(stderr, "%s\n", message);
    exit(2);
}

void *allocate(size_t bytes)
{
    void *block = calloc(bytes > 0 ? bytes : 1, 1);

    if (block == NULL)
        fail("out of memory");
    return block;
}

#define FIRST_STATE 0x9e3779b97f4a7c15

static uint64_t state = FIRST_STATE;

void draw_again(void)
{
    state = FIRST_STATE;
}

/* xorshift64* */
static uint32_t draw(void)
{
    state ^= state >> 12;
    state ^= state << 25;
    state ^= state >> 27;
    return (uint32_t)(state * 0x2545f4914f6cdd1d >> 32);
}

uint32_t draw_below(uint32_t bound)
{
    return (uint32_t)((uint64_t)draw() * bound >> 32);
}

static uint32_t *draw_elements(size_t count)
{
    uint32_t *words = allocate(4 * count);

    for (size_t i = 0; i < count; i++)
        words[i] = draw_below(Q);
    return words;
}

static uint8_t *draw_bytes(size_t count)
{
    uint8_t *bytes = allocate(count);

    for (size_t i = 0; i < count; i++)
        bytes[i] = (uint8_t)draw();
    return bytes;
}

size_t width_of(const struct sizes *s)
{
    return (size_t)s->w * s->nu + s->l;
}

size_t coefficients_each(const struct sizes *s)
{
    return (size_t)s->mu * s->nu + s->beta;
}

size_t record_of(const struct sizes *s)
{
    return (size_t)s->mu + s->beta + s->eta;
}

size_t record_bytes(const struct sizes *s)
{
    return 4 * record_of(s) + NONCE_BYTES;
}

size_t nodes_above(const struct instance *a)
{
    size_t nodes = 0;

    for (uint32_t level = 1; level <= a->s.h; level++)
        for (uint32_t b = 0; b < a->s.l; b++)
            nodes += b == 0 || a->indices[b] >> level != a->indices[b - 1] >> level;
    return nodes;
}

static size_t reply_with(const struct sizes *s, size_t nodes)
{
    return 4 * width_of(s) * (s->eta + s->m) + record_bytes(s) * s->l + ROOT_BYTES * nodes;
}

void set_points(struct instance *a, uint32_t m)
{
    struct sizes *s = &a->s;

    s->m = m;
    a->question_bytes = NAMING_BYTES + 4 * (s->eta + m) + INDEX_BYTES * s->l;
    a->value_bytes = 4 * (size_t)s->w * m;
    a->proof_question_bytes = NAMING_BYTES + 4 * m;
    a->proof_bytes = COUNTER_BYTES + reply_with(s, (size_t)s->l * s->h);
}

struct instance *make_instance(struct sizes s)
{
    struct instance *a = allocate(sizeof *a);
    size_t leaves = (size_t)1 << s.h;

    a->s = s;
    a->coefficient_count = s.w * coefficients_each(&s);
    a->tail_count = (size_t)(s.mu + s.beta) * s.l;
    a->blind_count = (size_t)s.w * (s.nu - 1) * s.beta;
    a->mask_count = s.eta * width_of(&s);
    a->table_count = leaves * record_of(&s);
    a->nonce_bytes = NONCE_BYTES * leaves;
    a->salt_bytes = SALT_BYTES;
    a->tree_bytes = ROOT_BYTES * (2 * leaves - 1);
    a->coefficients = draw_elements(a->coefficient_count);
    a->tails = draw_elements(a->tail_count);
    a->blinds = draw_elements(a->blind_count);
    a->masks = draw_elements(a->mask_count);
    a->table = allocate(4 * a->table_count);
    a->nonces = draw_bytes(a->nonce_bytes);
    a->salt = draw_bytes(a->salt_bytes);
    a->tree = allocate(a->tree_bytes);
    set_points(a, MAX_POINTS);
    a->question = allocate(a->question_bytes);
    a->reply = allocate(reply_with(&a->s, (size_t)s.l * s.h)); /* no reply has more nodes */
    a->values = allocate(a->value_bytes);
    a->proof_question = allocate(a->proof_question_bytes);
    a->proof = allocate(a->proof_bytes);
    a->older_tree = allocate(a->tree_bytes);
    a->older_question = allocate(a->question_bytes);
    a->older_reply = allocate(reply_with(&a->s, (size_t)s.l * s.h));
    a->older_proof_question = allocate(a->proof_question_bytes);
    a->older_proof = allocate(a->proof_bytes);
    set_points(a, s.m);
    return a;
}

void free_instance(struct instance *a)
{
    free(a->coefficients);
    free(a->tails);
    free(a->blinds);
    free(a->masks);
    free(a->table);
    free(a->nonces);
    free(a->salt);
    free(a->tree);
    free(a->question);
    free(a->reply);
    free(a->values);
    free(a->proof_question);
    free(a->proof);
    free(a->older_tree);
    free(a->older_question);
    free(a->older_reply);
    free(a->older_proof_question);
    free(a->older_proof);
    free(a);
}

uint8_t *put(uint8_t *to, uint32_t number, int bytes)
{
    for (int i = 0; i < bytes; i++)
        *to++ = (uint8_t)(number >> 8 * i);
    return to;
}

static const uint8_t *root_in(const struct instance *a, const uint8_t *tree)
{
    return tree + a->tree_bytes - ROOT_BYTES;
}

/* A question as the older version had it: without a salt, about another root. */
static void put_older(uint8_t *to, const uint8_t *root, const uint8_t *question, size_t bytes)
{
    memcpy(to, question, HEADER_BYTES);
    to[VERSION_AT] = OLDER_VERSION;
    memcpy(to + HEADER_BYTES, root, ROOT_BYTES);
    memcpy(to + HEADER_BYTES + ROOT_BYTES, question + NAMING_BYTES, bytes - NAMING_BYTES);
}

void renew_older(struct instance *a)
{
    const uint8_t *root = root_in(a, a->older_tree);

    put_older(a->older_question, root, a->question, a->question_bytes);
    put_older(a->older_proof_question, root, a->proof_question, a->proof_question_bytes);
}

/* After the question's leaves are chosen. */
static void end_question(struct instance *a)
{
    const struct sizes *s = &a->s;
    uint8_t *to = a->question + a->question_bytes - INDEX_BYTES * s->l;

    for (uint32_t b = 0; b < s->l; b++)
        to = put(to, a->indices[b], INDEX_BYTES);
    memcpy(a->proof_question, a->question, NAMING_BYTES);
    memcpy(a->proof_question + NAMING_BYTES, a->question + NAMING_BYTES + 4 * s->eta, 4 * s->m);
    renew_older(a);
    /* Of the 2 n children of the n nodes above the opened leaves, l are these leaves and n - 1 such nodes;
     * the others are missing. */
    a->reply_bytes = reply_with(s, nodes_above(a) + 1 - s->l);
}

void ask(struct instance *a)
{
    const struct sizes *s = &a->s;
    uint32_t leaves = (uint32_t)1 << s->h, taken = 0;
    uint8_t *to = a->question;

    memcpy(to, "SWQ", VERSION_AT);
    to = put(to + VERSION_AT, VERSION, 2);
    to = put(put(to, s->h, 1), s->mu, 1);
    to = put(put(to, s->nu, 2), s->w, 2);
    to = put(put(put(put(to, s->l, 1), s->eta, 1), s->m, 1), s->beta, 1);
    memcpy(to, root_in(a, a->tree), ROOT_BYTES);
    memcpy(to + ROOT_BYTES, a->salt, SALT_BYTES);
    to += ROOT_BYTES + SALT_BYTES;
    for (uint32_t k = 0; k < s->eta; k++)
        to = put(to, draw_below(Q), 4);
    for (uint32_t p = 0; p < s->m; p++) {
        a->points[p] = draw_below(8) == 0 ? 0 : draw_below(Q);
        to = put(to, a->points[p], 4);
    }
    /* Each set of l leaves is as likely as any other. */
    for (uint32_t i = 0; taken < s->l; i++)
        if (draw_below(leaves - i) < s->l - taken)
            a->indices[taken++] = i;
    end_question(a);
}

void ask_leaves(struct instance *a, uint32_t first, uint32_t step)
{
    ask(a);
    for (uint32_t b = 0; b < a->s.l; b++)
        a->indices[b] = first + b * step;
    end_question(a);
}

uint32_t commit_with(const struct implementation *with, struct instance *a)
{
    if (with->older)
        return AS_OLDER(older_commit, with->commit)(SIZES_LENT, WORDS, NONCES, TABLE, OLDER_TREE);
    return with->commit(SIZES_LENT, WORDS, NONCES, SALT, TABLE, TREE);
}

uint32_t reply_length_with(const struct implementation *with, struct instance *a)
{
    if (with->older)
        return with->reply_length(OLDER_QUESTION, &a->length);
    return with->reply_length(QUESTION, &a->length);
}

uint32_t permutations_with(const struct implementation *with, struct instance *a)
{
    return with->permutations(QUESTION, &a->count);
}

uint32_t open_with(const struct implementation *with, struct instance *a)
{
    if (with->older)
        return AS_OLDER(older_open, with->open)(OLDER_QUESTION, WORDS, TABLE, NONCES, OLDER_TREE, a->older_reply,
                                                a->reply_bytes, &a->length);
    return with->open(QUESTION, WORDS, TABLE, NONCES, SALT, TREE, REPLY, &a->length);
}

uint32_t check_with(const struct implementation *with, struct instance *a)
{
    if (with->older)
        return with->check(OLDER_QUESTION, a->older_reply, a->length, a->values, a->value_bytes);
    return with->check(QUESTION, a->reply, a->length, a->values, a->value_bytes);
}

uint32_t check_drawn_with(const struct implementation *with, struct instance *a)
{
    if (with->older)
        return check_with(with, a);
    return with->check(QUESTION, a->proof + COUNTER_BYTES, a->proof_length - COUNTER_BYTES, a->values,
                       a->value_bytes);
}

uint32_t prove_with(const struct implementation *with, struct instance *a, uint32_t kappa, uint32_t limit)
{
    if (with->older)
        return AS_OLDER(older_prove, with->prove)(OLDER_PROOF_QUESTION, kappa, limit, WORDS, TABLE, NONCES,
                                                  OLDER_TREE, a->older_proof, a->proof_bytes, &a->older_proof_length);
    return with->prove(PROOF_QUESTION, kappa, limit, WORDS, TABLE, NONCES, SALT, TREE, PROOF, &a->proof_length);
}

uint32_t check_proof_with(const struct implementation *with, struct instance *a, uint32_t kappa)
{
    if (with->older)
        return with->check_proof(OLDER_PROOF_QUESTION, kappa, a->older_proof, a->older_proof_length, a->values,
                                 a->value_bytes);
    return with->check_proof(PROOF_QUESTION, kappa, a->proof, a->proof_length, a->values, a->value_bytes);
}
