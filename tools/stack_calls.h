/* The entries on a painted stack, each called as a program would call it, with the remedy of include/smallwood_wipe.h
 * after it or without. */
#ifndef STACK_CALLS_H
#define STACK_CALLS_H

#include "../include/smallwood_wipe.h"
#include "painted_stack.h"
#include "secrets.h"

#define STACK_BYTES ((size_t)1 << 18)
#define OWN_BYTES 12288 /* of a caller's own arrays */

struct stack_call {
    struct lent lent;
    int wiped; /* whether the remedy follows */
    uint32_t number;
    uint8_t *stack, *mark; /* below the mark is what the entry has used */
};

#define SET_MARK(c) __asm__ volatile("mov %%rsp, %0" : "=r"((c)->mark))

/* As a caller would write it: the entry, and the remedy as the last thing, in a function with arrays of its own. */
#define CALLER(name, entry_call)                                                                   \
    static void name(void *data)                                                                   \
    {                                                                                              \
        struct stack_call *c = data;                                                               \
        struct instance *a = c->lent.a;                                                            \
        struct samples *x = c->lent.x;                                                             \
        volatile uint8_t own[OWN_BYTES];                                                           \
                                                                                                   \
        (void)a, (void)x;                                                                          \
        own[0] = own[OWN_BYTES - 1] = PAINT;                                                       \
        SET_MARK(c);                                                                               \
        c->number = entry_call;                                                                    \
        if (c->wiped)                                                                              \
            smallwood_wipe_stack();                                                                \
    }

CALLER(do_commit, smallwood_commit(SIZES_LENT, WORDS, NONCES, SALT, TABLE, TREE))
CALLER(do_open, smallwood_open(QUESTION, WORDS, TABLE, NONCES, SALT, TREE, REPLY, &a->length))
CALLER(do_prove,
       smallwood_prove(PROOF_QUESTION, KAPPA, LIMIT, WORDS, TABLE, NONCES, SALT, TREE, PROOF, &a->proof_length))
CALLER(do_interpolate, smallwood_interpolate(x->points, x->count, x->values, x->count, x->coefficients, x->count))
CALLER(do_check, smallwood_check(QUESTION, a->reply, a->length, a->values, a->value_bytes))
CALLER(do_check_proof,
       smallwood_check_proof(PROOF_QUESTION, KAPPA, a->proof, a->proof_length, a->values, a->value_bytes))
CALLER(do_reply_length, smallwood_reply_length(QUESTION, &a->length))
CALLER(do_permutations, smallwood_permutations(QUESTION, &a->count))

static stack_work *const callers[ENTRY_COUNT] = {
    do_commit, do_open, do_prove, do_interpolate, do_check, do_check_proof, do_reply_length, do_permutations,
};

static inline size_t size_count(enum entry entry)
{
    return entry == INTERPOLATE ? SAMPLE_COUNTS : SECRET_SIZES;
}

static inline struct lent prepare_numbered(enum entry entry, size_t size, uint32_t draw)
{
    return entry == INTERPOLATE ? prepare_samples(sample_counts[size], draw)
                                : prepare(entry, secret_sizes[size], draw);
}

/* Before any call; it is made by run_call. */
static inline struct stack_call on_painted_stack(struct lent lent, int wiped)
{
    return (struct stack_call){.lent = lent, .wiped = wiped, .stack = paint_stack(STACK_BYTES)};
}

static inline void run_call(struct stack_call *c)
{
    memset(c->stack, PAINT, STACK_BYTES);
    run_on_stack(c->stack, STACK_BYTES, callers[c->lent.entry], c);
    if (c->number != number_of(&c->lent))
        fail("a call does not return the number that it has to");
}

static inline void end_call(struct stack_call *c)
{
    munmap(c->stack, STACK_BYTES);
    release(&c->lent);
}

static inline size_t depth_of(const struct stack_call *c)
{
    return (size_t)(c->mark - lowest_touched(c->stack, STACK_BYTES));
}

#endif
