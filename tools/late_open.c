/*
 * For example.sh: an open that cheats. Linked with --wrap=smallwood_open; from its third call on, when the leaves are known, it adds to an
 * answer the polynomial that is 0 at them, so that the check accepts another answer than was given before: to the first evaluation answer,
 * or with -DLATE_BATCHING to the first batching answer. On standard error it says what the check alone gives.
 */
#include <inttypes.h>
#include <stdio.h>

#include "smallwood.h"
#include "smallwood_draw.h"

#ifndef LATE_BATCHING
#define LATE_BATCHING 0
#endif

enum { H_AT = 5, NU_AT = 7, W_AT = 9, L_AT = 11, ETA_AT = 12, MOST_WIDTH = 320, CALL = 3, MOST_VALUES = 4 * 256 * 8 };

#define OPEN(name)                                                                                                                         \
    uint32_t name(const uint8_t *question, size_t question_length, const uint32_t *coefficients, size_t coefficients_length,               \
                  const uint32_t *tails, size_t tails_length, const uint32_t *blinds, size_t blinds_length, const uint32_t *masks,         \
                  size_t masks_length, const uint32_t *table, size_t table_length, const uint8_t *nonces, size_t nonces_length,            \
                  const uint8_t *salt, size_t salt_length, const uint8_t *tree, size_t tree_length, uint8_t *reply, size_t reply_length,   \
                  uint64_t *length)

OPEN(__real_smallwood_open);
OPEN(__wrap_smallwood_open);

static uint32_t half_at(const uint8_t *from)
{
    return from[0] + from[1] * 256u;
}

static void add(uint8_t *element, uint64_t x)
{
    uint32_t sum = (uint32_t)((smallwood_element_at(element) + x) % SMALLWOOD_Q);

    smallwood_put_elements(element, &sum, 1);
}

/* An evaluation answer has values, at N, N + 1, .. */
static void shift_evaluation(const uint8_t *question, const uint8_t *indices, uint8_t *answer, size_t width)
{
    for (size_t t = 0; t < width; t++) {
        uint64_t product = 1;

        for (size_t a = 0; a < question[L_AT]; a++)
            product = product * (SMALLWOOD_LEAVES(question[H_AT]) + t - half_at(indices + 2 * a)) % SMALLWOOD_Q;
        add(answer + 4 * t, product);
    }
}

/* A batching answer has coefficients, lowest first. */
static void shift_batching(const uint8_t *question, const uint8_t *indices, uint8_t *answer)
{
    uint64_t shift[MOST_WIDTH] = {1};

    for (size_t a = 0; a < question[L_AT]; a++)
        for (size_t i = a + 2; i-- > 0;)
            shift[i] = ((i > 0 ? shift[i - 1] : 0) + shift[i] * (SMALLWOOD_Q - half_at(indices + 2 * a))) % SMALLWOOD_Q;
    for (size_t i = 0; i <= question[L_AT]; i++)
        add(answer + 4 * i, shift[i]);
}

static void cheat(const uint8_t *question, size_t question_length, uint8_t *reply, size_t reply_length)
{
    static uint8_t values[MOST_VALUES];
    uint32_t eta = question[ETA_AT], m = question[SMALLWOOD_M_AT], w = half_at(question + W_AT);
    size_t width = SMALLWOOD_WIDTH(half_at(question + NU_AT), w, question[L_AT]);
    const uint8_t *indices = question + SMALLWOOD_INDICES_AT(eta, m);

    if (LATE_BATCHING)
        shift_batching(question, indices, reply);
    else
        shift_evaluation(question, indices, reply + 4 * width * eta, width);
    fprintf(stderr, "late_open: the check alone gives %" PRIu32 "\n",
            smallwood_check(question, question_length, reply, reply_length, values, SMALLWOOD_VALUES_LENGTH(w, m)));
}

OPEN(__wrap_smallwood_open)
{
    static int calls;
    uint32_t number = __real_smallwood_open(question, question_length, coefficients, coefficients_length, tails, tails_length, blinds,
                                            blinds_length, masks, masks_length, table, table_length, nonces, nonces_length, salt,
                                            salt_length, tree, tree_length, reply, reply_length, length);

    if (++calls >= CALL && number == SMALLWOOD_OK)
        cheat(question, question_length, reply, reply_length);
    return number;
}
