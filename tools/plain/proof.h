/* Proofs without a conversation: proving, and checking a proof. */
#ifndef PROOF_H
#define PROOF_H

#include "bytes.h"
#include "check.h"
#include "draw.h"
#include "open.h"
#include "plain.h"
#include "question.h"
#include "tree.h"

uint32_t PLAIN(prove)(const uint8_t *question, size_t question_bytes, uint32_t kappa, uint32_t limit,
                      const uint32_t *coefficients, size_t coefficient_count, const uint32_t *tails,
                      size_t tail_count, const uint32_t *blinds, size_t blind_count,
                      const uint32_t *masks, size_t mask_count, const uint32_t *table,
                      size_t table_count, const uint8_t *nonces, size_t nonce_bytes,
                      const uint8_t *salt, size_t salt_bytes, const uint8_t *tree,
                      size_t tree_bytes, uint8_t *proof, size_t proof_bytes, uint64_t *length)
{
    struct lent lent = {coefficients, tails, blinds, masks};
    struct question q;
    struct draws d;
    const struct sizes *s = &q.sizes;
    uint8_t *answers, *to;
    uint32_t counter, number = read_proof_question(question, question_bytes, kappa, &q);

    if (number != 0)
        return number;
    if (proof_bytes != COUNTER_BYTES + reply_size(s, (size_t)s->l * s->h) ||
        !lengths_hold(s, coefficient_count, tail_count, blind_count, mask_count, nonce_bytes,
                      salt_bytes, table_count, tree_bytes))
        return 2;
    if (!are_elements(coefficients, coefficient_count) || !are_elements(tails, tail_count) ||
        !are_elements(blinds, blind_count) || !are_elements(masks, mask_count) ||
        !are_elements(table, table_count))
        return 3;
    if (!names(&q, tree + tree_bytes - DIGEST_BYTES, salt))
        return 8;
    draw_challenges(question, &q);
    answers = begin_draws(&d, question, question_bytes);
    hash_draws(&d, store_all_answers(&q, &lent, answers));
    if (!find_counter(&d, kappa, limit, &counter))
        return 11;
    draw_leaves(&d, counter, kappa, &q);
    to = store_words(proof, &counter, 1);
    copy(to, answers, answers_size(s));
    to = store_records(&q, table, nonces, to + answers_size(s));
    to = copy_missing(s->h, &q.opened, tree, to);
    *length = (uint64_t)(to - proof);
    return 0;
}

uint32_t PLAIN(check_proof)(const uint8_t *question, size_t question_bytes, uint32_t kappa,
                            const uint8_t *proof, size_t proof_bytes, uint8_t *values,
                            size_t value_bytes)
{
    struct question q;
    struct draws d;
    struct reply r;
    const struct sizes *s = &q.sizes;
    uint8_t *answers;
    uint32_t counter, number = read_proof_question(question, question_bytes, kappa, &q);
    bool good;

    if (number != 0)
        return number;
    if (value_bytes != 4 * (size_t)s->w * s->m)
        return 2;
    if (proof_bytes < COUNTER_BYTES + answers_size(s))
        return 7;
    load_words(&counter, proof, 1);
    answers = begin_draws(&d, question, question_bytes);
    copy(answers, proof + COUNTER_BYTES, answers_size(s));
    hash_draws(&d, answers + answers_size(s));
    good = draw_leaves(&d, counter, kappa, &q);
    if (proof_bytes != COUNTER_BYTES + exact_size(&q))
        return 7;
    if (!read_reply(s, proof + COUNTER_BYTES, &r))
        return 3;
    if (!good)
        return 12;
    draw_challenges(question, &q);
    return verify(&q, &r, values);
}

#endif
