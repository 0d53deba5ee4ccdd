/* The conversation's question that a proof stands for: no entry, but what soak.c and bench.c ask the check with. */
#include "converse.h"

#include "draw.h"

size_t question_of_proof(const uint8_t *question, size_t question_bytes, const uint8_t *proof, uint8_t *to)
{
    struct question q;
    struct draws d;
    const struct sizes *s = &q.sizes;
    uint8_t *answers, *start = to;
    uint32_t counter;

    if (read_proof_question(question, question_bytes, 0, &q) != 0)
        return 0;
    load_words(&counter, proof, 1);
    answers = begin_draws(&d, question, question_bytes);
    copy(answers, proof + COUNTER_BYTES, answers_size(s));
    hash_draws(&d, answers + answers_size(s));
    draw_leaves(&d, counter, 0, &q);
    draw_challenges(question, &q);
    memcpy(to, question, NAMING_BYTES);
    to = store_words(to + NAMING_BYTES, q.challenges, s->eta);
    to = store_words(to, q.points, s->m);
    for (uint32_t b = 0; b < s->l; b++, to += 2) {
        to[0] = (uint8_t)q.opened.indices[b];
        to[1] = (uint8_t)(q.opened.indices[b] >> 8);
    }
    return (size_t)(to - start);
}
