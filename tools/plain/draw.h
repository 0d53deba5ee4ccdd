/* The draws of a proof: its challenges, and the leaves that a counter gives. */
#ifndef DRAW_H
#define DRAW_H

#include "bytes.h"
#include "question.h"
#include "shake.h"
#include "tree.h"

#define CHALLENGE_MARK 0x02
#define DRAW_MARK 0x03
#define LONG_WORD 8
#define COUNTER_BYTES 4
#define MAX_DRAW (DIGEST_BYTES + LONG_WORD * MAX_OPENED)
#define MAX_ANSWERS (4 * MAX_WIDTH * (MAX_REPETITIONS + MAX_POINTS))
#define MAX_DRAW_STRING (1 + NAMING_BYTES + 4 * MAX_POINTS + MAX_ANSWERS)

static inline uint64_t load_long(const uint8_t *from)
{
    uint64_t word;

    memcpy(&word, from, LONG_WORD);
    return word;
}

static inline void draw_challenges(const uint8_t *question, struct question *q)
{
    uint8_t string[1 + NAMING_BYTES], words[DIGEST_BYTES];

    string[0] = CHALLENGE_MARK;
    memcpy(string + 1, question, sizeof string - 1);
    hash(string, sizeof string, 1, words);
    for (uint32_t k = 0; k < q->sizes.eta; k++)
        q->challenges[k] = (uint32_t)(load_long(words + LONG_WORD * k) % Q);
}

/* Leaf draws: their string up to the answers, to be followed by them; then what does not depend on the counter. */
struct draws {
    uint8_t string[MAX_DRAW_STRING];
#ifndef PLAIN_OPENSSL
    struct counted counted;
#endif
};

/* Returns where the answers stand. */
static inline uint8_t *begin_draws(struct draws *d, const uint8_t *question, size_t question_bytes)
{
    d->string[0] = DRAW_MARK;
    copy(d->string + 1, question, question_bytes);
    return d->string + 1 + question_bytes;
}

static inline void hash_draws(struct draws *d, const uint8_t *end)
{
#ifdef PLAIN_OPENSSL
    evp_begin(d->string, (size_t)(end - d->string));
#else
    keccak_begin(&d->counted, d->string, (size_t)(end - d->string));
#endif
}

static inline void draw(const struct draws *d, uint32_t counter, uint8_t *out, size_t bytes)
{
#ifdef PLAIN_OPENSSL
    (void)d;
    evp_count(counter, out, bytes);
#else
    keccak_count(&d->counted, counter, out, bytes);
#endif
}

/* Whether the first kappa bits are zero. */
static inline bool qualifies(const uint8_t *draw, uint32_t kappa)
{
    return ((uint32_t)draw[0] << 8 | draw[1]) >> (MAX_KAPPA - kappa) == 0;
}

/* The least counter below the limit that qualifies; false where there is none. */
static inline bool find_counter(const struct draws *d, uint32_t kappa, uint32_t limit, uint32_t *counter)
{
    uint32_t c = 0;

#if PLAIN_PAIRS
    for (; limit - c > 1; c += 2) {
        uint64_t first[2];
        keccak_count_pair(&d->counted, c, first);
        for (uint32_t i = 0; i < 2; i++)
            if (qualifies((const uint8_t *)&first[i], kappa)) {
                *counter = c + i;
                return true;
            }
    }
#endif
    for (; c < limit; c++) {
        uint8_t first[2];
        draw(d, c, first, sizeof first);
        if (qualifies(first, kappa)) {
            *counter = c;
            return true;
        }
    }
    return false;
}

/* The leaves that a draw names. The rank among the unused ones becomes an index by one step over each used index that
 * is not above it; the used ones stand in rising order. */
static inline void choose_leaves(uint32_t leaves, uint32_t count, const uint8_t *words, struct level *opened)
{
    uint32_t *used = opened->indices;

    for (uint32_t j = 0; j < count; j++) {
        uint32_t index = (uint32_t)(load_long(words + LONG_WORD * j) % (leaves - j)), at = 0;
        for (; at < j && used[at] <= index; at++)
            index++;
        memmove(used + at + 1, used + at, (j - at) * sizeof used[0]);
        used[at] = index;
    }
    opened->count = count;
}

/* Draws the leaves for a counter; returns whether it qualifies. */
static inline bool draw_leaves(const struct draws *d, uint32_t counter, uint32_t kappa, struct question *q)
{
    const struct sizes *s = &q->sizes;
    uint8_t drawn[MAX_DRAW];

    draw(d, counter, drawn, DIGEST_BYTES + LONG_WORD * (size_t)s->l);
    choose_leaves(s->leaves, s->l, drawn + DIGEST_BYTES, &q->opened);
    return qualifies(drawn, kappa);
}

#endif
