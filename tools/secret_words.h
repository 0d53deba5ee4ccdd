/* Looks for the secrets of a call in memory: which of them stand there in plain. */
#ifndef SECRET_WORDS_H
#define SECRET_WORDS_H

#include <stdlib.h>
#include <string.h>

#include "secrets.h"

#define NAMED_PARTS (MOST_PARTS + 1)

/* 4 bytes, at aligned places; 8 of a nonce, at any place. */
struct secret_word {
    uint64_t value;
    size_t part;
};

struct secret_words {
    size_t count;
    struct secret_word *words;
};

static inline int by_value(const void *a, const void *b)
{
    const struct secret_word *x = a, *y = b;

    return (x->value > y->value) - (x->value < y->value);
}

static inline struct secret_word *word_in(const struct secret_words *in, uint64_t value)
{
    struct secret_word wanted = {value, 0};

    return bsearch(&wanted, in->words, in->count, sizeof wanted, by_value);
}

/* All words of the parts, in order. */
static inline struct secret_words words_of(const struct part *parts, size_t count)
{
    struct secret_words all = {.count = 0};
    size_t bytes = 0;

    for (size_t i = 0; i < count; i++)
        bytes += parts[i].bytes;
    all.words = allocate(bytes / 4 * sizeof *all.words);
    for (size_t i = 0; i < count; i++) {
        size_t size = parts[i].elements ? 4 : 8;
        for (size_t at = 0; at < parts[i].bytes; at += size) {
            struct secret_word *word = &all.words[all.count++];
            memcpy(&word->value, (const uint8_t *)parts[i].at + at, size);
            word->part = i;
        }
    }
    qsort(all.words, all.count, sizeof *all.words, by_value);
    return all;
}

/* What a call has shown: a reply, or a proof. */
static inline size_t shown_by(const struct lent *lent, struct part *part)
{
    struct instance *a = lent->a;

    if (lent->entry == OPEN)
        *part = (struct part){"reply", a->reply, a->reply_bytes, 1};
    else if (lent->entry == PROVE)
        *part = (struct part){"proof", a->proof, a->proof_length, 1};
    else
        return 0;
    return 1;
}

/* What is secret after a call: what it was lent, and the table or the coefficients that it left. Digests are not looked
 * for. */
static inline size_t kept_secrets(const struct lent *lent, struct part *parts)
{
    size_t count = secrets_of(lent, parts);

    if (lent->entry != INTERPOLATE)
        return TABLE_PART + 1;
    parts[count] = (struct part){"coefficients", lent->x->coefficients, 4 * lent->x->count, 1};
    return count + 1;
}

/* Their words, but for those that the call has shown. */
static inline struct secret_words secrets_after(const struct lent *lent)
{
    struct part parts[NAMED_PARTS], shown;
    struct secret_words all, public = {.count = 0};
    size_t count = kept_secrets(lent, parts), kept = 0;

    all = words_of(parts, count);
    if (shown_by(lent, &shown))
        public = words_of(&shown, 1);
    for (size_t i = 0; i < all.count; i++)
        if (public.count == 0 || word_in(&public, (uint32_t)all.words[i].value) == NULL)
            all.words[kept++] = all.words[i];
    all.count = kept;
    free(public.words);
    return all;
}

/* The secret that stands at a place, or NULL. */
static inline const struct secret_word *word_at(const struct secret_words *all, const uint8_t *at)
{
    const struct secret_word *word = NULL;
    uint64_t value = 0;

    memcpy(&value, at, 4);
    if ((uintptr_t)at % 4 == 0)
        word = word_in(all, value);
    memcpy(&value, at, 8);
    if (word == NULL && value >> 32 != 0)
        word = word_in(all, value);
    return word;
}

#endif
