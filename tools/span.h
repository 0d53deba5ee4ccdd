/* Spans of vectors over the field: adding a vector, and whether one is in them. */
#ifndef SPAN_H
#define SPAN_H

#include <stdlib.h>
#include <string.h>

#include "instance.h"

/* Rows in echelon form: row[i] has its first entry that is not 0, a 1, at i; or it is NULL. */
struct span {
    size_t length, rank;
    uint32_t **row;
};

static inline struct span make_span(size_t length)
{
    return (struct span){length, 0, allocate(length * sizeof(uint32_t *))};
}

static inline void free_span(struct span *s)
{
    for (size_t i = 0; i < s->length; i++)
        free(s->row[i]);
    free(s->row);
}

static inline uint32_t inverse(uint32_t x)
{
    uint64_t power = x, result = 1;

    for (uint32_t e = Q - 2; e > 0; e >>= 1, power = power * power % Q)
        if (e & 1)
            result = result * power % Q;
    return (uint32_t)result;
}

/* Takes off what is in the span; returns where the first entry is that is left, or the length. */
static inline size_t reduce(const struct span *s, uint32_t *vector)
{
    size_t first = s->length;

    for (size_t i = 0; i < s->length; i++) {
        uint64_t factor = Q - vector[i];
        if (vector[i] == 0)
            continue;
        if (s->row[i] == NULL) {
            first = first < i ? first : i;
            continue;
        }
        for (size_t k = i; k < s->length; k++)
            vector[k] = (uint32_t)((vector[k] + factor * s->row[i][k]) % Q);
    }
    return first;
}

static inline int is_in(const struct span *s, const uint32_t *vector)
{
    uint32_t *rest = allocate(4 * s->length);
    size_t first;

    memcpy(rest, vector, 4 * s->length);
    first = reduce(s, rest);
    free(rest);
    return first == s->length;
}

static inline void extend(struct span *s, const uint32_t *vector)
{
    uint32_t *rest = allocate(4 * s->length);
    size_t first;

    memcpy(rest, vector, 4 * s->length);
    first = reduce(s, rest);
    if (first == s->length) {
        free(rest);
        return;
    }
    for (size_t k = s->length, factor = inverse(rest[first]); k-- > first;)
        rest[k] = (uint32_t)(factor * rest[k] % Q);
    s->row[first] = rest;
    s->rank++;
}

#endif
