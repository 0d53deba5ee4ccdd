/* Words as bytes, lowest first: the machine's own order on x86-64. */
#ifndef BYTES_H
#define BYTES_H

#include <stdbool.h>
#include <string.h>

#include "field.h"

#if __BYTE_ORDER__ != __ORDER_LITTLE_ENDIAN__
#error "written for little-endian machines"
#endif

static inline uint32_t load16(const uint8_t *from)
{
    return (uint32_t)from[0] | (uint32_t)from[1] << 8;
}

/* Not inline: where a compiler knows a bound of the size, it takes a string instruction for memcpy, which starts
 * slowly. */
static __attribute__((noinline)) void copy(void *to, const void *from, size_t bytes)
{
    memcpy(to, from, bytes);
}

static inline void load_words(uint32_t *words, const uint8_t *from, size_t count)
{
    copy(words, from, 4 * count);
}

static inline uint8_t *store_words(uint8_t *to, const uint32_t *words, size_t count)
{
    copy(to, words, 4 * count);
    return to + 4 * count;
}

static inline bool are_elements(const uint32_t *words, size_t count)
{
    uint32_t bad = 0;

#pragma GCC unroll 4
    for (size_t i = 0; i < count; i++)
        bad |= words[i] >= Q ? ~(uint32_t)0 : 0;
    return bad == 0;
}

#endif
