/* SHAKE256 of FIPS 202, cut to 32 bytes; and of strings that end in a counter, with as many bytes as are wanted. */
#ifndef SHAKE_H
#define SHAKE_H

#include <stddef.h>
#include <stdint.h>

#define DIGEST_BYTES 32
#define RATE_BYTES 136

/* Permutations of Keccak in one digest. */
static inline uint64_t permutations_of(size_t length)
{
    return length / RATE_BYTES + 1;
}

/* In keccak.c: plain C. */
void keccak_digest(const uint8_t *string, size_t length, uint8_t digest[DIGEST_BYTES]);

/* Two digests at once, of strings of the same length. */
void keccak_digests(const uint8_t *first, const uint8_t *second, size_t length, uint8_t *first_digest,
                    uint8_t *second_digest);

/* A string up to its counter: the state before the counter and the next permutation, and where the counter goes. The
 * string's length is a multiple of the counter's, so that the counter stands in one lane. Where the padding does not
 * fit into that block, `second` is the one after it. */
struct counted {
    uint64_t first[25], second[RATE_BYTES / 8];
    size_t lane;
    unsigned shift;
    int two;
};

void keccak_begin(struct counted *s, const uint8_t *string, size_t length);

/* SHAKE256 of the string and a counter of 4 bytes. */
void keccak_count(const struct counted *s, uint32_t counter, uint8_t *out, size_t bytes);

/* The first 8 bytes for the counter and for the next one, as numbers. */
void keccak_count_pair(const struct counted *s, uint32_t counter, uint64_t first[2]);

/* In evp.c: OpenSSL's. It keeps one context for the whole program: one thread at a time. The first digest makes it,
 * unless evp_start has. */
void evp_start(void);
void evp_digest(const uint8_t *string, size_t length, uint8_t digest[DIGEST_BYTES]);

/* For strings that end in a counter; the string up to there is kept in a second context. */
void evp_begin(const uint8_t *string, size_t length);
void evp_count(uint32_t counter, uint8_t *out, size_t bytes);

#endif
