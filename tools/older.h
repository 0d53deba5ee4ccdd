/* The entries of libraries whose questions have version 2, for an older archive in bench.c: no salt is lent, and none
 * stands in questions and strings. The entries that are not here had the same parameters. Archives of version 1 are not
 * served any more. */
#ifndef OLDER_H
#define OLDER_H

#include <stddef.h>
#include <stdint.h>

typedef uint32_t older_commit(uint32_t h, uint32_t mu, uint32_t nu, uint32_t w, uint32_t l, uint32_t eta,
                              uint32_t beta, const uint32_t *coefficients, size_t coefficient_count,
                              const uint32_t *tails, size_t tail_count, const uint32_t *blinds, size_t blind_count,
                              const uint32_t *masks, size_t mask_count, const uint8_t *nonces, size_t nonce_bytes,
                              uint32_t *table, size_t table_count, uint8_t *tree, size_t tree_bytes);
typedef uint32_t older_open(const uint8_t *question, size_t question_bytes, const uint32_t *coefficients,
                            size_t coefficient_count, const uint32_t *tails, size_t tail_count,
                            const uint32_t *blinds, size_t blind_count, const uint32_t *masks, size_t mask_count,
                            const uint32_t *table, size_t table_count, const uint8_t *nonces, size_t nonce_bytes,
                            const uint8_t *tree, size_t tree_bytes, uint8_t *reply, size_t reply_bytes,
                            uint64_t *length);
typedef uint32_t older_prove(const uint8_t *question, size_t question_bytes, uint32_t kappa, uint32_t limit,
                             const uint32_t *coefficients, size_t coefficient_count, const uint32_t *tails,
                             size_t tail_count, const uint32_t *blinds, size_t blind_count, const uint32_t *masks,
                             size_t mask_count, const uint32_t *table, size_t table_count, const uint8_t *nonces,
                             size_t nonce_bytes, const uint8_t *tree, size_t tree_bytes, uint8_t *proof,
                             size_t proof_bytes, uint64_t *length);

/* A pointer to an entry as one of these types. */
#define AS_OLDER(type, entry) ((type *)(void (*)(void))(entry))

#endif
