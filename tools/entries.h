/* The entries of the library for C, declared under any prefix:
 *
 *     ENTRIES(smallwood)      declares smallwood_commit, smallwood_reply_length, smallwood_permutations,
 *                             smallwood_open, smallwood_check, smallwood_prove, smallwood_check_proof and
 *                             smallwood_interpolate
 *
 * A slice is a pointer and its number of elements. Each entry returns the verdict's number. */
#ifndef ENTRIES_H
#define ENTRIES_H

#include <stddef.h>
#include <stdint.h>

#define ENTRIES(prefix)                                                                            \
    uint32_t prefix##_commit(uint32_t h, uint32_t mu, uint32_t nu, uint32_t w, uint32_t l,         \
                             uint32_t eta, uint32_t beta, const uint32_t *coefficients,            \
                             size_t coefficient_count, const uint32_t *tails, size_t tail_count,   \
                             const uint32_t *blinds, size_t blind_count, const uint32_t *masks,    \
                             size_t mask_count, const uint8_t *nonces, size_t nonce_bytes,         \
                             const uint8_t *salt, size_t salt_bytes, uint32_t *table,              \
                             size_t table_count, uint8_t *tree, size_t tree_bytes);                \
    uint32_t prefix##_reply_length(const uint8_t *question, size_t question_bytes,                 \
                                   uint64_t *length);                                              \
    uint32_t prefix##_permutations(const uint8_t *question, size_t question_bytes,                 \
                                   uint64_t *count);                                               \
    uint32_t prefix##_open(const uint8_t *question, size_t question_bytes,                         \
                           const uint32_t *coefficients, size_t coefficient_count,                 \
                           const uint32_t *tails, size_t tail_count, const uint32_t *blinds,       \
                           size_t blind_count, const uint32_t *masks, size_t mask_count,           \
                           const uint32_t *table, size_t table_count, const uint8_t *nonces,       \
                           size_t nonce_bytes, const uint8_t *salt, size_t salt_bytes,             \
                           const uint8_t *tree, size_t tree_bytes, uint8_t *reply,                 \
                           size_t reply_bytes, uint64_t *length);                                  \
    uint32_t prefix##_check(const uint8_t *question, size_t question_bytes, const uint8_t *reply,  \
                            size_t reply_bytes, uint8_t *values, size_t value_bytes);              \
    uint32_t prefix##_prove(const uint8_t *question, size_t question_bytes, uint32_t kappa,        \
                            uint32_t limit, const uint32_t *coefficients,                          \
                            size_t coefficient_count, const uint32_t *tails, size_t tail_count,    \
                            const uint32_t *blinds, size_t blind_count, const uint32_t *masks,     \
                            size_t mask_count, const uint32_t *table, size_t table_count,          \
                            const uint8_t *nonces, size_t nonce_bytes, const uint8_t *salt,        \
                            size_t salt_bytes, const uint8_t *tree, size_t tree_bytes,             \
                            uint8_t *proof, size_t proof_bytes, uint64_t *length);                 \
    uint32_t prefix##_check_proof(const uint8_t *question, size_t question_bytes, uint32_t kappa,  \
                                  const uint8_t *proof, size_t proof_bytes, uint8_t *values,       \
                                  size_t value_bytes);                                             \
    uint32_t prefix##_interpolate(const uint32_t *points, size_t point_count,                      \
                                  const uint32_t *values, size_t value_count,                      \
                                  uint32_t *coefficients, size_t coefficient_count)

#endif
