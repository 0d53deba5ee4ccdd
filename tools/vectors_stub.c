/*
 * The entries in name only, to test the runner of the test vectors: the check refuses everything with 6. FAULT is a
 * statement that it runs before; without one it changes nothing.
 */
#include <stddef.h>
#include <stdint.h>

#ifndef FAULT
#define FAULT (void)0
#endif

#define IN_NAME_ONLY(name) \
    uint32_t name(void); \
    uint32_t name(void) { return 6; }

IN_NAME_ONLY(smallwood_commit)
IN_NAME_ONLY(smallwood_reply_length)
IN_NAME_ONLY(smallwood_permutations)
IN_NAME_ONLY(smallwood_open)
IN_NAME_ONLY(smallwood_prove)
IN_NAME_ONLY(smallwood_check_proof)
IN_NAME_ONLY(smallwood_interpolate)

uint32_t smallwood_check(uint8_t *question, size_t question_length, uint8_t *reply, size_t reply_length,
                         uint8_t *values, size_t values_length);

uint32_t smallwood_check(uint8_t *question, size_t question_length, uint8_t *reply, size_t reply_length,
                         uint8_t *values, size_t values_length)
{
    (void)question, (void)question_length, (void)reply, (void)reply_length, (void)values, (void)values_length;
    FAULT;
    return 6;
}
