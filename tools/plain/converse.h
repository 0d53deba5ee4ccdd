/* The conversation's question that a proof stands for, drawn by plain C. */
#ifndef CONVERSE_H
#define CONVERSE_H

#include <stddef.h>
#include <stdint.h>

/* Writes it, at most 255 bytes, and returns its length: 0 where the proof's question is refused. The proof must have
 * room for counter and answers. */
size_t question_of_proof(const uint8_t *question, size_t question_bytes, const uint8_t *proof, uint8_t *to);

#endif
