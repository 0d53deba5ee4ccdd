/*
 * SHAKE256 (FIPS 202) for strings of any length, in plain C: small, not fast. A state that has taken a string's beginning may be copied
 * and used for every string that begins so.
 */
#ifndef DIGEST_H
#define DIGEST_H

#include <stddef.h>
#include <stdint.h>

enum { SHAKE_LANES = 25, SHAKE_RATE = 136 };

struct shake {
    uint64_t lanes[SHAKE_LANES];
    size_t at; /* in the block that is being filled or given */
};

static inline uint64_t shake_turn(uint64_t lane, unsigned by)
{
    return lane << by | lane >> (64 - by);
}

static inline void shake_round(uint64_t *lanes, uint64_t constant)
{
    uint64_t sums[5], moved, next;
    size_t at = 1;

    for (size_t x = 0; x < 5; x++)
        sums[x] = lanes[x] ^ lanes[x + 5] ^ lanes[x + 10] ^ lanes[x + 15] ^ lanes[x + 20];
    for (size_t i = 0; i < SHAKE_LANES; i++)
        lanes[i] ^= sums[(i + 4) % 5] ^ shake_turn(sums[(i + 1) % 5], 1);

    /* The lanes but the first are one cycle: each is turned by a triangular number and takes the place of the next. */
    moved = lanes[1];
    for (unsigned t = 1; t < SHAKE_LANES; t++) {
        size_t x = at % 5, y = at / 5;

        at = y + 5 * ((2 * x + 3 * y) % 5);
        next = lanes[at];
        lanes[at] = shake_turn(moved, t * (t + 1) / 2 % 64);
        moved = next;
    }
    for (size_t row = 0; row < SHAKE_LANES; row += 5) {
        uint64_t first = lanes[row], second = lanes[row + 1];

        for (size_t x = 0; x < 3; x++)
            lanes[row + x] ^= ~lanes[row + x + 1] & lanes[row + x + 2];
        lanes[row + 3] ^= ~lanes[row + 4] & first;
        lanes[row + 4] ^= ~first & second;
    }
    lanes[0] ^= constant;
}

static inline void shake_permute(struct shake *state)
{
    static const uint64_t constants[] = {
        0x0000000000000001, 0x0000000000008082, 0x800000000000808A, 0x8000000080008000, 0x000000000000808B, 0x0000000080000001,
        0x8000000080008081, 0x8000000000008009, 0x000000000000008A, 0x0000000000000088, 0x0000000080008009, 0x000000008000000A,
        0x000000008000808B, 0x800000000000008B, 0x8000000000008089, 0x8000000000008003, 0x8000000000008002, 0x8000000000000080,
        0x000000000000800A, 0x800000008000000A, 0x8000000080008081, 0x8000000000008080, 0x0000000080000001, 0x8000000080008008
    };

    for (size_t round = 0; round < sizeof constants / sizeof *constants; round++)
        shake_round(state->lanes, constants[round]);
    state->at = 0;
}

static inline void shake_put(struct shake *state, size_t at, uint8_t byte)
{
    state->lanes[at / 8] ^= (uint64_t)byte << at % 8 * 8;
}

/* A state begins with zeros: struct shake state = {{0}, 0}. */
static inline void shake_take(struct shake *state, const void *from, size_t count)
{
    const uint8_t *next = from;

    while (count-- > 0) {
        shake_put(state, state->at++, *next++);
        if (state->at == SHAKE_RATE)
            shake_permute(state);
    }
}

/* Ends the string and gives so many bytes of output. The state is used up. */
static inline void shake_give(struct shake *state, void *to, size_t count)
{
    uint8_t *next = to;

    shake_put(state, state->at, 0x1F);
    shake_put(state, SHAKE_RATE - 1, 0x80);
    shake_permute(state);
    while (count-- > 0) {
        if (state->at == SHAKE_RATE)
            shake_permute(state);
        *next++ = (uint8_t)(state->lanes[state->at / 8] >> state->at % 8 * 8);
        state->at++;
    }
}

static inline void shake256(void *to, size_t count, const void *from, size_t length)
{
    struct shake state = {{0}, 0};

    shake_take(&state, from, length);
    shake_give(&state, to, count);
}

#endif
