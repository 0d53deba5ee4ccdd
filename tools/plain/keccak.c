/* Keccak-f[1600] and SHAKE256 in plain C. Lane (x, y) is number x + 5y.
 *
 * During a permutation six lanes are complemented. With them chi needs one complement in a row, where without
 * it needs five: the others go into `and` made `or`. A round leaves the same six complemented. */
#include "shake.h"

#include <string.h>

#define LANES 25
#define ROUNDS 24
#define RATE_LANES (RATE_BYTES / 8)

static const uint64_t round_constants[ROUNDS] = {
    0x0000000000000001, 0x0000000000008082, 0x800000000000808a, 0x8000000080008000,
    0x000000000000808b, 0x0000000080000001, 0x8000000080008081, 0x8000000000008009,
    0x000000000000008a, 0x0000000000000088, 0x0000000080008009, 0x000000008000000a,
    0x000000008000808b, 0x800000000000008b, 0x8000000000008089, 0x8000000000008003,
    0x8000000000008002, 0x8000000000000080, 0x000000000000800a, 0x800000008000000a,
    0x8000000080008081, 0x8000000000008080, 0x0000000080000001, 0x8000000080008008,
};

static inline uint64_t rotate(uint64_t lane, unsigned by)
{
    return lane << by | lane >> (64 - by);
}

/* One round from the lanes a to the lanes e, row by row. */
static inline void keccak_round(const uint64_t a[LANES], uint64_t e[LANES], uint64_t constant)
{
    uint64_t c0 = a[0] ^ a[5] ^ a[10] ^ a[15] ^ a[20], c1 = a[1] ^ a[6] ^ a[11] ^ a[16] ^ a[21];
    uint64_t c2 = a[2] ^ a[7] ^ a[12] ^ a[17] ^ a[22], c3 = a[3] ^ a[8] ^ a[13] ^ a[18] ^ a[23];
    uint64_t c4 = a[4] ^ a[9] ^ a[14] ^ a[19] ^ a[24];
    uint64_t d0 = c4 ^ rotate(c1, 1), d1 = c0 ^ rotate(c2, 1), d2 = c1 ^ rotate(c3, 1);
    uint64_t d3 = c2 ^ rotate(c4, 1), d4 = c3 ^ rotate(c0, 1);
    uint64_t b0, b1, b2, b3, b4;

    b0 = a[0] ^ d0, b1 = rotate(a[6] ^ d1, 44), b2 = rotate(a[12] ^ d2, 43);
    b3 = rotate(a[18] ^ d3, 21), b4 = rotate(a[24] ^ d4, 14);
    e[0] = b0 ^ (b1 | b2) ^ constant;
    e[1] = b1 ^ (~b2 | b3);
    e[2] = b2 ^ (b3 & b4);
    e[3] = b3 ^ (b4 | b0);
    e[4] = b4 ^ (b0 & b1);

    b0 = rotate(a[3] ^ d3, 28), b1 = rotate(a[9] ^ d4, 20), b2 = rotate(a[10] ^ d0, 3);
    b3 = rotate(a[16] ^ d1, 45), b4 = rotate(a[22] ^ d2, 61);
    e[5] = b0 ^ (b1 | b2);
    e[6] = b1 ^ (b2 & b3);
    e[7] = b2 ^ (b3 | ~b4);
    e[8] = b3 ^ (b4 | b0);
    e[9] = b4 ^ (b0 & b1);

    b0 = rotate(a[1] ^ d1, 1), b1 = rotate(a[7] ^ d2, 6), b2 = rotate(a[13] ^ d3, 25);
    b3 = ~rotate(a[19] ^ d4, 8), b4 = rotate(a[20] ^ d0, 18);
    e[10] = b0 ^ (b1 | b2);
    e[11] = b1 ^ (b2 & ~b3);
    e[12] = b2 ^ (b3 & b4);
    e[13] = b3 ^ (b4 | b0);
    e[14] = b4 ^ (b0 & b1);

    b0 = rotate(a[4] ^ d4, 27), b1 = rotate(a[5] ^ d0, 36), b2 = rotate(a[11] ^ d1, 10);
    b3 = ~rotate(a[17] ^ d2, 15), b4 = rotate(a[23] ^ d3, 56);
    e[15] = b0 ^ (b1 & b2);
    e[16] = b1 ^ (b2 | ~b3);
    e[17] = b2 ^ (b3 | b4);
    e[18] = b3 ^ (b4 & b0);
    e[19] = b4 ^ (b0 | b1);

    b0 = rotate(a[2] ^ d2, 62), b1 = ~rotate(a[8] ^ d3, 55), b2 = rotate(a[14] ^ d4, 39);
    b3 = rotate(a[15] ^ d0, 41), b4 = rotate(a[21] ^ d1, 2);
    e[20] = b0 ^ (b1 & b2);
    e[21] = b1 ^ (b2 | b3);
    e[22] = b2 ^ (b3 & b4);
    e[23] = b3 ^ (b4 | b0);
    e[24] = b4 ^ (b0 & ~b1);
}

static inline void complement(uint64_t a[LANES])
{
    a[1] = ~a[1], a[2] = ~a[2], a[8] = ~a[8];
    a[12] = ~a[12], a[17] = ~a[17], a[20] = ~a[20];
}

static void permute(uint64_t a[LANES])
{
    uint64_t e[LANES];

    complement(a);
    for (int r = 0; r < ROUNDS; r += 2) {
        keccak_round(a, e, round_constants[r]);
        keccak_round(e, a, round_constants[r + 1]);
    }
    complement(a);
}

#include "keccak_pair.h"

/* Lanes are bytes in the order of x86-64, lowest first. */
static inline uint64_t load64(const uint8_t *from)
{
    uint64_t lane;

    memcpy(&lane, from, 8);
    return lane;
}

/* The rest of a string behind its last full lane, and the padding's first byte. */
static inline uint64_t last_lane(const uint8_t *string, size_t length)
{
    uint64_t lane = 0;

    if (length % 8 != 0)
        memcpy(&lane, string + length - length % 8, length % 8);
    return lane ^ (uint64_t)0x1f << 8 * (length % 8);
}

#define PADDING_END ((uint64_t)0x80 << 56)

void keccak_digest(const uint8_t *string, size_t length, uint8_t digest[DIGEST_BYTES])
{
    uint64_t state[LANES] = {0};

    for (; length >= RATE_BYTES; string += RATE_BYTES, length -= RATE_BYTES) {
        for (size_t i = 0; i < RATE_LANES; i++)
            state[i] ^= load64(string + 8 * i);
        permute(state);
    }
    for (size_t i = 0; i < length / 8; i++)
        state[i] ^= load64(string + 8 * i);
    state[length / 8] ^= last_lane(string, length);
    state[RATE_LANES - 1] ^= PADDING_END;
    permute(state);
    memcpy(digest, state, DIGEST_BYTES);
}

/* Absorbs the blocks that are whole; returns the bytes after them. */
static const uint8_t *absorb_blocks(uint64_t state[LANES], const uint8_t *string, size_t length)
{
    for (; length >= RATE_BYTES; string += RATE_BYTES, length -= RATE_BYTES) {
        for (size_t i = 0; i < RATE_LANES; i++)
            state[i] ^= load64(string + 8 * i);
        permute(state);
    }
    return string;
}

#define COUNTER_BYTES 4

/* The ending is what the whole blocks leave of the string, the counter and the padding: one block, or two. */
void keccak_begin(struct counted *s, const uint8_t *string, size_t length)
{
    uint8_t ending[2 * RATE_BYTES] = {0};
    size_t rest = length % RATE_BYTES, end = rest + COUNTER_BYTES;

    memset(s->first, 0, sizeof s->first);
    memcpy(ending, absorb_blocks(s->first, string, length), rest);
    s->two = end >= RATE_BYTES;
    ending[end] = 0x1f;
    ending[(s->two ? 2 : 1) * RATE_BYTES - 1] = 0x80;
    for (size_t i = 0; i < RATE_LANES; i++)
        s->first[i] ^= load64(ending + 8 * i);
    for (size_t i = 0; i < RATE_LANES; i++)
        s->second[i] = load64(ending + RATE_BYTES + 8 * i);
    s->lane = rest / 8;
    s->shift = 8 * (unsigned)(rest % 8);
}

void keccak_count(const struct counted *s, uint32_t counter, uint8_t *out, size_t bytes)
{
    uint64_t state[LANES];

    memcpy(state, s->first, sizeof state);
    state[s->lane] ^= (uint64_t)counter << s->shift;
    if (s->two) {
        permute(state);
        for (size_t i = 0; i < RATE_LANES; i++)
            state[i] ^= s->second[i];
    }
    permute(state);
    for (; bytes > RATE_BYTES; out += RATE_BYTES, bytes -= RATE_BYTES) {
        memcpy(out, state, RATE_BYTES);
        permute(state);
    }
    memcpy(out, state, bytes);
}

/* Both lanes at once, for stores of the size in which the permutation loads. */
static inline void absorb_pair(lane_pair lanes, uint64_t first, uint64_t second)
{
    lanes[0] ^= first;
    lanes[1] ^= second;
}

void keccak_digests(const uint8_t *first, const uint8_t *second, size_t length, uint8_t *first_digest,
                    uint8_t *second_digest)
{
    lane_pair state[LANES] = {{0}};

    for (; length >= RATE_BYTES; first += RATE_BYTES, second += RATE_BYTES, length -= RATE_BYTES) {
        for (size_t i = 0; i < RATE_LANES; i++)
            absorb_pair(state[i], load64(first + 8 * i), load64(second + 8 * i));
        permute_pair(state);
    }
    for (size_t i = 0; i < length / 8; i++)
        absorb_pair(state[i], load64(first + 8 * i), load64(second + 8 * i));
    absorb_pair(state[length / 8], last_lane(first, length), last_lane(second, length));
    absorb_pair(state[RATE_LANES - 1], PADDING_END, PADDING_END);
    permute_pair(state);
    for (int i = 0; i < DIGEST_BYTES / 8; i++) {
        memcpy(first_digest + 8 * i, &state[i][0], 8);
        memcpy(second_digest + 8 * i, &state[i][1], 8);
    }
}

void keccak_count_pair(const struct counted *s, uint32_t counter, uint64_t first[2])
{
    lane_pair state[LANES];
    uint32_t next = counter + 1;

    for (size_t i = 0; i < LANES; i++)
        state[i][0] = state[i][1] = s->first[i];
    absorb_pair(state[s->lane], (uint64_t)counter << s->shift, (uint64_t)next << s->shift);
    if (s->two) {
        permute_pair(state);
        for (size_t i = 0; i < RATE_LANES; i++)
            absorb_pair(state[i], s->second[i], s->second[i]);
    }
    permute_pair(state);
    first[0] = state[0][0];
    first[1] = state[0][1];
}
