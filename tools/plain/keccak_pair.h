/* Keccak-f[1600] of two states at once, with the lanes of the two side by side. The loops over them have the
 * form in which compilers make the two lanes a vector; SSE2 has and-not, so no lane is complemented. */
#ifndef KECCAK_PAIR_H
#define KECCAK_PAIR_H

typedef uint64_t lane_pair[2];

#define A(i) a[i][j]

#define CHI(y)                                                                                     \
    e[y][j] = b0 ^ (~b1 & b2), e[y + 1][j] = b1 ^ (~b2 & b3), e[y + 2][j] = b2 ^ (~b3 & b4);       \
    e[y + 3][j] = b3 ^ (~b4 & b0), e[y + 4][j] = b4 ^ (~b0 & b1);

static inline void pair_round(const lane_pair *restrict a, lane_pair *restrict e, uint64_t constant)
{
    for (int j = 0; j < 2; j++) {
        uint64_t c0 = A(0) ^ A(5) ^ A(10) ^ A(15) ^ A(20), c1 = A(1) ^ A(6) ^ A(11) ^ A(16) ^ A(21);
        uint64_t c2 = A(2) ^ A(7) ^ A(12) ^ A(17) ^ A(22), c3 = A(3) ^ A(8) ^ A(13) ^ A(18) ^ A(23);
        uint64_t c4 = A(4) ^ A(9) ^ A(14) ^ A(19) ^ A(24);
        uint64_t d0 = c4 ^ rotate(c1, 1), d1 = c0 ^ rotate(c2, 1), d2 = c1 ^ rotate(c3, 1);
        uint64_t d3 = c2 ^ rotate(c4, 1), d4 = c3 ^ rotate(c0, 1);
        uint64_t b0 = A(0) ^ d0, b1 = rotate(A(6) ^ d1, 44), b2 = rotate(A(12) ^ d2, 43);
        uint64_t b3 = rotate(A(18) ^ d3, 21), b4 = rotate(A(24) ^ d4, 14);
        CHI(0)
        e[0][j] ^= constant;
        b0 = rotate(A(3) ^ d3, 28), b1 = rotate(A(9) ^ d4, 20), b2 = rotate(A(10) ^ d0, 3);
        b3 = rotate(A(16) ^ d1, 45), b4 = rotate(A(22) ^ d2, 61);
        CHI(5)
        b0 = rotate(A(1) ^ d1, 1), b1 = rotate(A(7) ^ d2, 6), b2 = rotate(A(13) ^ d3, 25);
        b3 = rotate(A(19) ^ d4, 8), b4 = rotate(A(20) ^ d0, 18);
        CHI(10)
        b0 = rotate(A(4) ^ d4, 27), b1 = rotate(A(5) ^ d0, 36), b2 = rotate(A(11) ^ d1, 10);
        b3 = rotate(A(17) ^ d2, 15), b4 = rotate(A(23) ^ d3, 56);
        CHI(15)
        b0 = rotate(A(2) ^ d2, 62), b1 = rotate(A(8) ^ d3, 55), b2 = rotate(A(14) ^ d4, 39);
        b3 = rotate(A(15) ^ d0, 41), b4 = rotate(A(21) ^ d1, 2);
        CHI(20)
    }
}

static void permute_pair(lane_pair *a)
{
    lane_pair e[LANES];

    for (int r = 0; r < ROUNDS; r += 2) {
        pair_round(a, e, round_constants[r]);
        pair_round(e, a, round_constants[r + 1]);
    }
}

#endif
