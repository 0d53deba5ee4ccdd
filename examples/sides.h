/*
 * What both sides of a commitment share: the sizes, the lengths that follow from them, and the system's random bytes.
 */
#ifndef SIDES_H
#define SIDES_H

#include <errno.h>
#include <stdbool.h>
#include <string.h>
#include <sys/random.h>

#include "smallwood.h"
#include "smallwood_draw.h"

/*
 * Four polynomials of 35 coefficients, in three columns each; 1,024 leaves, 42 of them opened; four repetitions, two points. BETA is M:
 * each point shows a value of every column, and each column but a polynomial's last has a blind for each of them.
 *
 * What one accepted answer is worth here, in bits, with d = W NU + L - 1 (docs/HANDBOOK.md, "What an accepted answer is worth"):
 *
 *      40.1   whoever committed: log2 of C(N, L) / C((N + d) / 2, L), with (N + d) / 2 rounded down
 *     212.7   a trusted committer: log2 of C(N, L) / C(d, L)
 *     113.1   all challenges guessed, the eta term: -log2 of ((MU + BETA) / q)^ETA
 *
 * A proof has kappa bits more of the first two. For other sizes change this line alone; a program that has its own defines SIZES before it
 * includes this.
 */
#ifndef SIZES
#define SIZES H = 10, MU = 11, NU = 3, W = 4, L = 42, ETA = 4, BETA = 2, M = 2
#endif

enum { SIZES };

/* Lengths of slices, in words and then in bytes. */
enum {
    N = SMALLWOOD_LEAVES(H),
    WIDTH = SMALLWOOD_WIDTH(NU, W, L),
    EACH = SMALLWOOD_COEFFICIENTS_LENGTH(MU, NU, 1, BETA), /* coefficients of a polynomial */
    COEFFICIENTS = SMALLWOOD_COEFFICIENTS_LENGTH(MU, NU, W, BETA),
    TAILS = SMALLWOOD_TAILS_LENGTH(MU, L, BETA),
    BLINDS = SMALLWOOD_BLINDS_LENGTH(NU, W, BETA),
    BLINDS_ROOM = BLINDS > 0 ? BLINDS : 1, /* with NU = 1 there are none, and C has no array of none */
    MASKS = SMALLWOOD_MASKS_LENGTH(NU, W, L, ETA),
    RECORD = SMALLWOOD_ROWS(MU, BETA) + ETA, /* values of a leaf */
    TABLE = SMALLWOOD_TABLE_LENGTH(H, MU, ETA, BETA),
    NONCES = SMALLWOOD_NONCES_LENGTH(H),
    ROOT = SMALLWOOD_ROOT_LENGTH,
    SALT = SMALLWOOD_SALT_LENGTH,
    TREE = SMALLWOOD_TREE_LENGTH(H),
    VALUES = SMALLWOOD_VALUES_LENGTH(W, M)
};

/* In bytes: a question with M points; what its reply begins with, and does not exceed. */
enum {
    QUESTION = SMALLWOOD_QUESTION_LENGTH(L, ETA, M),
    BATCHING = SMALLWOOD_BATCHING_LENGTH(NU, W, L, ETA),
    EVALUATION = SMALLWOOD_EVALUATION_LENGTH(NU, W, L, M),
    ANSWERS = BATCHING + EVALUATION,
    REPLY_BOUND = SMALLWOOD_REPLY_BOUND(H, MU, NU, W, L, ETA, BETA, M)
};

/* Where it is in the question: the version's lower byte, root and salt, the points, the indices. */
enum {
    VERSION_AT = 3,
    ROOT_AT = SMALLWOOD_ROOT_AT,
    SALT_AT = SMALLWOOD_SALT_AT,
    NAMED = SMALLWOOD_NAMED_LENGTH,
    POINTS_AT = SMALLWOOD_POINTS_AT(ETA),
    INDICES_AT = SMALLWOOD_INDICES_AT(ETA, M)
};

static inline void put_element(uint8_t *to, uint32_t x)
{
    smallwood_put_elements(to, &x, 1);
}

/* The leaves 0 to L - 1, as long as others have not been asked. */
static inline void put_stand_ins(uint8_t *indices)
{
    uint32_t leaves[L];

    for (uint32_t a = 0; a < L; a++)
        leaves[a] = a;
    smallwood_put_indices(indices, leaves, L);
}

/* The value of a polynomial, straight from its coefficients. */
static inline uint32_t evaluate(const uint32_t *coefficients, size_t count, uint32_t z)
{
    uint64_t value = 0;

    while (count-- > 0)
        value = (value * z + coefficients[count]) % SMALLWOOD_Q;
    return (uint32_t)value;
}

/* All randomness is the system's (getrandom, Linux). A smallwood_random: 0, or -1 where it gives none. */
static inline int system_random(void *context, void *to, size_t count)
{
    uint8_t *next = to;

    (void)context;
    while (count > 0) {
        ssize_t got = getrandom(next, count, 0);

        if (got < 0 && errno == EINTR)
            continue;
        if (got <= 0)
            return -1;
        next += got;
        count -= (size_t)got;
    }
    return 0;
}

#endif
