/*
 * A door that is offline: what it has of a badge, and what it does with a proof.
 */
#ifndef DOOR_H
#define DOOR_H

#include "digest.h"
#include "sides.h"

/* Lengths in bytes. PROOF_ROOM is the prover's buffer: no proof is longer. */
enum {
    DIGEST = 32,
    COUNTER = SMALLWOOD_COUNTER_LENGTH,
    PROOF_QUESTION = SMALLWOOD_PROOF_QUESTION_LENGTH(M),
    PROOF_POINTS_AT = SMALLWOOD_PROOF_POINTS_AT,
    PROOF_ROOM = SMALLWOOD_PROOF_LENGTH(H, MU, NU, W, L, ETA, BETA, M)
};

/* What the doors get of a badge, over a way that they trust: one thing, since the root is one under this salt only. */
struct registered {
    uint8_t root[ROOT], salt[SALT];
    uint8_t digest[DIGEST]; /* of R, the batching answers */
};

static inline void digest_batching(uint8_t *digest, const uint8_t *batching)
{
    shake256(digest, DIGEST, batching, BATCHING);
}

/* What a question begins with, and badge and door both have: header, root and salt. */
static inline void put_named(uint8_t *to, const uint8_t *root, const uint8_t *salt)
{
    smallwood_put_header(to, H, MU, NU, W, L, ETA, BETA, M);
    memcpy(to + ROOT_AT, root, ROOT);
    memcpy(to + SALT_AT, salt, SALT);
}

/*
 * Fresh points for each visit, drawn when the badge has been registered. They are all that binds a proof to this door and this hour.
 * False where the system gives no random bytes.
 */
static inline bool door_asks(uint8_t *question, const struct registered *badge)
{
    uint32_t points[M];

    if (smallwood_draw_points(points, M, system_random, NULL) != 0)
        return false;
    put_named(question, badge->root, badge->salt);
    smallwood_put_elements(question + PROOF_POINTS_AT, points, M);
    return true;
}

/* Whether a proof has the registered R. One that is too short for any is left to the check, which refuses it with 7. */
static inline bool has_registered_batching(const struct registered *badge, const uint8_t *proof, size_t size)
{
    uint8_t digest[DIGEST];

    if (size < COUNTER + BATCHING)
        return true;
    digest_batching(digest, proof + COUNTER);
    return memcmp(digest, badge->digest, DIGEST) == 0;
}

/* A number of the door's own, which no entry returns: the proof has another R than the registered one. */
enum { OTHER_BATCHING = 100 };

/* The comparison comes first: what it refuses hands out no values. */
static inline uint32_t door_checks(const struct registered *badge, const uint8_t *question, uint32_t kappa, const uint8_t *proof,
                                   size_t size, uint8_t *values)
{
    if (!has_registered_batching(badge, proof, size))
        return OTHER_BATCHING;
    return smallwood_check_proof(question, PROOF_QUESTION, kappa, proof, size, values, VALUES);
}

enum decision { OPENS, REFUSES, OUT_OF_ORDER };

/* Question and value buffer are the door's own, so 1, 2, 5 and 6 are its own faults; its points are elements, so 3 is the proof's. */
static inline enum decision door_decides(uint32_t number)
{
    switch (number) {
    case SMALLWOOD_OK:
        return OPENS;
    case SMALLWOOD_BAD_ELEMENT:
    case SMALLWOOD_BAD_REPLY_LENGTH:
    case SMALLWOOD_BAD_ROOT:
    case SMALLWOOD_BAD_BATCHING:
    case SMALLWOOD_BAD_EVALUATION:
    case SMALLWOOD_BAD_COUNTER:
    case OTHER_BATCHING:
        return REFUSES;
    default:
        return OUT_OF_ORDER;
    }
}

#endif
