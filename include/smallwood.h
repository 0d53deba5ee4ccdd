/*
 * SmallWood: a polynomial commitment over the field of q = 4294967291 elements.
 *
 * Eight entries: commit, open, check; for planners reply_length, permutations; without a conversation prove, check_proof; and apart from
 * commitments interpolate.
 * Each is proved to return the number and to leave the contents that the definitions give, for every input that keeps the rules below.
 * Two headers beside it are a caller's to include or not: smallwood_draw.h draws elements, points and leaf indices from random bytes,
 * writes the header of a question, and says whether a question is one that a badge may answer; smallwood_wipe.h overwrites secrets.
 * Link with libsmallwood.a: x86-64, ELF, System V calls, no instructions beyond SSE2. It needs memcpy and memset, and nothing else.
 * This header is C99, or C++11, and later.
 *
 * Rules for a caller
 *
 *   Slices      A pointer and a length in elements (not in bytes, where the elements are 32-bit words). A slice of length 0 may be NULL.
 *   Alignment   A pointer to 32-bit words is aligned for uint32_t, one to a 64-bit number for uint64_t.
 *   Numbers     The pointers to a 64-bit number, `length` and `count`, must not be NULL.
 *   Overlap     A slice or a number that a call writes overlaps no other of that call. Slices that a call only reads may overlap.
 *   Changes     No lent slice changes during a call, by another thread, process or device. An entry tests what it was lent and reads it
 *               again, so that what changes in between may be read or written out of bounds (seen: an open wrote past the reply, a check
 *               read past its slices). What comes from shared memory is copied first, and the copy is lent.
 *   Threads     No entry keeps anything between calls: no globals, no heap, no files. Any number of threads may call at once on slices
 *               of their own; slices that are only read may be shared.
 *   Stack       Bytes that a call takes at most (measured): commit 19,000; open 7,500; prove 24,000; interpolate 5,600; check 52,000;
 *               check_proof 69,000; reply_length 1,000; permutations 1,000. The first use of memcpy or memset takes some 2,000 more where
 *               they are bound lazily. On a stack too small a call dies at the guard page: frames are probed page by page. What was used is
 *               not wiped: see "What stays in memory".
 *   Order       Words are in the machine's order. Multi-byte numbers in questions, replies, proofs and checked values are little-endian.
 *
 * What a reply shows
 *
 *   One commitment answers one question, by a reply or by a proof, and the library keeps no state: the caller sees to it. Each
 *   commitment has tails, blinds, masks, nonces and a salt of its own, drawn uniformly. A proof shows what the reply in it shows.
 *
 *   Columns     For each point the reply has the value of every column. Of a polynomial with beta blinding rows they show its values at
 *               the points, and no more, as long as at most beta different points are asked, none of them 0 (from the sources, and tried
 *               at small sizes; not proved here). Every further point shows nu - 1 linear equations on the coefficients beside the value,
 *               and mu + beta different points show every coefficient. With nu = 1 there is one column, and its value is the polynomial's.
 *               An open or a prove compares neither m with beta nor, where the lengths are the same, a question's sizes with those that
 *               were committed, and with others it shows more: compare both before either call (smallwood_draw.h,
 *               smallwood_question_fits and smallwood_proof_question_fits).
 *   Leaves      At each opened leaf it has the value of every row's polynomial. A row's l tails cover l opened leaves in all.
 *   Masks       A mask covers one batching answer.
 *
 * The salt
 *
 *   32 bytes that whoever commits draws afresh for each commitment. They stand in every string that is hashed: no string is hashed alike in
 *   two commitments whose salts differ, though the same polynomials are committed again, as when a badge is renewed. The salt is public. It
 *   goes out with the root, stands in every question, and whoever checks takes both from the commitment as one thing, not from the question
 *   that somebody else wrote. It hides nothing: the nonces do, and they are drawn anew for each commitment, whatever the salt.
 *   An open and a prove are lent the salt and refuse a question with another one. A check is lent none and compares none: under another
 *   salt it hashes other strings and comes to another root. So what is accepted is accepted of the question's root and salt together.
 *
 * What stays in memory
 *
 *   The stack that a call used is not wiped, and all that stays there is to be taken for secret. From it can be computed, at ten small
 *   sizes that were looked at: after a commit every mask, and at five of them one to three whole rows; after an open or a prove nothing in
 *   this build, and in others the last mask; after an interpolate every value, where it returns 13 too (the handbook has more, "Secrets in
 *   memory"). So after each of these calls, in the same function, call smallwood_wipe_stack of smallwood_wipe.h; or call on a stack of your
 *   own and wipe that. Coefficients, tails, blinds, masks, nonces and the table are the caller's to wipe, by smallwood_wipe; the salt is
 *   no secret.
 *
 * Timing
 *
 *   Measured under valgrind on the archive's machine code, not proved; an archive that another compiler made may differ. In a commit and an
 *   open one branch depends on secrets: whether all lent words are below q. No address does, and neither divides. In an interpolate one
 *   branch, the same, depends on the values, and no address; branches and divisors depend on the points. A prove draws its counter and its
 *   leaves by hashing the answers, which the proof shows: branches and addresses depend on that. On table, nonces and tree it depends as
 *   an open does. A check is lent no secrets, and was not looked at.
 *
 * What an accepted reply shows
 *
 *   Alone, that it fits its question, and no more: who knows the leaf indices before he answers can make false answers that fit. So
 *   challenges are drawn when root and salt are there, points when the batching answers are, and indices only when all answers are. These,
 *   the first 4 (w nu + l) (eta + m) bytes of a reply, do not depend on the indices: ask for them first, and compare them with the reply's.
 *
 *   Asked so, what one reply is worth depends on who committed; d is width - 1, and C(a, b) are binomials. Where the committer is trusted
 *   (whoever registers the root ran smallwood_commit himself), a false answer passes for at most C(d, l) of the C(N, l) sets of leaves: k
 *   bits. Whoever committed, of two different answers for a point one passes for at most C(floor((N + d) / 2), l) sets: b bits, about l and
 *   at most 64, and prepared rows reach that. Proved is only what a collection of accepted replies shows, whoever committed. The handbook
 *   has the bits for sizes, and the term of eta beside them ("What an accepted answer is worth").
 *
 * What an accepted proof shows
 *
 *   That its counter qualifies, and that its reply fits the question so drawn. Who proves draws for himself, as often as he can hash, so
 *   that bits are work here, and kappa is added: k + kappa where the committer is trusted, b + kappa, about l + kappa, whoever committed.
 *   With that work there are two accepted proofs for one question with different values, since who commits can choose the batching answers
 *   (SMALLWOOD_BATCHING_LENGTH bytes after the counter) anew for each proof; an honest badge has one list of them for a commitment and a
 *   header. Where its digest is registered beside root and salt, and whoever checks compares it, the best attack known takes the lesser of
 *   k + kappa and the term of eta, to which kappa adds nothing. Nothing of this is proved, and proofs alone never fill a collection. See
 *   the handbook, "What an accepted answer is worth".
 *
 *   Nothing binds a proof to a place, a time or a reader but the points: whoever checks draws them himself and afresh, when he already has
 *   root and salt from someone that he trusts, and takes one proof for them. With points that were known before, or that came with the
 *   proof, an old proof or a copied one is accepted as well as a new one. See "Proofs without a conversation" there.
 *
 * What a call returns
 *
 *   0 where none of the tests below holds, and then the slices are filled. Otherwise the number of the first test that holds, and then
 *   every slice, and *length and *count, is as it was: all tests come before the first write.
 *
 *    1   a size is outside its range, or w nu + l > N, or beta > mu, or mu + beta > 64, or kappa is above 16; or there are no points to
 *        interpolate over, or more than 320
 *    2   a lent slice is of wrong length, the salt too
 *    3   an element is not below q
 *    4   the indices do not rise strictly, or one of them is not below N
 *    5   the mark or the version is wrong
 *    6   the question is under 15 bytes, or not of the length that its header gives
 *    7   the reply is not of its length, or the proof not of its
 *    8   the root differs, or in an open and a prove the salt
 *    9   a batching answer fails at an opened leaf
 *   10   an evaluation answer fails at an opened leaf
 *   11   no counter below the limit qualifies
 *   12   the proof's counter does not qualify
 *   13   two points are equal (interpolate only; those of a question may be)
 *
 * Sizes
 *
 *    h     depth of the tree, N = 2^h leaves         1 to 12
 *    mu    rows of coefficients                      1 to 64
 *    nu    columns per polynomial                    1 to 256
 *    w     polynomials                               1 to 256, and w nu at most 256
 *    l     opened leaves                             1 to 64, and w nu + l at most N
 *    eta   batching repetitions                      1 to 4
 *    beta  blinding rows                             0 to 16, at most mu, and mu + beta at most 64
 *    m     evaluation points of a question           1 to 8
 *    kappa zero bits that a proof's draw begins with 0 to 16
 *
 *   There are mu + beta rows in all. Below, width is w nu + l: the number of coefficients of a row's polynomial.
 *
 * A question
 *
 *   "SWQ", version (2 bytes, 3), h, mu (1 byte each), nu, w (2 bytes each), l, eta, m, beta (1 byte each): the header, 15 bytes.
 *   Then the root (32 bytes), the salt (32 bytes), eta challenges and m points (4 bytes each, below q), l leaf indices (2 bytes each,
 *   strictly rising). Versions 1 and 2, which had no salt, are a 5.
 *   The sizes are the reader's to fix, together with root and salt: no hashed leaf or node holds the header, and the same reply can be
 *   accepted under the same root and salt with other sizes, and with other values.
 *
 * A reply
 *
 *   eta batching answers of width words each; for each point w nu column values and l tail values; for each index mu + beta row values,
 *   eta mask values and a nonce of 32 bytes; then the missing nodes of the tree, 32 bytes each. Words take 4 bytes.
 *   Its length is 4 width (eta + m) + l (4 (mu + beta + eta) + 32) + 32 for each missing node, of which there are at most l h.
 *
 * A question of a proof
 *
 *   The header, as above; the root (32 bytes); the salt (32 bytes); m points (4 bytes each, below q): 79 + 4 m bytes. Challenges and
 *   indices are drawn by hashing (the handbook has the strings). kappa stands in no bytes: whoever checks says how many zero bits he wants.
 *
 * A proof
 *
 *   The counter (4 bytes), then the reply to the question so drawn: 4 bytes longer than a reply.
 */
#ifndef SMALLWOOD_H
#define SMALLWOOD_H

#include <stddef.h>
#include <stdint.h>

#ifdef __cplusplus
extern "C" {
#endif

/* Of this library, and of questions (their bytes 3 and 4): no other questions are taken. */
#define SMALLWOOD_VERSION_MAJOR 1
#define SMALLWOOD_VERSION_MINOR 1
#define SMALLWOOD_VERSION_PATCH 0
#define SMALLWOOD_VERSION "1.1.0"
#define SMALLWOOD_QUESTION_VERSION 3

/* The number of elements of the field. */
#define SMALLWOOD_Q 4294967291u

/* What the entries return; see "What a call returns" above. */
enum smallwood_verdict {
    SMALLWOOD_OK = 0,
    SMALLWOOD_BAD_SIZES = 1,
    SMALLWOOD_BAD_LENGTH = 2,
    SMALLWOOD_BAD_ELEMENT = 3,
    SMALLWOOD_BAD_INDICES = 4,
    SMALLWOOD_BAD_MARK = 5,
    SMALLWOOD_BAD_QUESTION_LENGTH = 6,
    SMALLWOOD_BAD_REPLY_LENGTH = 7,
    SMALLWOOD_BAD_ROOT = 8,
    SMALLWOOD_BAD_BATCHING = 9,
    SMALLWOOD_BAD_EVALUATION = 10,
    SMALLWOOD_NO_COUNTER = 11,
    SMALLWOOD_BAD_COUNTER = 12,
    SMALLWOOD_EQUAL_POINTS = 13
};

/* A verdict in words, for logs. */
static inline const char *smallwood_verdict_text(uint32_t verdict)
{
    switch (verdict) {
    case SMALLWOOD_OK: return "accepted, or done";
    case SMALLWOOD_BAD_SIZES: return "a size, kappa or the number of points is outside its range";
    case SMALLWOOD_BAD_LENGTH: return "a lent slice is of wrong length";
    case SMALLWOOD_BAD_ELEMENT: return "an element is not below q";
    case SMALLWOOD_BAD_INDICES: return "the indices do not rise strictly, or one is not below N";
    case SMALLWOOD_BAD_MARK: return "the question's mark or version is wrong";
    case SMALLWOOD_BAD_QUESTION_LENGTH: return "the question is of wrong length";
    case SMALLWOOD_BAD_REPLY_LENGTH: return "the reply or the proof is of wrong length";
    case SMALLWOOD_BAD_ROOT: return "the root differs, or the lent salt";
    case SMALLWOOD_BAD_BATCHING: return "a batching answer fails at an opened leaf";
    case SMALLWOOD_BAD_EVALUATION: return "an evaluation answer fails at an opened leaf";
    case SMALLWOOD_NO_COUNTER: return "no counter below the limit qualifies";
    case SMALLWOOD_BAD_COUNTER: return "the proof's counter does not qualify";
    case SMALLWOOD_EQUAL_POINTS: return "two points are equal";
    default: return "no number of this library";
    }
}

/* Of this header's own: a number as size_t, and whether there is a tree of that depth, as 0 or 1. */
#ifdef __cplusplus
#define SMALLWOOD_SIZE(x) (static_cast<size_t>(x))
#else
#define SMALLWOOD_SIZE(x) ((size_t)(x))
#endif
#define SMALLWOOD_HAS_DEPTH(h) SMALLWOOD_SIZE((h) >= 1 && (h) <= 12)

/*
 * Lengths, in elements of the slice: constant expressions where the sizes are. The sizes stand in the order in which smallwood_commit
 * takes them, then m, and may be evaluated more than once. What an entry's parameter NAME_length must be is SMALLWOOD_NAME_LENGTH.
 * With an h outside 1 to 12 a length is 0. Other sizes outside their ranges give some length, and no error: the entries refuse all with 1.
 */
#define SMALLWOOD_LEAVES(h) (SMALLWOOD_HAS_DEPTH(h) << ((h) & 15))
#define SMALLWOOD_WIDTH(nu, w, l) (SMALLWOOD_SIZE(w) * SMALLWOOD_SIZE(nu) + SMALLWOOD_SIZE(l))
#define SMALLWOOD_ROWS(mu, beta) (SMALLWOOD_SIZE(mu) + SMALLWOOD_SIZE(beta))

/* Words. */
#define SMALLWOOD_COEFFICIENTS_LENGTH(mu, nu, w, beta) \
    (SMALLWOOD_SIZE(w) * (SMALLWOOD_SIZE(mu) * SMALLWOOD_SIZE(nu) + SMALLWOOD_SIZE(beta)))
#define SMALLWOOD_TAILS_LENGTH(mu, l, beta) (SMALLWOOD_ROWS(mu, beta) * SMALLWOOD_SIZE(l))
#define SMALLWOOD_BLINDS_LENGTH(nu, w, beta) (SMALLWOOD_SIZE(w) * (SMALLWOOD_SIZE(nu) - SMALLWOOD_SIZE((nu) > 0)) * SMALLWOOD_SIZE(beta))
#define SMALLWOOD_MASKS_LENGTH(nu, w, l, eta) (SMALLWOOD_SIZE(eta) * SMALLWOOD_WIDTH(nu, w, l))
#define SMALLWOOD_TABLE_LENGTH(h, mu, eta, beta) (SMALLWOOD_LEAVES(h) * (SMALLWOOD_ROWS(mu, beta) + SMALLWOOD_SIZE(eta)))

/* Bytes. The root is the last SMALLWOOD_ROOT_LENGTH bytes of the tree. */
#define SMALLWOOD_ROOT_LENGTH SMALLWOOD_SIZE(32)
#define SMALLWOOD_SALT_LENGTH SMALLWOOD_SIZE(32)
#define SMALLWOOD_NONCES_LENGTH(h) (32 * SMALLWOOD_LEAVES(h))
#define SMALLWOOD_TREE_LENGTH(h) (SMALLWOOD_HAS_DEPTH(h) * SMALLWOOD_ROOT_LENGTH * (2 * SMALLWOOD_LEAVES(h) - 1))
#define SMALLWOOD_VALUES_LENGTH(w, m) (4 * SMALLWOOD_SIZE(w) * SMALLWOOD_SIZE(m))

/* Bytes: a question, what it begins with, and a question of a proof. */
#define SMALLWOOD_HEADER_LENGTH SMALLWOOD_SIZE(15)
#define SMALLWOOD_NAMED_LENGTH (SMALLWOOD_HEADER_LENGTH + SMALLWOOD_ROOT_LENGTH + SMALLWOOD_SALT_LENGTH)
#define SMALLWOOD_QUESTION_LENGTH(l, eta, m) \
    (SMALLWOOD_NAMED_LENGTH + 4 * (SMALLWOOD_SIZE(eta) + SMALLWOOD_SIZE(m)) + 2 * SMALLWOOD_SIZE(l))
#define SMALLWOOD_PROOF_QUESTION_LENGTH(m) (SMALLWOOD_NAMED_LENGTH + 4 * SMALLWOOD_SIZE(m))

/* Offsets in a question, in bytes: m in the header, root, salt; what follows in a conversation; and the points of a proof's question. */
#define SMALLWOOD_M_AT SMALLWOOD_SIZE(13)
#define SMALLWOOD_ROOT_AT SMALLWOOD_HEADER_LENGTH
#define SMALLWOOD_SALT_AT (SMALLWOOD_HEADER_LENGTH + SMALLWOOD_ROOT_LENGTH)
#define SMALLWOOD_CHALLENGES_AT SMALLWOOD_NAMED_LENGTH
#define SMALLWOOD_POINTS_AT(eta) (SMALLWOOD_NAMED_LENGTH + 4 * SMALLWOOD_SIZE(eta))
#define SMALLWOOD_INDICES_AT(eta, m) (SMALLWOOD_NAMED_LENGTH + 4 * (SMALLWOOD_SIZE(eta) + SMALLWOOD_SIZE(m)))
#define SMALLWOOD_PROOF_POINTS_AT SMALLWOOD_NAMED_LENGTH

/*
 * Bytes: the answers that a reply begins with, batching before evaluation; the counter, which in a proof stands before them; what no reply
 * to any indices exceeds (a reply's own length is smallwood_reply_length's); and the prover's buffer, the proof_length of smallwood_prove.
 */
#define SMALLWOOD_BATCHING_LENGTH(nu, w, l, eta) (4 * SMALLWOOD_WIDTH(nu, w, l) * SMALLWOOD_SIZE(eta))
#define SMALLWOOD_EVALUATION_LENGTH(nu, w, l, m) (4 * SMALLWOOD_WIDTH(nu, w, l) * SMALLWOOD_SIZE(m))
#define SMALLWOOD_COUNTER_LENGTH SMALLWOOD_SIZE(4)
#define SMALLWOOD_REPLY_BOUND(h, mu, nu, w, l, eta, beta, m)                                                          \
    (SMALLWOOD_HAS_DEPTH(h)                                                                                           \
     * (SMALLWOOD_BATCHING_LENGTH(nu, w, l, eta) + SMALLWOOD_EVALUATION_LENGTH(nu, w, l, m)                           \
        + SMALLWOOD_SIZE(l) * (4 * (SMALLWOOD_ROWS(mu, beta) + SMALLWOOD_SIZE(eta)) + 32 + 32 * SMALLWOOD_SIZE(h))))
#define SMALLWOOD_PROOF_LENGTH(h, mu, nu, w, l, eta, beta, m) \
    (SMALLWOOD_HAS_DEPTH(h) * SMALLWOOD_COUNTER_LENGTH + SMALLWOOD_REPLY_BOUND(h, mu, nu, w, l, eta, beta, m))

/* The most points of smallwood_interpolate. */
#define SMALLWOOD_MOST_POINTS 320

/* Of this header's own: a call whose number is not looked at is a warning, where the compiler can say so. */
#if defined(__GNUC__)
#define SMALLWOOD_USE_RESULT __attribute__((warn_unused_result))
#else
#define SMALLWOOD_USE_RESULT
#endif

/*
 * Commits to w polynomials of mu nu + beta coefficients each.
 *
 *   Reads                                                                             length
 *     coefficients   polynomial by polynomial, lowest first; elements                 w (mu nu + beta)
 *     tails          row by row; random elements                                      (mu + beta) l
 *     blinds         polynomial by polynomial, column by column but for the last, row by row; random elements   w (nu - 1) beta
 *     masks          repetition by repetition, width coefficients each, lowest first; random elements   eta width
 *     nonces         leaf by leaf, 32 random bytes each                               32 N
 *     salt           of this commitment, random bytes; any bytes are taken            32
 *   Fills
 *     table          leaf by leaf: mu + beta row values, then eta mask values         N (mu + beta + eta)
 *     tree           leaf digests, then each level above; the root is the last 32 bytes   32 (2 N - 1)
 *
 * The values of the polynomials do not depend on the blinds. With nu = 1 or beta = 0 there are none: an empty slice.
 *
 * Returns 0, or the first of: 1; 2, for any of the eight; 3, in coefficients, tails, blinds or masks.
 */
uint32_t smallwood_commit(uint32_t h, uint32_t mu, uint32_t nu, uint32_t w, uint32_t l, uint32_t eta, uint32_t beta,
                          const uint32_t *coefficients, size_t coefficients_length,
                          const uint32_t *tails, size_t tails_length,
                          const uint32_t *blinds, size_t blinds_length,
                          const uint32_t *masks, size_t masks_length,
                          const uint8_t *nonces, size_t nonces_length,
                          const uint8_t *salt, size_t salt_length,
                          uint32_t *table, size_t table_length,
                          uint8_t *tree, size_t tree_length) SMALLWOOD_USE_RESULT;

/*
 * Gives the length of a question's reply, before it is made and from the question alone.
 *
 *   Fills
 *     length         the reply's length in bytes
 *
 * Returns 0, or the first of: 6, for under 15 bytes; 5; 1; 6, for another length than the header's; 3; 4.
 */
uint32_t smallwood_reply_length(const uint8_t *question, size_t question_length, uint64_t *length) SMALLWOOD_USE_RESULT;

/*
 * Gives the work of a question's check in permutations of Keccak, before there is a reply and from the question alone.
 *
 *   Fills
 *     count          what a smallwood_check runs that comes to hash: on 0, 8, 9 and 10 alike. With every other number it runs none
 *
 * Each opened leaf takes 1, 2 or 3: for mu + beta + eta up to 17, up to 51, above. Each node above an opened leaf takes 1, once, the root too.
 * So it is never more than l (3 + h). A smallwood_check_proof hashes for its draws besides.
 *
 * Returns 0, or the same numbers in the same order as smallwood_reply_length.
 */
uint32_t smallwood_permutations(const uint8_t *question, size_t question_length, uint64_t *count) SMALLWOOD_USE_RESULT;

/*
 * Opens a commitment: writes the reply to a question, from what was lent to smallwood_commit and what it left in table and tree.
 * The table and the tree are taken as they are. The sizes are those of the question's header.
 *
 *   Fills
 *     reply          the reply                                  what smallwood_reply_length gives, and no other
 *     length         the same number again
 *
 * Returns 0, or the first of: 6, 5, 1, 6, 3, 4 for the question, as above; 2, for any of the nine other slices; 3, in any lent words,
 * the table too; 8, where the tree's last 32 bytes are not the question's root, or the salt is not the question's.
 */
uint32_t smallwood_open(const uint8_t *question, size_t question_length,
                        const uint32_t *coefficients, size_t coefficients_length,
                        const uint32_t *tails, size_t tails_length,
                        const uint32_t *blinds, size_t blinds_length,
                        const uint32_t *masks, size_t masks_length,
                        const uint32_t *table, size_t table_length,
                        const uint8_t *nonces, size_t nonces_length,
                        const uint8_t *salt, size_t salt_length,
                        const uint8_t *tree, size_t tree_length,
                        uint8_t *reply, size_t reply_length,
                        uint64_t *length) SMALLWOOD_USE_RESULT;

/*
 * Checks a reply to a question, and on 0 hands out the polynomials' values.
 *
 *   Fills
 *     values         point by point, the value of each of the w polynomials: 4 bytes each, lowest first      4 w m
 *
 * Returns 0, or the first of: 6, 5, 1, 6, 3, 4 for the question, as above; 2, where values has not 4 w m bytes; 7; 3, in the reply; 8; 9; 10.
 * One accepted reply alone does not make its values true: see above. What accepted replies together guarantee is said in the project's
 * promises.
 */
uint32_t smallwood_check(const uint8_t *question, size_t question_length,
                         const uint8_t *reply, size_t reply_length,
                         uint8_t *values, size_t values_length) SMALLWOOD_USE_RESULT;

/*
 * Proves without a conversation: draws the challenges, searches the least counter that qualifies, and writes it and the reply to the
 * question so drawn, from what was lent to smallwood_commit and what it left in table and tree. These are lent as to smallwood_open.
 *
 *   Reads
 *     question       header, root, salt, points                 79 + 4 m
 *     kappa          how many zero bits the draw must begin with
 *     limit          the counters 0, 1, .., limit - 1 are tried; 0 tries none, 4294967295 is allowed
 *   Fills
 *     proof          the proof, at the front; bytes after it stay as they were
 *                                                        4 + 4 width (eta + m) + l (4 (mu + beta + eta) + 32) + 32 l h, and no other
 *     length         the proof's length in bytes
 *
 * Returns 0, or the first of: 6, for under 15 bytes; 5; 1, for the sizes or kappa; 6, for another length than the header's; 3, in the
 * points; 2, for any of the nine other slices; 3, in any lent words, the table too; 8, where the tree's last 32 bytes are not the
 * question's root, or the salt is not the question's; 11. With a refusal neither the buffer nor *length is changed.
 *
 * About one counter in 2^kappa qualifies. With a limit of 64 * 2^kappa an 11 has a probability of about e^-64. After an 11 nothing has
 * been shown, and the same call with a greater limit may follow: the proof is the same for every limit above its counter.
 * The time is that of an open, and one or two permutations of Keccak for each counter tried. It depends on the answers that the proof
 * shows, through the number of counters tried, which is the counter in it and 1, and through the leaves drawn.
 */
uint32_t smallwood_prove(const uint8_t *question, size_t question_length,
                         uint32_t kappa, uint32_t limit,
                         const uint32_t *coefficients, size_t coefficients_length,
                         const uint32_t *tails, size_t tails_length,
                         const uint32_t *blinds, size_t blinds_length,
                         const uint32_t *masks, size_t masks_length,
                         const uint32_t *table, size_t table_length,
                         const uint8_t *nonces, size_t nonces_length,
                         const uint8_t *salt, size_t salt_length,
                         const uint8_t *tree, size_t tree_length,
                         uint8_t *proof, size_t proof_length,
                         uint64_t *length) SMALLWOOD_USE_RESULT;

/*
 * Checks a proof for a question, and on 0 hands out the polynomials' values. Any counter that qualifies is taken, the least or not.
 *
 *   Reads
 *     question       header, root, salt, points                 79 + 4 m
 *     kappa          how many zero bits the draw must begin with
 *     proof          the proof and nothing after it: of the prover's buffer the first *length bytes
 *   Fills
 *     values         as smallwood_check fills them              4 w m
 *
 * Returns 0, or the first of: 6, 5, 1, 6, 3 for question and kappa, as smallwood_prove; 2, where values has not 4 w m bytes; 7, for under
 * 4 + 4 width (eta + m) bytes; then leaves are drawn, and 7, for another length than the drawn leaves give; 3, in the reply; 12; 8; 9; 10.
 */
uint32_t smallwood_check_proof(const uint8_t *question, size_t question_length,
                               uint32_t kappa,
                               const uint8_t *proof, size_t proof_length,
                               uint8_t *values, size_t values_length) SMALLWOOD_USE_RESULT;

/*
 * Interpolates over points of the caller's own: finds the one polynomial of degree below the number of points that has the values there.
 *
 *   Reads                                                                             length
 *     points         elements, each once, in any order                                1 to 320
 *     values         what the polynomial is at each point, in the points' order; elements   as many as points
 *   Fills
 *     coefficients   lowest first; where the degree is smaller, the last ones are 0   as many as points
 *
 * Returns 0, or the first of: 1, for the number of points; 2, where values or coefficients are not as many; 3, in points or values; 13.
 * What stood in coefficients before is not looked at, and may be anything.
 *
 * The time grows with the square of the number of points, and depends on the points: inversions take a number of steps that depends on
 * them, and divide. No branch and no address depends on the values, but for whether all are below q (see "Timing" above).
 */
uint32_t smallwood_interpolate(const uint32_t *points, size_t points_length,
                               const uint32_t *values, size_t values_length,
                               uint32_t *coefficients, size_t coefficients_length) SMALLWOOD_USE_RESULT;

#undef SMALLWOOD_USE_RESULT

#ifdef __cplusplus
}
#endif

#endif
