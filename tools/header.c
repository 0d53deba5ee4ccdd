/* The header's lengths, offsets and names against the library:  header DRAWS
 *
 * For drawn sizes each entry is called with slices of the lengths that the macros give and one word that is no element,
 * so that the number says how far its tests went: 3 where all lengths are right, 2 (or 6, for a question) where one of
 * them has one element more or less. Nothing is committed, so that many sizes are tried in little time; but for where
 * root and salt stand, at one small size. Where one leaf is opened, every node beside its path is missing, and the bound
 * on replies is their length. Offsets are seen by what a damaged question is refused with.
 * Exit status 1 after a difference. */
#include <inttypes.h>
#include <stdio.h>
#include <stdlib.h>
#include <string.h>

#include "drawn_sizes.h"
#include "entries.h"
#include "smallwood.h"

ENTRIES(smallwood); /* declared twice: where the two differ, this is no C */

#define PROOFS_APART 16 /* a check of a proof hashes: it is tried at one of so many sizes */

/* The largest lengths of all sizes. */
enum {
    MOST_WORDS = 4096 * 68 + 1,
    MOST_BYTES = 32 * 8191 + 1
};

static uint32_t words[MOST_WORDS], written_words[MOST_WORDS];
static uint8_t bytes[MOST_BYTES], written_bytes[MOST_BYTES];
static uint64_t calls;

static void expect(uint32_t found, uint32_t expected, const char *what, const struct sizes *s)
{
    calls++;
    if (found == expected)
        return;
    printf("header: DIFFERENT: %s: %" PRIu32 " (%s), expected %" PRIu32 "; h %" PRIu32 " mu %" PRIu32 " nu %" PRIu32
           " w %" PRIu32 " l %" PRIu32 " eta %" PRIu32 " beta %" PRIu32 " m %" PRIu32 "\n",
           what, found, smallwood_verdict_text(found), expected, s->h, s->mu, s->nu, s->w, s->l, s->eta, s->beta, s->m);
    exit(1);
}

static void expect_equal(uint64_t found, uint64_t expected, const char *what, const struct sizes *s)
{
    if (found != expected)
        printf("header: %" PRIu64 " for %" PRIu64 "\n", found, expected);
    expect(found == expected ? SMALLWOOD_OK : SMALLWOOD_BAD_LENGTH, SMALLWOOD_OK, what, s);
}

/* ---- Questions: zeros but for the header and rising indices */

static uint8_t question[255 + 8]; /* and room for a word too far */

static void write_half(uint8_t *to, uint32_t x)
{
    to[0] = (uint8_t)x;
    to[1] = (uint8_t)(x >> 8);
}

static void write_question(const struct sizes *s, uint32_t version)
{
    size_t indices = SMALLWOOD_QUESTION_LENGTH(s->l, s->eta, s->m) - 2 * s->l;

    memset(question, 0, sizeof question);
    memcpy(question, "SWQ", 3);
    write_half(question + 3, version);
    question[5] = (uint8_t)s->h;
    question[6] = (uint8_t)s->mu;
    write_half(question + 7, s->nu);
    write_half(question + 9, s->w);
    question[11] = (uint8_t)s->l;
    question[12] = (uint8_t)s->eta;
    question[13] = (uint8_t)s->m;
    question[14] = (uint8_t)s->beta;
    for (uint32_t a = 0; a < s->l; a++)
        write_half(question + indices + 2 * a, a);
}

static uint64_t length_for(const struct sizes *s)
{
    uint64_t length = 0;

    write_question(s, SMALLWOOD_QUESTION_VERSION);
    expect(smallwood_reply_length(question, SMALLWOOD_QUESTION_LENGTH(s->l, s->eta, s->m), &length), SMALLWOOD_OK,
           "a question of its length", s);
    return length;
}

static void try_question(const struct sizes *s)
{
    size_t length = SMALLWOOD_QUESTION_LENGTH(s->l, s->eta, s->m);
    uint64_t number = 0;

    length_for(s);
    expect(smallwood_reply_length(question, length - 1, &number), SMALLWOOD_BAD_QUESTION_LENGTH, "a byte less", s);
    expect(smallwood_permutations(question, length + 1, &number), SMALLWOOD_BAD_QUESTION_LENGTH, "a byte more", s);
    expect(smallwood_permutations(question, length, &number), SMALLWOOD_OK, "the work of a question", s);
    expect(smallwood_reply_length(question, SMALLWOOD_HEADER_LENGTH - 1, &number), SMALLWOOD_BAD_QUESTION_LENGTH,
           "a byte less than a header", s);
    write_question(s, SMALLWOOD_QUESTION_VERSION + 1);
    expect(smallwood_reply_length(question, SMALLWOOD_HEADER_LENGTH, &number), SMALLWOOD_BAD_MARK, "the next version", s);
    write_question(s, SMALLWOOD_QUESTION_VERSION - 1);
    expect(smallwood_reply_length(question, SMALLWOOD_HEADER_LENGTH, &number), SMALLWOOD_BAD_MARK, "an older version", s);
}

/* ---- Slices. Where `other` is the number of one, it has an element more or less. */

static int other, change;

static size_t changed(int slice, size_t length)
{
    if (slice != other || (change < 0 && length == 0))
        return length;
    return change < 0 ? length - 1 : length + 1;
}

/* Whether that slice has the length that it has to: none is changed, or an empty one was to have an element less. */
static int right_length(int slice, size_t length)
{
    return changed(slice, length) == length;
}

static uint32_t expected_after(int right)
{
    return right ? SMALLWOOD_BAD_ELEMENT : SMALLWOOD_BAD_LENGTH;
}

static void try_commit(const struct sizes *s)
{
    size_t lengths[8] = {
        SMALLWOOD_COEFFICIENTS_LENGTH(s->mu, s->nu, s->w, s->beta),
        SMALLWOOD_TAILS_LENGTH(s->mu, s->l, s->beta),
        SMALLWOOD_BLINDS_LENGTH(s->nu, s->w, s->beta),
        SMALLWOOD_MASKS_LENGTH(s->nu, s->w, s->l, s->eta),
        SMALLWOOD_NONCES_LENGTH(s->h),
        SMALLWOOD_SALT_LENGTH,
        SMALLWOOD_TABLE_LENGTH(s->h, s->mu, s->eta, s->beta),
        SMALLWOOD_TREE_LENGTH(s->h),
    };
    int right = other >= 8;

    for (int i = 0; i < 8; i++) {
        if (i == other)
            right = right_length(i, lengths[i]);
        lengths[i] = changed(i, lengths[i]);
    }
    expect(smallwood_commit(s->h, s->mu, s->nu, s->w, s->l, s->eta, s->beta, words, lengths[0], words, lengths[1],
                            words, lengths[2], words, lengths[3], bytes, lengths[4], bytes, lengths[5], written_words,
                            lengths[6], written_bytes, lengths[7]),
           expected_after(right), "commit", s);
}

/* What an open and a prove are lent beside the question, the last slice being what they write. */
static int lent_lengths(const struct sizes *s, size_t written, size_t lengths[9])
{
    int right = other >= 9;

    lengths[0] = SMALLWOOD_COEFFICIENTS_LENGTH(s->mu, s->nu, s->w, s->beta);
    lengths[1] = SMALLWOOD_TAILS_LENGTH(s->mu, s->l, s->beta);
    lengths[2] = SMALLWOOD_BLINDS_LENGTH(s->nu, s->w, s->beta);
    lengths[3] = SMALLWOOD_MASKS_LENGTH(s->nu, s->w, s->l, s->eta);
    lengths[4] = SMALLWOOD_TABLE_LENGTH(s->h, s->mu, s->eta, s->beta);
    lengths[5] = SMALLWOOD_NONCES_LENGTH(s->h);
    lengths[6] = SMALLWOOD_SALT_LENGTH;
    lengths[7] = SMALLWOOD_TREE_LENGTH(s->h);
    lengths[8] = written;
    for (int i = 0; i < 9; i++) {
        if (i == other)
            right = right_length(i, lengths[i]);
        lengths[i] = changed(i, lengths[i]);
    }
    return right;
}

static void try_open(const struct sizes *s)
{
    size_t n[9];
    uint64_t length = length_for(s);
    int right = lent_lengths(s, (size_t)length, n);

    expect(smallwood_open(question, SMALLWOOD_QUESTION_LENGTH(s->l, s->eta, s->m), words, n[0], words, n[1], words,
                          n[2], words, n[3], words, n[4], bytes, n[5], bytes, n[6], bytes, n[7], written_bytes, n[8],
                          &length),
           expected_after(right), "open", s);
}

static void try_prove(const struct sizes *s)
{
    size_t n[9];
    uint64_t length = 0;
    int right = lent_lengths(s, SMALLWOOD_PROOF_LENGTH(s->h, s->mu, s->nu, s->w, s->l, s->eta, s->beta, s->m), n);

    write_question(s, SMALLWOOD_QUESTION_VERSION);
    expect(smallwood_prove(question, SMALLWOOD_PROOF_QUESTION_LENGTH(s->m), 0, 1, words, n[0], words, n[1], words, n[2],
                           words, n[3], words, n[4], bytes, n[5], bytes, n[6], bytes, n[7], written_bytes, n[8], &length),
           expected_after(right), "prove", s);
}

/* With its right number of values a check comes to the reply, or the proof, of which there is none. */
static void try_checks(const struct sizes *s)
{
    size_t length = SMALLWOOD_QUESTION_LENGTH(s->l, s->eta, s->m), proof = SMALLWOOD_PROOF_QUESTION_LENGTH(s->m);
    size_t values = SMALLWOOD_VALUES_LENGTH(s->w, s->m);

    write_question(s, SMALLWOOD_QUESTION_VERSION);
    expect(smallwood_check(question, length, NULL, 0, written_bytes, values), SMALLWOOD_BAD_REPLY_LENGTH, "check", s);
    expect(smallwood_check(question, length, NULL, 0, written_bytes, values + 1), SMALLWOOD_BAD_LENGTH, "check", s);
    expect(smallwood_check(question, length, NULL, 0, written_bytes, values - 1), SMALLWOOD_BAD_LENGTH, "check", s);
    expect(smallwood_check_proof(question, proof, 0, NULL, 0, written_bytes, values), SMALLWOOD_BAD_REPLY_LENGTH,
           "check_proof", s);
    expect(smallwood_check_proof(question, proof, 0, NULL, 0, written_bytes, values - 1), SMALLWOOD_BAD_LENGTH,
           "check_proof", s);
    expect(smallwood_check_proof(question, proof + 1, 0, NULL, 0, written_bytes, values), SMALLWOOD_BAD_QUESTION_LENGTH,
           "check_proof", s);
    expect(smallwood_check_proof(question, proof - 1, 0, NULL, 0, written_bytes, values), SMALLWOOD_BAD_QUESTION_LENGTH,
           "check_proof", s);
}

/* One point more has the length of its answer more, and one repetition that of its answer and of l mask values. */
static void try_answers(struct sizes s)
{
    uint64_t length;

    s.m = 1;
    s.eta = 1;
    length = length_for(&s);
    s.m = 2;
    expect_equal(length_for(&s) - length, SMALLWOOD_EVALUATION_LENGTH(s.nu, s.w, s.l, 1), "an evaluation answer", &s);
    s.m = 1;
    s.eta = 2;
    expect_equal(length_for(&s) - length, SMALLWOOD_BATCHING_LENGTH(s.nu, s.w, s.l, 1) + 4 * s.l, "a batching answer", &s);
}

static void try_reply(struct sizes s)
{
    uint64_t bound = SMALLWOOD_REPLY_BOUND(s.h, s.mu, s.nu, s.w, s.l, s.eta, s.beta, s.m);

    expect(length_for(&s) <= bound ? SMALLWOOD_OK : SMALLWOOD_BAD_LENGTH, SMALLWOOD_OK, "the bound", &s);
    s.l = 1;
    expect_equal(length_for(&s), SMALLWOOD_REPLY_BOUND(s.h, s.mu, s.nu, s.w, s.l, s.eta, s.beta, s.m), "a reply", &s);
}

/* ---- Offsets */

static const uint8_t no_element[4] = {0xfb, 0xff, 0xff, 0xff}; /* q */

/* The number for a question with q in it, so far from its front. A byte too early or too late it makes elements below q. */
static uint32_t with_q_at(const struct sizes *s, size_t at)
{
    uint64_t length = 0;

    write_question(s, SMALLWOOD_QUESTION_VERSION);
    memcpy(question + at, no_element, sizeof no_element);
    return smallwood_reply_length(question, SMALLWOOD_QUESTION_LENGTH(s->l, s->eta, s->m), &length);
}

/* Elements stand from the first challenge to the last point. In the indices after them q makes one that is not below N. */
static void try_elements_at(const struct sizes *s)
{
    size_t challenges = SMALLWOOD_CHALLENGES_AT, points = SMALLWOOD_POINTS_AT(s->eta);

    expect(with_q_at(s, challenges - 4), SMALLWOOD_OK, "q before the challenges", s);
    expect(with_q_at(s, challenges - 1), SMALLWOOD_OK, "q a byte before the challenges", s);
    for (uint32_t k = 0; k < s->eta; k++)
        expect(with_q_at(s, challenges + 4 * k), SMALLWOOD_BAD_ELEMENT, "q for a challenge", s);
    expect(with_q_at(s, points - 1), SMALLWOOD_OK, "q a byte before the points", s);
    for (uint32_t p = 0; p < s->m; p++)
        expect(with_q_at(s, points + 4 * p), SMALLWOOD_BAD_ELEMENT, "q for a point", s);
    expect(with_q_at(s, points + 4 * s->m), SMALLWOOD_BAD_INDICES, "q after the points", s);
}

static void try_indices_at(const struct sizes *s)
{
    size_t length = SMALLWOOD_QUESTION_LENGTH(s->l, s->eta, s->m), indices = SMALLWOOD_INDICES_AT(s->eta, s->m);
    uint64_t number = 0;

    for (uint32_t a = 0; a < s->l; a++) {
        write_question(s, SMALLWOOD_QUESTION_VERSION);
        write_half(question + indices + 2 * a, 1u << s->h);
        expect(smallwood_reply_length(question, length, &number), SMALLWOOD_BAD_INDICES, "N for an index", s);
    }
    write_question(s, SMALLWOOD_QUESTION_VERSION);
    write_half(question + indices - 2, 0xff00);
    expect(smallwood_reply_length(question, length, &number), SMALLWOOD_OK, "the last point's upper half", s);
}

/* Another m, though it is in its range, gives another length; no other byte of the header does so with this one. */
static void try_m_at(const struct sizes *s)
{
    struct sizes other_m = *s;
    size_t length;
    uint64_t number = 0;

    other_m.m = s->m % 8 + 1;
    length = SMALLWOOD_QUESTION_LENGTH(s->l, s->eta, other_m.m);
    write_question(&other_m, SMALLWOOD_QUESTION_VERSION);
    question[SMALLWOOD_M_AT] = (uint8_t)s->m;
    expect(smallwood_reply_length(question, length, &number), SMALLWOOD_BAD_QUESTION_LENGTH, "another m", s);
    question[SMALLWOOD_M_AT] = (uint8_t)other_m.m;
    expect(smallwood_reply_length(question, length, &number), SMALLWOOD_OK, "its m again", s);
}

/* With one leaf every proof has one length, and zeros come as far as the root. */
static uint32_t check_zeros(const struct sizes *s, size_t question_at, size_t proof_at)
{
    static uint8_t proof[65536];
    size_t length = SMALLWOOD_COUNTER_LENGTH + (size_t)length_for(s);
    uint32_t verdict;

    write_question(s, SMALLWOOD_QUESTION_VERSION);
    memset(question + 79, 0, sizeof question - 79);
    if (question_at > 0)
        memcpy(question + question_at, no_element, sizeof no_element);
    if (proof_at > 0)
        memcpy(proof + proof_at, no_element, sizeof no_element);
    verdict = smallwood_check_proof(question, SMALLWOOD_PROOF_QUESTION_LENGTH(s->m), 0, proof, length, written_bytes,
                                    SMALLWOOD_VALUES_LENGTH(s->w, s->m));
    memset(proof + proof_at, 0, sizeof no_element);
    return verdict;
}

static void try_proof_at(struct sizes s)
{
    s.l = 1;
    expect(check_zeros(&s, 0, 0), SMALLWOOD_BAD_ROOT, "a proof of zeros", &s);
    for (uint32_t p = 0; p < s.m; p++)
        expect(check_zeros(&s, SMALLWOOD_PROOF_POINTS_AT + 4 * p, 0), SMALLWOOD_BAD_ELEMENT, "q for a point", &s);
    expect(check_zeros(&s, SMALLWOOD_PROOF_POINTS_AT - 1, 0), SMALLWOOD_BAD_ROOT, "q a byte before the points", &s);
    expect(check_zeros(&s, 0, SMALLWOOD_COUNTER_LENGTH), SMALLWOOD_BAD_ELEMENT, "q after the counter", &s);
    expect(check_zeros(&s, 0, SMALLWOOD_COUNTER_LENGTH - 1), SMALLWOOD_BAD_ROOT, "q a byte before that", &s);
}

/* ---- Root and salt, of a commitment to zeros */

enum { H = 3, MU = 2, NU = 2, W = 1, L = 2, ETA = 1, BETA = 1, M = 1 };

static const struct sizes small = {H, MU, NU, W, L, ETA, BETA, M};
static uint32_t zeros[64], table[SMALLWOOD_TABLE_LENGTH(H, MU, ETA, BETA)];
static uint8_t nonces[SMALLWOOD_NONCES_LENGTH(H)], salt[SMALLWOOD_SALT_LENGTH], tree[SMALLWOOD_TREE_LENGTH(H)];

static uint32_t commit_small(void)
{
    return smallwood_commit(H, MU, NU, W, L, ETA, BETA, zeros, SMALLWOOD_COEFFICIENTS_LENGTH(MU, NU, W, BETA), zeros,
                            SMALLWOOD_TAILS_LENGTH(MU, L, BETA), zeros, SMALLWOOD_BLINDS_LENGTH(NU, W, BETA), zeros,
                            SMALLWOOD_MASKS_LENGTH(NU, W, L, ETA), nonces, sizeof nonces, salt, sizeof salt, table,
                            sizeof table / 4, tree, sizeof tree);
}

static uint32_t open_small(void)
{
    uint64_t length = 0;
    uint32_t sized = smallwood_reply_length(question, SMALLWOOD_QUESTION_LENGTH(L, ETA, M), &length);

    if (sized != SMALLWOOD_OK)
        return sized;
    return smallwood_open(question, SMALLWOOD_QUESTION_LENGTH(L, ETA, M), zeros,
                          SMALLWOOD_COEFFICIENTS_LENGTH(MU, NU, W, BETA), zeros, SMALLWOOD_TAILS_LENGTH(MU, L, BETA),
                          zeros, SMALLWOOD_BLINDS_LENGTH(NU, W, BETA), zeros, SMALLWOOD_MASKS_LENGTH(NU, W, L, ETA),
                          table, sizeof table / 4, nonces, sizeof nonces, salt, sizeof salt, tree, sizeof tree,
                          written_bytes, (size_t)length, &length);
}

/* Each byte of the 32 that stand there: changed it is refused, and taken where the lent one is changed alike. */
static void try_bytes_at(size_t at, uint8_t *lent, const char *what)
{
    for (size_t i = 0; i < 32; i++) {
        question[at + i] ^= 1;
        expect(open_small(), SMALLWOOD_BAD_ROOT, what, &small);
        lent[i] ^= 1;
        expect(open_small(), SMALLWOOD_OK, what, &small);
        lent[i] ^= 1;
        question[at + i] ^= 1;
    }
}

static void try_root_and_salt(void)
{
    uint8_t *root = tree + sizeof tree - SMALLWOOD_ROOT_LENGTH;

    for (size_t i = 0; i < sizeof salt; i++)
        salt[i] = (uint8_t)(i + 1);
    expect(commit_small(), SMALLWOOD_OK, "a small commitment", &small);
    write_question(&small, SMALLWOOD_QUESTION_VERSION);
    memcpy(question + SMALLWOOD_ROOT_AT, root, SMALLWOOD_ROOT_LENGTH);
    memcpy(question + SMALLWOOD_SALT_AT, salt, sizeof salt);
    expect(open_small(), SMALLWOOD_OK, "an open of it", &small);
    try_bytes_at(SMALLWOOD_ROOT_AT, root, "a byte of the root");
    try_bytes_at(SMALLWOOD_SALT_AT, salt, "a byte of the salt");
}

/* ---- Sizes out of range: an h gives the length 0, as a constant and as a variable of any type */

#define LENGTHS_WITH(h)                                                                                          \
    {SMALLWOOD_LEAVES(h), SMALLWOOD_TABLE_LENGTH(h, MU, ETA, BETA), SMALLWOOD_NONCES_LENGTH(h), SMALLWOOD_TREE_LENGTH(h), \
     SMALLWOOD_REPLY_BOUND(h, MU, NU, W, L, ETA, BETA, M), SMALLWOOD_PROOF_LENGTH(h, MU, NU, W, L, ETA, BETA, M)}

enum { OUTSIDE = 6, LENGTHS = 6 };

static void expect_nothing(const size_t lengths[LENGTHS])
{
    for (int i = 0; i < LENGTHS; i++)
        expect_equal(lengths[i], 0, "a length with an h out of range", &small);
}

static void try_out_of_range(void)
{
    static const size_t constant[OUTSIDE][LENGTHS] = {
        LENGTHS_WITH(0), LENGTHS_WITH(13), LENGTHS_WITH(64), LENGTHS_WITH(70), LENGTHS_WITH(-1), LENGTHS_WITH(UINT32_MAX),
    };
    static volatile int64_t depths[OUTSIDE] = {0, 13, 64, 70, -1, UINT32_MAX};

    for (int i = 0; i < OUTSIDE; i++) {
        int64_t wide = depths[i];
        int narrow = (int)wide;
        uint32_t word = (uint32_t)wide;
        uint8_t byte = (uint8_t)wide;
        const size_t of_wide[LENGTHS] = LENGTHS_WITH(wide), of_narrow[LENGTHS] = LENGTHS_WITH(narrow);
        const size_t of_word[LENGTHS] = LENGTHS_WITH(word), of_byte[LENGTHS] = LENGTHS_WITH(byte);

        expect_nothing(constant[i]);
        expect_nothing(of_wide);
        expect_nothing(of_narrow);
        expect_nothing(of_word);
        expect_nothing(of_byte);
    }
    expect_equal(SMALLWOOD_BLINDS_LENGTH(0, W, BETA), 0, "blinds without columns", &small);
}

/* ---- What does not depend on sizes */

static void try_points(void)
{
    struct sizes none = {0};

    expect(smallwood_interpolate(words, SMALLWOOD_MOST_POINTS, words, SMALLWOOD_MOST_POINTS, written_words,
                                 SMALLWOOD_MOST_POINTS),
           SMALLWOOD_BAD_ELEMENT, "the most points", &none);
    expect(smallwood_interpolate(words, SMALLWOOD_MOST_POINTS + 1, words, SMALLWOOD_MOST_POINTS + 1, written_words,
                                 SMALLWOOD_MOST_POINTS + 1),
           SMALLWOOD_BAD_SIZES, "one point more", &none);
}

static void try_texts(void)
{
    struct sizes none = {0};
    const char *unknown = smallwood_verdict_text(SMALLWOOD_EQUAL_POINTS + 1);

    for (uint32_t a = SMALLWOOD_OK; a <= SMALLWOOD_EQUAL_POINTS; a++) {
        expect_equal(strcmp(smallwood_verdict_text(a), unknown) != 0, 1, "a verdict has a text", &none);
        for (uint32_t b = SMALLWOOD_OK; b < a; b++)
            expect_equal(strcmp(smallwood_verdict_text(a), smallwood_verdict_text(b)) != 0, 1, "of its own", &none);
    }
}

static void try_version(void)
{
    struct sizes none = {0};
    char text[32];

    snprintf(text, sizeof text, "%d.%d.%d", SMALLWOOD_VERSION_MAJOR, SMALLWOOD_VERSION_MINOR, SMALLWOOD_VERSION_PATCH);
    expect_equal(strcmp(text, SMALLWOOD_VERSION) == 0, 1, "the version's text", &none);
}

int main(int argc, char **argv)
{
    long draws = argc == 2 ? atol(argv[1]) : 0;

    if (draws < 1) {
        fprintf(stderr, "usage: header DRAWS\n");
        return 2;
    }
    words[0] = SMALLWOOD_Q;
    for (long i = 0; i < draws; i++) {
        struct sizes s = draw_sizes();

        try_question(&s);
        try_checks(&s);
        try_answers(s);
        try_reply(s);
        try_elements_at(&s);
        try_indices_at(&s);
        try_m_at(&s);
        if (i % PROOFS_APART == 0)
            try_proof_at(s);
        for (change = -1; change <= 1; change += 2)
            for (other = 0; other < 9; other++) {
                try_commit(&s);
                try_open(&s);
                try_prove(&s);
            }
    }
    try_root_and_salt();
    try_out_of_range();
    try_points();
    try_texts();
    try_version();
    printf("header: %ld sizes, %" PRIu64 " calls, lengths, offsets and names as the library takes them\n", draws, calls);
    return 0;
}
