/*
 * SmallWood: drawing, and the questions of both sides. Nothing of it is in the library; include it where it is of use. C99, or C++11.
 *
 *   smallwood_draw_elements         tails, blinds, masks, challenges
 *   smallwood_draw_points           points of a question
 *   smallwood_draw_indices          leaf indices of a question
 *   smallwood_put_header            the 15 bytes that a question begins with
 *   smallwood_put_elements, smallwood_put_indices, smallwood_element_at
 *                                   words and indices in bytes
 *   smallwood_question_fits, smallwood_proof_question_fits
 *                                   for a badge, before it opens or proves: whether the question has its sizes, and points that it answers;
 *                                   smallwood_header_fits, smallwood_points_fit for one that comes in pieces
 *
 * Random bytes are the caller's: a function that fills memory with bytes that are uniform and independent, such as the operating system's
 * source. Nonces and salts are its bytes as they come. What is drawn here is then uniform, too: what does not fit is drawn again, and
 * nothing is reduced.
 *
 * Of draw_elements no address depends on what is drawn, and no branch but whether a word is drawn again, which says nothing of the words
 * that are kept (tried under valgrind). The others branch on their points and indices, which a question shows.
 *
 * A function that draws returns 0; what the source returned where that is not 0; or SMALLWOOD_NOT_DRAWN. After anything but 0 nothing that
 * it was to fill is to be used.
 */
#ifndef SMALLWOOD_DRAW_H
#define SMALLWOOD_DRAW_H

#include "smallwood.h"

/* Fills count bytes and returns 0; where it cannot, anything else. The context is what the drawing function was given. */
typedef int smallwood_random(void *context, void *to, size_t count);

/*
 * Sizes are out of range, or the source gave so often in a row what had to be drawn again: random bytes do so with a probability below
 * 2^-1000, and bytes that stay the same would be drawn for ever.
 */
#define SMALLWOOD_NOT_DRAWN (-1)
#define SMALLWOOD_MOST_TRIES 65536

/* Of this header's own: a call whose result is not looked at is a warning, where the compiler can say so. */
#if defined(__GNUC__)
#define SMALLWOOD_USE_RESULT __attribute__((warn_unused_result)) static inline
#else
#define SMALLWOOD_USE_RESULT static inline
#endif

/* ---- Drawing */

/* Elements, uniform below q: a word that is not below q is drawn again. */
SMALLWOOD_USE_RESULT int smallwood_draw_elements(uint32_t *elements, size_t count, smallwood_random *source, void *context)
{
    int failed = count == 0 ? 0 : source(context, elements, count * sizeof *elements);

    for (size_t i = 0; failed == 0 && i < count; i++)
        for (uint32_t tries = 0; failed == 0 && elements[i] >= SMALLWOOD_Q; tries++)
            failed = tries < SMALLWOOD_MOST_TRIES ? source(context, &elements[i], sizeof *elements) : SMALLWOOD_NOT_DRAWN;
    return failed;
}

/* Of this header's own: whether the word is one of these. */
SMALLWOOD_USE_RESULT int smallwood_is_among(const uint32_t *words, size_t count, uint32_t word)
{
    size_t i = 0;

    while (i < count && words[i] != word)
        i++;
    return i < count;
}

/* Elements, none of them 0, all different: each such list as likely as any other. */
SMALLWOOD_USE_RESULT int smallwood_draw_points(uint32_t *points, size_t count, smallwood_random *source, void *context)
{
    int failed = 0;

    for (size_t p = 0; failed == 0 && p < count; p++) {
        uint32_t tries = 0;

        do
            failed = tries++ < SMALLWOOD_MOST_TRIES ? smallwood_draw_elements(&points[p], 1, source, context) : SMALLWOOD_NOT_DRAWN;
        while (failed == 0 && (points[p] == 0 || smallwood_is_among(points, p, points[p])));
    }
    return failed;
}

/* Of this header's own: puts an index that is not among these where it belongs, so that they rise. */
static inline void smallwood_insert(uint32_t *indices, size_t count, uint32_t index)
{
    for (; count > 0 && indices[count - 1] > index; count--)
        indices[count] = indices[count - 1];
    indices[count] = index;
}

/*
 * Leaf indices: l different ones below 2^h, rising, each set as likely as any other. Two bytes are drawn for each, and of their number the
 * last h bits taken: 2^h divides 2^16, so that no index is likelier than another. One that is there already is drawn again.
 * With h outside 1 to 12, or l outside 1 to 64 or above 2^h, nothing is drawn, and it returns SMALLWOOD_NOT_DRAWN.
 */
SMALLWOOD_USE_RESULT int smallwood_draw_indices(uint32_t *indices, uint32_t h, uint32_t l, smallwood_random *source, void *context)
{
    int failed = l < 1 || l > 64 || l > SMALLWOOD_LEAVES(h) ? SMALLWOOD_NOT_DRAWN : 0;
    uint32_t tries = 0;

    for (size_t count = 0; failed == 0 && count < l;) {
        uint8_t drawn[2] = {0, 0};
        uint32_t index;

        failed = tries++ < SMALLWOOD_MOST_TRIES ? source(context, drawn, sizeof drawn) : SMALLWOOD_NOT_DRAWN;
        index = (drawn[0] + drawn[1] * 256u) & ((1u << h) - 1);
        if (failed == 0 && !smallwood_is_among(indices, count, index)) {
            smallwood_insert(indices, count++, index);
            tries = 0;
        }
    }
    return failed;
}

/* ---- Bytes: all numbers are little-endian */

/* Elements, 4 bytes each. */
static inline void smallwood_put_elements(uint8_t *to, const uint32_t *elements, size_t count)
{
    for (size_t i = 0; i < 4 * count; i++)
        to[i] = elements[i / 4] >> 8 * (i % 4) & 255;
}

/* Indices, 2 bytes each. */
static inline void smallwood_put_indices(uint8_t *to, const uint32_t *indices, size_t count)
{
    for (size_t i = 0; i < 2 * count; i++)
        to[i] = indices[i / 2] >> 8 * (i % 2) & 255;
}

/* The word in these 4 bytes. */
static inline uint32_t smallwood_element_at(const uint8_t *from)
{
    return from[0] + from[1] * 256u + from[2] * 65536u + from[3] * 16777216u;
}

/* The header of a question with these sizes and m points, 15 bytes. The sizes have to be within their ranges. */
static inline void smallwood_put_header(uint8_t *to, uint32_t h, uint32_t mu, uint32_t nu, uint32_t w, uint32_t l, uint32_t eta,
                                        uint32_t beta, uint32_t m)
{
    const uint32_t fields[SMALLWOOD_HEADER_LENGTH] = {
        'S', 'W', 'Q', SMALLWOOD_QUESTION_VERSION & 255, SMALLWOOD_QUESTION_VERSION >> 8, h, mu, nu, nu >> 8, w, w >> 8, l, eta, m, beta,
    };

    for (size_t i = 0; i < SMALLWOOD_HEADER_LENGTH; i++)
        to[i] = fields[i] & 255;
}

/* ---- For a badge, whose sizes these are: whether a question is one that it answers, as 1 or 0 */

/*
 * A header: mark, version and sizes are these, and m is 1 to beta, so that the columns show the values and no more (smallwood.h, "What a
 * reply shows"). With beta = 0 none fits, not where nu is 1 either.
 */
SMALLWOOD_USE_RESULT int smallwood_header_fits(const uint8_t *header, uint32_t h, uint32_t mu, uint32_t nu, uint32_t w, uint32_t l,
                                               uint32_t eta, uint32_t beta)
{
    uint32_t m = header[SMALLWOOD_M_AT];
    int same = m >= 1 && m <= beta;
    uint8_t own[SMALLWOOD_HEADER_LENGTH];

    smallwood_put_header(own, h, mu, nu, w, l, eta, beta, m);
    for (size_t i = 0; i < SMALLWOOD_HEADER_LENGTH; i++)
        same &= header[i] == own[i];
    return same;
}

/* Points: each is below q, and none is 0. Equal ones are taken, and count once. */
SMALLWOOD_USE_RESULT int smallwood_points_fit(const uint8_t *points, size_t m)
{
    size_t p = 0;

    while (p < m && smallwood_element_at(points + 4 * p) != 0 && smallwood_element_at(points + 4 * p) < SMALLWOOD_Q)
        p++;
    return p == m;
}

/*
 * A whole question of a conversation: its header, its length and its points. Root, salt, challenges and indices are not looked at: an open
 * tests them.
 */
SMALLWOOD_USE_RESULT int smallwood_question_fits(const uint8_t *question, size_t question_length, uint32_t h, uint32_t mu, uint32_t nu,
                                                 uint32_t w, uint32_t l, uint32_t eta, uint32_t beta)
{
    return question_length >= SMALLWOOD_HEADER_LENGTH && smallwood_header_fits(question, h, mu, nu, w, l, eta, beta)
        && question_length == SMALLWOOD_QUESTION_LENGTH(l, eta, question[SMALLWOOD_M_AT])
        && smallwood_points_fit(question + SMALLWOOD_POINTS_AT(eta), question[SMALLWOOD_M_AT]);
}

/* The same of a proof's question. */
SMALLWOOD_USE_RESULT int smallwood_proof_question_fits(const uint8_t *question, size_t question_length, uint32_t h, uint32_t mu,
                                                       uint32_t nu, uint32_t w, uint32_t l, uint32_t eta, uint32_t beta)
{
    return question_length >= SMALLWOOD_HEADER_LENGTH && smallwood_header_fits(question, h, mu, nu, w, l, eta, beta)
        && question_length == SMALLWOOD_PROOF_QUESTION_LENGTH(question[SMALLWOOD_M_AT])
        && smallwood_points_fit(question + SMALLWOOD_PROOF_POINTS_AT, question[SMALLWOOD_M_AT]);
}

#undef SMALLWOOD_USE_RESULT

#endif
