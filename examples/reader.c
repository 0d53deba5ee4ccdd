/*
 * The reader's side of a conversation. It asks a badge for the values of its polynomials at points that it draws, and sees root, salt,
 * answers and the reply, never a secret. It prints the values where all is as it should be.
 *
 * It is run as `reader`, and standard input and output are its line to the badge, so what is for people goes to standard error. Built, and
 * joined by two pipes to a badge that has been built (badge.c has all the lines, and what the file `polynomials` is):
 *
 *     cc -std=c11 -O2 -Iinclude examples/reader.c -Llib -lsmallwood -o reader
 *     mkfifo to-badge to-reader
 *     ./badge polynomials < to-badge > to-reader &
 *     (exec ./reader > to-badge < to-reader)
 *
 * Exit status 0 after values were printed, 1 where it refuses. Everything that the badge sends is taken as hostile. Nothing is allocated.
 */
#include "conversation.h"

#include <inttypes.h>
#include <stdio.h>
#include <stdlib.h>

_Static_assert(M >= 1 && M <= BETA, "a badge answers at most BETA points");

static uint8_t question[QUESTION], answers[ANSWERS], values[VALUES];
static uint8_t reply[REPLY_BOUND + 1]; /* a byte more, so that a longer reply is seen to be longer */
static uint32_t points[M];

static _Noreturn void refuse(const char *why)
{
    fprintf(stderr, "reader: refused: %s\n", why);
    exit(1);
}

static _Noreturn void refuse_with(uint32_t verdict)
{
    fprintf(stderr, "reader: refused with %" PRIu32 ": %s\n", verdict, smallwood_verdict_text(verdict));
    exit(1);
}

static void draw_indices(void)
{
    uint32_t indices[L];

    need_drawn(smallwood_draw_indices(indices, H, L, system_random, NULL));
    smallwood_put_indices(question + INDICES_AT, indices, L);
    fprintf(stderr, "leaves");
    for (size_t a = 0; a < L; a++)
        fprintf(stderr, " %" PRIu32, indices[a]);
    fprintf(stderr, "\n");
}

/* ---- The conversation */

/*
 * Root and salt are what is asked about, and the sizes are the reader's own. What a badge with this root is allowed to do is not said here:
 * a product knows that from a list, or by a signature over root, salt and sizes.
 */
static void ask(void)
{
    uint32_t challenges[ETA];

    smallwood_put_header(question, H, MU, NU, W, L, ETA, BETA, M);
    hear(question + ROOT_AT, ROOT + SALT);
    need_drawn(smallwood_draw_elements(challenges, ETA, system_random, NULL));
    smallwood_put_elements(question + SMALLWOOD_CHALLENGES_AT, challenges, ETA);
    tell(question, FIRST_LENGTH);
    hear(answers, BATCHING);
    need_drawn(smallwood_draw_points(points, M, system_random, NULL));
    smallwood_put_elements(question + POINTS_AT, points, M);
    tell(question + POINTS_AT, POINTS_LENGTH(M));
    hear(answers + BATCHING, EVALUATION);
    draw_indices();
}

/* What reply and check will cost is known before a byte of the reply is there, and whatever the badge sends. */
static uint64_t plan(void)
{
    uint64_t permutations = 0, length = 0;
    uint32_t verdict = smallwood_permutations(question, QUESTION, &permutations);

    if (verdict == SMALLWOOD_OK)
        verdict = smallwood_reply_length(question, QUESTION, &length);
    if (verdict != SMALLWOOD_OK)
        refuse_with(verdict);
    fprintf(stderr, "question of %d bytes, reply of %" PRIu64 " bytes; the check will run %" PRIu64 " permutations of Keccak\n", QUESTION,
            length, permutations);
    return length;
}

/* A reply of another length goes to the check as it is. */
static void take_reply(size_t length)
{
    size_t size;
    uint32_t verdict;

    tell(question + INDICES_AT, INDICES_LENGTH);
    close(STDOUT_FILENO); /* there is no second question */
    size = receive_most(STDIN_FILENO, reply, length + 1);
    verdict = smallwood_check(question, QUESTION, reply, size, values, VALUES);
    if (verdict != SMALLWOOD_OK)
        refuse_with(verdict);
}

/* The check cannot see when answers were made: who knows the leaves makes false ones that fit. */
static void compare_answers(void)
{
    if (memcmp(reply, answers, sizeof answers) != 0)
        refuse("the answers are not those that came before the leaves were drawn");
}

int main(void)
{
    line_opens();
    ask();
    take_reply((size_t)plan());
    compare_answers();
    for (size_t p = 0; p < M; p++)
        for (size_t i = 0; i < W; i++)
            fprintf(stderr, "polynomial %zu at %" PRIu32 " is %" PRIu32 "\n", i + 1, points[p],
                    smallwood_element_at(values + 4 * (p * W + i)));
    fprintf(stderr, "reader: accepted\n");
    return 0;
}
