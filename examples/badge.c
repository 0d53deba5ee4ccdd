/*
 * The badge's side of a conversation. It commits to its polynomials, sends root and salt, and answers one question, piece by piece as it
 * is asked. Its secrets stay here between commit and open, and are wiped before the reply goes out.
 *
 * It is run as `badge POLYNOMIALS`, and standard input and output are its line to the reader (conversation.h). POLYNOMIALS is a file that
 * stands for the badge's own memory: W polynomials of EACH coefficients, lowest first, 4 bytes each, little-endian, below q; with the sizes
 * of sides.h that is 4 times 35, so 140. In the folder that has include/, lib/ and examples/ these lines build badge and reader, draw such
 * a file, and join the two by pipes. Both open the pipes in one order, or neither would begin; and the reader is in brackets, since a shell
 * that held its end of a pipe would keep the badge waiting for what comes after the question.
 *
 *     cc -std=c11 -O2 -Iinclude examples/badge.c -Llib -lsmallwood -o badge
 *     cc -std=c11 -O2 -Iinclude examples/reader.c -Llib -lsmallwood -o reader
 *     python3 -c 'import os, secrets; [os.write(1, secrets.randbelow(2**32 - 5).to_bytes(4, "little")) for _ in range(140)]' > polynomials
 *     mkfifo to-badge to-reader
 *     ./badge polynomials < to-badge > to-reader &
 *     (exec ./reader > to-badge < to-reader)
 *
 * Exit status 0 after the one reply; 1 where it refuses, and standard error says why; 2 for wrong words. Everything that the reader sends
 * is taken as hostile.
 */
#include "conversation.h"

#include <fcntl.h>
#include <stdio.h>
#include <stdlib.h>

#include "smallwood_wipe.h"

/* In one place, so that one call wipes them all. The file has a byte more, so that a longer one is seen to be longer. */
static struct {
    uint8_t file[4 * COEFFICIENTS + 1];
    uint32_t coefficients[COEFFICIENTS], tails[TAILS], blinds[BLINDS_ROOM], masks[MASKS], table[TABLE];
    uint8_t nonces[NONCES], tree[TREE];
} secret;

/* A question with up to BETA points is answered. Before it is asked whole, its reply has leaves that must not leave the badge. */
static uint8_t named[NAMED], question[SMALLWOOD_QUESTION_LENGTH(L, ETA, BETA)];
static uint8_t reply[SMALLWOOD_REPLY_BOUND(H, MU, NU, W, L, ETA, BETA, BETA)];
static uint8_t m;

static _Noreturn void refuse(const char *why)
{
    smallwood_wipe(&secret, sizeof secret);
    smallwood_wipe(reply, sizeof reply);
    fprintf(stderr, "badge: refused: %s\n", why);
    exit(1);
}

/* ---- Committing */

static void read_polynomials(const char *name)
{
    int file = open(name, O_RDONLY);
    size_t size = file < 0 ? 0 : receive_most(file, secret.file, sizeof secret.file);

    if (file >= 0)
        close(file);
    if (size != 4 * COEFFICIENTS)
        refuse("the file has not the length of the polynomials");
    for (size_t i = 0; i < COEFFICIENTS; i++)
        secret.coefficients[i] = smallwood_element_at(secret.file + 4 * i);
}

/* All is drawn anew for each commitment, each element as likely as any other. The salt is no secret. */
static void draw_secrets(void)
{
    need_drawn(smallwood_draw_elements(secret.tails, TAILS, system_random, NULL));
    need_drawn(smallwood_draw_elements(secret.blinds, BLINDS, system_random, NULL));
    need_drawn(smallwood_draw_elements(secret.masks, MASKS, system_random, NULL));
    need_drawn(system_random(NULL, secret.nonces, NONCES));
    need_drawn(system_random(NULL, named + SALT_AT, SALT));
}

static void commit(void)
{
    uint32_t verdict = smallwood_commit(H, MU, NU, W, L, ETA, BETA, secret.coefficients, COEFFICIENTS, secret.tails, TAILS, secret.blinds,
                                        BLINDS, secret.masks, MASKS, secret.nonces, NONCES, named + SALT_AT, SALT, secret.table, TABLE,
                                        secret.tree, TREE);
    smallwood_wipe_stack();
    if (verdict != SMALLWOOD_OK)
        refuse(smallwood_verdict_text(verdict));
    memcpy(named + ROOT_AT, secret.tree + TREE - ROOT, ROOT);
}

/* ---- Answering */

/* The reply to what was asked so far. Elements and indices are tested here, by the library. */
static size_t open_asked(void)
{
    size_t asked = SMALLWOOD_QUESTION_LENGTH(L, ETA, m);
    uint64_t needed = 0, length = 0;
    uint32_t verdict = smallwood_reply_length(question, asked, &needed);

    if (verdict != SMALLWOOD_OK)
        refuse(smallwood_verdict_text(verdict));
    verdict = smallwood_open(question, asked, secret.coefficients, COEFFICIENTS, secret.tails, TAILS, secret.blinds, BLINDS, secret.masks,
                             MASKS, secret.table, TABLE, secret.nonces, NONCES, named + SALT_AT, SALT, secret.tree, TREE, reply,
                             (size_t)needed, &length);
    smallwood_wipe_stack();
    if (verdict != SMALLWOOD_OK)
        refuse(smallwood_verdict_text(verdict));
    return (size_t)length;
}

/* Of a reply with stand-ins only the answers to what was asked leave the badge: its leaves would use up the tails. */
static void answer(size_t from, size_t count)
{
    open_asked();
    tell(reply + from, count);
    smallwood_wipe(reply, sizeof reply);
}

/*
 * The library takes any sizes that fit the lengths, and with others than the committed ones a reply shows more. So does one with more
 * points than blinding rows. The root and the salt are compared here, too: an open would refuse others.
 */
static void take_challenges(void)
{
    hear(question, FIRST_LENGTH);
    m = question[SMALLWOOD_M_AT];
    if (m < 1 || m > BETA)
        refuse("the question has no points, or more than there are blinding rows");
    if (!smallwood_header_fits(question, H, MU, NU, W, L, ETA, BETA) || memcmp(question + ROOT_AT, named + ROOT_AT, ROOT + SALT) != 0)
        refuse("the question has other sizes, or is about another commitment");
    put_stand_ins(question + SMALLWOOD_INDICES_AT(ETA, m)); /* the points are 0 still */
}

static void take_points(void)
{
    const uint8_t *points = question + POINTS_AT;

    hear(question + POINTS_AT, POINTS_LENGTH(m));
    for (size_t p = 0; p < m; p++)
        if (!smallwood_points_fit(points + 4 * p, 1))
            refuse(smallwood_element_at(points + 4 * p) == 0 ? "the point 0 is asked" : smallwood_verdict_text(SMALLWOOD_BAD_ELEMENT));
}

static void take_indices(void)
{
    hear(question + SMALLWOOD_INDICES_AT(ETA, m), INDICES_LENGTH);
}

int main(int count, char **words)
{
    size_t size;

    if (count != 2) {
        fprintf(stderr, "usage: badge POLYNOMIALS\n");
        return 2;
    }
    line_opens();
    read_polynomials(words[1]);
    draw_secrets();
    commit();
    tell(named + ROOT_AT, ROOT + SALT);

    /* A mask covers one batching answer: with the first answer the commitment is used, whether or not the conversation comes to its end. */
    take_challenges();
    answer(0, BATCHING);
    take_points();
    answer(BATCHING, SMALLWOOD_EVALUATION_LENGTH(NU, W, L, m));
    take_indices();

    /* One commitment answers one question. With its secrets gone there can be no second reply. */
    size = open_asked();
    smallwood_wipe(&secret, sizeof secret);
    tell(reply, size);
    if (receive_most(STDIN_FILENO, question, 1) > 0)
        refuse("a second question is asked");
    smallwood_wipe(reply, sizeof reply);
    return 0;
}
