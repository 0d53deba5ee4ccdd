/*
 * A first program: one polynomial of twelve coefficients is committed, asked for its value at one point, opened and checked. Both sides
 * are in one place, in the order that a reader needs who asks once; as two programs they are badge.c and reader.c.
 * The sizes are for show: an accepted answer is worth 2 bits, 5 where the committer is trusted. That is no security; for other sizes see
 * sides.h.
 *
 *     cc -std=c11 -Iinclude examples/first.c -Llib -lsmallwood -o first
 *     ./first
 */
#include <errno.h>
#include <inttypes.h>
#include <stdio.h>
#include <stdlib.h>
#include <string.h>
#include <sys/random.h>

#include <smallwood.h>
#include <smallwood_draw.h>
#include <smallwood_wipe.h>

enum { H = 4, MU = 3, NU = 3, W = 1, L = 3, ETA = 2, BETA = 3, M = 1 };

/* The badge's, and secret but for the salt. Of the reply leaves the badge what it has been asked for. */
static uint32_t coefficients[SMALLWOOD_COEFFICIENTS_LENGTH(MU, NU, W, BETA)], tails[SMALLWOOD_TAILS_LENGTH(MU, L, BETA)];
static uint32_t blinds[SMALLWOOD_BLINDS_LENGTH(NU, W, BETA)], masks[SMALLWOOD_MASKS_LENGTH(NU, W, L, ETA)];
static uint32_t table[SMALLWOOD_TABLE_LENGTH(H, MU, ETA, BETA)];
static uint8_t nonces[SMALLWOOD_NONCES_LENGTH(H)], salt[SMALLWOOD_SALT_LENGTH], tree[SMALLWOOD_TREE_LENGTH(H)];
static uint8_t reply[SMALLWOOD_REPLY_BOUND(H, MU, NU, W, L, ETA, BETA, M)];

/* The reader's. */
static uint8_t question[SMALLWOOD_QUESTION_LENGTH(L, ETA, M)], values[SMALLWOOD_VALUES_LENGTH(W, M)];
static uint8_t batching[SMALLWOOD_BATCHING_LENGTH(NU, W, L, ETA)], evaluation[SMALLWOOD_EVALUATION_LENGTH(NU, W, L, M)];

#define COUNT(slice) (sizeof(slice) / sizeof *(slice))

static void must(int holds, const char *what)
{
    if (holds)
        return;
    printf("%s\n", what);
    exit(1);
}

static void done(uint32_t verdict)
{
    must(verdict == SMALLWOOD_OK, smallwood_verdict_text(verdict));
}

static int system_random(void *context, void *to, size_t count)
{
    uint8_t *next = (uint8_t *)to;

    (void)context;
    while (count > 0) {
        ssize_t got = getrandom(next, count, 0);

        if (got < 0 && errno == EINTR)
            continue;
        must(got > 0, "the system gives no random bytes");
        next += got;
        count -= (size_t)got;
    }
    return 0;
}

static void draw_elements(uint32_t *elements, size_t count)
{
    must(smallwood_draw_elements(elements, count, system_random, NULL) == 0, "no elements are drawn");
}

static void commit(void)
{
    for (uint32_t i = 0; i < COUNT(coefficients); i++)
        coefficients[i] = i < 9 ? i + 1 : 0; /* so that the value at 10 has these digits */
    draw_elements(tails, COUNT(tails));
    draw_elements(blinds, COUNT(blinds));
    draw_elements(masks, COUNT(masks));
    system_random(NULL, nonces, sizeof nonces);
    system_random(NULL, salt, sizeof salt);
    done(smallwood_commit(H, MU, NU, W, L, ETA, BETA, coefficients, COUNT(coefficients), tails, COUNT(tails), blinds, COUNT(blinds), masks,
                          COUNT(masks), nonces, sizeof nonces, salt, sizeof salt, table, COUNT(table), tree, sizeof tree));
    smallwood_wipe_stack();
}

/* The badge's reply, with stand-ins for what has not been asked yet. Its leaf records must not go out before leaves are asked. */
static size_t open_asked(void)
{
    uint64_t length = 0;

    done(smallwood_reply_length(question, sizeof question, &length));
    done(smallwood_open(question, sizeof question, coefficients, COUNT(coefficients), tails, COUNT(tails), blinds, COUNT(blinds), masks,
                        COUNT(masks), table, COUNT(table), nonces, sizeof nonces, salt, sizeof salt, tree, sizeof tree, reply,
                        (size_t)length, &length));
    smallwood_wipe_stack();
    return (size_t)length;
}

int main(void)
{
    uint32_t challenges[ETA], indices[L] = {0, 1, 2} /* stand-ins */, point = 10; /* for its digits: a real reader draws points */
    size_t length;

    /* 1. Root and salt. The header is the reader's own. */
    commit();
    smallwood_put_header(question, H, MU, NU, W, L, ETA, BETA, M);
    memcpy(question + SMALLWOOD_ROOT_AT, tree + sizeof tree - SMALLWOOD_ROOT_LENGTH, SMALLWOOD_ROOT_LENGTH);
    memcpy(question + SMALLWOOD_SALT_AT, salt, sizeof salt);
    smallwood_put_indices(question + SMALLWOOD_INDICES_AT(ETA, M), indices, L);

    /* 2, 3. Challenges, and then the batching answers. */
    draw_elements(challenges, ETA);
    smallwood_put_elements(question + SMALLWOOD_CHALLENGES_AT, challenges, ETA);
    open_asked();
    memcpy(batching, reply, sizeof batching);

    /* 4, 5. The point, and then the evaluation answers. */
    smallwood_put_elements(question + SMALLWOOD_POINTS_AT(ETA), &point, M);
    open_asked();
    memcpy(evaluation, reply + sizeof batching, sizeof evaluation);

    /* 6, 7. Only now the leaves, and then the whole reply: who knows them before he answers makes false answers that pass the check. */
    must(smallwood_draw_indices(indices, H, L, system_random, NULL) == 0, "no leaves are drawn");
    smallwood_put_indices(question + SMALLWOOD_INDICES_AT(ETA, M), indices, L);
    length = open_asked();
    must(memcmp(reply, batching, sizeof batching) == 0 && memcmp(reply + sizeof batching, evaluation, sizeof evaluation) == 0,
         "the answers are not those that came before the leaves were drawn");
    done(smallwood_check(question, sizeof question, reply, length, values, sizeof values));
    printf("smallwood %s: a reply of %zu bytes; the value at 10 is %" PRIu32 "\n", SMALLWOOD_VERSION, length, smallwood_element_at(values));
    return 0;
}
