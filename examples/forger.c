/*
 * The badge's side of a conversation by one who cheats, in the way that its word names, so that a reader refuses. Before the reply goes out
 * it prints what smallwood_check alone says of it. It hides nothing, so it draws nothing: but for the coefficients 1, 2, 3 and so on, all
 * that it commits with is zeros.
 *
 * It is run as `forger CHEAT` in the badge's place, beside a reader that has been built (reader.c); `forger --help` lists the cheats:
 *
 *     cc -std=c11 -O2 -Iinclude examples/forger.c -Llib -lsmallwood -o forger
 *     mkfifo to-badge to-reader
 *     ./forger knows < to-badge > to-reader &
 *     (exec ./reader > to-badge < to-reader)
 *
 * `forger misuse` has no conversation: entries that are called wrongly, and what they return. Exit status 0 where it came to its end,
 * 1 where not, 2 for wrong words.
 */
#include "conversation.h"

#include <inttypes.h>
#include <stdio.h>
#include <stdlib.h>

static uint32_t coefficients[COEFFICIENTS], tails[TAILS], blinds[BLINDS_ROOM], masks[MASKS], table[TABLE];
static uint8_t nonces[NONCES], salt[SALT], tree[TREE], question[QUESTION], reply[REPLY_BOUND + 1], values[VALUES], untouched[VALUES];
static size_t size; /* of the reply */

static _Noreturn void refuse(const char *why)
{
    fprintf(stderr, "forger: %s\n", why);
    exit(1);
}

static uint32_t commit(uint32_t l, size_t salt_length)
{
    for (uint32_t i = 0; i < COEFFICIENTS; i++)
        coefficients[i] = i + 1;
    return smallwood_commit(H, MU, NU, W, l, ETA, BETA, coefficients, COEFFICIENTS, tails, TAILS, blinds, BLINDS, masks, MASKS, nonces,
                            NONCES, salt, salt_length, table, TABLE, tree, TREE);
}

static uint32_t open_in(const uint8_t *asked, size_t room, uint64_t *length)
{
    return smallwood_open(asked, QUESTION, coefficients, COEFFICIENTS, tails, TAILS, blinds, BLINDS, masks, MASKS, table, TABLE, nonces,
                          NONCES, salt, SALT, tree, TREE, reply, room, length);
}

/* The honest reply to what was asked so far: an open refuses another salt, so the true one is put back. */
static void make_reply(void)
{
    uint8_t asked[QUESTION];
    uint64_t length = 0;

    memcpy(asked, question, QUESTION);
    memcpy(asked + SALT_AT, salt, SALT);
    if (smallwood_reply_length(asked, QUESTION, &length) != SMALLWOOD_OK || open_in(asked, (size_t)length, &length) != SMALLWOOD_OK)
        refuse("it cannot open");
    size = (size_t)length;
}

static uint32_t check(void)
{
    memset(values, 0xAA, VALUES);
    return smallwood_check(question, QUESTION, reply, size, values, VALUES);
}

/* ---- The cheats */

static void add_to_element(uint8_t *element, uint64_t x)
{
    put_element(element, (uint32_t)((smallwood_element_at(element) + x) % SMALLWOOD_Q));
}

/* Adds to the first evaluation answer the polynomial that is 0 at these leaves and at no other; an answer has the values at N, N + 1, .. */
static void shift(const uint32_t *leaves, size_t count)
{
    for (uint32_t t = 0; t < WIDTH; t++) {
        uint64_t product = 1;

        for (size_t a = 0; a < count; a++)
            product = product * (N + t - leaves[a]) % SMALLWOOD_Q;
        add_to_element(reply + BATCHING + 4 * t, product);
    }
}

static void shift_at_opened(void)
{
    const uint8_t *indices = question + INDICES_AT;
    uint32_t leaves[L];

    for (size_t a = 0; a < L; a++)
        leaves[a] = (uint32_t)indices[2 * a] | (uint32_t)indices[2 * a + 1] << 8;
    shift(leaves, L);
}

/*
 * As many leaves as a shift can vanish at, d = WIDTH - 1. It passes where all that are opened are among them: C(d, L) of C(N, L) sets, the
 * bits against a trusted committer (sides.h), since the rows are as smallwood_commit makes them. Who makes his own has it cheaper:
 * proof_forger.c.
 */
static void shift_at_guessed(void)
{
    uint32_t leaves[WIDTH - 1];

    for (uint32_t a = 0; a < WIDTH - 1; a++)
        leaves[a] = a;
    shift(leaves, WIDTH - 1);
}

/* No basis polynomial is 0 at a leaf, so each opened leaf shows it. */
static void change_column(void) { add_to_element(reply + BATCHING, 1); }

/* A constant coefficient; another one would not show at the leaf 0. */
static void change_batching(void) { add_to_element(reply, 1); }

/* Two encodings of one element: q is refused, not reduced. */
static void write_q(void) { put_element(reply, SMALLWOOD_Q); }

static void change_leaf(void) { add_to_element(reply + BATCHING + EVALUATION, 1); }
static void change_node(void) { reply[size - 1] ^= 1; }
static void cut(void) { size--; }
static void lengthen(void) { reply[size++] = 0; }

static const struct cheat {
    const char *name, *text;
    void (*change)(void); /* of the reply */
    bool always; /* of the answers before it, too: the reader sees the same ones twice */
} cheats[] = {
    {"none", "does not cheat", NULL, false},
    {"knows", "makes false answers that fit when it knows the leaves: the check accepts, the comparison tells", shift_at_opened, false},
    {"guesses", "gives false answers that fit as many leaves as can be, before it knows which are opened", shift_at_guessed, true},
    {"column", "gives a false column value", change_column, true},
    {"batching", "gives a false batching answer", change_batching, true},
    {"element", "writes q for an element", write_q, true},
    {"leaf", "changes the record of an opened leaf", change_leaf, false},
    {"node", "changes a node of the tree", change_node, false},
    {"cut", "sends a byte less", cut, false},
    {"longer", "sends a byte more", lengthen, false},
    {"salt", "sends another salt than it committed with", NULL, false},
    {"polynomial", "answers for another polynomial than the committed one", NULL, false},
    {"early", "sends a byte too many after the batching answers", NULL, false},
    {"gone", "sends nothing after root and salt, and ends", NULL, false},
    {"silent", "sends nothing after root and salt, and stays", NULL, false}
};
enum { CHEATS = sizeof cheats / sizeof *cheats };

static const struct cheat *cheat;

static bool cheats_by(const char *name)
{
    return strcmp(cheat->name, name) == 0;
}

/* ---- The conversation */

static void begin(void)
{
    uint8_t sent[ROOT + SALT], byte;

    if (commit(L, SALT) != SMALLWOOD_OK)
        refuse("it cannot commit");
    memcpy(sent, tree + TREE - ROOT, ROOT);
    memcpy(sent + ROOT, salt, SALT);
    sent[ROOT] ^= cheats_by("salt");
    coefficients[0] += cheats_by("polynomial");
    tell(sent, sizeof sent);
    while (cheats_by("silent") && read(STDIN_FILENO, &byte, 1) > 0) /* until the reader has enough of it */
        continue;
    if (cheats_by("silent") || cheats_by("gone"))
        exit(0);
    put_stand_ins(question + INDICES_AT);
}

static void answer(size_t from, size_t count)
{
    make_reply();
    if (cheat->always)
        cheat->change();
    tell(reply + from, count);
}

static void finish(void)
{
    uint32_t verdict;

    make_reply();
    if (cheat->change != NULL)
        cheat->change();
    verdict = check();
    fprintf(stderr, "forger: the check alone gives %" PRIu32, verdict);
    if (verdict == SMALLWOOD_OK)
        fprintf(stderr, ": polynomial 1 at %" PRIu32 " is %" PRIu32 "\n", smallwood_element_at(question + POINTS_AT),
                smallwood_element_at(values));
    else
        fprintf(stderr, "%s\n", memcmp(values, untouched, VALUES) == 0 ? ", and no value" : ", but writes values");
    tell(reply, size);
}

static void converse(void)
{
    begin();
    hear(question, FIRST_LENGTH);
    if (question[SMALLWOOD_M_AT] != M)
        refuse("the reader asks for another number of points");
    answer(0, BATCHING);
    if (cheats_by("early"))
        tell("", 1);
    hear(question + POINTS_AT, POINTS_LENGTH(M));
    answer(BATCHING, EVALUATION);
    hear(question + INDICES_AT, INDICES_LENGTH);
    finish();
}

/* ---- Misuse: faults of a program's own. Each refusal leaves what is lent as it was. */

static void expect(bool holds, const char *what)
{
    if (!holds)
        refuse(what);
    printf("ok: %s\n", what);
}

static void misuse(void)
{
    uint64_t number = 77;

    expect(commit(L, SALT - 1) == SMALLWOOD_BAD_LENGTH, "a salt that is not of 32 bytes is refused with 2");
    expect(commit(N, SALT) == SMALLWOOD_BAD_SIZES, "sizes that do not fit are refused with 1");
    expect(commit(L, SALT) == SMALLWOOD_OK, "the commitment is made");
    smallwood_put_header(question, H, MU, NU, W, L, ETA, BETA, M);
    memcpy(question + ROOT_AT, tree + TREE - ROOT, ROOT);
    put_stand_ins(question + INDICES_AT);
    make_reply();
    expect(check() == SMALLWOOD_OK && size < REPLY_BOUND, "the reply is accepted, and shorter than the bound");
    expect(open_in(question, REPLY_BOUND, &number) == SMALLWOOD_BAD_LENGTH, "a longer buffer for it is refused with 2");
    expect(smallwood_reply_length(question, QUESTION - 1, &number) == SMALLWOOD_BAD_QUESTION_LENGTH, "a cut question is refused with 6");
    expect(smallwood_permutations(question, QUESTION - 1, &number) == SMALLWOOD_BAD_QUESTION_LENGTH, "so it is where the work is asked");
    question[SALT_AT] ^= 1;
    expect(open_in(question, size, &number) == SMALLWOOD_BAD_ROOT, "another salt is refused with 8");
    expect(check() == SMALLWOOD_BAD_ROOT && memcmp(values, untouched, VALUES) == 0, "so is the reply under it, and no value is written");
    question[SALT_AT] ^= 1;
    question[VERSION_AT]--;
    expect(check() == SMALLWOOD_BAD_MARK, "a question of version 2, which had no salt, is refused with 5");
    question[VERSION_AT]++;
    expect(smallwood_check(question, QUESTION, reply, size, values, VALUES - 1) == SMALLWOOD_BAD_LENGTH,
           "a shorter value buffer is refused with 2");
    expect(smallwood_check(NULL, 0, NULL, 0, NULL, 0) == SMALLWOOD_BAD_QUESTION_LENGTH, "nothing at all is refused with 6");
    expect(memcmp(values, untouched, VALUES) == 0 && number == 77, "values and numbers are as they were");
    expect(check() == SMALLWOOD_OK, "the reply is accepted again");
}

static void list_cheats(FILE *to)
{
    fprintf(to, "usage: forger CHEAT, or forger misuse. The cheats:\n");
    for (size_t i = 0; i < CHEATS; i++)
        fprintf(to, "    %-12s%s\n", cheats[i].name, cheats[i].text);
}

int main(int count, char **words)
{
    const char *word = count == 2 ? words[1] : "";

    memset(untouched, 0xAA, VALUES);
    if (strcmp(word, "--help") == 0) {
        list_cheats(stdout);
        return 0;
    }
    if (strcmp(word, "misuse") == 0) {
        misuse();
        return 0;
    }
    for (size_t i = 0; i < CHEATS; i++)
        if (strcmp(word, cheats[i].name) == 0)
            cheat = &cheats[i];
    if (cheat == NULL) {
        list_cheats(stderr);
        return 2;
    }
    line_opens();
    converse();
    return 0;
}
