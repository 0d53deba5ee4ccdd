/*
 * A committer that cheats a door which is offline. It commits to two lists of polynomials under one root and salt: its rows follow the one
 * list at the even leaves and the other at the odd ones. Then it answers one question of the door, drawn when root and salt stood, by two
 * proofs with different values, and both pass the check. No challenge is guessed: each proof's answers are one list's throughout, and
 * counters are tried until all drawn leaves are that list's. So it takes about 2^(b + kappa) draws, with b the bits against whoever
 * committed (docs/HANDBOOK.md, "What an accepted answer is worth"), and these sizes have b = 10.9; k = 83.8, the bits against a trusted
 * committer, say nothing here.
 * A door that has a digest of R registered refuses the second proof: R is another for the other list.
 *
 *     cc -std=c11 -O2 -Iinclude examples/proof_forger.c -Llib -lsmallwood -o proof_forger
 *     ./proof_forger
 *     ./proof_forger 4 close
 *
 * Words, none of which is needed: KAPPA, 0 to 8, how many zero bits the door asks for; `any` or `close`, whether the lists are drawn apart
 * from each other or agree at the first d leaves, as many as two lists can: then b is reached as it stands, and otherwise nearly; and three
 * files to which question and proofs are written. Exit status 0 where all is as said, 1 where not, 2 for wrong words.
 */
#define SIZES H = 12, MU = 8, NU = 4, W = 4, L = 11, ETA = 4, BETA = 2, M = 2

#include <inttypes.h>
#include <stdio.h>
#include <stdlib.h>

#include "door.h"

enum { LISTS = 2, D = WIDTH - 1, MOST_KAPPA = 8, WORD = 8, DRAWN = DIGEST + WORD * L };

/* What is hashed begins with a byte that says what it is: a node, challenges, leaves (docs/HANDBOOK.md, "Byte forms of a proof"). */
enum { NODE = 1, CHALLENGES = 2, LEAVES = 3 };

static struct {
    uint32_t coefficients[COEFFICIENTS], tails[TAILS];
} lists[LISTS];

static uint32_t blinds[BLINDS_ROOM], masks[MASKS], tables[LISTS][TABLE], table[TABLE];
static uint8_t nonces[NONCES], salt[SALT], trees[LISTS][TREE], tree[TREE];
static uint32_t common; /* at so many leaves, the first ones, the lists agree */

static void must(bool holds, const char *what)
{
    if (!holds) {
        printf("FAILED: %s\n", what);
        exit(1);
    }
}

static void draw(uint32_t *elements, size_t count)
{
    must(smallwood_draw_elements(elements, count, system_random, NULL) == 0, "elements are drawn");
}

/* ---- Committing */

/*
 * To the first list's rows are added multiples of the polynomial that is 0 at the first D leaves; a row's entries and tails are its values
 * at N, N + 1, ..
 */
static void draw_close(void)
{
    uint32_t factors[MU];

    common = D;
    draw(factors, MU);
    lists[1] = lists[0];
    for (uint32_t t = 0; t < WIDTH; t++) {
        uint64_t product = 1;

        for (uint32_t leaf = 0; leaf < D; leaf++)
            product = product * (N + t - leaf) % SMALLWOOD_Q;
        for (size_t j = 0; j < MU; j++) {
            uint32_t *entry = t < W * NU ? &lists[1].coefficients[t / NU * EACH + t % NU * MU + j] : &lists[1].tails[j * L + t - W * NU];

            *entry = (uint32_t)((*entry + product * factors[j]) % SMALLWOOD_Q);
        }
    }
}

static void draw_lists(bool close)
{
    draw(blinds, BLINDS);
    draw(masks, MASKS);
    must(system_random(NULL, nonces, NONCES) == 0 && system_random(NULL, salt, SALT) == 0, "nonces and salt are drawn");
    for (size_t i = 0; i < LISTS; i++) {
        draw(lists[i].coefficients, COEFFICIENTS);
        draw(lists[i].tails, TAILS);
    }
    if (close)
        draw_close();
}

static void put_node(uint8_t *to, const uint8_t *left)
{
    struct shake state = {{0}, 0};
    const uint8_t first = NODE;

    shake_take(&state, &first, 1);
    shake_take(&state, salt, SALT);
    shake_take(&state, left, 2 * ROOT);
    shake_give(&state, to, ROOT);
}

/* Each leaf is of one of two commitments; the nodes above are made anew. */
static void commit(void)
{
    for (size_t i = 0; i < LISTS; i++)
        must(smallwood_commit(H, MU, NU, W, L, ETA, BETA, lists[i].coefficients, COEFFICIENTS, lists[i].tails, TAILS, blinds, BLINDS, masks,
                              MASKS, nonces, NONCES, salt, SALT, tables[i], TABLE, trees[i], TREE) == SMALLWOOD_OK, "it commits");
    must(memcmp(tables[0], tables[1], common * RECORD * sizeof *table) == 0, "where the lists agree the rows do");
    for (size_t leaf = 0; leaf < N; leaf++) {
        memcpy(table + RECORD * leaf, tables[leaf % LISTS] + RECORD * leaf, RECORD * sizeof *table);
        memcpy(tree + ROOT * leaf, trees[leaf % LISTS] + ROOT * leaf, ROOT);
    }
    for (size_t node = N; node < 2 * N - 1; node++)
        put_node(tree + ROOT * node, tree + 2 * ROOT * (node - N));
}

static bool follows(size_t list, uint32_t leaf)
{
    return leaf < common || leaf % LISTS == list;
}

/* ---- Proving */

static uint64_t word_at(const uint8_t *from)
{
    return smallwood_element_at(from) | (uint64_t)smallwood_element_at(from + 4) << 32;
}

/* The conversation's question that a proof's stands for, with stand-ins for the leaves. */
static void put_asked(uint8_t *asked, const uint8_t *question)
{
    struct shake state = {{0}, 0};
    const uint8_t first = CHALLENGES;
    uint8_t drawn[WORD * ETA];

    shake_take(&state, &first, 1);
    shake_take(&state, question, NAMED);
    shake_give(&state, drawn, sizeof drawn);
    memcpy(asked, question, NAMED);
    for (size_t k = 0; k < ETA; k++)
        put_element(asked + SMALLWOOD_CHALLENGES_AT + 4 * k, (uint32_t)(word_at(drawn + WORD * k) % SMALLWOOD_Q));
    memcpy(asked + POINTS_AT, question + PROOF_POINTS_AT, 4 * M);
    put_stand_ins(asked + INDICES_AT);
}

/* The reply with this list's answers. The records are those of the one table. */
static size_t open_list(size_t list, const uint8_t *asked, uint8_t *reply)
{
    uint64_t length = 0;

    must(smallwood_reply_length(asked, QUESTION, &length) == SMALLWOOD_OK, "the reply has a length");
    must(smallwood_open(asked, QUESTION, lists[list].coefficients, COEFFICIENTS, lists[list].tails, TAILS, blinds, BLINDS, masks, MASKS,
                        table, TABLE, nonces, NONCES, salt, SALT, tree, TREE, reply, (size_t)length, &length) == SMALLWOOD_OK, "it opens");
    return (size_t)length;
}

/* Word j modulo N - j is a leaf's rank among those that are left; the leaves so far rise. */
static void choose(uint32_t *leaves, const uint8_t *words)
{
    for (size_t j = 0; j < L; j++) {
        uint32_t leaf = (uint32_t)(word_at(words + WORD * j) % (N - j));
        size_t at = 0;

        for (; at < j && leaves[at] <= leaf; at++)
            leaf++;
        memmove(leaves + at + 1, leaves + at, (j - at) * sizeof *leaves);
        leaves[at] = leaf;
    }
}

/* Whether a draw begins with so many zero bits, at most 8, and draws leaves at which the rows follow this list. */
static bool suits(size_t list, uint32_t kappa, const uint8_t *drawn, uint32_t *leaves)
{
    if (drawn[0] >> (8 - kappa) != 0)
        return false;
    choose(leaves, drawn + DIGEST);
    for (size_t a = 0; a < L; a++)
        if (!follows(list, leaves[a]))
            return false;
    return true;
}

struct proof {
    uint8_t bytes[PROOF_ROOM];
    size_t size;
    uint32_t draws;
};

static void forge(struct proof *proof, size_t list, const uint8_t *question, uint32_t kappa)
{
    uint8_t asked[QUESTION], drawn[DRAWN], *reply = proof->bytes + COUNTER;
    const uint8_t first = LEAVES;
    struct shake begun = {{0}, 0};
    uint32_t leaves[L];

    put_asked(asked, question);
    open_list(list, asked, reply);
    shake_take(&begun, &first, 1);
    shake_take(&begun, question, PROOF_QUESTION);
    shake_take(&begun, reply, ANSWERS);
    proof->draws = 0;
    do {
        struct shake state = begun;

        put_element(proof->bytes, proof->draws++);
        shake_take(&state, proof->bytes, COUNTER);
        shake_give(&state, drawn, DRAWN);
    } while (!suits(list, kappa, drawn, leaves));
    smallwood_put_indices(asked + INDICES_AT, leaves, L);
    proof->size = COUNTER + open_list(list, asked, reply);
}

/* R as a badge that is honest with this list registers it: before any door asks. */
static void show_batching(size_t list, const uint8_t *root, uint8_t *batching)
{
    static uint8_t reply[REPLY_BOUND];
    uint8_t question[PROOF_QUESTION] = {0}, asked[QUESTION];

    put_named(question, root, salt);
    put_asked(asked, question);
    open_list(list, asked, reply);
    memcpy(batching, reply, BATCHING);
}

/* ---- The door */

static void register_badge(struct registered *badge, size_t list)
{
    uint8_t batching[BATCHING];

    memcpy(badge->root, tree + TREE - ROOT, ROOT);
    memcpy(badge->salt, salt, SALT);
    show_batching(list, badge->root, batching);
    digest_batching(badge->digest, batching);
}

/* That the check alone accepts, with the values of this list's polynomials. */
static void must_pass(size_t list, const struct proof *proof, const uint8_t *question, uint32_t kappa)
{
    uint8_t values[VALUES];
    uint32_t number = smallwood_check_proof(question, PROOF_QUESTION, kappa, proof->bytes, proof->size, values, VALUES);

    must(door_decides(number) == OPENS, "a door without a digest of R opens");
    for (size_t p = 0; p < M; p++)
        for (size_t i = 0; i < W; i++)
            must(smallwood_element_at(values + 4 * (p * W + i))
                     == evaluate(lists[list].coefficients + i * EACH, EACH, smallwood_element_at(question + PROOF_POINTS_AT + 4 * p)),
                 "the values are those of the list");
    printf("list %zu: %" PRIu32 " draws; the check gives %" PRIu32 ": polynomial 1 at %" PRIu32 " is %" PRIu32 "\n", list + 1, proof->draws,
           number, smallwood_element_at(question + PROOF_POINTS_AT), smallwood_element_at(values));
}

/* A door that has one list's R registered opens to that list's proof alone. */
static void must_tell(const struct registered *badge, size_t list, const struct proof *proofs, const uint8_t *question, uint32_t kappa)
{
    uint8_t values[VALUES];

    for (size_t i = 0; i < LISTS; i++) {
        enum decision decision = door_decides(door_checks(badge, question, kappa, proofs[i].bytes, proofs[i].size, values));

        must(decision == (i == list ? OPENS : REFUSES), "a door with a digest of R opens to this list alone");
        printf("a door that has R of list %zu %s list %zu\n", list + 1, decision == OPENS ? "opens to" : "refuses", i + 1);
    }
}

/* ---- Words */

static void write_file(const char *name, const uint8_t *bytes, size_t size)
{
    FILE *file = fopen(name, "wb");

    must(file != NULL && fwrite(bytes, 1, size, file) == size && fclose(file) == 0, "a file is written");
}

static bool read_words(int count, char **words, uint32_t *kappa, bool *close)
{
    *kappa = count > 1 ? (uint32_t)(words[1][0] - '0') : 0;
    *close = count > 2 && strcmp(words[2], "close") == 0;
    return (count <= 3 || count == 6) && *kappa <= MOST_KAPPA && (count <= 1 || words[1][1] == '\0')
           && (count <= 2 || *close || strcmp(words[2], "any") == 0);
}

int main(int count, char **words)
{
    static struct proof proofs[LISTS];
    static struct registered badges[LISTS];
    uint8_t question[PROOF_QUESTION];
    uint32_t kappa;
    bool close;

    if (!read_words(count, words, &kappa, &close)) {
        fprintf(stderr, "usage: proof_forger [KAPPA [any|close [QUESTION FIRST SECOND]]], KAPPA 0 to %d\n", MOST_KAPPA);
        return 2;
    }
    draw_lists(close);
    commit();
    for (size_t i = 0; i < LISTS; i++)
        register_badge(&badges[i], i);
    must(memcmp(badges[0].root, badges[1].root, ROOT + SALT) == 0, "root and salt are the same");
    must(door_asks(question, &badges[0]), "the door asks");
    printf("one root, one salt, one question; the lists agree at %" PRIu32 " leaves; kappa %" PRIu32 "\n", common, kappa);
    for (size_t i = 0; i < LISTS; i++) {
        forge(&proofs[i], i, question, kappa);
        must_pass(i, &proofs[i], question, kappa);
        must(proofs[i].draws < (uint32_t)1 << (20 + kappa), "few draws are enough");
    }
    must(memcmp(proofs[0].bytes + COUNTER, proofs[1].bytes + COUNTER, BATCHING) != 0, "R differ");
    for (size_t i = 0; i < LISTS; i++)
        must_tell(&badges[i], i, proofs, question, kappa);
    if (count == 6) {
        write_file(words[3], question, PROOF_QUESTION);
        for (size_t i = 0; i < LISTS; i++)
            write_file(words[4 + i], proofs[i].bytes, proofs[i].size);
    }
    return 0;
}
