/*
 * A proof without a conversation, in C. A badge commits at a desk, and the desk registers root, salt and a digest of R, the batching
 * answers; the door gets these while it is online. Later it is offline: it draws points, the badge proves at them, and the door compares
 * and checks. Then it is shown what is refused. Each result is checked, and the program exits with 1 at the first that is not as it should
 * be.
 *
 *     cc -std=c11 -O2 -Iinclude examples/offline_door.c -Llib -lsmallwood -o offline_door
 *     ./offline_door
 *
 * What an accepted proof is worth, with k the bits against a trusted committer and b those against whoever committed (sides.h has them for
 * its sizes; docs/HANDBOOK.md, "What an accepted answer is worth"). With R registered no better attack is known than the cheaper of two:
 * on the leaves, k + kappa bits, and on the challenges, ((mu + beta) / q)^eta; nothing of that is proved. Without it whoever committed can
 * have two lists of values accepted for one question, for about 2^(b + kappa) draws: proof_forger.c does it. Where the desk runs
 * smallwood_commit itself, R need not be registered, and it is k + kappa bits.
 *
 * All randomness is the system's (getrandom, Linux), so values, counter and the proof's length change from run to run. What is checked
 * holds but for a probability below 2^-80.
 */
#include <stdio.h>
#include <stdlib.h>

#include "door.h"
#include "smallwood_wipe.h"

/* Who draws for himself tries draws: each is dearer by 2^KAPPA. */
enum { KAPPA = 8, MOST_KAPPA = 16 };

/* On average 2^KAPPA counters are tried; that none of so many qualifies has a probability of about e^-64. */
static const uint32_t LIMIT = (uint32_t)64 << KAPPA;

static void must(bool holds, const char *what)
{
    if (!holds) {
        printf("FAILED: %s\n", what);
        exit(1);
    }
}

static void expect(bool holds, const char *what)
{
    must(holds, what);
    printf("ok: %s\n", what);
}

/* ---- The badge. Only its root, its salt, R and one proof leave it. */

static uint32_t badge_coefficients[COEFFICIENTS], badge_tails[TAILS], badge_blinds[BLINDS_ROOM], badge_masks[MASKS], badge_table[TABLE];
static uint8_t badge_nonces[NONCES], badge_tree[TREE], badge_salt[SALT], badge_named[NAMED];
static bool badge_used;

/* A badge that is renewed begins here again: all is drawn anew. */
static void badge_begins(void)
{
    uint32_t number;

    for (uint32_t i = 0; i < COEFFICIENTS; i++)
        badge_coefficients[i] = i + 1; /* its secret; a real one has better */
    must(smallwood_draw_elements(badge_tails, TAILS, system_random, NULL) == 0, "tails are drawn");
    must(smallwood_draw_elements(badge_blinds, BLINDS, system_random, NULL) == 0, "blinds are drawn");
    must(smallwood_draw_elements(badge_masks, MASKS, system_random, NULL) == 0, "masks are drawn");
    must(system_random(NULL, badge_nonces, NONCES) == 0, "nonces are drawn");
    must(system_random(NULL, badge_salt, SALT) == 0, "the salt is drawn"); /* no secret, but of this commitment alone */
    number = smallwood_commit(H, MU, NU, W, L, ETA, BETA, badge_coefficients, COEFFICIENTS, badge_tails, TAILS, badge_blinds, BLINDS,
                              badge_masks, MASKS, badge_nonces, NONCES, badge_salt, SALT, badge_table, TABLE, badge_tree, TREE);
    smallwood_wipe_stack();
    must(number == SMALLWOOD_OK, "the badge commits");
    put_named(badge_named, badge_tree + TREE - ROOT, badge_salt);
    badge_used = false;
}

static uint32_t badge_prove(const uint8_t *question, size_t size, uint32_t kappa, uint32_t limit, uint8_t *proof, size_t room,
                            uint64_t *length)
{
    uint32_t number = smallwood_prove(question, size, kappa, limit, badge_coefficients, COEFFICIENTS, badge_tails, TAILS, badge_blinds,
                                      BLINDS, badge_masks, MASKS, badge_table, TABLE, badge_nonces, NONCES, badge_salt, SALT,
                                      badge_tree, TREE, proof, room, length);
    smallwood_wipe_stack();
    return number;
}

/*
 * R, for the desk. The challenges of a proof follow from header, root and salt, and R from them: so a proof at any points has it, and with
 * 0 bits the counter 0 qualifies. Nothing else of this proof leaves the badge: its leaf records would use up the tails.
 */
static void badge_shows_batching(uint8_t *batching)
{
    static uint8_t room[PROOF_ROOM];
    uint8_t question[PROOF_QUESTION] = {0}; /* the points are 0, which no door asks */
    uint64_t length = 0;

    memcpy(question, badge_named, NAMED);
    must(badge_prove(question, PROOF_QUESTION, 0, 1, room, PROOF_ROOM, &length) == SMALLWOOD_OK, "the badge makes R");
    memcpy(batching, room + COUNTER, BATCHING);
    smallwood_wipe(room, PROOF_ROOM);
}

/*
 * One question for each commitment, and with its own header, the number of points too: under another one the challenges are others, and a
 * second R under the same masks would show a combination of the rows. The point 0 is not taken.
 * The proof stands in memory of just its length; NULL where the question is not taken.
 */
static uint8_t *badge_takes(const uint8_t *question, size_t size, uint32_t kappa, size_t *proof_size)
{
    static uint8_t room[PROOF_ROOM];
    uint64_t length = 0;
    uint32_t number;
    uint8_t *proof;

    if (badge_used || size != PROOF_QUESTION || memcmp(question, badge_named, NAMED) != 0
        || !smallwood_points_fit(question + PROOF_POINTS_AT, M))
        return NULL;
    number = badge_prove(question, size, kappa, LIMIT, room, PROOF_ROOM, &length);
    if (number == SMALLWOOD_NO_COUNTER) /* nothing has been shown: the rest of the counters may be tried */
        number = badge_prove(question, size, kappa, UINT32_MAX, room, PROOF_ROOM, &length);
    if (number == SMALLWOOD_BAD_SIZES || number == SMALLWOOD_NO_COUNTER) /* too many bits, or no counter at all */
        return NULL;
    must(number == SMALLWOOD_OK, "the badge proves"); /* 2, 3, 5, 6 or 8 would be a fault of its own */
    badge_used = true;
    proof = malloc((size_t)length);
    must(proof != NULL, "the badge has memory for the proof");
    memcpy(proof, room, (size_t)length);
    *proof_size = (size_t)length;
    return proof;
}

static void badge_ends(void)
{
    smallwood_wipe(badge_coefficients, sizeof badge_coefficients);
    smallwood_wipe(badge_tails, sizeof badge_tails);
    smallwood_wipe(badge_blinds, sizeof badge_blinds);
    smallwood_wipe(badge_masks, sizeof badge_masks);
    smallwood_wipe(badge_nonces, sizeof badge_nonces);
    smallwood_wipe(badge_table, sizeof badge_table);
    smallwood_wipe(badge_tree, sizeof badge_tree);
}

/* ---- The desk, which registers the badge, and the door, which has that, its own points, and the proof that it is shown */

static struct registered door_badge;
static uint8_t door_question[PROOF_QUESTION], door_values[VALUES], untouched[VALUES];

static void desk_registers(void)
{
    uint8_t batching[BATCHING];

    badge_begins();
    badge_shows_batching(batching);
    memcpy(door_badge.root, badge_named + ROOT_AT, ROOT);
    memcpy(door_badge.salt, badge_named + SALT_AT, SALT);
    digest_batching(door_badge.digest, batching);
}

static void ask(void)
{
    must(door_asks(door_question, &door_badge), "points are drawn");
}

static uint32_t check(uint32_t kappa, const uint8_t *proof, size_t size)
{
    memset(door_values, 0xAA, VALUES);
    return door_checks(&door_badge, door_question, kappa, proof, size, door_values);
}

static bool opens(const uint8_t *proof, size_t size)
{
    return door_decides(check(KAPPA, proof, size)) == OPENS;
}

/* What the library alone says, without the door's comparison. */
static uint32_t check_alone(const uint8_t *proof, size_t size)
{
    memset(door_values, 0xAA, VALUES);
    return smallwood_check_proof(door_question, PROOF_QUESTION, KAPPA, proof, size, door_values, VALUES);
}

/* ---- For the checks of this program */

static bool values_kept(void)
{
    return memcmp(door_values, untouched, VALUES) == 0;
}

static bool refused(uint32_t number)
{
    return door_decides(number) == REFUSES && values_kept();
}

static bool refused_with(uint32_t number, const uint8_t *proof, size_t size)
{
    return check(KAPPA, proof, size) == number && refused(number);
}

static void show_values(void)
{
    for (int p = 0; p < M; p++)
        for (int i = 0; i < W; i++) {
            uint32_t z = smallwood_element_at(door_question + PROOF_POINTS_AT + 4 * p);
            uint32_t value = smallwood_element_at(door_values + 4 * (p * W + i));

            printf("polynomial %d at %u is %u\n", i + 1, z, value);
            expect(value == evaluate(badge_coefficients + i * EACH, EACH, z), "the value is the polynomial's");
        }
}

/* A proof with as many zero bits or more is accepted, whatever the badge was asked for; the draw is the same, so 12 alone tells. */
static void try_bits(const uint8_t *proof, size_t size)
{
    uint32_t bits = 0;

    while (bits <= MOST_KAPPA && check(bits, proof, size) == SMALLWOOD_OK)
        bits++;
    printf("the draw begins with %u zero bits%s\n", bits - 1, bits > MOST_KAPPA ? " or more" : "");
    expect(bits > KAPPA, "a door that wants fewer bits accepts the proof, too");
    for (; bits <= MOST_KAPPA; bits++)
        must(check(bits, proof, size) == SMALLWOOD_BAD_COUNTER && values_kept(), "a door that wants more bits refuses it with 12");
    expect(check(MOST_KAPPA + 1, proof, size) == SMALLWOOD_BAD_SIZES && values_kept(), "more than 16 bits are refused with 1");
}

/* The least counter that qualifies is the proof's; another one draws other leaves, and so perhaps another length. */
static void try_counters(uint8_t *proof, size_t size)
{
    uint32_t counter = smallwood_element_at(proof);

    for (uint32_t smaller = 0; smaller < counter; smaller++) {
        uint32_t number;

        put_element(proof, smaller);
        number = check(KAPPA, proof, size);
        must(number == SMALLWOOD_BAD_REPLY_LENGTH || number == SMALLWOOD_BAD_COUNTER, "a smaller counter is refused with 7 or 12");
        must(values_kept(), "and no value is written");
    }
    printf("ok: all %u smaller counters are refused\n", counter);
    put_element(proof, counter + 1);
    expect(refused(check(KAPPA, proof, size)), "the next counter is refused");
    put_element(proof, counter);
}

/* One bit of one byte, at each place. In R the comparison tells; in counter and evaluation answers 7 or 12; behind them the root. */
static void try_bytes(uint8_t *proof, size_t size)
{
    unsigned tally[OTHER_BATCHING + 1] = {0};

    for (size_t i = 0; i < size; i++) {
        bool in_batching = i >= COUNTER && i < COUNTER + BATCHING;
        uint32_t number;

        proof[i] ^= 1;
        must(!in_batching || refused(check_alone(proof, size)), "a changed byte of R is refused by the check alone, too");
        number = check(KAPPA, proof, size);
        must(refused(number) && (number == OTHER_BATCHING) == in_batching, "a changed byte is refused, one of R by the comparison");
        must(i < COUNTER + ANSWERS || number == SMALLWOOD_BAD_ROOT || number == SMALLWOOD_BAD_ELEMENT,
             "a changed record or node is refused with 8, or is no element");
        tally[number]++;
        proof[i] ^= 1;
    }
    printf("ok: one changed byte, at each of %zu places, is refused:\n", size);
    for (uint32_t number = 1; number <= SMALLWOOD_BAD_COUNTER; number++)
        if (tally[number] > 0)
            printf("    %u times with %u: %s\n", tally[number], number, smallwood_verdict_text(number));
    printf("    %u times by the comparison: it has not the registered R\n", tally[OTHER_BATCHING]);
}

/*
 * A door that has another R registered refuses what the check alone accepts. Here it is the registered digest that is another; a proof with
 * another R under the same root and salt takes a committer that cheats: proof_forger.c.
 */
static void try_registered(const uint8_t *proof, size_t size)
{
    uint8_t batching[BATCHING], digest[DIGEST];

    must(check_alone(proof, size) == SMALLWOOD_OK, "the check alone accepts the proof");
    memcpy(digest, door_badge.digest, DIGEST);
    for (unsigned bit = 0; bit < 8 * DIGEST; bit++) {
        door_badge.digest[bit / 8] ^= (uint8_t)(1 << bit % 8);
        must(refused_with(OTHER_BATCHING, proof, size), "with one bit of the digest changed the door refuses");
        memcpy(door_badge.digest, digest, DIGEST);
    }
    printf("ok: with one bit of the digest changed, each of %d, the door refuses\n", 8 * DIGEST);
    badge_shows_batching(batching);
    batching[BATCHING - 1] ^= 1;
    digest_batching(door_badge.digest, batching);
    expect(refused_with(OTHER_BATCHING, proof, size), "where another R is registered the door refuses what the check alone accepts");
    batching[BATCHING - 1] ^= 1;
    digest_batching(door_badge.digest, batching);
    expect(opens(proof, size), "where the badge's is registered it opens");
}

/* Two encodings of one element: q is refused, not reduced. The word is the first record's, so the draw is as it was. */
static void try_element(uint8_t *proof, size_t size)
{
    uint32_t word = smallwood_element_at(proof + COUNTER + ANSWERS);

    put_element(proof + COUNTER + ANSWERS, SMALLWOOD_Q);
    expect(refused_with(SMALLWOOD_BAD_ELEMENT, proof, size), "an element that is not below q is refused with 3");
    put_element(proof + COUNTER + ANSWERS, word);
}

static void try_lengths(const uint8_t *proof, size_t size, uint8_t *room)
{
    uint8_t asked[SMALLWOOD_QUESTION_LENGTH(L, ETA, M)] = {0};

    memcpy(room, proof, size);
    expect(refused_with(SMALLWOOD_BAD_REPLY_LENGTH, proof, size - 1), "a proof that is cut is refused with 7");
    expect(refused_with(SMALLWOOD_BAD_REPLY_LENGTH, room, size + 1), "a proof with a byte after it is refused with 7");
    expect(refused_with(SMALLWOOD_BAD_REPLY_LENGTH, proof, COUNTER + ANSWERS - 1),
           "a proof too short for counter and answers is refused with 7");
    expect(refused_with(SMALLWOOD_BAD_REPLY_LENGTH, proof, COUNTER + BATCHING - 1), "a proof too short for R is refused with 7");
    expect(refused_with(SMALLWOOD_BAD_REPLY_LENGTH, NULL, 0), "no proof is refused with 7");
    expect(smallwood_check_proof(door_question, PROOF_QUESTION, KAPPA, proof, size, door_values, VALUES - 4) == SMALLWOOD_BAD_LENGTH,
           "a value buffer of wrong length is refused with 2");
    memcpy(asked, door_question, PROOF_QUESTION);
    expect(smallwood_check_proof(asked, sizeof asked, KAPPA, proof, size, door_values, VALUES) == SMALLWOOD_BAD_QUESTION_LENGTH,
           "a question of a conversation's length is refused with 6");
    expect(smallwood_check_proof(NULL, 0, KAPPA, NULL, 0, NULL, 0) == SMALLWOOD_BAD_QUESTION_LENGTH, "nothing at all is refused with 6");
}

/* Another commitment's salt. It is hashed with the draws, so 7 or 12 mostly tells; if neither does, the root does. */
static void try_salt(const uint8_t *proof, size_t size)
{
    door_question[SALT_AT] ^= 1;
    expect(refused(check(KAPPA, proof, size)), "under another salt the proof is refused");
    door_question[SALT_AT] ^= 1;
    door_question[VERSION_AT]--;
    expect(check(KAPPA, proof, size) == SMALLWOOD_BAD_MARK && values_kept(),
           "a question of version 2, which had no salt, is refused with 5");
    door_question[VERSION_AT]++;
}

/* That the prover refuses so, and that neither the buffer nor the length changes. */
static bool prover_refuses(uint32_t number, const uint8_t *question, size_t question_size, uint32_t kappa, uint32_t limit, size_t room_size)
{
    static uint8_t room[PROOF_ROOM], before[PROOF_ROOM];
    uint64_t length = 77;

    memset(room, 0xAA, PROOF_ROOM);
    memset(before, 0xAA, PROOF_ROOM);
    return badge_prove(question, question_size, kappa, limit, room, room_size, &length) == number && length == 77
           && memcmp(room, before, PROOF_ROOM) == 0;
}

static void try_refusals(const uint8_t *proof)
{
    uint8_t question[PROOF_QUESTION];

    memcpy(question, door_question, PROOF_QUESTION);
    expect(prover_refuses(SMALLWOOD_NO_COUNTER, question, PROOF_QUESTION, KAPPA, smallwood_element_at(proof), PROOF_ROOM),
           "without the counter it is an 11");
    expect(prover_refuses(SMALLWOOD_BAD_SIZES, question, PROOF_QUESTION, MOST_KAPPA + 1, LIMIT, PROOF_ROOM), "more than 16 bits are a 1");
    expect(prover_refuses(SMALLWOOD_BAD_LENGTH, question, PROOF_QUESTION, KAPPA, LIMIT, PROOF_ROOM - 1), "a shorter buffer is a 2");
    expect(prover_refuses(SMALLWOOD_BAD_QUESTION_LENGTH, question, PROOF_QUESTION - 4, KAPPA, LIMIT, PROOF_ROOM), "a cut question is a 6");
    put_element(question + NAMED, SMALLWOOD_Q);
    expect(prover_refuses(SMALLWOOD_BAD_ELEMENT, question, PROOF_QUESTION, KAPPA, LIMIT, PROOF_ROOM), "a point that is not below q is a 3");
    memcpy(question, door_question, PROOF_QUESTION);
    question[ROOT_AT] ^= 1;
    expect(prover_refuses(SMALLWOOD_BAD_ROOT, question, PROOF_QUESTION, KAPPA, LIMIT, PROOF_ROOM), "another root is an 8");
    question[ROOT_AT] ^= 1;
    question[SALT_AT] ^= 1;
    expect(prover_refuses(SMALLWOOD_BAD_ROOT, question, PROOF_QUESTION, KAPPA, LIMIT, PROOF_ROOM), "another salt is an 8");
}

/* The same question once more shows nothing new: a proof is a function of what is lent. */
static void try_again(const uint8_t *proof, size_t size)
{
    static uint8_t room[PROOF_ROOM], before[PROOF_ROOM];
    uint64_t length = 0;

    memset(room, 0xAA, PROOF_ROOM);
    memset(before, 0xAA, PROOF_ROOM);
    must(badge_prove(door_question, PROOF_QUESTION, KAPPA, LIMIT, room, PROOF_ROOM, &length) == SMALLWOOD_OK, "the badge proves again");
    expect(length == size && memcmp(room, proof, size) == 0, "the same question has the same proof");
    expect(memcmp(room + size, before + size, PROOF_ROOM - size) == 0, "and bytes after it are as they were");
}

/* A badge that answers for another polynomial than the committed one finds a counter, too, but its answers fail at the opened leaves. */
static void try_other_polynomial(void)
{
    static uint8_t room[PROOF_ROOM];
    uint64_t length = 0;

    badge_coefficients[0] += 1;
    must(badge_prove(door_question, PROOF_QUESTION, KAPPA, LIMIT, room, PROOF_ROOM, &length) == SMALLWOOD_OK,
         "answers for another polynomial are made");
    badge_coefficients[0] -= 1;
    expect(check_alone(room, (size_t)length) == SMALLWOOD_BAD_BATCHING && values_kept(),
           "the check alone refuses answers for another polynomial with 9");
    expect(refused_with(OTHER_BATCHING, room, (size_t)length), "the door sees before that R is not the registered one");
}

/* Other questions than the badge's own: with the point 0, with a point less. */
static void try_questions(void)
{
    uint8_t question[PROOF_QUESTION];
    size_t size = 0;

    memcpy(question, door_question, PROOF_QUESTION);
    put_element(question + PROOF_POINTS_AT, 0);
    expect(badge_takes(question, PROOF_QUESTION, KAPPA, &size) == NULL, "the badge does not take the point 0");
    memcpy(question, door_question, PROOF_QUESTION);
    question[SMALLWOOD_M_AT]--;
    expect(badge_takes(question, PROOF_QUESTION - 4, KAPPA, &size) == NULL, "the badge does not take a question with a point less");
    expect(badge_takes(question, PROOF_QUESTION, KAPPA, &size) == NULL, "nor one that only says so");
}

/* Whoever has copied the proof stands before other points. At the old ones the door would open again. */
static void try_copy(const uint8_t *proof, size_t size)
{
    uint8_t question[PROOF_QUESTION];

    memcpy(question, door_question, PROOF_QUESTION);
    ask();
    expect(refused(check(KAPPA, proof, size)), "a copied proof is refused at fresh points");
    memcpy(door_question, question, PROOF_QUESTION);
    expect(opens(proof, size), "at the old points the door opens to a copy");
}

int main(void)
{
    static uint8_t room[PROOF_ROOM + 1];
    uint8_t *proof;
    size_t size = 0;

    memset(untouched, 0xAA, VALUES);
    desk_registers();

    /* The door, now offline, draws points; the badge proves; the door compares and checks. */
    ask();
    try_questions();
    proof = badge_takes(door_question, PROOF_QUESTION, KAPPA, &size);
    expect(proof != NULL, "the badge proves");
    printf("question of %d bytes, proof of %zu bytes in a buffer of %d, counter %u\n", PROOF_QUESTION, size, PROOF_ROOM,
           smallwood_element_at(proof));
    expect(opens(proof, size), "the door opens");
    show_values();
    expect(badge_takes(door_question, PROOF_QUESTION, KAPPA, &size) == NULL, "the badge takes no second question");

    try_copy(proof, size);
    try_registered(proof, size);

    /* Damaged proofs, other numbers of bits, wrong lengths. */
    try_bits(proof, size);
    try_counters(proof, size);
    try_bytes(proof, size);
    try_element(proof, size);
    try_lengths(proof, size, room);
    try_salt(proof, size);
    try_other_polynomial();
    try_refusals(proof);
    try_again(proof, size);
    expect(opens(proof, size), "the honest proof is accepted again");

    badge_ends();
    free(proof);
    return 0;
}
