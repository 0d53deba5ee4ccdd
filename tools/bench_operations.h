/* What bench.c measures: the implementations, their operations on prepared instances, the permutations of Keccak that
 * these need, times in turn, and what the rows of several tables have in common. */
#ifndef BENCH_OPERATIONS_H
#define BENCH_OPERATIONS_H

#include <inttypes.h>
#include <stdio.h>
#include <stdlib.h>
#include <string.h>

#include "instance.h"
#include "plain/converse.h"
#include "plain/shake.h"
#include "timing.h"

ENTRIES(smallwood);
ENTRIES(before);
ENTRIES(plain);
ENTRIES(plain_keccak);
ENTRIES(plain_pairs);

#pragma weak before_permutations

#define ROUNDS 25        /* runs of which least and median are taken */
#define RUN_SECONDS 2e-3 /* a run repeats the call for about so long */

/* DRAWN is the conversation's check of a proof's reply, under the question so drawn. */
enum operation { COMMIT, OPEN, CHECK, LENGTH, PERMUTATIONS, PROVE, PROVE_8, PROVE_16, CHECK_PROOF, DRAWN, OPERATIONS };

#define MAIN_OPERATIONS LENGTH /* those in the table of growth */
#define TIMED_OPERATIONS PROVE /* those in the table of times; those from here on are in that of proofs */

/* tools/bench.sh knows those of the table of instructions: the first six, and check_proof. */
static const char *const operation_names[OPERATIONS] = {
    "commit", "open", "check", "length", "permutations", "prove", "prove_8", "prove_16", "check_proof", "check, drawn",
};

/* The zero bits that a proof's draw has to begin with; the proof that is checked has none. */
static const uint32_t kappas[OPERATIONS] = {[PROVE_8] = 8, [PROVE_16] = 16};

/* before_* is declared with the parameters of now; find_older finds out whether it has those of older.h. */
static struct implementation implementations[] = {
    IMPLEMENTATION(smallwood),
#ifdef BEFORE
    IMPLEMENTATION(before),
#endif
#ifdef PLAIN_OPENSSL
    IMPLEMENTATION(plain),
#endif
    IMPLEMENTATION(plain_keccak),
    IMPLEMENTATION(plain_pairs),
};

#define IMPLEMENTATIONS (sizeof implementations / sizeof implementations[0])
#define PLAIN_C (IMPLEMENTATIONS - 2)

/* tools/growth_svg.py knows `library` and `plain C`. */
static const char *const shown_names[IMPLEMENTATIONS] = {
    "library",
#ifdef BEFORE
    "before",
#endif
#ifdef PLAIN_OPENSSL
    "plain C, OpenSSL",
#endif
    [PLAIN_C] = "plain C",
    "plain C, two at once",
};

/* The library, and the older one after it. */
#ifdef BEFORE
#define LIBRARIES 2
#else
#define LIBRARIES 1
#endif

static const struct sizes all_sizes[] = {
    {1, 1, 1, 1, 1, 1, 1, 0},      {4, 4, 2, 2, 4, 1, 1, 0},      {6, 8, 4, 4, 8, 2, 1, 0},
    {8, 16, 8, 8, 16, 2, 2, 0},    {10, 32, 16, 8, 32, 3, 4, 0},  {12, 64, 16, 16, 64, 4, 8, 0},
    {12, 64, 1, 256, 64, 4, 8, 0}, {12, 64, 256, 1, 64, 4, 8, 0}, {12, 8, 21, 1, 17, 2, 1, 0},
    {10, 16, 8, 4, 24, 2, 3, 0},   {8, 4, 4, 4, 16, 1, 1, 0},
    /* as many blinding rows as points: three of the sizes above, the second with as many rows in all */
    {8, 16, 8, 8, 16, 2, 2, 2},    {12, 56, 16, 16, 64, 4, 8, 8}, {10, 16, 8, 4, 24, 2, 3, 3},
    /* a salt makes leaf strings of 18 to 25 and of 52 to 59 values a block longer: this one, and those of 16 rows */
    {10, 50, 8, 8, 32, 4, 4, 0},
};

#define SIZES (sizeof all_sizes / sizeof all_sizes[0])

static uint32_t call(const struct implementation *with, enum operation operation,
                     struct instance *a)
{
    switch (operation) {
    case COMMIT:
        return commit_with(with, a);
    case OPEN:
        return open_with(with, a);
    case CHECK:
        return check_with(with, a);
    case PROVE:
    case PROVE_8:
    case PROVE_16:
        return prove_with(with, a, kappas[operation], ~(uint32_t)0);
    case CHECK_PROOF:
        return check_proof_with(with, a, kappas[operation]);
    case DRAWN:
        return check_drawn_with(with, a);
    case PERMUTATIONS:
        return permutations_with(with, a);
    default:
        return reply_length_with(with, a);
    }
}

/* By a header alone, which is too short for a question: what is counted as instructions of a call grows by little. */
static int takes_version(const struct implementation *with, const uint8_t *question)
{
    uint8_t none[1] = {0};

    return with->check_proof(question, HEADER_BYTES, 0, none, 0, none, 0) == 6;
}

static void find_older(void)
{
    struct sizes least = {1, 1, 1, 1, 1, 1, 1, 0};

    for (size_t i = 0; i < IMPLEMENTATIONS; i++) {
        struct instance *a = make_instance(least);
        ask(a);
        implementations[i].older = !takes_version(&implementations[i], a->proof_question);
        if (implementations[i].older && !takes_version(&implementations[i], a->older_proof_question))
            fail("a library takes neither questions of version 3 nor of version 2");
        free_instance(a);
    }
}

/* An older library may lack the entry for permutations. One of version 2 draws from other strings, and so would try
 * other counters. */
static int has_operation(size_t implementation, enum operation operation)
{
    const struct implementation *with = &implementations[implementation];

    if (operation == PERMUTATIONS)
        return with->permutations != NULL;
    return !with->older || (operation != PROVE_8 && operation != PROVE_16);
}

/* The question that the proof stands for takes the place of the drawn one. */
static void take_drawn_question(struct instance *a)
{
    const uint8_t *indices;

    question_of_proof(a->proof_question, a->proof_question_bytes, a->proof, a->question);
    indices = a->question + a->question_bytes - INDEX_BYTES * a->s.l;
    for (uint32_t b = 0; b < a->s.l; b++)
        a->indices[b] = (uint32_t)(indices[2 * b] | indices[2 * b + 1] << 8);
    a->reply_bytes = a->proof_length - COUNTER_BYTES;
    renew_older(a);
}

/* By plain C, and by older libraries, which have trees, replies and proofs of their own. */
static void prepare(struct instance *a, enum operation operation)
{
    for (size_t i = 0; i < IMPLEMENTATIONS; i++)
        if ((i == PLAIN_C || implementations[i].older) && call(&implementations[i], operation, a) != 0)
            fail("what comes before a call was refused");
}

/* An instance on which what comes before the operation is done. It depends on nothing but the sizes. */
static struct instance *prepared(struct sizes s, enum operation operation)
{
    struct instance *a;

    draw_again();
    a = make_instance(s);
    if (operation > COMMIT) {
        prepare(a, COMMIT);
        ask(a);
    }
    if (operation > OPEN && operation < PROVE)
        prepare(a, OPEN);
    if (operation > PROVE_16) {
        prepare(a, PROVE);
        take_drawn_question(a);
        prepare(a, OPEN); /* the older reply to it */
    }
    return a;
}

/* What an operation writes: two parts, of which one may be empty. */
struct written {
    void *first, *second;
    size_t bytes, more;
};

static struct written written_by(struct instance *a, enum operation operation)
{
    switch (operation) {
    case COMMIT:
        return (struct written){a->tree, a->table, a->tree_bytes, 4 * a->table_count};
    case OPEN:
        return (struct written){a->reply, &a->length, a->reply_bytes, 8};
    case LENGTH:
        return (struct written){a->reply, &a->length, 0, 8};
    case PERMUTATIONS:
        return (struct written){a->reply, &a->count, 0, 8};
    case PROVE:
    case PROVE_8:
    case PROVE_16:
        return (struct written){a->proof, &a->proof_length, a->proof_bytes, 8};
    default:
        return (struct written){a->values, &a->length, a->value_bytes, 0};
    }
}

/* The part of it that no hashing goes into, and that an older library leaves, too: of committing the table, of opening
 * answers and records, of proving the evaluation answers. */
static struct written unhashed_by(struct instance *a, enum operation operation, int older)
{
    const struct sizes *s = &a->s;
    size_t answer = 4 * width_of(s);

    switch (operation) {
    case COMMIT:
        return (struct written){a->table, &a->length, 4 * a->table_count, 0};
    case OPEN:
        return (struct written){older ? a->older_reply : a->reply, &a->length,
                                answer * (s->eta + s->m) + record_bytes(s) * s->l, 8};
    case PROVE:
        return (struct written){(older ? a->older_proof : a->proof) + COUNTER_BYTES + answer * s->eta, &a->length,
                                answer * s->m, 0};
    default:
        return written_by(a, operation);
    }
}

static void clear(struct written w)
{
    memset(w.first, 0, w.bytes);
    memset(w.second, 0, w.more);
}

static uint8_t *copy_of(struct written w)
{
    uint8_t *copy = allocate(w.bytes + w.more);

    memcpy(copy, w.first, w.bytes);
    memcpy(copy + w.bytes, w.second, w.more);
    return copy;
}

static int is_copy(const uint8_t *copy, struct written w)
{
    return memcmp(copy, w.first, w.bytes) == 0 && memcmp(copy + w.bytes, w.second, w.more) == 0;
}

static void call_honest(size_t implementation, enum operation operation, struct instance *a, struct written w)
{
    clear(w);
    if (call(&implementations[implementation], operation, a) != 0)
        fail("an honest call was refused");
}

/* All implementations have to leave what plain C leaves; older ones the part of it that no hashing goes into. */
static void compare(struct instance *a, enum operation operation)
{
    uint8_t *whole, *unhashed;

    call_honest(PLAIN_C, operation, a, written_by(a, operation));
    whole = copy_of(written_by(a, operation));
    unhashed = copy_of(unhashed_by(a, operation, 0));
    for (size_t i = 0; i < IMPLEMENTATIONS; i++) {
        int older = implementations[i].older;
        struct written w = older ? unhashed_by(a, operation, 1) : written_by(a, operation);
        if (!has_operation(i, operation))
            continue;
        call_honest(i, operation, a, w);
        if (!is_copy(older ? unhashed : whole, w))
            fail("the implementations differ");
    }
    free(whole);
    free(unhashed);
}

/* ---- Permutations of Keccak, from the lengths of the strings hashed ------------------------------- */

/* The string of a leaf draw before its counter. */
static size_t draw_string(const struct instance *a)
{
    return 1 + a->proof_question_bytes + 4 * width_of(&a->s) * (a->s.eta + a->s.m);
}

/* After the blocks that all counters have in common: one, or two. */
static uint64_t permutations_of_counter(const struct instance *a)
{
    return permutations_of(draw_string(a) + COUNTER_BYTES) - draw_string(a) / RATE_BYTES;
}

/* Of the draws that find a proof, or of those that check one with one counter: the challenges, the blocks in common,
 * each counter, and what a draw has beyond its first block. */
static uint64_t permutations_of_draws(const struct instance *a, uint64_t counters)
{
    return permutations_of(1 + NAMING_BYTES) + draw_string(a) / RATE_BYTES +
           counters * permutations_of_counter(a) + (DIGEST_BYTES + 8 * a->s.l - 1) / RATE_BYTES;
}

/* By the proof that the last call has left. */
static uint64_t counters_tried(const struct instance *a)
{
    uint32_t counter;

    memcpy(&counter, a->proof, COUNTER_BYTES);
    return (uint64_t)counter + 1;
}

static uint64_t permutations(const struct instance *a, enum operation operation)
{
    const struct sizes *s = &a->s;
    uint64_t leaves = (uint64_t)1 << s->h;
    uint64_t leaf = permutations_of(1 + SALT_BYTES + INDEX_BYTES + record_bytes(s));
    uint64_t node = permutations_of(1 + SALT_BYTES + 2 * DIGEST_BYTES);

    switch (operation) {
    case COMMIT:
        return leaves * leaf + (leaves - 1) * node;
    case CHECK:
    case DRAWN:
        return s->l * leaf + nodes_above(a) * node;
    case PROVE:
    case PROVE_8:
    case PROVE_16:
        return permutations_of_draws(a, counters_tried(a));
    case CHECK_PROOF:
        return permutations_of_draws(a, 1) + s->l * leaf + nodes_above(a) * node;
    default:
        return 0;
    }
}

/* ---- Times --------------------------------------------------------------------------------------- */

static double run(const struct implementation *with, enum operation operation, struct instance *a,
                  uint64_t times)
{
    double start = now();

    for (uint64_t i = 0; i < times; i++)
        call(with, operation, a);
    return (now() - start) / (double)times;
}

/* Seconds of one call, by a run of so many. */
typedef double timed_run(size_t implementation, void *what, uint64_t times);

/* Least and median of ROUNDS runs of each of these implementations, in turn. */
static void measure_in_turn(timed_run *runs, void *what, uint64_t times, const size_t *had, size_t count,
                            struct timing *found)
{
    static double seconds[IMPLEMENTATIONS][ROUNDS];

    for (size_t r = 0; r < ROUNDS; r++)
        for (size_t i = 0; i < count; i++) {
            size_t turn = had[turn_of(r, i, count)];
            seconds[turn][r] = runs(turn, what, times);
        }
    for (size_t i = 0; i < count; i++)
        found[had[i]] = timing_of(seconds[had[i]], ROUNDS);
}

/* So many calls that a run takes RUN_SECONDS, where one takes `once`. */
static uint64_t calls_of_run(double once)
{
    return once < RUN_SECONDS ? (uint64_t)(RUN_SECONDS / (once + 1e-8)) + 1 : 1;
}

struct measured {
    enum operation operation;
    struct instance *a;
};

static double run_measured(size_t implementation, void *what, uint64_t times)
{
    const struct measured *m = what;

    return run(&implementations[implementation], m->operation, m->a, times);
}

/* The implementations that the table has, in turn. */
static void measure(struct instance *a, enum operation operation, int (*has)(size_t),
                    struct timing *found)
{
    struct measured what = {operation, a};
    size_t had[IMPLEMENTATIONS], count = 0;

    for (size_t i = 0; i < IMPLEMENTATIONS; i++) {
        found[i] = (struct timing){0, 0};
        if (has(i) && has_operation(i, operation))
            had[count++] = i;
    }
    measure_in_turn(run_measured, &what, calls_of_run(run_measured(0, &what, 1)), had, count, found);
}

static void print_sizes(const struct sizes *s)
{
    printf("| %u | %u | %u | %u | %u | %u | %u | %u ", s->h, s->mu, s->nu, s->w, s->l, s->eta, s->m, s->beta);
}

static void begin_row(const struct instance *a, enum operation operation)
{
    print_sizes(&a->s);
    printf("| %s | %" PRIu64 " ", operation_names[operation], permutations(a, operation));
}

/* How the tables that begin with the sizes are headed. */
#define SIZES_HEAD "| h | mu | nu | w | l | eta | m | beta "
#define SIZES_COLUMNS 8

static int in_growth(size_t implementation)
{
    return implementation < LIBRARIES || implementation == PLAIN_C;
}

static int in_times(size_t implementation)
{
    return implementation < IMPLEMENTATIONS;
}

/* The rest of a head after `columns` columns, and the line under it. */
static void end_times_head(int columns)
{
    for (size_t i = 0; i < IMPLEMENTATIONS; i++)
        printf("| %s ", shown_names[i]);
    for (size_t i = 1; i < IMPLEMENTATIONS; i++)
        printf("| to %s ", shown_names[i]);
    puts("|");
    for (size_t i = 1; i < 2 * IMPLEMENTATIONS + columns; i++)
        printf("|---");
    puts("|");
}

/* The times of a row, and their ratios; nothing where an older library cannot do it. */
static void end_times_row(const struct timing *found, int decimals)
{
    for (size_t i = 0; i < IMPLEMENTATIONS; i++)
        if (found[i].least > 0)
            printf("| %.*f (%.*f) ", decimals, 1e6 * found[i].least, decimals, 1e6 * found[i].median);
        else
            printf("| ");
    for (size_t i = 1; i < IMPLEMENTATIONS; i++)
        if (found[i].least > 0)
            printf("| %.2f (%.2f) ", found[0].least / found[i].least,
                   found[0].median / found[i].median);
        else
            printf("| ");
    puts("|");
    fflush(stdout);
}

#define TIMES_CAPTION                                                                              \
    "Microseconds of processor time for one call, least (median) of %d runs in turn; the ratio is " \
    "the library's least over the other's least, and in brackets that of the medians."

#endif
