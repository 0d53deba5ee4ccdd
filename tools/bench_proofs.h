/* The tables of proofs. */
#ifndef BENCH_PROOFS_H
#define BENCH_PROOFS_H

#include "bench_operations.h"

#define PERMUTATION_ROUNDS 501 /* pairs of runs of which the median is a permutation's time */
#define PERMUTATION_CALLS 10

/* What the check refuses with an 8: it has then hashed all that it hashes, and done nothing after it. */
static struct instance *with_other_root(struct sizes s)
{
    struct instance *a = prepared(s, CHECK);

    a->question[HEADER_BYTES] ^= 1;
    a->older_question[HEADER_BYTES] ^= 1;
    for (size_t i = 0; i < IMPLEMENTATIONS; i++)
        if (call(&implementations[i], CHECK, a) != 8)
            fail("another root was not refused");
    return a;
}

/* The implementations that try as many counters as the library does. */
static int in_shares(size_t implementation)
{
    return in_growth(implementation) && has_operation(implementation, PROVE_16);
}

/* Seconds of one permutation by each of these: what the check's 8 takes longer where one word more makes each leaf's
 * string a block longer, by the permutations that it has more; the median of runs on both, one after the other. */
static void time_permutations(double *seconds)
{
    struct sizes s = {7, 16, 1, 1, 64, 1, 1, 0}; /* a leaf's string has 135 bytes, and the block's last is padding */
    static double found[PERMUTATION_ROUNDS];
    struct instance *shorter = with_other_root(s), *longer;
    double more;

    s.mu++;
    longer = with_other_root(s);
    more = (double)(permutations(longer, CHECK) - permutations(shorter, CHECK));
    for (size_t i = 0; i < IMPLEMENTATIONS; i++) {
        if (!in_shares(i))
            continue;
        for (size_t r = 0; r < PERMUTATION_ROUNDS; r++) {
            double first = run(&implementations[i], CHECK, shorter, PERMUTATION_CALLS);
            found[r] = (run(&implementations[i], CHECK, longer, PERMUTATION_CALLS) - first) / more;
        }
        seconds[i] = timing_of(found, PERMUTATION_ROUNDS).median;
    }
    free_instance(shorter);
    free_instance(longer);
}

static const enum operation proof_operations[] = {OPEN, PROVE, PROVE_8, PROVE_16, DRAWN, CHECK_PROOF};

#define PROOF_OPERATIONS (sizeof proof_operations / sizeof proof_operations[0])

/* A row for each operation; their least seconds go to `least`, the counters tried for most bits are returned. */
static uint64_t show_proof_rows(struct sizes s, double (*least)[IMPLEMENTATIONS], uint64_t *draws)
{
    uint64_t tried = 0;

    for (size_t n = 0; n < PROOF_OPERATIONS; n++) {
        enum operation operation = proof_operations[n];
        struct instance *a = prepared(s, operation);
        struct timing found[IMPLEMENTATIONS];
        compare(a, operation);
        measure(a, operation, in_times, found);
        begin_row(a, operation);
        if (operation >= PROVE && operation <= PROVE_16)
            printf("| %u | %" PRIu64 " ", kappas[operation], tried = counters_tried(a));
        else
            printf("| | ");
        end_times_row(found, 2);
        for (size_t i = 0; i < IMPLEMENTATIONS; i++)
            least[operation][i] = found[i].least;
        *draws = permutations_of_draws(a, 1);
        free_instance(a);
    }
    return tried;
}

/* What show_proof_rows has found at one of the sizes. */
struct proof_times {
    double least[OPERATIONS][IMPLEMENTATIONS];
    uint64_t tried, draws;
};

static void show_shares_row(const struct proof_times *t, const double *permutation)
{
    printf("| %" PRIu64 " | %" PRIu64 " ", t->tried, t->draws);
    for (size_t i = 0; i < IMPLEMENTATIONS; i++)
        if (in_shares(i)) {
            double proving = t->least[OPEN][i] + 2 * (double)t->tried * permutation[i];
            double checking = t->least[DRAWN][i] + (double)t->draws * permutation[i];
            double counter = (t->least[PROVE_16][i] - t->least[PROVE][i]) / (double)(t->tried - 1);
            printf("| %.0f | %.3f | %.3f ", 1e9 * counter, t->least[PROVE_16][i] / proving,
                   t->least[CHECK_PROOF][i] / checking);
        }
    puts("|");
}

/* Proofs over what they are made of. */
static void show_shares(const struct proof_times *times)
{
    double permutation[IMPLEMENTATIONS];

    time_permutations(permutation);
    printf("\nProving under kappa 16 over opening plus two permutations for each counter tried, and checking a proof over "
           "the conversation's check plus the draws' permutations, by least times; and nanoseconds that each counter "
           "adds to proving. A permutation takes, by what the check's 8 takes longer on strings of one block more,");
    for (size_t i = 0; i < IMPLEMENTATIONS; i++)
        if (in_shares(i))
            printf("%s %.0f ns (%s)", i == 0 ? "" : ",", 1e9 * permutation[i], shown_names[i]);
    printf(".\n\n" SIZES_HEAD "| counters tried | draws' permutations in a check ");
    for (size_t i = 0; i < IMPLEMENTATIONS; i++)
        if (in_shares(i))
            printf("| a counter, %s | proving, %s | checking, %s ", shown_names[i], shown_names[i], shown_names[i]);
    printf("|\n|---|---|---|---|---|---|---|---|---|---|");
    for (size_t i = 0; i < IMPLEMENTATIONS; i++)
        if (in_shares(i))
            printf("---|---|---|");
    puts("");
    for (size_t n = 0; n < SIZES; n++) {
        print_sizes(&all_sizes[n]);
        show_shares_row(&times[n], permutation);
    }
}

/* At one of the sizes a counter ends its block, and the padding begins another: each takes two permutations. */
static void expect_long_counter(void)
{
    uint64_t most = 0;

    for (size_t n = 0; n < SIZES; n++) {
        struct instance *a = make_instance(all_sizes[n]);
        uint64_t permutations = permutations_of_counter(a);
        most = permutations > most ? permutations : most;
        free_instance(a);
    }
    if (most != 2)
        fail("at no size a counter takes two permutations");
}

static void show_proofs(void)
{
    static struct proof_times times[SIZES];

    expect_long_counter();
    printf("\nProofs. " TIMES_CAPTION " `prove` has kappa 0; `check, drawn` is the conversation's check of the reply in "
           "that proof, under the question so drawn. Permutations of a `prove` are those of its draws.\n\n",
           ROUNDS);
    printf(SIZES_HEAD "| operation | permutations | kappa | counters tried ");
    end_times_head(SIZES_COLUMNS + 4);
    for (size_t n = 0; n < SIZES; n++)
        times[n].tried = show_proof_rows(all_sizes[n], times[n].least, &times[n].draws);
    show_shares(times);
}

#endif
