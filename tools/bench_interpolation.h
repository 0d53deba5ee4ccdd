/* The table of interpolation over any points. */
#ifndef BENCH_INTERPOLATION_H
#define BENCH_INTERPOLATION_H

#include "bench_operations.h"

#pragma weak before_interpolate

#define MOST_SAMPLES 320
#define SETS 8 /* of samples, in turn: over one set alone a processor learns which of two points is larger */

typedef uint32_t interpolate_entry(const uint32_t *, size_t, const uint32_t *, size_t, uint32_t *, size_t);

/* In the order of `implementations`. An older library may lack the entry. */
static interpolate_entry *const interpolate_entries[IMPLEMENTATIONS] = {
    smallwood_interpolate,
#ifdef BEFORE
    before_interpolate,
#endif
#ifdef PLAIN_OPENSSL
    plain_interpolate,
#endif
    plain_keccak_interpolate,
    plain_pairs_interpolate,
};

/* Each has its half, but for 1 and 160. */
static const size_t sample_counts[] = {1, 2, 4, 8, 16, 32, 64, 128, 160, 256, 320};

#define SAMPLE_COUNTS (sizeof sample_counts / sizeof sample_counts[0])

struct samples {
    size_t count;
    uint32_t points[SETS][MOST_SAMPLES], values[SETS][MOST_SAMPLES], coefficients[MOST_SAMPLES];
};

/* They depend on nothing but their number. */
static struct samples *draw_samples(size_t count)
{
    struct samples *a = allocate(sizeof *a);

    if (count < 1 || count > MOST_SAMPLES)
        fail("no such number of points");
    draw_again();
    a->count = count;
    for (size_t set = 0; set < SETS; set++)
        for (size_t i = 0; i < count; i++) {
            a->points[set][i] = draw_below(Q);
            a->values[set][i] = draw_below(Q);
        }
    return a;
}

static uint32_t interpolate_with(size_t implementation, struct samples *a, size_t set)
{
    return interpolate_entries[implementation](a->points[set], a->count, a->values[set], a->count,
                                               a->coefficients, a->count);
}

/* All implementations that have the entry have to leave the same. */
static void compare_interpolations(struct samples *a)
{
    uint32_t first[MOST_SAMPLES];

    for (size_t set = 0; set < SETS; set++)
        for (size_t i = 0; i < IMPLEMENTATIONS; i++) {
            if (interpolate_entries[i] == NULL)
                continue;
            memset(a->coefficients, 0, sizeof a->coefficients);
            if (interpolate_with(i, a, set) != 0)
                fail("an honest call was refused");
            if (i == 0)
                memcpy(first, a->coefficients, sizeof first);
            else if (memcmp(first, a->coefficients, sizeof first) != 0)
                fail("the implementations differ");
        }
}

static double run_interpolations(size_t implementation, void *what, uint64_t times)
{
    double start = now();

    for (uint64_t i = 0; i < times; i++)
        interpolate_with(implementation, what, i % SETS);
    return (now() - start) / (double)times;
}

/* Plain C of all prefixes is the same code here: one of them is measured. */
static int in_interpolation(size_t implementation)
{
    return in_growth(implementation) && interpolate_entries[implementation] != NULL;
}

static void measure_interpolations(struct samples *a, struct timing *found)
{
    uint64_t times = calls_of_run(run_interpolations(0, a, SETS));
    size_t had[IMPLEMENTATIONS], count = 0;

    for (size_t i = 0; i < IMPLEMENTATIONS; i++) {
        found[i] = (struct timing){0, 0};
        if (in_interpolation(i))
            had[count++] = i;
    }
    measure_in_turn(run_interpolations, a, (times + SETS - 1) / SETS * SETS, had, count, found);
}

/* The least seconds at half as many points, or 0. */
static double at_half(struct timing (*found)[IMPLEMENTATIONS], size_t row, size_t implementation)
{
    for (size_t n = 0; n < row; n++)
        if (2 * sample_counts[n] == sample_counts[row])
            return found[n][implementation].least;
    return 0;
}

static void show_interpolation_row(struct timing (*found)[IMPLEMENTATIONS], size_t row)
{
    double count = (double)sample_counts[row];

    printf("| %zu ", sample_counts[row]);
    for (size_t i = 0; i < IMPLEMENTATIONS; i++)
        if (in_interpolation(i))
            printf("| %.3f (%.3f) ", 1e6 * found[row][i].least, 1e6 * found[row][i].median);
        else if (in_growth(i))
            printf("| ");
    for (size_t i = 1; i < IMPLEMENTATIONS; i++)
        if (in_interpolation(i))
            printf("| %.2f (%.2f) ", found[row][0].least / found[row][i].least,
                   found[row][0].median / found[row][i].median);
        else if (in_growth(i))
            printf("| ");
    for (size_t i = 0; i < IMPLEMENTATIONS; i++) {
        double half = at_half(found, row, i);
        if (half > 0)
            printf("| %.2f ", found[row][i].least / half);
        else if (in_growth(i))
            printf("| ");
    }
    printf("| %.2f |\n", 1e9 * found[row][0].least / (count * count));
    fflush(stdout);
}

static void show_interpolation(void)
{
    static struct timing found[SAMPLE_COUNTS][IMPLEMENTATIONS];
    size_t columns = 2;

    printf("\nInterpolation over any points. " TIMES_CAPTION " Runs go through %d sets of drawn points and values. The "
           "factor is the least time over that of half as many points; where the time is as the square, it is 4, and "
           "the last column stays.\n\n| points ",
           ROUNDS, SETS);
    for (size_t i = 0; i < IMPLEMENTATIONS; i++)
        if (in_growth(i)) {
            printf("| %s ", shown_names[i]);
            columns += i > 0 ? 3 : 2;
        }
    for (size_t i = 1; i < IMPLEMENTATIONS; i++)
        if (in_growth(i))
            printf("| to %s ", shown_names[i]);
    for (size_t i = 0; i < IMPLEMENTATIONS; i++)
        if (in_growth(i))
            printf("| factor, %s ", shown_names[i]);
    puts("| library, ns over the square |");
    for (size_t i = 0; i < columns; i++)
        printf("|---");
    puts("|");
    for (size_t n = 0; n < SAMPLE_COUNTS; n++) {
        struct samples *a = draw_samples(sample_counts[n]);
        compare_interpolations(a);
        measure_interpolations(a, found[n]);
        show_interpolation_row(found, n);
        free(a);
    }
}

#endif
