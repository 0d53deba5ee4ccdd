/* Cost of the library beside the plain C implementation, and beside an older library, on the same inputs in one run.
 *
 *     bench                      all tables below, in Markdown
 *     bench times                time of each entry at all sizes
 *     bench proofs               time of proving and of checking a proof beside the conversation's, at all sizes
 *     bench interpolation        time of interpolating over any points, at numbers of points from 1 to 320
 *     bench growth               how the times of the library and of plain C grow with each size
 *     bench products CHOICE..    what worked products cost; tools/sizes.py --choices prints the choices of sizes
 *     bench stack                stack that committing, opening, checking, proving, checking a proof, interpolating use
 *     bench names                the implementations, one to a line
 *     bench sizes                the numbers of the sizes, one to a line
 *     bench once OP SIZE NAME    one call alone, to be counted by valgrind (bench.sh)
 *     bench row OP SIZE          how that call's row of a table begins: sizes, operation, permutations of Keccak
 *     bench has OP NAME          exit status 1 where that implementation cannot do it
 *     bench once-any N NAME      one interpolation over N points alone, and
 *     bench has-any NAME         exit status 1 where that implementation has no such entry
 *
 * plain_keccak_* and plain_pairs_* are plain C with plain/keccak.c, the latter with PLAIN_PAIRS (plain/plain.h). Built
 * with -DPLAIN_OPENSSL, plain_* is plain C with OpenSSL's hash; built with -DBEFORE, before_* is the older library.
 * Times are processor time of this program. An older library may take questions of version 2, without a salt (older.h),
 * and may lack the entries for permutations and interpolation. Permutations are those of strings with a salt. */
#define _GNU_SOURCE
#include <inttypes.h>
#include <stdio.h>
#include <stdlib.h>
#include <string.h>

#include "bench_interpolation.h"
#include "bench_operations.h"
#include "bench_products.h"
#include "bench_proofs.h"
#include "painted_stack.h"

#define STACK_BYTES ((size_t)16 << 20)

/* ---- Times --------------------------------------------------------------------------------------- */

static void show_times(void)
{
    printf("\n" TIMES_CAPTION "\n\n", ROUNDS);
    printf(SIZES_HEAD "| operation | permutations ");
    end_times_head(SIZES_COLUMNS + 2);
    for (size_t n = 0; n < SIZES; n++)
        for (enum operation operation = 0; operation < TIMED_OPERATIONS; operation++) {
            struct instance *a = prepared(all_sizes[n], operation);
            struct timing found[IMPLEMENTATIONS];
            compare(a, operation);
            if (operation == PERMUTATIONS && a->count != permutations(a, CHECK))
                fail("the entry's permutations are not those that the tables have");
            measure(a, operation, in_times, found);
            begin_row(a, operation);
            end_times_row(found, operation == LENGTH || operation == PERMUTATIONS ? 3 : 2);
            free_instance(a);
        }
}

/* ---- Growth -------------------------------------------------------------------------------------- */

/* `value` is what the doubled size has in s; `above` has the least seconds of the row above, or 0. */
static void show_growth_row(const char *name, struct sizes s, enum operation operation, uint32_t value,
                            double *above)
{
    struct instance *a = prepared(s, operation);
    struct timing found[IMPLEMENTATIONS];

    compare(a, operation);
    measure(a, operation, in_growth, found);
    printf("| %s | %s | %u ", name, operation_names[operation], value);
    for (size_t i = 0; i < IMPLEMENTATIONS; i++) {
        if (!in_growth(i))
            continue;
        printf("| %.1f ", 1e6 * found[i].least);
        if (above[i] > 0)
            printf("| %.2f ", found[i].least / above[i]);
        else
            printf("| ");
        if (i > 0)
            printf("| %.2f ", found[0].least / found[i].least);
        above[i] = found[i].least;
    }
    puts("|");
    fflush(stdout);
    free_instance(a);
}

/* `size` is one of the sizes in s; it doubles, and h goes up by 1. */
static void show_growth_of(const char *name, struct sizes *s, uint32_t *size, uint32_t first,
                           uint32_t last)
{
    uint32_t kept = *size;
    int is_depth = size == &s->h;

    for (enum operation operation = 0; operation < MAIN_OPERATIONS; operation++) {
        double above[IMPLEMENTATIONS] = {0};
        for (*size = first; *size <= last; *size = is_depth ? *size + 1 : 2 * *size)
            show_growth_row(name, *s, operation, is_depth ? 1u << *size : *size, above);
    }
    *size = kept;
}

/* tools/growth_svg.py reads this table: it knows the header, and the first word of each name. */
static void show_growth(void)
{
    struct sizes s = {10, 16, 8, 8, 16, 2, 2, 0}, columns = s;

    columns.w = 1; /* so that nu can grow to its limit */
    printf("\nLeast microseconds of one call as one size doubles and the others stay (h=%u, mu=%u, nu=%u, w=%u, "
           "l=%u, eta=%u, m=%u, but w=%u where nu doubles; no blinding rows), each with the factor to the line above, the "
           "others also with the library's ratio to them.\n\n",
           s.h, s.mu, s.nu, s.w, s.l, s.eta, s.m, columns.w);
    printf("| doubled | operation | to ");
    for (size_t i = 0; i < IMPLEMENTATIONS; i++)
        if (in_growth(i)) {
            printf("| %s | factor ", shown_names[i]);
            if (i > 0)
                printf("| to %s ", shown_names[i]);
        }
    printf("|\n|---|---|---|---|---|");
    for (size_t i = 1; i < IMPLEMENTATIONS; i++)
        if (in_growth(i))
            printf("---|---|---|");
    puts("");
    show_growth_of("N (leaves)", &s, &s.h, 7, 12); /* N is at least w nu + l */
    show_growth_of("mu (rows)", &s, &s.mu, 1, 64);
    show_growth_of("l (opened leaves)", &s, &s.l, 1, 64);
    show_growth_of("nu (columns, w = 1)", &columns, &columns.nu, 1, 256);
    show_growth_of("eta (repetitions)", &s, &s.eta, 1, 4);
    show_growth_of("m (points)", &s, &s.m, 1, 8);
}

/* ---- Stack --------------------------------------------------------------------------------------- */

struct stack_call {
    const struct implementation *with;
    enum operation operation;
    struct instance *a;
    uint32_t number;
};

static void no_call(void *data)
{
    (void)data;
}

static void call_on_stack(void *data)
{
    struct stack_call *c = data;

    c->number = call(c->with, c->operation, c->a);
}

struct stack_interpolation {
    size_t implementation;
    struct samples *a;
    uint32_t number;
};

static void interpolate_on_stack(void *data)
{
    struct stack_interpolation *c = data;

    c->number = interpolate_with(c->implementation, c->a, 0);
}

/* Bytes of a painted stack that this work has touched. */
static size_t touched(stack_work *work, void *data)
{
    uint8_t *stack = paint_stack(STACK_BYTES);
    size_t bytes;

    run_on_stack(stack, STACK_BYTES, work, data);
    bytes = (size_t)(stack + STACK_BYTES - lowest_touched(stack, STACK_BYTES));
    munmap(stack, STACK_BYTES);
    return bytes;
}

static const enum operation stack_operations[] = {COMMIT, OPEN, CHECK, PROVE, CHECK_PROOF};

#define STACK_OPERATIONS (sizeof stack_operations / sizeof stack_operations[0])

static size_t stack_of(size_t implementation, enum operation operation, struct sizes s, size_t base)
{
    struct instance *a = prepared(s, operation);
    struct stack_call c = {&implementations[implementation], operation, a, 0};
    size_t used = touched(call_on_stack, &c);

    if (c.number != 0)
        fail("an honest call was refused");
    free_instance(a);
    return used > base ? used - base : 0;
}

static void show_stack_row(struct sizes s, size_t base)
{
    double bytes[IMPLEMENTATIONS][STACK_OPERATIONS];

    print_sizes(&s);
    for (size_t i = 0; i < IMPLEMENTATIONS; i++)
        for (size_t o = 0; o < STACK_OPERATIONS; o++) {
            size_t used = stack_of(i, stack_operations[o], s, base);
            printf("| %zu ", used);
            bytes[i][o] = (double)used;
        }
    for (size_t i = 1; i < LIBRARIES; i++)
        for (size_t o = 0; o < STACK_OPERATIONS; o++)
            printf("| %.2f ", bytes[0][o] / bytes[i][o]);
    puts("|");
    fflush(stdout);
}

/* The same at every number of points, but for what the compiler does. */
static void show_stack_of_interpolation(size_t base)
{
    struct samples *a = draw_samples(MOST_SAMPLES);

    printf("\nAnd of interpolating over %d points:", MOST_SAMPLES);
    for (size_t i = 0; i < IMPLEMENTATIONS; i++)
        if (in_interpolation(i)) {
            struct stack_interpolation c = {i, a, 0};
            size_t used = touched(interpolate_on_stack, &c);
            if (c.number != 0)
                fail("an honest call was refused");
            printf("%s %zu (%s)", i == 0 ? "" : ",", used > base ? used - base : 0, shown_names[i]);
        }
    puts(".");
    free(a);
}

static void show_stack(void)
{
    size_t base = touched(no_call, NULL);

    puts("\nBytes of stack that one call uses: a painted stack's touched part, less that of no call.\n");
    printf(SIZES_HEAD);
    for (size_t i = 0; i < IMPLEMENTATIONS; i++)
        for (size_t o = 0; o < STACK_OPERATIONS; o++)
            printf("| %s, %s ", operation_names[stack_operations[o]], shown_names[i]);
    for (size_t i = 1; i < LIBRARIES; i++)
        for (size_t o = 0; o < STACK_OPERATIONS; o++)
            printf("| %s, to %s ", operation_names[stack_operations[o]], shown_names[i]);
    printf("|\n|---|---|---|---|---|---|---|---|");
    for (size_t i = 0; i < STACK_OPERATIONS * (IMPLEMENTATIONS + LIBRARIES - 1); i++)
        printf("---|");
    puts("");
    for (size_t n = 0; n < SIZES; n++)
        show_stack_row(all_sizes[n], base);
    show_stack_of_interpolation(base);
}

/* ---- One call ------------------------------------------------------------------------------------ */

static enum operation operation_named(const char *name)
{
    for (enum operation operation = 0; operation < OPERATIONS; operation++)
        if (strcmp(operation_names[operation], name) == 0)
            return operation;
    fail("no such operation");
    return OPERATIONS;
}

static const struct sizes *sizes_numbered(const char *number)
{
    size_t n = (size_t)atoi(number);

    if (n < 1 || n > SIZES)
        fail("no such size: see bench sizes");
    return &all_sizes[n - 1];
}

static size_t implementation_named(const char *name)
{
    for (size_t i = 0; i < IMPLEMENTATIONS; i++)
        if (strcmp(implementations[i].name, name) == 0)
            return i;
    fail("no such implementation");
    return IMPLEMENTATIONS;
}

static void once(const char *operation, const char *size, const char *name)
{
    struct instance *a = prepared(*sizes_numbered(size), operation_named(operation));

#ifdef PLAIN_OPENSSL
    evp_start(); /* outside the call that is counted */
#endif
    if (!has_operation(implementation_named(name), operation_named(operation)))
        fail("that implementation cannot do it");
    if (call(&implementations[implementation_named(name)], operation_named(operation), a) != 0)
        fail("an honest call was refused");
    free_instance(a);
}

static void interpolate_once(const char *count, const char *name)
{
    struct samples *a = draw_samples((size_t)atoi(count));

    if (interpolate_with(implementation_named(name), a, 0) != 0)
        fail("an honest call was refused");
    free(a);
}

int main(int count, char **words)
{
    const char *mode = count > 1 ? words[1] : "all";
    int all = strcmp(mode, "all") == 0;

    find_older();
    if (count == 5 && strcmp(mode, "once") == 0) {
        once(words[2], words[3], words[4]);
    } else if (count == 4 && strcmp(mode, "row") == 0) {
        enum operation operation = operation_named(words[2]);
        struct instance *a = prepared(*sizes_numbered(words[3]), operation);
        begin_row(a, operation);
        free_instance(a);
    } else if (count == 4 && strcmp(mode, "has") == 0) {
        return !has_operation(implementation_named(words[3]), operation_named(words[2]));
    } else if (count == 4 && strcmp(mode, "once-any") == 0) {
        interpolate_once(words[2], words[3]);
    } else if (count == 3 && strcmp(mode, "has-any") == 0) {
        return interpolate_entries[implementation_named(words[2])] == NULL;
    } else if (count > 2 && strcmp(mode, "products") == 0) {
        show_products(words + 2, count - 2);
    } else if (strcmp(mode, "names") == 0) {
        for (size_t i = 0; i < IMPLEMENTATIONS; i++)
            printf("%s\n", implementations[i].name);
    } else if (strcmp(mode, "sizes") == 0) {
        for (size_t n = 1; n <= SIZES; n++)
            printf("%zu\n", n);
    } else if (all || strcmp(mode, "times") == 0 || strcmp(mode, "proofs") == 0 ||
               strcmp(mode, "interpolation") == 0 || strcmp(mode, "growth") == 0 || strcmp(mode, "stack") == 0) {
        if (all || strcmp(mode, "times") == 0)
            show_times();
        if (all || strcmp(mode, "proofs") == 0)
            show_proofs();
        if (all || strcmp(mode, "interpolation") == 0)
            show_interpolation();
        if (all || strcmp(mode, "growth") == 0)
            show_growth();
        if (all || strcmp(mode, "stack") == 0)
            show_stack();
    } else {
        fail("usage: bench [times | proofs | interpolation | growth | stack | products CHOICE.. | names | sizes | "
             "once OP SIZE NAME | row OP SIZE | has OP NAME | once-any N NAME | has-any NAME]");
    }
    return 0;
}
