/* The table of worked products: what a reply, a commit, an open and a check cost at the sizes that a planner chooses
 * between. tools/sizes.py has the products and their sizes; tools/bench.sh hands them on. */
#ifndef BENCH_PRODUCTS_H
#define BENCH_PRODUCTS_H

#include "bench_operations.h"

#define QUESTIONS 16 /* whose replies are checked in turn: how many nodes a check hashes depends on the leaves */
#define TURNS 6      /* over all choices: what disturbs a choice in one turn may spare it in another */

/* Sizes with the least l for so many bits against that committer, and what was found of them. */
struct choice {
    char product[32], committer[32];
    uint32_t bits;
    struct sizes s;
    size_t reply_bound;
    double mean_reply, check_permutations;
    uint64_t commit_permutations;
    struct timing commit, open, check; /* each of the turn with the least */
};

/* From product,committer,bits,h,mu,nu,w,l,eta,m,beta. */
static struct choice read_choice(const char *word)
{
    struct choice c = {0};
    struct sizes *s = &c.s;
    int end = -1;

    sscanf(word, "%31[^,],%31[^,],%u,%u,%u,%u,%u,%u,%u,%u,%u%n", c.product, c.committer, &c.bits, &s->h, &s->mu,
           &s->nu, &s->w, &s->l, &s->eta, &s->m, &s->beta, &end);
    if (end < 0 || word[end] != '\0' || s->h < 1 || s->h > 12)
        fail("a choice is product,committer,bits,h,mu,nu,w,l,eta,m,beta");
    return c;
}

static int is_library(size_t implementation)
{
    return implementation == 0;
}

static struct timing time_of(struct instance *a, enum operation operation)
{
    struct timing found[IMPLEMENTATIONS];

    compare(a, operation);
    measure(a, operation, is_library, found);
    return found[0];
}

/* ---- Checks, each of several questions in turn ---------------------------------------------------------- */

struct conversation {
    struct instance *a;
    uint8_t *questions[QUESTIONS], *replies[QUESTIONS];
    uint64_t lengths[QUESTIONS];
    double permutations; /* the mean */
};

static void take_question(struct conversation *c, size_t n)
{
    c->a->question = c->questions[n];
    c->a->reply = c->replies[n];
    c->a->length = c->lengths[n];
}

/* Draws the questions to what is committed, and lets them be answered and checked; `a` keeps the last one. */
static void converse(struct conversation *c)
{
    struct instance *a = c->a;

    c->permutations = 0;
    for (size_t n = 0; n < QUESTIONS; n++) {
        if (n > 0) {
            a->question = allocate(a->question_bytes);
            a->reply = allocate(a->proof_bytes); /* no reply is longer */
        }
        ask(a);
        prepare(a, OPEN);
        compare(a, CHECK);
        c->questions[n] = a->question;
        c->replies[n] = a->reply;
        c->lengths[n] = a->length;
        c->permutations += (double)permutations(a, CHECK) / QUESTIONS;
    }
}

static double run_checks(size_t implementation, void *what, uint64_t times)
{
    struct conversation *c = what;
    double start = now();

    for (uint64_t i = 0; i < times; i++) {
        take_question(c, i % QUESTIONS);
        call(&implementations[implementation], CHECK, c->a);
    }
    return (now() - start) / (double)times;
}

static struct timing time_of_checks(struct conversation *c)
{
    uint64_t times = calls_of_run(run_checks(0, c, QUESTIONS));
    struct timing found[IMPLEMENTATIONS];
    size_t library = 0;

    measure_in_turn(run_checks, c, (times + QUESTIONS - 1) / QUESTIONS * QUESTIONS, &library, 1, found);
    return found[0];
}

static void end_conversation(struct conversation *c)
{
    for (size_t n = 1; n < QUESTIONS; n++) {
        free(c->questions[n]);
        free(c->replies[n]);
    }
    take_question(c, 0);
}

/* ---- The table --------------------------------------------------------------------------------------- */

/* Nodes above the opened leaves, where each set of l leaves is as likely as any other: a node on a level is above none
 * of them where all are among the leaves that are not below it. */
static double mean_nodes_above(const struct sizes *s)
{
    double leaves = (double)(1u << s->h), mean = 0;

    for (uint32_t level = 1; level <= s->h; level++) {
        double below = (double)(1u << level), none = 1;
        for (uint32_t i = 0; i < s->l; i++)
            none *= below < leaves - i ? (leaves - below - i) / (leaves - i) : 0;
        mean += leaves / below * (1 - none);
    }
    return mean;
}

static void show_time(struct timing t)
{
    printf("| %.1f (%.1f) ", 1e6 * t.least, 1e6 * t.median);
}

static int keep_least(struct timing *kept, struct timing found)
{
    if (kept->least > 0 && kept->least <= found.least)
        return 0;
    *kept = found;
    return 1;
}

static void measure_choice(struct choice *c)
{
    struct conversation talk = {.a = prepared(c->s, COMMIT)};
    struct instance *a = talk.a;

    keep_least(&c->commit, time_of(a, COMMIT));
    ask(a);
    keep_least(&c->open, time_of(a, OPEN));
    converse(&talk);
    if (keep_least(&c->check, time_of_checks(&talk)))
        c->check_permutations = talk.permutations;
    end_conversation(&talk);
    c->reply_bound = a->proof_bytes - COUNTER_BYTES;
    c->mean_reply = (double)a->reply_bytes + ROOT_BYTES * (mean_nodes_above(&a->s) - (double)nodes_above(a));
    c->commit_permutations = permutations(a, COMMIT);
    free_instance(a);
}

static void show_choice(const struct choice *c)
{
    printf("| %s | %s | %u ", c->product, c->committer, c->bits);
    print_sizes(&c->s);
    printf("| %zu | %.0f | %" PRIu64 " ", c->reply_bound, c->mean_reply, c->commit_permutations);
    show_time(c->commit);
    show_time(c->open);
    printf("| %.1f ", c->check_permutations);
    show_time(c->check);
    puts("|");
}

/* tools/sizes_tables.py and tools/sizes_svg.py read this table by the names of its columns. */
static void begin_products(void)
{
    printf("\nWorked products: bytes of a reply (the bound with l h nodes, and the mean over all sets of leaves), "
           "permutations of a commit and of a check, and microseconds of processor time for one call of the library, "
           "least (median) of %d runs, of the turn with the least of %d turns over all rows. Checks are those of %d "
           "drawn questions in turn, and their permutations the mean of these.\n\n",
           ROUNDS, TURNS, QUESTIONS);
    puts("| product | committer | bits " SIZES_HEAD "| reply bound | mean reply | commit permutations | commit | open "
         "| check permutations | check |");
    for (int i = 0; i < SIZES_COLUMNS + 10; i++)
        printf("|---");
    puts("|");
}

static void show_products(char **words, int count)
{
    struct choice *choices = allocate((size_t)count * sizeof *choices);

    for (int i = 0; i < count; i++)
        choices[i] = read_choice(words[i]);
    for (int turn = 0; turn < TURNS; turn++)
        for (int i = 0; i < count; i++)
            measure_choice(&choices[i]);
    begin_products();
    for (int i = 0; i < count; i++)
        show_choice(&choices[i]);
    free(choices);
}

#endif
