/* What can be computed from the dead stack after a call, beyond what the call shows: words there that are affine
 * functions of the lent words modulo q, and the secrets that follow from them (stack.sh).
 *
 *     stack_equations          rows of a table; exit status 1 where after a commit not every mask follows: then this
 *                              program does not see what is there
 *     stack_equations wiped    after the remedy: only rows where the stack gives anything; exit status 1 where one is
 *
 * The same call is made with many drawn secrets, all else being equal. A word is then a vector: its values in all these
 * calls. It is an affine function of the secrets where it is in the span of their vectors and 1; there are more calls
 * than secrets, so that no other word is there but by chance (q^-6). A secret can be computed where its vector is in
 * the span of such words. Words of 4 and of 8 bytes are looked at, at aligned places. Not seen are registers, what
 * depends on secrets in another way, as digests do, and of a prove what depends on the leaves that it draws. */
#define _GNU_SOURCE
#include <stdio.h>
#include <stdlib.h>
#include <string.h>

#include "span.h"
#include "stack_calls.h"

#define MOST_SECRETS 320 /* sizes with more are left out */
#define MORE_CALLS 6

/* ---- Calls with drawn secrets -------------------------------------------------------------------- */

/* Vectors have one entry to a call. */
struct calls {
    struct lent lent;
    struct part parts[MOST_PARTS]; /* what is drawn: words */
    size_t part_count, secret_count, shown_count, dead_bytes, count;
    uint32_t **secrets, **shown;
    uint8_t **dead; /* to a call, the bytes below its mark */
};

static uint32_t **make_vectors(size_t count, size_t length)
{
    uint32_t **vectors = allocate(count * sizeof *vectors);

    for (size_t i = 0; i < count; i++)
        vectors[i] = allocate(4 * length);
    return vectors;
}

static void free_all(void *blocks, size_t count)
{
    void **block = blocks;

    for (size_t i = 0; i < count; i++)
        free(block[i]);
    free(blocks);
}

/* The table follows from the words. The tree stays, so that its root is the question's. */
static void draw_secrets(struct calls *calls, size_t call)
{
    struct instance *a = calls->lent.a;
    size_t next = 0;
    uint8_t *tree;

    for (size_t p = 0; p < calls->part_count; p++)
        for (size_t i = 0; i < calls->parts[p].bytes / 4; i++)
            calls->secrets[next++][call] = ((uint32_t *)calls->parts[p].at)[i] = draw_below(Q);
    if (a == NULL || calls->lent.entry == COMMIT)
        return;
    tree = a->tree;
    a->tree = allocate(a->tree_bytes);
    call_plain(calls->lent, COMMIT);
    free(a->tree);
    a->tree = tree;
}

/* The words that a reply or a proof shows: its answers, and the values of l leaves. A prove draws others with each
 * call; those of the question stand for them. */
static void keep_shown(struct calls *calls, size_t call)
{
    const struct instance *a = calls->lent.a;
    const uint8_t *answers = calls->lent.entry == OPEN ? a->reply : a->proof + COUNTER_BYTES;
    size_t next = 0, record = record_of(&a->s);

    for (; next < width_of(&a->s) * (a->s.eta + a->s.m); next++)
        memcpy(&calls->shown[next][call], answers + 4 * next, 4);
    for (uint32_t b = 0; b < a->s.l; b++)
        for (size_t i = 0; i < record; i++)
            calls->shown[next++][call] = a->table[a->indices[b] * record + i];
}

static void run_calls(struct calls *calls, struct stack_call *c)
{
    calls->count = calls->secret_count + 1 + MORE_CALLS;
    calls->secrets = make_vectors(calls->secret_count, calls->count);
    calls->shown = make_vectors(calls->shown_count, calls->count);
    calls->dead = allocate(calls->count * sizeof *calls->dead);
    run_call(c);
    calls->dead_bytes = (depth_of(c) + 15) / 16 * 16;
    for (size_t t = 0; t < calls->count; t++) {
        draw_secrets(calls, t);
        run_call(c);
        calls->dead[t] = allocate(calls->dead_bytes);
        memcpy(calls->dead[t], c->mark - calls->dead_bytes, calls->dead_bytes);
        if (calls->shown_count > 0)
            keep_shown(calls, t);
    }
}

static struct calls make_calls(struct stack_call *c)
{
    struct calls calls = {.lent = c->lent};
    const struct instance *a = c->lent.a;

    secrets_of(&calls.lent, calls.parts);
    calls.part_count = a == NULL ? 1 : MASKS_PART + 1;
    for (size_t p = 0; p < calls.part_count; p++)
        calls.secret_count += calls.parts[p].bytes / 4;
    if (c->lent.entry == OPEN || c->lent.entry == PROVE)
        calls.shown_count = width_of(&a->s) * (a->s.eta + a->s.m) + a->s.l * record_of(&a->s);
    if (calls.secret_count <= MOST_SECRETS)
        run_calls(&calls, c);
    return calls;
}

static void free_calls(struct calls *calls)
{
    if (calls->count == 0)
        return;
    free_all(calls->secrets, calls->secret_count);
    free_all(calls->shown, calls->shown_count);
    free_all(calls->dead, calls->count);
}

/* ---- Spans --------------------------------------------------------------------------------------- */

static struct span span_of(uint32_t **vectors, size_t count, size_t length)
{
    struct span s = make_span(length);
    uint32_t *ones = allocate(4 * length);

    for (size_t i = 0; i < length; i++)
        ones[i] = 1;
    extend(&s, ones);
    for (size_t i = 0; i < count; i++)
        extend(&s, vectors[i]);
    free(ones);
    return s;
}

/* The vector of the word of so many bytes at a place; returns whether it is not the same in all calls. */
static int read_word(const struct calls *calls, size_t place, size_t bytes, uint32_t *vector)
{
    int differs = 0;

    for (size_t t = 0; t < calls->count; t++) {
        uint64_t word = 0;
        memcpy(&word, calls->dead[t] + place, bytes);
        vector[t] = (uint32_t)(word % Q);
        differs |= vector[t] != vector[0];
    }
    return differs;
}

/* Adds what the dead stack gives. */
static void add_stack(const struct calls *calls, struct span *s)
{
    struct span affine = span_of(calls->secrets, calls->secret_count, calls->count);
    uint32_t *vector = allocate(4 * calls->count);

    for (size_t bytes = 4; bytes <= 8; bytes *= 2)
        for (size_t place = 0; place < calls->dead_bytes; place += bytes)
            if (read_word(calls, place, bytes, vector) && is_in(&affine, vector))
                extend(s, vector);
    free(vector);
    free_span(&affine);
}

/* ---- Rows of the table --------------------------------------------------------------------------- */

/* What is shown, and that with what the dead stack gives. */
struct known {
    struct span shown, both;
};

/* How many of these secrets can be computed, but not from what is shown. */
static size_t count_computed(const struct known *known, uint32_t **secrets, size_t count)
{
    size_t computed = 0;

    for (size_t i = 0; i < count; i++)
        computed += is_in(&known->both, secrets[i]) && !is_in(&known->shown, secrets[i]);
    return computed;
}

/* A row of the table; returns how many there are of the last part. */
static size_t print_row(const struct calls *calls, const struct known *known)
{
    size_t next = 0, computed = 0;

    print_lent(&calls->lent);
    printf("| %zu | %zu | %zu |", calls->secret_count, known->shown.rank - 1, known->both.rank - known->shown.rank);
    for (size_t p = 0; p < calls->part_count; p++) {
        size_t count = calls->parts[p].bytes / 4;
        computed = count_computed(known, calls->secrets + next, count);
        next += count;
        if (computed > 0)
            printf(" %s %zu of %zu", calls->parts[p].name, computed, count);
    }
    puts(" |");
    return computed;
}

/* Returns whether it is as it has to be: after the remedy nothing is given, and without it a commit's masks are. */
static int show_row(const struct calls *calls, int wiped)
{
    struct known known;
    int good = 1;

    known.shown = span_of(calls->shown, calls->shown_count, calls->count);
    known.both = span_of(calls->shown, calls->shown_count, calls->count);
    add_stack(calls, &known.both);
    if (wiped)
        good = known.both.rank == known.shown.rank;
    if (!wiped || !good) {
        size_t masks = print_row(calls, &known);
        good &= calls->lent.entry != COMMIT || masks == calls->lent.a->mask_count;
    }
    free_span(&known.shown);
    free_span(&known.both);
    return good;
}

static int show_calls(struct lent lent, int wiped)
{
    struct stack_call c = on_painted_stack(lent, wiped);
    struct calls calls = make_calls(&c);
    int good = calls.count == 0 || show_row(&calls, wiped);

    free_calls(&calls);
    end_call(&c);
    return good;
}

int main(int count, char **words)
{
    int wiped = count == 2 && strcmp(words[1], "wiped") == 0, good = 1;

    if (count > 1 && !wiped)
        fail("usage: stack_equations [wiped]");
    for (enum entry entry = 0; entry < SECRET_ENTRIES; entry++)
        for (size_t n = 0; n < size_count(entry); n++)
            good &= show_calls(prepare_numbered(entry, n, 0), wiped);
    good &= show_calls(prepare_equal_samples(MOST_SAMPLES, 0), wiped);
    return !good;
}
