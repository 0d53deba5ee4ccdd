/* The stack below a call: how deep it goes, which secrets stay there in plain, whether the remedy of
 * include/smallwood_wipe.h leaves anything of it, and whether a call dies at a guard page (stack.sh).
 *
 *     stack depth ENTRY BOUND    the most bytes that the entry takes, of all sizes; exit status 1 where it is over the
 *                                bound
 *     stack remains              secrets that stay after each entry that is lent some; exit status 1 where none stay
 *                                after a commit: then this program does not see them
 *     stack wiped                the remedy after each of these entries; exit status 1 where it leaves anything but
 *                                zeros and paint, or in its own frame a secret
 *     stack unwiped              the same without the remedy
 *     stack guard                each entry on stacks that are too small; exit status 1 where one gets past a guard
 *                                page
 *
 * All inputs are drawn from a fixed seed, so that every run finds the same secrets. */
#define _GNU_SOURCE
#include <stdio.h>
#include <stdlib.h>
#include <string.h>

#include "guard_page.h"
#include "secret_words.h"
#include "stack_calls.h"

#define FRAME_BYTES 128 /* of the remedy's own frames, below its caller: not overwritten */

static struct stack_call call_on_stack(enum entry entry, size_t size, uint32_t draw, int wiped)
{
    struct stack_call c = on_painted_stack(prepare_numbered(entry, size, draw), wiped);

    run_call(&c);
    return c;
}

/* ---- Depth --------------------------------------------------------------------------------------- */

static size_t greatest_depth(enum entry entry)
{
    size_t most = 0;

    for (size_t n = 0; n < size_count(entry); n++) {
        struct stack_call c = call_on_stack(entry, n, 0, 0);
        most = depth_of(&c) > most ? depth_of(&c) : most;
        end_call(&c);
    }
    return most;
}

static int show_depth(enum entry entry, size_t bound)
{
    size_t most = greatest_depth(entry);

    printf("| %s | %zu | %zu | %s |\n", entry_names[entry], most, bound, most <= bound ? "" : "over it");
    return most <= bound;
}

/* ---- What stays ---------------------------------------------------------------------------------- */

/* Of each part of the secrets, how many stand in plain below the mark: where another call with other secrets has one of
 * the same part at the same place, so that none is there by chance. A secret at two places counts twice. */
static void count_remains(const struct stack_call *c, const struct stack_call *other, size_t *counts)
{
    struct secret_words secrets = secrets_after(&c->lent), others = secrets_after(&other->lent);

    for (size_t below = depth_of(c); below >= 8; below--) {
        const struct secret_word *one = word_at(&secrets, c->mark - below);
        const struct secret_word *two = one == NULL ? NULL : word_at(&others, other->mark - below);
        if (two != NULL && one->part == two->part)
            counts[one->part]++;
    }
    free(secrets.words);
    free(others.words);
}

static size_t show_remains(enum entry entry, size_t size)
{
    struct stack_call c = call_on_stack(entry, size, 0, 0), other = call_on_stack(entry, size, 1, 0);
    size_t counts[NAMED_PARTS] = {0}, sum = 0;
    struct part parts[NAMED_PARTS];

    count_remains(&c, &other, counts);
    print_lent(&c.lent);
    printf("| %zu |", depth_of(&c));
    for (size_t i = 0, n = kept_secrets(&c.lent, parts); i < n; i++) {
        if (counts[i] > 0)
            printf("%s %s %zu", sum > 0 ? "," : "", parts[i].name, counts[i]);
        sum += counts[i];
    }
    puts(" |");
    end_call(&c);
    end_call(&other);
    return sum;
}

static int show_all_remains(void)
{
    size_t after_commit = 0;

    for (enum entry entry = 0; entry < SECRET_ENTRIES; entry++)
        for (size_t n = 0; n < size_count(entry); n++) {
            size_t found = show_remains(entry, n);
            after_commit += entry == COMMIT ? found : 0;
        }
    return after_commit > 0;
}

/* ---- The remedy ---------------------------------------------------------------------------------- */

static int is_clean(uint8_t byte)
{
    return byte == 0 || byte == PAINT;
}

/* What is found below the marks of calls with the remedy. */
struct left {
    size_t bytes;   /* neither zero nor paint, below the remedy's own frames */
    size_t frame;   /* how far down from the mark such a byte is, in these frames */
    size_t secrets; /* in these frames */
};

static void look(const struct stack_call *c, struct left *left)
{
    struct secret_words secrets = secrets_after(&c->lent);

    for (const uint8_t *at = lowest_touched(c->stack, STACK_BYTES); at < c->mark - FRAME_BYTES; at++)
        left->bytes += !is_clean(*at);
    for (size_t below = FRAME_BYTES; below > left->frame; below--)
        if (!is_clean(c->mark[-(ptrdiff_t)below]))
            left->frame = below;
    for (size_t below = FRAME_BYTES; below >= 8; below--)
        left->secrets += word_at(&secrets, c->mark - below) != NULL;
    free(secrets.words);
}

static int show_left(enum entry entry, int wiped)
{
    struct left left = {0, 0, 0};

    for (size_t n = 0; n < size_count(entry); n++) {
        struct stack_call c = call_on_stack(entry, n, 0, wiped);
        look(&c, &left);
        end_call(&c);
    }
    printf("| %s | %zu | %zu | %zu | %zu |\n", entry_names[entry], size_count(entry), left.bytes, left.frame,
           left.secrets);
    return left.bytes == 0 && left.secrets == 0;
}

/* A function that holds secrets in an array of its own, which it overwrites last. */
static void hold(void *data)
{
    struct stack_call *c = data;
    uint32_t held[64];

    memcpy(held, c->lent.a->coefficients, sizeof held);
    __asm__ volatile("" : : "r"(held) : "memory");
    if (c->wiped)
        smallwood_wipe(held, sizeof held);
}

static int show_held(int wiped)
{
    struct stack_call c = on_painted_stack(prepare(COMMIT, MIDDLE_SIZES, 0), wiped);
    struct part parts[MOST_PARTS];
    struct secret_words secrets;
    size_t found = 0;

    secrets_of(&c.lent, parts);
    secrets = words_of(&parts[COEFFICIENTS_PART], 1);
    run_on_stack(c.stack, STACK_BYTES, hold, &c);
    for (const uint8_t *at = lowest_touched(c.stack, STACK_BYTES); at <= c.stack + STACK_BYTES - 8; at++)
        found += word_at(&secrets, at) != NULL;
    printf("| an array | 1 | | | %zu |\n", found);
    free(secrets.words);
    end_call(&c);
    return found == 0;
}

/* ---- The guard page ------------------------------------------------------------------------------ */

#define ROOM_STEP 256 /* bytes from one trial to the next */

static void show_guarded(const char *name, size_t depth, const size_t *outcomes)
{
    printf("| %s | %zu | %zu | %zu | %zu | %zu |\n", name, depth, outcomes[DIED_AT_GUARD], outcomes[WORKED],
           outcomes[DIED_ELSEWHERE], outcomes[GOT_PAST]);
    fflush(stdout);
}

static int is_done(void *data)
{
    return ((struct stack_call *)data)->number == DONE;
}

/* With less room than it takes the entry dies at the guard page, otherwise it works. */
static int guard_entry(enum entry entry)
{
    size_t size = entry == INTERPOLATE ? SAMPLE_COUNTS - 1 : (size_t)(&MIDDLE_SIZES - secret_sizes);
    struct stack_call c = call_on_stack(entry, size, 0, 0);
    size_t depth = depth_of(&c), above = (size_t)(c.stack + STACK_BYTES - c.mark), outcomes[GOT_PAST + 1] = {0};
    int good = 1;

    c.number = ~0u;
    for (size_t room = 0; room < depth + 2 * ROOM_STEP; room += ROOM_STEP) {
        enum guard_outcome outcome = run_guarded(above + room, callers[entry], is_done, &c);
        outcomes[outcome]++;
        good &= outcome == (room < depth ? DIED_AT_GUARD : WORKED);
    }
    show_guarded(entry_names[entry], depth, outcomes);
    end_call(&c);
    return good;
}

/* A frame that is not probed. */
static void step_over(void *data)
{
    struct stack_call *c = data;

    SET_MARK(c);
    c->mark[-20000] = 0;
}

static int guard_control(void)
{
    struct stack_call c = {.number = 0};
    size_t outcomes[GOT_PAST + 1] = {0};

    outcomes[run_guarded(8192, step_over, is_done, &c)]++;
    show_guarded("not probed", 20000, outcomes);
    return outcomes[GOT_PAST] == 1;
}

static void wipe_alone(void *data)
{
    SET_MARK((struct stack_call *)data);
    smallwood_wipe_stack();
}

/* The remedy has to keep to that, too. */
static int guard_remedy(void)
{
    struct stack_call c = {.number = DONE};
    size_t outcomes[GOT_PAST + 1] = {0}, rooms = 0;

    for (size_t room = 512; room < SMALLWOOD_WIPED_STACK; room += ROOM_STEP, rooms++)
        outcomes[run_guarded(room, wipe_alone, is_done, &c)]++;
    printf("| nothing, %zu small stacks | | %zu past a guard page | | |\n", rooms, rooms - outcomes[DIED_AT_GUARD]);
    return outcomes[DIED_AT_GUARD] == rooms;
}

static int show_all_left(int wiped)
{
    int good = 1;

    for (enum entry entry = 0; entry < SECRET_ENTRIES; entry++)
        good &= show_left(entry, wiped);
    good &= show_held(wiped);
    return wiped ? good & guard_remedy() : good;
}

static int show_guard(void)
{
    int good = 1;

    for (enum entry entry = 0; entry < ENTRY_COUNT; entry++)
        good &= guard_entry(entry);
    return good & guard_control();
}

int main(int count, char **words)
{
    const char *mode = count > 1 ? words[1] : "";

    if (count == 4 && strcmp(mode, "depth") == 0)
        for (enum entry entry = 0; entry < ENTRY_COUNT; entry++)
            if (strcmp(entry_names[entry], words[2]) == 0)
                return !show_depth(entry, (size_t)atol(words[3]));
    if (count == 2 && strcmp(mode, "remains") == 0)
        return !show_all_remains();
    if (count == 2 && (strcmp(mode, "wiped") == 0 || strcmp(mode, "unwiped") == 0))
        return !show_all_left(strcmp(mode, "wiped") == 0);
    if (count == 2 && strcmp(mode, "guard") == 0)
        return !show_guard();
    fail("usage: stack depth ENTRY BOUND | remains | wiped | unwiped | guard");
}
