/* Calls with secrets marked as undefined: valgrind's memcheck reports each branch and each address that depends on them
 * (timing.sh, which reads the places of the reports from valgrind's log).
 *
 *     marked commit | open | prove | interpolate    rows of a table: what was marked, the number returned, the reports;
 *                                                   exit status 1 where a row is not as it has to be
 *     marked draw                                   the same of smallwood_draw_elements
 *     marked control NAME                           a call that has to be reported, NAME being one of `controls` below:
 *                                                   its row; exit status 1 where it is not reported
 *     marked controls                               their names
 *
 * One branch of a call may depend on secrets: whether all lent words are below q; of a draw, for each word by itself,
 * whether it is. What a call leaves has to be right, and undefined, so that no mark was lost on the way. */
#include <stdio.h>
#include <string.h>
#include <valgrind/memcheck.h>

#include "../include/smallwood_draw.h"
#include "secrets.h"

#define OLD_BYTE 0xcc /* stands where a call is to write */
#define ALL_PARTS (~0u)
#define UNANSWERED_PARTS (PART(NONCES_PART) | PART(TABLE_PART) | PART(TREE_PART)) /* no answer comes from them */

/* ---- A call with marks --------------------------------------------------------------------------- */

#define MOST_OUTPUTS 2

static size_t outputs_of(const struct lent *lent, struct part *parts)
{
    struct instance *a = lent->a;

    switch (lent->entry) {
    case COMMIT:
        parts[0] = (struct part){"table", a->table, 4 * a->table_count, 1};
        parts[1] = (struct part){"tree", a->tree, a->tree_bytes, 0};
        return 2;
    case OPEN:
        parts[0] = (struct part){"reply", a->reply, a->reply_bytes, 0};
        return 1;
    case PROVE:
        parts[0] = (struct part){"proof", a->proof, a->proof_bytes, 0};
        return 1;
    default:
        parts[0] = (struct part){"coefficients", lent->x->coefficients, 4 * lent->x->count, 1};
        return 1;
    }
}

/* What a call has to return and to leave: what plain C does. */
struct expected {
    uint32_t number;
    size_t count;
    struct part outputs[MOST_OUTPUTS];
    uint8_t *right[MOST_OUTPUTS];
};

static struct expected expect(const struct lent *lent, uint32_t number)
{
    struct expected e = {.number = number};

    e.count = outputs_of(lent, e.outputs);
    for (size_t i = 0; i < e.count; i++)
        memset(e.outputs[i].at, OLD_BYTE, e.outputs[i].bytes);
    if (call(&plain, lent) != number)
        fail("plain C returns another number than expected");
    for (size_t i = 0; i < e.count; i++) {
        e.right[i] = allocate(e.outputs[i].bytes);
        memcpy(e.right[i], e.outputs[i].at, e.outputs[i].bytes);
        memset(e.outputs[i].at, OLD_BYTE, e.outputs[i].bytes);
    }
    return e;
}

static int is_undefined(const struct part *part)
{
    uint8_t *bits = allocate(part->bytes);
    size_t i = 0;

    if (VALGRIND_GET_VBITS(part->at, bits, part->bytes) != 1)
        fail("memcheck does not tell what is defined: this program is to be run by timing.sh");
    while (i < part->bytes && bits[i] != 0)
        i++;
    free(bits);
    return i == part->bytes;
}

struct outcome {
    unsigned reports;
    int right, undefined; /* what it leaves, the latter throughout */
};

/* The call with the chosen ones of these parts marked. Everything is defined after it. */
static struct outcome call_marked(const struct implementation *with, const struct lent *lent, struct expected *e,
                                  const struct part *parts, size_t count, unsigned chosen)
{
    struct outcome found = {0, 1, 1};
    unsigned before = VALGRIND_COUNT_ERRORS;
    uint32_t number;

    for (size_t i = 0; i < count; i++)
        if (chosen >> i & 1)
            (void)VALGRIND_MAKE_MEM_UNDEFINED(parts[i].at, parts[i].bytes);
    number = call(with, lent);
    found.reports = VALGRIND_COUNT_ERRORS - before;
    for (size_t i = 0; i < count; i++)
        (void)VALGRIND_MAKE_MEM_DEFINED(parts[i].at, parts[i].bytes);
    (void)VALGRIND_MAKE_MEM_DEFINED(&number, sizeof number);
    found.right = number == e->number;
    for (size_t i = 0; i < e->count; i++) {
        found.undefined &= is_undefined(&e->outputs[i]);
        (void)VALGRIND_MAKE_MEM_DEFINED(e->outputs[i].at, e->outputs[i].bytes);
        found.right &= memcmp(e->outputs[i].at, e->right[i], e->outputs[i].bytes) == 0;
        free(e->right[i]);
    }
    return found;
}

/* ---- Rows ---------------------------------------------------------------------------------------- */

static void print_row(const struct lent *lent, const char *what, uint32_t number, unsigned reports, int good)
{
    print_lent(lent);
    printf("| %s | %u | %u | %s |\n", what, number, reports, good ? "" : "not as it has to be");
    fflush(stdout);
}

/* A call that is to return the number and to be reported so often. Returns whether it does and is. */
static int show_row(const struct lent *lent, const char *what, unsigned chosen, uint32_t number, unsigned reports)
{
    struct part parts[MOST_PARTS];
    size_t count = secrets_of(lent, parts);
    struct expected e = expect(lent, number);
    struct outcome found = call_marked(&library, lent, &e, parts, count, chosen);
    int all = chosen == ALL_PARTS && number == DONE;
    int good = found.right && found.reports == reports && (!all || found.undefined);

    print_row(lent, what, number, found.reports, good);
    return good;
}

/* Each part marked alone; then all, with a word not below q in each part. */
static int show_details(const struct lent *lent)
{
    struct part parts[MOST_PARTS];
    size_t count = secrets_of(lent, parts);
    char what[64];
    int good = 1;

    for (size_t i = 0; i < count; i++) {
        snprintf(what, sizeof what, "%s alone", parts[i].name);
        good &= show_row(lent, what, PART(i), DONE, parts[i].elements);
    }
    for (size_t i = 0; i < count; i++)
        if (parts[i].elements) {
            uint32_t *last = (uint32_t *)parts[i].at + parts[i].bytes / 4 - 1, kept = *last;
            *last = Q;
            snprintf(what, sizeof what, "all, q in %s", parts[i].name);
            good &= show_row(lent, what, ALL_PARTS, BAD_ELEMENT, 1);
            *last = kept;
        }
    return good;
}

/* Of a prove what enters the answers is not marked: see the control. */
static int show_entry(enum entry entry)
{
    int good = 1;

    for (size_t n = 0; n < SECRET_SIZES; n++) {
        struct lent lent = prepare(entry, secret_sizes[n], 0);
        if (entry == PROVE)
            good &= show_row(&lent, "table, nonces, tree", UNANSWERED_PARTS, DONE, 1);
        else
            good &= show_row(&lent, "all", ALL_PARTS, DONE, 1);
        if (&secret_sizes[n] == &MIDDLE_SIZES && entry != PROVE)
            good &= show_details(&lent);
        release(&lent);
    }
    return good;
}

static int show_samples(struct lent lent)
{
    int good = show_row(&lent, "all", ALL_PARTS, number_of(&lent), 1);

    if (lent.x->count == MOST_SAMPLES && !lent.x->equal)
        good &= show_details(&lent);
    release(&lent);
    return good;
}

static int show_interpolation(void)
{
    int good = 1;

    for (size_t n = 0; n < SAMPLE_COUNTS; n++)
        good &= show_samples(prepare_samples(sample_counts[n], 0));
    return good & show_samples(prepare_equal_samples(MOST_SAMPLES, 0));
}

/* ---- Drawing ------------------------------------------------------------------------------------- */

#define DRAWN 320

/* What the source gives: the elements but for the fourth and the last, and then what these are drawn again as. */
static uint32_t elements[DRAWN], random_words[DRAWN + 4], *next_word = random_words;

static int give_words(void *context, void *to, size_t count)
{
    (void)context;
    memcpy(to, next_word, count);
    next_word += count / sizeof *next_word;
    return 0;
}

/* Apart, so that the places of the reports have a name. */
__attribute__((noinline)) static int draw_marked(void)
{
    return smallwood_draw_elements(elements, DRAWN, give_words, NULL);
}

/* A word is tested once, the four that are drawn again too. */
static int show_draw(void)
{
    static uint32_t right[DRAWN];
    struct part drawn = {"elements", elements, sizeof elements, 1};
    unsigned before, reports;
    int number, good;

    for (size_t i = 0; i < DRAWN + 4; i++)
        random_words[i] = draw_below(Q);
    memcpy(right, random_words, sizeof right);
    right[3] = random_words[DRAWN + 1];
    right[DRAWN - 1] = random_words[DRAWN + 3];
    random_words[3] = random_words[DRAWN + 2] = Q;
    random_words[DRAWN] = random_words[DRAWN - 1] = ~(uint32_t)0;
    (void)VALGRIND_MAKE_MEM_UNDEFINED(random_words, sizeof random_words);
    before = VALGRIND_COUNT_ERRORS;
    number = draw_marked();
    reports = VALGRIND_COUNT_ERRORS - before;
    good = number == 0 && reports == DRAWN + 4 && is_undefined(&drawn);
    (void)VALGRIND_MAKE_MEM_DEFINED(elements, sizeof elements);
    good &= memcmp(elements, right, sizeof right) == 0;
    printf("| draw_elements | %d elements | random bytes | %d | %u | %s |\n", DRAWN, number, reports, good ? "" : "not as it has to be");
    return good;
}

/* ---- Controls: what has to be reported ----------------------------------------------------------- */

static int control_call(const struct implementation *with, struct lent lent, const char *what, const struct part *parts,
                        size_t count)
{
    struct expected e = expect(&lent, DONE);
    struct outcome found = call_marked(with, &lent, &e, parts, count, ALL_PARTS);
    int good = found.right && found.reports > 1;

    print_row(&lent, what, DONE, found.reports, good);
    release(&lent);
    return good;
}

/* No secrets: a question's; and the points of an interpolate. */
static int control_question(void)
{
    struct lent lent = prepare(OPEN, MIDDLE_SIZES, 0);
    struct instance *a = lent.a;
    struct part asked = {"", a->question + NAMING_BYTES, a->question_bytes - NAMING_BYTES, 0};

    return control_call(&library, lent, "challenges, points, indices", &asked, 1);
}

static int control_points(void)
{
    struct lent lent = prepare_samples(MOST_SAMPLES, 0);
    struct part points = {"", lent.x->points, 4 * lent.x->count, 1};

    return control_call(&library, lent, "points", &points, 1);
}

/* Secrets that enter the answers, which a proof shows: counter and leaves are drawn by hashing these. */
static int control_prove(void)
{
    struct lent lent = prepare(PROVE, MIDDLE_SIZES, 0);
    struct part parts[MOST_PARTS];

    return control_call(&library, lent, "all", parts, secrets_of(&lent, parts));
}

/* A program that takes no care: it tests slice after slice, and branches where a difference borrows. */
static int control_plain(void)
{
    struct lent lent = prepare(COMMIT, MIDDLE_SIZES, 0);
    struct part parts[MOST_PARTS];

    return control_call(&plain, lent, "all, in plain C", parts, secrets_of(&lent, parts));
}

static volatile uint32_t noticed, looked_up[2];

__attribute__((noinline)) static void branch_on(uint32_t secret)
{
    if (secret & 1)
        noticed = 1;
}

__attribute__((noinline)) static void look_up(uint32_t secret)
{
    noticed = looked_up[secret & 1];
}

static int control_function(const char *name, void (*function)(uint32_t))
{
    uint32_t secret = draw_below(Q);
    unsigned before = VALGRIND_COUNT_ERRORS, reports;

    (void)VALGRIND_MAKE_MEM_UNDEFINED(&secret, sizeof secret);
    function(secret);
    reports = VALGRIND_COUNT_ERRORS - before;
    printf("| %s | | its word | | %u | %s |\n", name, reports, reports == 1 ? "" : "not as it has to be");
    return reports == 1;
}

static int control_branch(void)
{
    return control_function("branch_on", branch_on);
}

static int control_address(void)
{
    return control_function("look_up", look_up);
}

static const struct control {
    const char *name;
    int (*run)(void);
} controls[] = {
    {"question", control_question}, {"points", control_points}, {"prove", control_prove},
    {"plain", control_plain}, {"branch", control_branch}, {"address", control_address},
};

#define CONTROLS (sizeof controls / sizeof controls[0])

int main(int count, char **words)
{
    const char *mode = count > 1 ? words[1] : "";

    if (count == 2 && strcmp(mode, "controls") == 0) {
        for (size_t i = 0; i < CONTROLS; i++)
            puts(controls[i].name);
        return 0;
    }
    if (!RUNNING_ON_VALGRIND)
        fail("marks are seen under valgrind only");
    if (count == 3 && strcmp(mode, "control") == 0)
        for (size_t i = 0; i < CONTROLS; i++)
            if (strcmp(controls[i].name, words[2]) == 0)
                return !controls[i].run();
    if (count == 2 && strcmp(mode, "draw") == 0)
        return !show_draw();
    for (enum entry entry = 0; count == 2 && entry < SECRET_ENTRIES; entry++)
        if (strcmp(entry_names[entry], mode) == 0)
            return !(entry == INTERPOLATE ? show_interpolation() : show_entry(entry));
    fail("usage: marked commit | open | prove | interpolate | draw | control NAME | controls");
}
