/* Verdicts without a restart:  soak FILE SECONDS
 *
 * FILE has inputs of the check, of the check of a proof and of the interpolation with their expected outcomes
 * (soak_inputs.py). They are called in drawn order. In between, questions are drawn for commitments made at the
 * start: the reply's length and the check's permutations must be the counted ones, the opener's reply must be
 * accepted with the polynomials' values, and the same reply with one bit changed must be refused with the number
 * that the bit's place tells.
 * Then a proof is made for the same points: it must be accepted with the same values, as it is and as a reply in
 * the conversation, with one bit changed behind its answers it must be refused, and with its counter for a limit
 * the prover must find none. With one bit of the salt changed, lent or in the question, opener and prover must
 * refuse and write nothing, and with it changed in the question so must the checks. A drawn polynomial's values
 * at drawn points must give its coefficients, and be refused with one word or two points changed. Every number,
 * every byte of the value buffer and every lent coefficient is compared. From the end of a first pass over all
 * inputs on, the resident memory must not grow.
 * Exit status 1 after a difference or growth. */
#define _POSIX_C_SOURCE 200809L
#include <inttypes.h>
#include <stdio.h>
#include <stdlib.h>
#include <string.h>
#include <time.h>

#include "instance.h"
#include "plain/converse.h"
#include "plain/shake.h"

ENTRIES(smallwood);

#define GUARD 64
#define GUARD_BYTE 0xa5
#define ALLOWED_GROWTH 256 /* kB of resident memory: what the C library and the kernel may need */
#define FRESH_EVERY 64     /* checks from the file to one drawn question and one drawn interpolation */
#define INTERPOLATIONS 8   /* and interpolations from the file to these */
#define NUMBERS 14         /* that a call may return, from 0 on */
#define MOST_KAPPA 8       /* of a drawn proof */
#define MAX_QUESTION 255
#define MOST_SAMPLES 320   /* of a drawn interpolation */
#define BEGINNING 10       /* seconds with a line each; later one after LINE_EVERY, and a sample a second */
#define LINE_EVERY 9       /* so that never ten pass without one */

static void differ(const char *what, size_t number, uint32_t found, uint32_t expected)
{
    printf("soak: DIFFERENT: %s %zu returned %" PRIu32 ", expected %" PRIu32 "\n", what, number,
           found, expected);
    exit(1);
}

/* ---- One call, in buffers of the program's whole life -------------------------------------------- */

static uint8_t *values; /* between guard bytes */
static size_t values_room;
static uint64_t verdicts, by_number[NUMBERS];

static uint32_t counted(uint32_t number)
{
    verdicts++;
    by_number[number < NUMBERS ? number : NUMBERS - 1]++;
    return number;
}

static void expect_guards(const uint8_t *from, size_t bytes)
{
    for (size_t i = 0; i < GUARD; i++)
        if (from[-1 - (ptrdiff_t)i] != GUARD_BYTE || from[bytes + i] != GUARD_BYTE) {
            puts("soak: DIFFERENT: bytes beside a buffer changed");
            exit(1);
        }
}

/* What is checked: a reply, or a proof under its kappa. */
struct checked {
    uint32_t is_proof, kappa;
    const uint8_t *question;
    size_t question_bytes;
    const uint8_t *bytes;
    size_t count;
};

static uint32_t check(const struct checked *c, const uint8_t *before, size_t value_bytes)
{
    uint32_t number;

    if (value_bytes > values_room)
        fail("a value buffer is longer than expected");
    if (value_bytes > 0)
        memcpy(values, before, value_bytes);
    memset(values - GUARD, GUARD_BYTE, GUARD);
    memset(values + value_bytes, GUARD_BYTE, GUARD);
    number = c->is_proof ? smallwood_check_proof(c->question, c->question_bytes, c->kappa, c->bytes,
                                                 c->count, values, value_bytes)
                         : smallwood_check(c->question, c->question_bytes, c->bytes, c->count,
                                           values, value_bytes);
    expect_guards(values, value_bytes);
    return counted(number);
}

static void expect_values(const char *what, size_t number, const uint8_t *expected, size_t bytes)
{
    if (bytes > 0 && memcmp(values, expected, bytes) != 0) {
        printf("soak: DIFFERENT: %s %zu: value buffer\n", what, number);
        exit(1);
    }
}

/* ---- Inputs from the file ------------------------------------------------------------------------ */

struct input {
    struct checked checked;
    uint32_t value_bytes, number;
    const uint8_t *before, *after;
};

static struct input *inputs;
static uint32_t input_count;

static uint8_t *read_file(const char *path, size_t *length)
{
    FILE *file = fopen(path, "rb");
    uint8_t *data;
    long end;

    if (file == NULL || fseek(file, 0, SEEK_END) != 0 || (end = ftell(file)) < 0)
        fail("the file of inputs cannot be read");
    rewind(file);
    *length = (size_t)end;
    data = allocate(*length + 1);
    if (fread(data, 1, *length, file) != *length)
        fail("the file of inputs cannot be read");
    fclose(file);
    return data;
}

static const uint8_t *take(const uint8_t **at, const uint8_t *end, size_t bytes)
{
    const uint8_t *taken = *at;

    if ((size_t)(end - *at) < bytes)
        fail("the file of inputs ends early");
    *at += bytes;
    return taken;
}

/* A number of inputs, at least 1 and at most one for each byte. */
static uint32_t take_count(const uint8_t **at, const uint8_t *end)
{
    uint32_t count;

    memcpy(&count, take(at, end, sizeof count), sizeof count);
    if (count == 0 || count > (size_t)(end - *at))
        fail("the file of inputs is empty or damaged");
    return count;
}

/* Returns what follows. */
static const uint8_t *load_checks(const uint8_t *at, const uint8_t *end)
{
    input_count = take_count(&at, end);
    inputs = allocate(input_count * sizeof *inputs);
    for (uint32_t i = 0; i < input_count; i++) {
        struct input *input = &inputs[i];
        struct checked *c = &input->checked;
        uint32_t head[6];
        memcpy(head, take(&at, end, sizeof head), sizeof head);
        c->is_proof = head[0];
        c->kappa = head[1];
        c->question_bytes = head[2];
        c->count = head[3];
        input->value_bytes = head[4];
        input->number = head[5];
        c->question = take(&at, end, c->question_bytes);
        c->bytes = take(&at, end, c->count);
        input->before = take(&at, end, input->value_bytes);
        input->after = take(&at, end, input->value_bytes);
        if (input->value_bytes > values_room)
            values_room = input->value_bytes;
    }
    return at;
}

static void check_input(uint32_t i)
{
    const struct input *input = &inputs[i];
    uint32_t number = check(&input->checked, input->before, input->value_bytes);

    if (number != input->number)
        differ("input", i, number, input->number);
    expect_values("input", i, input->after, input->value_bytes);
}

/* ---- Interpolations ------------------------------------------------------------------------------ */

/* Words of points, values and coefficients: what is lent, and in `after` the coefficients as they have to be then. */
struct interpolation {
    uint32_t counts[3], number;
    uint32_t *points, *values, *before, *after;
};

static struct interpolation *interpolations;
static uint32_t interpolation_count;
static uint32_t *coefficients; /* between guard bytes */
static size_t coefficients_room = MOST_SAMPLES;
static uint64_t interpolated;

static uint32_t *take_words(const uint8_t **at, const uint8_t *end, size_t count)
{
    uint32_t *words = allocate(4 * count);

    if (count > 0)
        memcpy(words, take(at, end, 4 * count), 4 * count);
    return words;
}

static void load_interpolations(const uint8_t *at, const uint8_t *end)
{
    interpolation_count = take_count(&at, end);
    interpolations = allocate(interpolation_count * sizeof *interpolations);
    for (uint32_t i = 0; i < interpolation_count; i++) {
        struct interpolation *p = &interpolations[i];
        memcpy(p->counts, take(&at, end, sizeof p->counts), sizeof p->counts);
        memcpy(&p->number, take(&at, end, sizeof p->number), sizeof p->number);
        p->points = take_words(&at, end, p->counts[0]);
        p->values = take_words(&at, end, p->counts[1]);
        p->before = take_words(&at, end, p->counts[2]);
        p->after = take_words(&at, end, p->counts[2]);
        if (p->counts[2] > coefficients_room)
            coefficients_room = p->counts[2];
    }
    if (at != end)
        fail("the file of inputs is longer than expected");
}

static void load_inputs(const char *path)
{
    size_t length;
    const uint8_t *data = read_file(path, &length);

    load_interpolations(load_checks(data, data + length), data + length);
    coefficients = (uint32_t *)(void *)((uint8_t *)allocate(4 * coefficients_room + 2 * GUARD) + GUARD);
}

static void expect_interpolation(const char *what, size_t which, const struct interpolation *p)
{
    size_t bytes = 4 * (size_t)p->counts[2];
    uint8_t *room = (uint8_t *)coefficients;
    uint32_t number;

    memset(room - GUARD, GUARD_BYTE, GUARD);
    memset(room + bytes, GUARD_BYTE, GUARD);
    memcpy(room, p->before, bytes);
    interpolated++;
    number = counted(smallwood_interpolate(p->points, p->counts[0], p->values, p->counts[1], coefficients,
                                           p->counts[2]));
    expect_guards(room, bytes);
    if (number != p->number)
        differ(what, which, number, p->number);
    if (memcmp(room, p->after, bytes) != 0) {
        printf("soak: DIFFERENT: %s %zu: coefficients\n", what, which);
        exit(1);
    }
}

static void interpolate_input(uint32_t i)
{
    expect_interpolation("interpolation", i, &interpolations[i]);
}

/* ---- Drawn questions ----------------------------------------------------------------------------- */

static const struct implementation library = IMPLEMENTATION(smallwood);

/* At least two leaves are opened, so that one of them is not leaf 0 and sees every coefficient of R. */
static const struct sizes sizes[] = {
    {2, 1, 1, 1, 2, 1, 1, 0},     {5, 4, 2, 3, 5, 2, 1, 0},        {5, 4, 2, 3, 5, 2, 1, 3},
    {8, 16, 8, 8, 20, 3, 1, 2},   {9, 2, 1, 256, 64, 4, 1, 0},     {9, 2, 1, 256, 64, 4, 1, 2},
    {12, 64, 16, 16, 64, 4, 1, 0}, {12, 48, 256, 1, 64, 4, 1, 16},
};

#define COMMITMENTS (sizeof sizes / sizeof sizes[0])

static struct instance *commitments[COMMITMENTS];
static uint8_t *expected;
static uint64_t opened, proved;

static void make_commitments(void)
{
    for (size_t i = 0; i < COMMITMENTS; i++) {
        uint32_t number;
        commitments[i] = make_instance(sizes[i]);
        number = commit_with(&library, commitments[i]);
        if (number != 0)
            differ("commitment", i, number, 0);
        if (values_room < 4 * MAX_POINTS * (size_t)sizes[i].w)
            values_room = 4 * MAX_POINTS * (size_t)sizes[i].w;
    }
    expected = allocate(values_room);
    values = (uint8_t *)allocate(values_room + 2 * GUARD) + GUARD;
}

static uint32_t value_at(const uint32_t *coefficients, size_t count, uint32_t z)
{
    uint32_t value = 0;

    for (size_t i = count; i-- > 0;)
        value = (uint32_t)((coefficients[i] + (uint64_t)z * value) % Q);
    return value;
}

static int is_among(uint32_t x, const uint32_t *words, size_t count)
{
    for (size_t i = 0; i < count; i++)
        if (words[i] == x)
            return 1;
    return 0;
}

/* A drawn polynomial from its values at drawn points; then with two points equal, and with a word that is no element:
 * coefficients that are not refused stand in the slice then, and stay. */
static void interpolate_fresh(void)
{
    static uint32_t points[MOST_SAMPLES], at[MOST_SAMPLES], drawn[MOST_SAMPLES], before[MOST_SAMPLES];
    uint32_t n = 1 + draw_below(draw_below(4) == 0 ? MOST_SAMPLES : 20), spoilt = draw_below(n);
    struct interpolation p = {{n, n, n}, 0, points, at, before, drawn};

    for (uint32_t i = 0; i < n; i++) {
        do
            points[i] = draw_below(8) == 0 ? draw_below(2 * MOST_SAMPLES) : draw_below(Q);
        while (is_among(points[i], points, i));
        drawn[i] = draw_below(8) == 0 ? 0 : draw_below(Q);
        before[i] = ~draw_below(Q);
    }
    for (uint32_t i = 0; i < n; i++)
        at[i] = value_at(drawn, n, points[i]);
    expect_interpolation("drawn interpolation of size", n, &p);
    p.after = p.before;
    if (n > 1) {
        uint32_t other = (spoilt + 1 + draw_below(n - 1)) % n, kept = points[spoilt];
        points[spoilt] = points[other];
        p.number = 13;
        expect_interpolation("equal points of", n, &p);
        points[spoilt] = kept;
    }
    p.number = 3;
    (draw_below(2) ? points : at)[spoilt] = Q + draw_below(5);
    expect_interpolation("a word over q in", n, &p);
}

/* The polynomials' values, straight from the coefficients. */
static void expect_polynomials(const struct instance *a)
{
    size_t each = coefficients_each(&a->s);
    uint8_t *to = expected;

    for (uint32_t p = 0; p < a->s.m; p++)
        for (uint32_t i = 0; i < a->s.w; i++)
            to = put(to, value_at(a->coefficients + i * each, each, a->points[p]), 4);
}

/* What the check has to return when the byte at this place of an honest reply has been changed. */
static uint32_t number_of_damage(const struct instance *a, const uint8_t *reply, size_t at)
{
    const struct sizes *s = &a->s;
    size_t batchings = 4 * width_of(s) * s->eta, records = batchings + 4 * width_of(s) * s->m;
    size_t record = 4 * record_of(s) + 32;
    uint32_t word;

    if (at >= records + record * s->l)
        return 8; /* a node */
    if (at >= records && (at - records) % record >= record - 32)
        return 8; /* a nonce */
    memcpy(&word, reply + at - at % 4, 4); /* all records have whole words */
    return word >= Q ? 3 : at < batchings ? 9 : at < records ? 10 : 8;
}

static void expect_length(const char *what, size_t which, const struct instance *a)
{
    if (a->length != a->reply_bytes) {
        printf("soak: DIFFERENT: %s %zu: length %" PRIu64 ", expected %zu\n", what, which,
               a->length, a->reply_bytes);
        exit(1);
    }
}

/* The permutations by the strings' lengths: of a leaf its first byte, salt, index, values and nonce. A question without
 * its last byte is refused, and the count stays. */
static void expect_permutations(size_t which, const struct instance *a)
{
    uint64_t leaf = permutations_of(1 + SALT_BYTES + 2 + record_bytes(&a->s));
    uint64_t node = permutations_of(1 + SALT_BYTES + 2 * DIGEST_BYTES);
    uint64_t work = a->s.l * leaf + nodes_above(a) * node, count = 0;
    uint32_t number = smallwood_permutations(a->question, a->question_bytes, &count);

    if (number != 0)
        differ("permutations, commitment", which, number, 0);
    number = smallwood_permutations(a->question, a->question_bytes - 1, &count);
    if (number != 6)
        differ("permutations of a shorter question, commitment", which, number, 6);
    if (count != work) {
        printf("soak: DIFFERENT: permutations, commitment %zu: %" PRIu64 ", expected %" PRIu64 "\n", which, count,
               work);
        exit(1);
    }
}

static uint32_t check_instance(const struct instance *a, const uint8_t *before, size_t value_bytes)
{
    struct checked c = {0, 0, a->question, a->question_bytes, a->reply, a->length};

    return check(&c, before, value_bytes);
}

/* Accepted with the polynomials' values. */
static void expect_accepted(const char *what, size_t which, const struct checked *c, const struct instance *a)
{
    uint32_t number = check(c, a->nonces, a->value_bytes);

    if (number != 0)
        differ(what, which, number, 0);
    expect_values(what, which, expected, a->value_bytes);
}

/* One drawn bit of the salt, lent or in a question. */
struct salt_bit {
    size_t at;
    uint8_t bit;
};

static struct salt_bit draw_salt_bit(void)
{
    struct salt_bit b = {draw_below(SALT_BYTES), (uint8_t)(1u << draw_below(8))};

    return b;
}

static void turn_lent(struct instance *a, struct salt_bit b)
{
    a->salt[b.at] ^= b.bit;
}

static void turn_asked(uint8_t *question, struct salt_bit b)
{
    question[HEADER_BYTES + ROOT_BYTES + b.at] ^= b.bit;
}

/* A refusal with 8 that leaves the buffer, which is all guard bytes, and the length, which is 0. */
static void expect_other_salt(const char *what, size_t which, uint32_t number, const uint8_t *buffer, size_t bytes,
                              const uint64_t *length)
{
    size_t same = 0;

    counted(number);
    if (number != 8)
        differ(what, which, number, 8);
    while (same < bytes && buffer[same] == GUARD_BYTE)
        same++;
    if (same < bytes || *length != 0) {
        printf("soak: DIFFERENT: %s %zu: buffer or length\n", what, which);
        exit(1);
    }
}

/* A call of the opener or the prover with what the instance has. */
typedef uint32_t run(struct instance *a);

static uint32_t run_open(struct instance *a)
{
    return open_with(&library, a);
}

static uint32_t run_prove(struct instance *a)
{
    return prove_with(&library, a, 0, ~0u);
}

/* It is made with another salt lent, then asked for. */
static void other_salt(const char *lent, const char *asked, size_t which, run *call, uint8_t *question,
                       uint8_t *buffer, size_t bytes, uint64_t *length)
{
    struct instance *a = commitments[which];
    struct salt_bit b = draw_salt_bit();

    memset(buffer, GUARD_BYTE, bytes);
    *length = 0;
    turn_lent(a, b);
    expect_other_salt(lent, which, call(a), buffer, bytes, length);
    turn_lent(a, b);
    turn_asked(question, b);
    expect_other_salt(asked, which, call(a), buffer, bytes, length);
    turn_asked(question, b);
}

static void open_other_salt(size_t which)
{
    struct instance *a = commitments[which];

    other_salt("another salt lent, commitment", "another salt asked for, commitment", which, run_open, a->question,
               a->reply, a->reply_bytes, &a->length);
}

static void prove_other_salt(size_t which)
{
    struct instance *a = commitments[which];

    other_salt("proof, another salt lent, commitment", "proof, another salt asked for, commitment", which, run_prove,
               a->proof_question, a->proof, a->proof_bytes, &a->proof_length);
}

/* With its own counter for a limit the prover has none, and leaves buffer and length. */
static void expect_none_below(struct instance *a, uint32_t kappa, uint32_t counter, size_t which)
{
    uint64_t length = a->proof_length;
    uint8_t *kept = allocate(a->proof_bytes);
    uint32_t number;

    memcpy(kept, a->proof, a->proof_bytes);
    number = counted(prove_with(&library, a, kappa, counter));
    if (number != 11 || a->proof_length != length || memcmp(kept, a->proof, a->proof_bytes) != 0)
        differ("no counter, commitment", which, number, 11);
    free(kept);
}

/* A proof for the points of the drawn question. */
static void check_fresh_proof(size_t which)
{
    struct instance *a = commitments[which];
    uint32_t kappa = draw_below(MOST_KAPPA + 1), counter, number, other;
    uint8_t drawn[MAX_QUESTION];
    size_t answers = 4 * width_of(&a->s) * (a->s.eta + a->s.m);
    struct checked c = {1, kappa, a->proof_question, a->proof_question_bytes, a->proof, 0};
    struct checked reply = {0, 0, drawn, 0, a->proof + COUNTER_BYTES, 0};
    struct salt_bit b = draw_salt_bit();

    prove_other_salt(which);
    number = prove_with(&library, a, kappa, ~0u);
    proved++;
    if (number != 0)
        differ("proof of commitment", which, number, 0);
    c.count = a->proof_length;
    reply.count = a->proof_length - COUNTER_BYTES;
    expect_accepted("proof, commitment", which, &c, a);
    turn_asked(a->proof_question, b); /* other leaves are drawn: 7 where their nodes are more or fewer, then 12 or 8 */
    reply.question_bytes = question_of_proof(c.question, c.question_bytes, a->proof, drawn);
    number = check(&reply, expected, a->value_bytes);
    if (number != 7 && number != 8)
        differ("proof as a reply, another salt, commitment", which, number, 8);
    other = check(&c, expected, a->value_bytes);
    if (other != number && !(number == 8 && other == 12))
        differ("proof, another salt, commitment", which, other, number);
    expect_values("proof, another salt, commitment", which, expected, a->value_bytes);
    turn_asked(a->proof_question, b);
    reply.question_bytes = question_of_proof(c.question, c.question_bytes, a->proof, drawn);
    expect_accepted("proof as a reply, commitment", which, &reply, a);
    memcpy(&counter, a->proof, COUNTER_BYTES);
    expect_none_below(a, kappa, counter, which);
    for (int i = 0; i < 4; i++) {
        size_t at = answers + draw_below((uint32_t)(reply.count - answers));
        uint8_t bit = (uint8_t)(1u << draw_below(8));
        a->proof[COUNTER_BYTES + at] ^= bit;
        number = check(&c, expected, a->value_bytes);
        if (number != number_of_damage(a, reply.bytes, at))
            differ("changed bit of a proof, commitment", which, number, number_of_damage(a, reply.bytes, at));
        expect_values("changed bit of a proof, commitment", which, expected, a->value_bytes);
        a->proof[COUNTER_BYTES + at] ^= bit;
    }
}

/* A drawn question: the honest reply, then the reply with one bit changed. */
static void check_fresh(size_t which)
{
    struct instance *a = commitments[which];
    struct salt_bit b = draw_salt_bit();
    uint32_t number;

    set_points(a, 1 + draw_below(MAX_POINTS));
    ask(a);
    expect_polynomials(a);
    a->length = 0;
    number = reply_length_with(&library, a);
    if (number != 0)
        differ("reply length, commitment", which, number, 0);
    expect_length("reply length, commitment", which, a);
    expect_permutations(which, a);
    open_other_salt(which);
    number = open_with(&library, a);
    opened++;
    if (number != 0)
        differ("opening of commitment", which, number, 0);
    expect_length("opening of commitment", which, a);
    number = check_instance(a, expected, 0);
    if (number != 2)
        differ("no value buffer, commitment", which, number, 2);
    number = check_instance(a, a->reply, a->value_bytes);
    if (number != 0)
        differ("honest reply, commitment", which, number, 0);
    expect_values("honest reply, commitment", which, expected, a->value_bytes);
    turn_asked(a->question, b);
    number = check_instance(a, expected, a->value_bytes);
    if (number != 8)
        differ("another salt, commitment", which, number, 8);
    expect_values("another salt, commitment", which, expected, a->value_bytes);
    turn_asked(a->question, b);
    for (int i = 0; i < 4; i++) {
        size_t at = draw_below((uint32_t)a->length);
        uint8_t bit = (uint8_t)(1u << draw_below(8));
        a->reply[at] ^= bit;
        number = check_instance(a, expected, a->value_bytes);
        if (number != number_of_damage(a, a->reply, at))
            differ("changed bit, commitment", which, number, number_of_damage(a, a->reply, at));
        expect_values("changed bit, commitment", which, expected, a->value_bytes);
        a->reply[at] ^= bit;
    }
    check_fresh_proof(which);
}

/* ---- Time and memory ----------------------------------------------------------------------------- */

static double begun, shown; /* shown: the seconds of the last line */

static double seconds(void)
{
    struct timespec t;

    clock_gettime(CLOCK_MONOTONIC, &t);
    return (double)t.tv_sec + 1e-9 * (double)t.tv_nsec - begun;
}

/* VmRSS in kB. */
static long resident(void)
{
    char line[256];
    long size = -1;
    FILE *file = fopen("/proc/self/status", "r");

    if (file == NULL)
        fail("/proc/self/status cannot be read");
    while (fgets(line, sizeof line, file) != NULL)
        if (sscanf(line, "VmRSS: %ld kB", &size) == 1)
            break;
    fclose(file);
    if (size < 0)
        fail("/proc/self/status has no VmRSS");
    return size;
}

static void progress(double elapsed, long size)
{
    shown = elapsed;
    printf("%8.0f s  %" PRIu64 " verdicts (%.0f a second), %" PRIu64 " openings, %" PRIu64 " proofs, %" PRIu64
           " interpolations, VmRSS %ld kB;",
           elapsed, verdicts, (double)verdicts / elapsed, opened, proved, interpolated, size);
    for (int i = 0; i < NUMBERS; i++)
        printf(" %d:%" PRIu64, i, by_number[i]);
    puts("");
    fflush(stdout);
}

static int is_line_due(double elapsed)
{
    return elapsed >= shown + (elapsed < BEGINNING ? 1 : LINE_EVERY);
}

static void show_when_due(void)
{
    double elapsed = seconds();

    if (is_line_due(elapsed))
        progress(elapsed, resident());
}

/* Every input once, and a question for every commitment. */
static void first_pass(void)
{
    for (uint32_t i = 0; i < input_count; i++) {
        check_input(i);
        show_when_due();
    }
    for (uint32_t i = 0; i < interpolation_count; i++) {
        interpolate_input(i);
        show_when_due();
    }
    for (size_t i = 0; i < COMMITMENTS; i++)
        check_fresh(i);
    progress(seconds(), resident());
}

static void one_round(void)
{
    for (int i = 0; i < FRESH_EVERY; i++)
        check_input(draw_below(input_count));
    for (int i = 0; i < INTERPOLATIONS; i++)
        interpolate_input(draw_below(interpolation_count));
    check_fresh(draw_below(COMMITMENTS));
    interpolate_fresh();
}

/* Rounds until so many seconds have passed. */
static int soak(double limit)
{
    double elapsed = 0, sampled = shown;
    long start = resident(), most = start; /* after the first line: what printing and sampling need is there */

    while (elapsed < limit) {
        long size;
        one_round();
        elapsed = seconds();
        if (elapsed < sampled + 1 && elapsed < limit)
            continue;
        sampled = elapsed;
        size = resident();
        most = size > most ? size : most;
        if (is_line_due(elapsed) || elapsed >= limit || most > start + ALLOWED_GROWTH)
            progress(elapsed, size);
        if (most > start + ALLOWED_GROWTH) {
            printf("soak: memory grows: from %ld to %ld kB\n", start, most);
            return 1;
        }
    }
    printf("soak: %" PRIu64 " verdicts in %.0f s without a restart, all equal; VmRSS from %ld to at most "
           "%ld kB\n",
           verdicts, elapsed, start, most);
    return 0;
}

int main(int count, char **words)
{
    double limit = count == 3 ? atof(words[2]) : 0;

    if (limit <= 0) {
        fputs("usage: soak FILE SECONDS\n", stderr);
        return 2;
    }
    load_inputs(words[1]);
    make_commitments();
    begun = seconds();
    first_pass();
    return soak(limit);
}
