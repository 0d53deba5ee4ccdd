/* The header smallwood_draw.h, compiled as C and as C++, beside the library's reading of questions:  draw SIZES
 *
 * Drawing is tried on sources that are written down, all of them up to a length: how often each result comes is counted,
 * and has to be what the number of refused values gives. Headers are compared with bytes that are written out here, and
 * whole questions are given to the library. Exit status 1 after a difference. */
#include <inttypes.h>
#include <stdio.h>
#include <stdlib.h>
#include <string.h>

#include "drawn_sizes.h"
#include "smallwood_draw.h"

static uint64_t tests;

static void expect(int holds, const char *what)
{
    tests++;
    if (holds)
        return;
    printf("draw: DIFFERENT: %s\n", what);
    exit(1);
}

/* ---- Sources */

#define ENDED 77 /* what the source returns that has no more bytes */
#define MOST_CALLS 100000

/* The bytes in turn, from the first again where they are used up and `again` is set; the call number fails_at fails. */
struct script {
    const void *bytes;
    size_t length, used;
    int again;
    uint32_t calls, fails_at;
};

static int scripted(void *context, void *to, size_t count)
{
    struct script *s = (struct script *)context;
    uint8_t *next = (uint8_t *)to;

    s->calls++;
    if (s->calls == MOST_CALLS)
        expect(0, "a source is asked for ever");
    if (s->calls == s->fails_at || (!s->again && count > s->length - s->used))
        return ENDED;
    for (size_t i = 0; i < count; i++)
        next[i] = ((const uint8_t *)s->bytes)[s->used++ % s->length];
    return 0;
}

static struct script script_of(const void *bytes, size_t length)
{
    struct script s = {bytes, length, 0, 0, 0, 0};

    return s;
}

#define LONG_SOURCE 8192 /* bytes: more than 64 indices of 64 leaves take */

static struct script long_source(uint8_t *bytes)
{
    for (size_t i = 0; i < LONG_SOURCE; i++)
        bytes[i] = (uint8_t)below(256);
    return script_of(bytes, LONG_SOURCE);
}

/* ---- All sources of some pieces */

enum kind { ELEMENTS, POINTS, INDICES };

#define MOST_PLACES 4
#define MOST_DRAWS 6
#define MOST_LETTERS 8
#define MOST_RESULTS 4096 /* MOST_LETTERS to the MOST_PLACES */

/* What is drawn, how much of it, and the letters: the values that a piece of the source may have. */
struct trial {
    enum kind kind;
    uint32_t h, places, count;
    uint32_t letters[MOST_LETTERS];
};

static int draw(const struct trial *t, uint32_t *results, struct script *s)
{
    switch (t->kind) {
    case ELEMENTS: return smallwood_draw_elements(results, t->places, scripted, s);
    case POINTS: return smallwood_draw_points(results, t->places, scripted, s);
    default: return smallwood_draw_indices(results, t->h, t->places, scripted, s);
    }
}

/* The source's bytes: for elements words in the machine's order, for indices two bytes, and above their h bits anything. */
static size_t write_source(const struct trial *t, const uint32_t *drawn, uint32_t draws, uint8_t *to)
{
    for (uint32_t i = 0; i < draws; i++) {
        uint32_t piece = t->letters[drawn[i]];

        if (t->kind != INDICES) {
            memcpy(to + 4 * i, &piece, 4);
        } else {
            piece += below(65536u >> t->h) << t->h;
            to[2 * i] = (uint8_t)(piece % 256);
            to[2 * i + 1] = (uint8_t)(piece / 256);
        }
    }
    return (t->kind == INDICES ? 2u : 4u) * draws;
}

/* Whether these letters, by number, may be a result. */
static int may_result(const struct trial *t, const uint32_t *numbers)
{
    for (uint32_t i = 0; i < t->places; i++) {
        uint32_t word = t->letters[numbers[i]];

        if (t->kind != INDICES && word >= 4294967291u)
            return 0;
        if (t->kind == POINTS && word == 0)
            return 0;
        for (uint32_t j = 0; j < i; j++) {
            if (t->kind == POINTS && t->letters[numbers[j]] == word)
                return 0;
            if (t->kind == INDICES && t->letters[numbers[j]] >= word)
                return 0;
        }
    }
    return 1;
}

/* With p places filled, how many letters are drawn again. */
static uint64_t drawn_again(const struct trial *t, uint32_t p)
{
    uint32_t refused = 0;

    for (uint32_t i = 0; i < t->count; i++)
        refused += t->kind != INDICES && (t->letters[i] >= 4294967291u || (t->kind == POINTS && t->letters[i] == 0));
    return refused + (t->kind == ELEMENTS ? 0 : p);
}

/* How many sources of so many pieces fill p places with one list: the last piece fills a place or is drawn again. */
static uint64_t sources(const struct trial *t, uint32_t p, uint32_t draws)
{
    if (draws == 0)
        return p == 0;
    return (p > 0 ? sources(t, p - 1, draws - 1) : 0) + drawn_again(t, p) * sources(t, p, draws - 1);
}

/* How many of them give one result with their last piece. Indices are put in order: as many lists are one result. */
static uint64_t sources_ending(const struct trial *t, uint32_t draws)
{
    uint64_t count = sources(t, t->places - 1, draws - 1);

    for (uint32_t i = 2; t->kind == INDICES && i <= t->places; i++)
        count *= i;
    return count;
}

/* The digits of a number, as numbers of letters. */
static void spell(const struct trial *t, uint32_t number, uint32_t *digits, uint32_t count)
{
    for (uint32_t i = 0; i < count; i++, number /= t->count)
        digits[i] = number % t->count;
}

static uint32_t number_of(const struct trial *t, const uint32_t *results)
{
    uint32_t number = 0;

    for (uint32_t i = t->places; i-- > 0;) {
        uint32_t letter = 0;

        while (letter < t->count && t->letters[letter] != results[i])
            letter++;
        expect(letter < t->count, "a result is a letter of its source");
        number = number * t->count + letter;
    }
    return number;
}

static uint32_t power(uint32_t base, uint32_t exponent)
{
    return exponent == 0 ? 1 : base * power(base, exponent - 1);
}

/* All sources of so many pieces: those that are used up without failing give each result equally often, as reckoned. */
static void count_sources(const struct trial *t, uint32_t draws)
{
    static uint64_t found[MOST_RESULTS];
    uint32_t digits[MOST_DRAWS], results[MOST_PLACES];
    uint8_t bytes[4 * MOST_DRAWS];

    memset(found, 0, sizeof found);
    for (uint32_t number = 0; number < power(t->count, draws); number++) {
        struct script s;
        int failed;

        spell(t, number, digits, draws);
        s = script_of(bytes, write_source(t, digits, draws, bytes));
        failed = draw(t, results, &s);
        expect(failed == 0 || failed == ENDED, "a draw is done, or its source has ended");
        if (failed == 0 && s.used == s.length)
            found[number_of(t, results)]++;
    }
    for (uint32_t number = 0; number < power(t->count, t->places); number++) {
        spell(t, number, digits, t->places);
        expect(found[number] == (may_result(t, digits) ? sources_ending(t, draws) : 0), "each result comes as often as it has to");
    }
}

static void try_kind(enum kind kind, uint32_t h, uint32_t places, const uint32_t *letters, uint32_t count, uint32_t most)
{
    struct trial t;

    t.kind = kind;
    t.h = h;
    t.places = places;
    t.count = count;
    memcpy(t.letters, letters, count * sizeof *letters);
    for (uint32_t draws = places; draws <= most; draws++)
        count_sources(&t, draws);
}

static void try_all_sources(void)
{
    static const uint32_t words[] = {4294967290u, 4294967291u, 4294967292u, 4294967295u, 0, 1};
    static const uint32_t leaves[MOST_LETTERS] = {0, 1, 2, 3, 4, 5, 6, 7};

    for (uint32_t places = 1; places <= 3; places++) {
        try_kind(ELEMENTS, 0, places, words, 6, 5);
        try_kind(POINTS, 0, places, words, 6, 5);
    }
    for (uint32_t h = 1; h <= 3; h++)
        for (uint32_t l = 1; l <= least(1u << h, MOST_PLACES); l++)
            try_kind(INDICES, h, l, leaves, 1u << h, h < 3 ? MOST_DRAWS : 5);
}

/* ---- Larger draws */

/* One index, from each of the 65536 sources of two bytes: each leaf as often as any other, at every depth. */
static void try_all_pieces(void)
{
    static uint32_t found[4096];

    for (uint32_t h = 1; h <= 12; h++) {
        memset(found, 0, sizeof found);
        for (uint32_t piece = 0; piece < 65536; piece++) {
            const uint8_t bytes[2] = {(uint8_t)(piece % 256), (uint8_t)(piece / 256)};
            struct script s = script_of(bytes, sizeof bytes);
            uint32_t index = 4096;

            expect(smallwood_draw_indices(&index, h, 1, scripted, &s) == 0 && index < 1u << h, "an index of that depth");
            found[index]++;
        }
        for (uint32_t i = 0; i < 1u << h; i++)
            expect(found[i] == 65536u >> h, "each leaf comes as often");
    }
}

/* The leaves that the source names, each once: as a set, by marks. */
static void try_many_indices(const struct sizes *s)
{
    uint8_t bytes[LONG_SOURCE], marked[4096] = {0};
    struct script source = long_source(bytes);
    uint32_t indices[64], named = 0, next = 0;
    size_t used = 0;

    for (; named < s->l && used < sizeof bytes; used += 2) {
        uint8_t *mark = &marked[(bytes[used] + 256u * bytes[used + 1]) % (1u << s->h)];

        named += !*mark;
        *mark = 1;
    }
    expect(named == s->l, "the test's own source is long enough");
    expect(smallwood_draw_indices(indices, s->h, s->l, scripted, &source) == 0, "indices are drawn");
    expect(source.used == used, "no byte more is drawn than has to be");
    for (uint32_t leaf = 0; leaf < 1u << s->h; leaf++)
        expect(!marked[leaf] || (next < s->l && indices[next++] == leaf), "the leaves that the source names, rising");
}

/* Words below q are kept where they are, and no byte more is drawn. */
static void try_many_elements(void)
{
    static uint32_t words[1000], elements[1000];
    struct script s = script_of(words, sizeof words);

    for (size_t i = 0; i < 1000; i++)
        words[i] = below(1u << 31) + (i % 3 == 0 ? 1u << 31 : 0);
    expect(smallwood_draw_elements(elements, 1000, scripted, &s) == 0 && s.used == sizeof words, "a thousand elements");
    expect(memcmp(words, elements, sizeof words) == 0, "words below q are the elements");
    expect(smallwood_draw_elements(NULL, 0, scripted, &s) == 0, "no elements");
    expect(smallwood_draw_points(NULL, 0, scripted, &s) == 0, "no points");
}

/* ---- Sources that fail, or give the same for ever */

/* Fails at each call in turn, until it is called less often than that. Gives how often it is called. */
static uint32_t fail_in_turn(const struct trial *t, const void *bytes, size_t length)
{
    uint32_t results[MOST_PLACES];

    for (uint32_t n = 1;; n++) {
        struct script s = script_of(bytes, length);
        int failed;

        s.fails_at = n;
        failed = draw(t, results, &s);
        if (s.calls < n) {
            expect(failed == 0, "a source that does not fail");
            return s.calls;
        }
        expect(failed == ENDED && s.calls == n, "a failed source is not asked again, and its number is returned");
    }
}

static void try_failing(void)
{
    static const uint32_t elements[] = {4294967291u, 5, 4294967295u, 4294967295u, 7, 4294967292u, 9};
    static const uint32_t points[] = {0, 5, 4294967291u, 5, 6, 6, 0, 5, 7};
    static const uint8_t indices[] = {1, 0, 1, 8, 0, 0, 1, 16, 3, 0};
    const struct trial of_elements = {ELEMENTS, 0, 3, 0, {0}}, of_points = {POINTS, 0, 3, 0, {0}};
    const struct trial of_indices = {INDICES, 3, 3, 0, {0}};

    /* Of the elements the first three come at once. */
    expect(fail_in_turn(&of_elements, elements, sizeof elements) == 5, "elements: three words, and four drawn again");
    expect(fail_in_turn(&of_points, points, sizeof points) == 9, "points: nine words");
    expect(fail_in_turn(&of_indices, indices, sizeof indices) == 5, "indices: five pieces");
}

static void try_stuck(const struct trial *t, uint8_t byte)
{
    struct script s = script_of(&byte, 1);
    uint32_t results[MOST_PLACES];

    s.again = 1;
    expect(draw(t, results, &s) == SMALLWOOD_NOT_DRAWN, "a source that gives one byte for ever");
    expect(s.calls >= MOST_CALLS / 2, "it is not given up soon");
}

static void try_all_stuck(void)
{
    const struct trial of_element = {ELEMENTS, 0, 1, 0, {0}}, of_point = {POINTS, 0, 1, 0, {0}};
    const struct trial of_points = {POINTS, 0, 2, 0, {0}}, of_indices = {INDICES, 12, 2, 0, {0}};

    try_stuck(&of_element, 255);
    try_stuck(&of_point, 0);
    try_stuck(&of_points, 1);
    try_stuck(&of_indices, 0);
}

/* Nothing is drawn and nothing written where h or l is out of range. */
static void try_ranges(void)
{
    static const uint32_t wrong[][2] = {
        {0, 1}, {13, 1}, {16, 1}, {17, 1}, {28, 1}, {32, 1}, {33, 1}, {4294967295u, 1},
        {12, 0}, {12, 65}, {12, 4294967295u}, {1, 3}, {3, 9}, {5, 33}, {0, 0},
    };
    const uint8_t bytes[64] = {0};
    uint32_t indices[64];

    for (size_t i = 0; i < sizeof wrong / sizeof wrong[0]; i++) {
        struct script s = script_of(bytes, sizeof bytes);

        memset(indices, 0xcc, sizeof indices);
        expect(smallwood_draw_indices(indices, wrong[i][0], wrong[i][1], scripted, &s) == SMALLWOOD_NOT_DRAWN, "h or l out of range");
        expect(s.calls == 0, "nothing is drawn then");
        for (size_t k = 0; k < 64; k++)
            expect(indices[k] == 0xccccccccu, "nothing is written then");
    }
}

/* ---- Bytes, as the handbook has them ("Byte forms") */

static void try_written_out(void)
{
    static const uint8_t expected[3][15] = {
        {0x53, 0x57, 0x51, 0x03, 0x00, 0x01, 0x01, 0x01, 0x00, 0x01, 0x00, 0x01, 0x01, 0x01, 0x00}, /* case P */
        {0x53, 0x57, 0x51, 0x03, 0x00, 0x0c, 0x30, 0x00, 0x01, 0x01, 0x00, 0x40, 0x04, 0x08, 0x10},
        {0x53, 0x57, 0x51, 0x03, 0x00, 0x0b, 0x3d, 0x01, 0x00, 0x00, 0x01, 0x21, 0x03, 0x05, 0x02},
    };
    static const uint32_t words[2] = {0x01020304, 0xfffffffa}, halves[2] = {0x0a0b, 0x00ff};
    uint8_t found[15];

    smallwood_put_header(found, 1, 1, 1, 1, 1, 1, 0, 1);
    expect(memcmp(found, expected[0], 15) == 0, "the header of case P");
    smallwood_put_header(found, 12, 48, 256, 1, 64, 4, 16, 8);
    expect(memcmp(found, expected[1], 15) == 0, "a header with nu = 256");
    smallwood_put_header(found, 11, 61, 1, 256, 33, 3, 2, 5);
    expect(memcmp(found, expected[2], 15) == 0, "a header with w = 256");
    smallwood_put_elements(found, words, 2);
    expect(memcmp(found, "\x04\x03\x02\x01\xfa\xff\xff\xff", 8) == 0, "elements in bytes");
    expect(smallwood_element_at(found) == 0x01020304 && smallwood_element_at(found + 4) == 0xfffffffa, "elements from bytes");
    smallwood_put_indices(found, halves, 2);
    expect(memcmp(found, "\x0b\x0a\xff\x00", 4) == 0, "indices in bytes");
}

static void write_header(const struct sizes *s, uint8_t *to)
{
    const uint32_t bytes[15] = {
        0x53, 0x57, 0x51, 3, 0, s->h, s->mu, s->nu % 256, s->nu / 256, s->w % 256, s->w / 256, s->l, s->eta, s->m, s->beta,
    };

    for (size_t i = 0; i < 15; i++)
        to[i] = (uint8_t)bytes[i];
}

#define MOST_ASKED 17 /* points: one more than there are blinding rows at the most, though no entry takes more than 8 */

static uint8_t question[79 + 4 * (4 + MOST_ASKED) + 2 * 64 + 1];

/* A question with root and salt of zeros, by the functions of the header; gives its length. */
static size_t write_question(const struct sizes *s)
{
    static const uint32_t words[MOST_ASKED] = {4294967290u, 1, 2, 3, 4, 5, 6, 7, 8, 9, 10, 11, 12, 13, 14, 15, 16};
    uint8_t bytes[LONG_SOURCE];
    uint32_t indices[64];
    struct script source = long_source(bytes);

    expect(smallwood_draw_indices(indices, s->h, s->l, scripted, &source) == 0, "indices are drawn");
    memset(question, 0, sizeof question);
    smallwood_put_header(question, s->h, s->mu, s->nu, s->w, s->l, s->eta, s->beta, s->m);
    smallwood_put_elements(question + 79, words, s->eta);
    smallwood_put_elements(question + 79 + 4 * s->eta, words, s->m);
    smallwood_put_indices(question + 79 + 4 * (s->eta + s->m), indices, s->l);
    return 79 + 4 * (s->eta + s->m) + 2 * s->l;
}

/* The library takes the question; with one leaf its reply has the length that the sizes give, whichever leaf it is. */
static void try_header(const struct sizes *s)
{
    uint8_t expected[15];
    size_t length = write_question(s);
    uint64_t reply = 0;

    write_header(s, expected);
    expect(memcmp(question, expected, 15) == 0, "a header as the handbook has it");
    expect(smallwood_reply_length(question, length, &reply) == SMALLWOOD_OK, "the library takes the question");
    if (s->l == 1)
        expect(reply == 4 * (s->w * s->nu + 1) * (s->eta + s->m) + 4 * (s->mu + s->beta + s->eta) + 32 + 32 * s->h, "its reply's length");
}

/* ---- What a badge answers */

static int fits(const struct sizes *s, size_t length)
{
    return smallwood_question_fits(question, length, s->h, s->mu, s->nu, s->w, s->l, s->eta, s->beta);
}

static int proof_fits(const struct sizes *s, size_t length)
{
    return smallwood_proof_question_fits(question, length, s->h, s->mu, s->nu, s->w, s->l, s->eta, s->beta);
}

static int header_fits(const struct sizes *s)
{
    return smallwood_header_fits(question, s->h, s->mu, s->nu, s->w, s->l, s->eta, s->beta);
}

/* Each byte of the header with each other value: in a header alone another m up to beta is as good. */
static void try_other_headers(const struct sizes *s, size_t length, size_t proof_length)
{
    for (size_t i = 0; i < 15; i++) {
        uint8_t kept = question[i];

        for (uint32_t value = 0; value < 256; value++) {
            int right = value == kept, other_m = i == 13 && value >= 1 && value <= s->beta;

            question[i] = (uint8_t)value;
            expect(header_fits(s) == (right || other_m), "a header that fits, or does not");
            expect(fits(s, length) == right, "a question whose header fits, or does not");
            expect(proof_fits(s, proof_length) == right, "a proof's question whose header fits, or does not");
        }
        question[i] = kept;
    }
}

/* Each of the badge's own sizes one more: the question is not for these. */
static void try_other_sizes(const struct sizes *s, size_t length, size_t proof_length)
{
    for (uint32_t i = 0; i < 7; i++) {
        struct sizes t = *s;
        uint32_t *sizes[7] = {&t.h, &t.mu, &t.nu, &t.w, &t.l, &t.eta, &t.beta};

        ++*sizes[i];
        expect(!header_fits(&t) && !fits(&t, length) && !proof_fits(&t, proof_length), "a badge with other sizes");
    }
}

/* The points at this place, of a question with that length. */
static void try_points(const struct sizes *s, uint8_t *points, size_t length, int (*fitting)(const struct sizes *, size_t))
{
    static const uint32_t words[] = {1, 4294967290u, 65536, 0, 4294967291u, 4294967292u, 4294967295u};

    for (uint32_t p = 0; p < s->m; p++) {
        uint8_t kept[4];

        memcpy(kept, points + 4 * p, 4);
        for (uint32_t i = 0; i < 7; i++) {
            for (uint32_t k = 0; k < 4; k++)
                points[4 * p + k] = (uint8_t)(words[i] >> 8 * k);
            expect(fitting(s, length) == (i < 3), "a point that fits, or does not");
            expect(smallwood_points_fit(points, s->m) == (i < 3), "points that fit, or do not");
        }
        memcpy(points + 4 * p, kept, 4);
    }
}

/* Short questions stand at the end of their own memory, so that a byte read after them is found. */
static void try_lengths(const struct sizes *s, size_t length, size_t proof_length)
{
    for (size_t n = 0; n <= sizeof question; n++) {
        expect(fits(s, n) == (n == length), "a question of its length, or of another");
        expect(proof_fits(s, n) == (n == proof_length), "a proof's question of its length, or of another");
    }
    for (size_t n = 0; n < 15; n++) {
        uint8_t *alone = (uint8_t *)malloc(n == 0 ? 1 : n);

        if (alone == NULL)
            exit(2);
        memcpy(alone, question, n);
        expect(!smallwood_question_fits(alone, n, s->h, s->mu, s->nu, s->w, s->l, s->eta, s->beta), "a piece of a header");
        expect(!smallwood_proof_question_fits(alone, n, s->h, s->mu, s->nu, s->w, s->l, s->eta, s->beta), "a piece of a header");
        free(alone);
    }
}

static void try_fits(struct sizes s)
{
    size_t length, proof_length = 79 + 4 * s.m;

    length = write_question(&s);
    if (s.m > s.beta) {
        expect(!header_fits(&s) && !fits(&s, length) && !proof_fits(&s, proof_length), "more points than blinding rows");
        return;
    }
    try_lengths(&s, length, proof_length);
    try_other_headers(&s, length, proof_length);
    try_other_sizes(&s, length, proof_length);
    try_points(&s, question + 79 + 4 * s.eta, length, fits);
    memmove(question + 79, question + 79 + 4 * s.eta, 4 * s.m); /* a proof's has its points where challenges were */
    try_points(&s, question + 79, proof_length, proof_fits);
    s.m = s.beta + 1;
    length = write_question(&s);
    expect(!header_fits(&s) && !fits(&s, length) && !proof_fits(&s, 79 + 4 * s.m), "one point more than blinding rows");
    s.m = 0;
    length = write_question(&s);
    expect(!header_fits(&s) && !fits(&s, length) && !proof_fits(&s, 79), "no points");
}

int main(int argc, char **argv)
{
    long count = argc == 2 ? atol(argv[1]) : 0;

    if (count < 1) {
        fprintf(stderr, "usage: draw SIZES\n");
        return 2;
    }
    try_all_sources();
    try_all_pieces();
    try_many_elements();
    try_failing();
    try_all_stuck();
    try_ranges();
    try_written_out();
    for (long i = 0; i < count; i++) {
        struct sizes s = draw_sizes();

        try_many_indices(&s);
        try_header(&s);
        s.m = 1 + below(least(8, s.beta + 1));
        try_fits(s);
    }
    printf("draw: %ld sizes, %" PRIu64 " tests\n", count, tests);
    return 0;
}
