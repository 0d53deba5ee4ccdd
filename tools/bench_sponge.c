/* Cost of SHAKE256 with 32 bytes of output: the archive of crate sponge_bench_c beside plain/keccak.c and OpenSSL
 * (plain/evp.c), and beside an older archive, on the same strings in one run.
 *
 *     bench_sponge                    time of a permutation at five lengths, in Markdown, if all peers agree
 *     bench_sponge instructions       the table of instructions, from counts on standard input: length by
 *                                     length, one for each peer
 *     bench_sponge lengths            the lengths in bytes, one to a line
 *     bench_sponge entries            the peers' functions, one to a line
 *     bench_sponge once ENTRY BYTES   one digest alone, to be counted by valgrind (bench_sponge.sh)
 *
 * Built with -DBEFORE, before_digest is the older archive's. Times are processor time of this program. */
#define _POSIX_C_SOURCE 200809L
#include <inttypes.h>
#include <stdio.h>
#include <stdlib.h>
#include <string.h>

#include "plain/shake.h"
#include "timing.h"

#define ROUNDS 61                 /* samples of which least and median are taken */
#define SAMPLE_PERMUTATIONS 10000 /* a sample has about so many */
#define COMPARED_BYTES 1024       /* the peers have to agree on every length up to this one */
#define LONG_BYTES 16384

/* A node's string, a node's with a salt of 32 bytes, a leaf's, the longest leaf's, and a long one. */
static const size_t lengths[] = {65, 97, 139, 307, LONG_BYTES};

#define LENGTHS (sizeof lengths / sizeof lengths[0])

static uint8_t input[LONG_BYTES]; /* its first bytes are the string */

static void fail(const char *message)
{
    fprintf(stderr, "%s\n", message);
    exit(2);
}

/* ---- The peers ----------------------------------------------------------------------------------- */

struct returned {
    uint8_t bytes[DIGEST_BYTES];
};

/* An archive's digest, which it returns, in the form of plain/shake.h. */
#define ARCHIVE(prefix)                                                                            \
    struct returned prefix##_digest(const uint8_t *string, size_t length);                         \
    static void by_##prefix(const uint8_t *string, size_t length, uint8_t digest[DIGEST_BYTES])    \
    {                                                                                              \
        struct returned r = prefix##_digest(string, length);                                       \
                                                                                                   \
        memcpy(digest, r.bytes, DIGEST_BYTES);                                                     \
    }

ARCHIVE(sponge_bench)
#ifdef BEFORE
ARCHIVE(before)
#endif

/* The string twice, side by side. */
static void by_pair(const uint8_t *string, size_t length, uint8_t digest[DIGEST_BYTES])
{
    uint8_t second[DIGEST_BYTES];

    keccak_digests(string, string, length, digest, second);
    if (memcmp(digest, second, DIGEST_BYTES) != 0)
        fail("two digests of one string differ");
}

static const struct peer {
    const char *name;
    const char *entry; /* the function as callgrind knows it */
    void (*digest)(const uint8_t *string, size_t length, uint8_t digest[DIGEST_BYTES]);
    unsigned at_once; /* digests made in one call */
} peers[] = {
    {"library", "sponge_bench_digest", by_sponge_bench, 1},
#ifdef BEFORE
    {"before", "before_digest", by_before, 1},
#endif
    {"plain C", "keccak_digest", keccak_digest, 1},
    {"plain C, two at once", "keccak_digests", by_pair, 2},
    {"OpenSSL", "evp_digest", evp_digest, 1},
};

#define PEERS (sizeof peers / sizeof peers[0])

static void fill_input(void)
{
    for (size_t i = 0; i < LONG_BYTES; i++)
        input[i] = (uint8_t)(7 * i + 3);
}

/* Exit status 1 where the peers' digests differ. */
static void compare(uint8_t digests[PEERS][DIGEST_BYTES], size_t length)
{
    for (size_t p = 1; p < PEERS; p++)
        if (memcmp(digests[0], digests[p], DIGEST_BYTES) != 0) {
            fprintf(stderr, "%s and %s differ at %zu bytes\n", peers[0].name, peers[p].name, length);
            exit(1);
        }
}

static void compare_all(void)
{
    uint8_t digests[PEERS][DIGEST_BYTES];

    fill_input();
    for (size_t length = 0; length <= COMPARED_BYTES; length++) {
        for (size_t p = 0; p < PEERS; p++)
            peers[p].digest(input, length, digests[p]);
        compare(digests, length);
    }
}

/* ---- Times --------------------------------------------------------------------------------------- */

/* Seconds of one permutation in a chain of digests: each string begins with the digest of the one before. */
static double chain(const struct peer *by, size_t length, uint8_t digest[DIGEST_BYTES])
{
    uint64_t permutations = permutations_of(length), times = SAMPLE_PERMUTATIONS / permutations;
    double start;

    fill_input();
    start = now();
    for (uint64_t i = 0; i < times; i++) {
        by->digest(input, length, digest);
        memcpy(input, digest, DIGEST_BYTES);
    }
    return (now() - start) / (double)(times * permutations * by->at_once);
}

/* Seconds of one permutation by each of the peers, in turn. */
static void measure(size_t length, struct timing found[PEERS])
{
    static double seconds[PEERS][ROUNDS];
    uint8_t digests[PEERS][DIGEST_BYTES];

    for (size_t r = 0; r < ROUNDS; r++) {
        for (size_t i = 0; i < PEERS; i++) {
            size_t turn = turn_of(r, i, PEERS);
            seconds[turn][r] = chain(&peers[turn], length, digests[turn]);
        }
        compare(digests, length);
    }
    for (size_t p = 0; p < PEERS; p++)
        found[p] = timing_of(seconds[p], ROUNDS);
}

/* ---- Tables -------------------------------------------------------------------------------------- */

/* In a table's head, a column for each peer from that one on. */
static void name_columns(size_t from, const char *before, const char *after)
{
    for (size_t p = from; p < PEERS; p++)
        printf("| %s%s%s ", before, peers[p].name, after);
}

static void end_head(size_t columns)
{
    puts("|");
    for (size_t i = 0; i < columns; i++)
        printf("|---");
    puts("|");
}

static void begin_row(size_t length)
{
    printf("| %zu | %" PRIu64 " ", length, permutations_of(length));
}

static void end_row(void)
{
    puts("|");
    fflush(stdout);
}

static void show_times(void)
{
    printf("\nNanoseconds of processor time for one permutation, least (median) of %d samples in turn; millions of "
           "permutations a second by the least; the ratio is the library's least over the other's least, and in "
           "brackets that of the medians.\n\n",
           ROUNDS);
    printf("| bytes | permutations ");
    name_columns(0, "", "");
    name_columns(0, "", ", M a second");
    name_columns(1, "to ", "");
    end_head(2 + PEERS + PEERS + (PEERS - 1));
    for (size_t n = 0; n < LENGTHS; n++) {
        struct timing found[PEERS];
        measure(lengths[n], found);
        begin_row(lengths[n]);
        for (size_t p = 0; p < PEERS; p++)
            printf("| %.0f (%.0f) ", 1e9 * found[p].least, 1e9 * found[p].median);
        for (size_t p = 0; p < PEERS; p++)
            printf("| %.2f ", 1e-6 / found[p].least);
        for (size_t p = 1; p < PEERS; p++)
            printf("| %.2f (%.2f) ", found[0].least / found[p].least,
                   found[0].median / found[p].median);
        end_row();
    }
}

static void show_instructions(void)
{
    printf("\nInstructions of one digest (callgrind), where two are made at once half of both, in brackets for each "
           "of its permutations, and the ratio of the library to each of the others.\n\n");
    printf("| bytes | permutations ");
    name_columns(0, "", "");
    name_columns(1, "to ", "");
    end_head(2 + PEERS + (PEERS - 1));
    for (size_t n = 0; n < LENGTHS; n++) {
        double found[PEERS];
        begin_row(lengths[n]);
        for (size_t p = 0; p < PEERS; p++) {
            if (scanf("%lf", &found[p]) != 1)
                fail("a count is missing");
            found[p] /= peers[p].at_once;
            printf("| %.0f (%.0f) ", found[p], found[p] / (double)permutations_of(lengths[n]));
        }
        for (size_t p = 1; p < PEERS; p++)
            printf("| %.2f ", found[0] / found[p]);
        end_row();
    }
}

/* ---- One digest ---------------------------------------------------------------------------------- */

static void once(const char *entry, const char *bytes)
{
    uint8_t digest[DIGEST_BYTES];
    size_t length = (size_t)atoi(bytes);

    if (length > LONG_BYTES)
        fail("no such length: see bench_sponge lengths");
    evp_start(); /* outside the call that is counted */
    for (size_t p = 0; p < PEERS; p++)
        if (strcmp(peers[p].entry, entry) == 0) {
            peers[p].digest(input, length, digest);
            return;
        }
    fail("no such entry: see bench_sponge entries");
}

int main(int count, char **words)
{
    const char *mode = count > 1 ? words[1] : "times";

    if (strcmp(mode, "times") == 0) {
        compare_all();
        show_times();
    } else if (strcmp(mode, "instructions") == 0) {
        show_instructions();
    } else if (strcmp(mode, "lengths") == 0) {
        for (size_t n = 0; n < LENGTHS; n++)
            printf("%zu\n", lengths[n]);
    } else if (strcmp(mode, "entries") == 0) {
        for (size_t p = 0; p < PEERS; p++)
            puts(peers[p].entry);
    } else if (count == 4 && strcmp(mode, "once") == 0) {
        once(words[2], words[3]);
    } else {
        fail("usage: bench_sponge [times | instructions | lengths | entries | once ENTRY BYTES]");
    }
    return 0;
}
