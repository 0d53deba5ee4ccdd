/* Calls the entries of a linked archive for requests on standard input, one after the other.
 *
 * Request:  kind ('c' commit, 'l' reply_length, 'n' permutations, 'o' open, 'k' check, 'p' prove, 'q' check_proof,
 *           'i' interpolate);
 *           the 32-bit numbers that the entry takes (for 'c' seven sizes, for 'p' kappa and limit, for 'q' kappa);
 *           for 'l', 'n', 'o' and 'p' the 64-bit length or count as it stands before the call; then each slice in
 *           the entry's order: a 32-bit number of elements and the elements.
 * Answer:   the 32-bit number returned, the 64-bit length or count after the call (0 where it has none), 32-bit
 *           flags (below), the 32-bit number of calls made, then every slice as it stands after the call, the
 *           ones lent for reading too.
 *
 * All numbers are little-endian, as on the machines that the archive is for. Each request is called once
 * with the slices in each of several places; the answers have to be the same. */
#define _DEFAULT_SOURCE
#include <signal.h>
#include <stdio.h>
#include <stdlib.h>
#include <string.h>
#include <sys/mman.h>
#include <unistd.h>

#include "entries.h"

ENTRIES(smallwood);

enum flag {
    GUARD_CHANGED = 1,  /* a byte beside a slice */
    PLACES_DIFFER = 2,  /* the outcome depends on where the slices stand */
};

enum place {
    ALLOCATED,   /* in a block of exactly its size between guard bytes; bytes at an odd address */
    BEFORE_PAGE, /* ending where a page that cannot be touched begins */
    AFTER_PAGE,  /* beginning where such a page ends */
    NULL_EMPTY,  /* empty slices as NULL, the others as ALLOCATED; only where one is empty */
    PLACES
};

#define SLICES 10
#define GUARD 64
#define GUARD_BYTE 0xa5
#define ARENA ((size_t)16 << 20)

struct slice {
    size_t width, count, bytes;
    uint8_t *given;  /* its elements before the call */
    uint8_t *after;  /* and after the first call */
    uint8_t *arena;  /* ARENA bytes between two pages that cannot be touched */
    uint8_t *block;  /* what is allocated, or NULL */
    uint8_t *lent;   /* what the entry gets */
};

static struct slice slices[SLICES];
static size_t slice_count;

static void fail(const char *message)
{
    fprintf(stderr, "conformance: %s\n", message);
    exit(2);
}

static void *allocate(size_t bytes)
{
    void *block = malloc(bytes > 0 ? bytes : 1);

    if (block == NULL)
        fail("out of memory");
    return block;
}

/* ---- Slices in their places ---------------------------------------------------------------------- */

static void make_arenas(void)
{
    size_t page = (size_t)sysconf(_SC_PAGESIZE);

    for (size_t i = 0; i < SLICES; i++) {
        uint8_t *all = mmap(NULL, ARENA + 2 * page, PROT_NONE,
                            MAP_PRIVATE | MAP_ANONYMOUS | MAP_NORESERVE, -1, 0);
        if (all == MAP_FAILED || mprotect(all + page, ARENA, PROT_READ | PROT_WRITE) != 0)
            fail("no memory to map");
        slices[i].arena = all + page;
    }
}

static void lend(struct slice *s, enum place place)
{
    s->block = NULL;
    if (place == BEFORE_PAGE) {
        s->lent = s->arena + ARENA - s->bytes;
        memset(s->lent - GUARD, GUARD_BYTE, GUARD);
    } else if (place == AFTER_PAGE) {
        s->lent = s->arena;
        memset(s->lent + s->bytes, GUARD_BYTE, GUARD);
    } else if (place == NULL_EMPTY && s->count == 0) {
        s->lent = NULL;
    } else {
        size_t odd = s->width == 1;
        s->block = allocate(odd + GUARD + s->bytes + GUARD);
        s->lent = s->block + odd + GUARD;
        memset(s->lent - GUARD, GUARD_BYTE, GUARD);
        memset(s->lent + s->bytes, GUARD_BYTE, GUARD);
    }
    if (s->bytes > 0)
        memcpy(s->lent, s->given, s->bytes);
}

static int is_guard(const uint8_t *from)
{
    for (size_t i = 0; i < GUARD; i++)
        if (from[i] != GUARD_BYTE)
            return 0;
    return 1;
}

static int guards_hold(const struct slice *s, enum place place)
{
    int before = place != AFTER_PAGE, after = place != BEFORE_PAGE;

    if (s->lent == NULL)
        return 1;
    return (!before || is_guard(s->lent - GUARD)) && (!after || is_guard(s->lent + s->bytes));
}

/* ---- Requests ------------------------------------------------------------------------------------ */

static void take(void *to, size_t bytes)
{
    if (bytes > 0 && fread(to, bytes, 1, stdin) != 1)
        fail("a request ends early");
}

static void give(const void *from, size_t bytes)
{
    if (bytes > 0 && fwrite(from, bytes, 1, stdout) != 1)
        fail("the answer cannot be written");
}

static void take_slice(size_t width)
{
    struct slice *s = &slices[slice_count++];
    uint32_t count;

    take(&count, sizeof count);
    s->width = width;
    s->count = count;
    s->bytes = width * count;
    if (s->bytes > ARENA - GUARD)
        fail("a slice is too long");
    s->given = allocate(s->bytes);
    s->after = allocate(s->bytes);
    take(s->given, s->bytes);
}

/* A slice as two arguments, of words or of bytes. */
#define WORDS(i) (uint32_t *)(void *)slices[i].lent, slices[i].count
#define BYTES(i) slices[i].lent, slices[i].count

#define NUMBERS 7

/* The entries: the kind of their requests, how many numbers they take, whether they write a length or count, how many
 * slices they take, and the bytes of an element in each. */
static const struct entry {
    int kind;
    size_t numbers;
    int writes_length;
    size_t count, widths[SLICES];
} entries[] = {
    {'c', 7, 0, 8, {4, 4, 4, 4, 1, 1, 4, 1}},
    {'l', 0, 1, 1, {1}},
    {'n', 0, 1, 1, {1}},
    {'o', 0, 1, 10, {1, 4, 4, 4, 4, 4, 1, 1, 1, 1}},
    {'k', 0, 0, 3, {1, 1, 1}},
    {'p', 2, 1, 10, {1, 4, 4, 4, 4, 4, 1, 1, 1, 1}},
    {'q', 1, 0, 3, {1, 1, 1}},
    {'i', 0, 0, 3, {4, 4, 4}},
};

static const struct entry *entry_of(int kind)
{
    for (size_t i = 0; i < sizeof entries / sizeof entries[0]; i++)
        if (entries[i].kind == kind)
            return &entries[i];
    fail("no such request");
    return NULL;
}

static uint32_t call(int kind, const uint32_t n[NUMBERS], uint64_t *length)
{
    if (kind == 'c')
        return smallwood_commit(n[0], n[1], n[2], n[3], n[4], n[5], n[6], WORDS(0), WORDS(1),
                                WORDS(2), WORDS(3), BYTES(4), BYTES(5), WORDS(6), BYTES(7));
    if (kind == 'l')
        return smallwood_reply_length(BYTES(0), length);
    if (kind == 'n')
        return smallwood_permutations(BYTES(0), length);
    if (kind == 'o')
        return smallwood_open(BYTES(0), WORDS(1), WORDS(2), WORDS(3), WORDS(4), WORDS(5), BYTES(6),
                              BYTES(7), BYTES(8), BYTES(9), length);
    if (kind == 'p')
        return smallwood_prove(BYTES(0), n[0], n[1], WORDS(1), WORDS(2), WORDS(3), WORDS(4), WORDS(5),
                               BYTES(6), BYTES(7), BYTES(8), BYTES(9), length);
    if (kind == 'q')
        return smallwood_check_proof(BYTES(0), n[0], BYTES(1), BYTES(2));
    if (kind == 'i')
        return smallwood_interpolate(WORDS(0), WORDS(1), WORDS(2));
    return smallwood_check(BYTES(0), BYTES(1), BYTES(2));
}

static int one_is_empty(void)
{
    for (size_t i = 0; i < slice_count; i++)
        if (slices[i].count == 0)
            return 1;
    return 0;
}

static void serve(int kind)
{
    const struct entry *entry = entry_of(kind);
    size_t count = entry->count;
    uint32_t numbers[NUMBERS] = {0}, number = 0, flags = 0, calls = 0;
    uint64_t given_length = 0, length = 0;

    take(numbers, entry->numbers * sizeof numbers[0]);
    if (entry->writes_length)
        take(&given_length, sizeof given_length);
    slice_count = 0;
    while (slice_count < count)
        take_slice(entry->widths[slice_count]);
    for (enum place place = 0; place < PLACES; place++) {
        uint64_t found_length = given_length;
        uint32_t found;
        if (place == NULL_EMPTY && !one_is_empty())
            continue;
        for (size_t i = 0; i < count; i++)
            lend(&slices[i], place);
        found = call(kind, numbers, &found_length);
        calls++;
        if (place == ALLOCATED) {
            number = found;
            length = found_length;
        } else if (found != number || found_length != length) {
            flags |= PLACES_DIFFER;
        }
        for (size_t i = 0; i < count; i++) {
            struct slice *s = &slices[i];
            if (!guards_hold(s, place))
                flags |= GUARD_CHANGED;
            if (place == ALLOCATED && s->bytes > 0)
                memcpy(s->after, s->lent, s->bytes);
            else if (s->bytes > 0 && memcmp(s->after, s->lent, s->bytes) != 0)
                flags |= PLACES_DIFFER;
            free(s->block);
        }
    }
    give(&number, sizeof number);
    give(&length, sizeof length);
    give(&flags, sizeof flags);
    give(&calls, sizeof calls);
    for (size_t i = 0; i < count; i++) {
        give(slices[i].after, slices[i].bytes);
        free(slices[i].given);
        free(slices[i].after);
    }
    if (fflush(stdout) != 0)
        fail("the answer cannot be written");
}

static void stop(int signal)
{
    static const char message[] = "conformance: the entry touched memory that is not lent\n";

    (void)signal;
    if (write(STDERR_FILENO, message, sizeof message - 1) < 0)
        _exit(4);
    _exit(3);
}

int main(void)
{
    static uint8_t room[65536]; /* the handler's stack: the fault may be that the other one is full */
    stack_t stack = {.ss_sp = room, .ss_size = sizeof room};
    struct sigaction action = {.sa_handler = stop, .sa_flags = SA_ONSTACK};
    int kind;

    if (sigaltstack(&stack, NULL) != 0 || sigaction(SIGSEGV, &action, NULL) != 0 ||
        sigaction(SIGBUS, &action, NULL) != 0)
        fail("no signal handler");
    make_arenas();
    while ((kind = getchar()) != EOF)
        serve(kind);
    return 0;
}
