/* Single checks whose permutations of Keccak are counted as they run (permutations.sh).
 *
 *     permutations rows              the numbers of the questions, one to a line
 *     permutations row N             how the row of question N begins: sizes, first and last leaf
 *     permutations given N           the permutations that the library's entry gives for it
 *     permutations once N VERDICT    one check of a reply to it, changed to get that verdict (0, 2, 3, 7, 8, 9, 10); exit
 *                                    status 1 where another one is returned
 *
 * What comes before the check is done by plain C. */
#include <inttypes.h>
#include <stdio.h>
#include <stdlib.h>
#include <string.h>

#include "instance.h"

ENTRIES(smallwood);
ENTRIES(plain);

static const struct implementation library = IMPLEMENTATION(smallwood), plain = IMPLEMENTATION(plain);

#define DRAWN 0 /* in the place of a step */

/* The leaves are first, first + step and so on. The values of a leaf are mu + beta + eta. */
static const struct opened {
    struct sizes s;
    uint32_t first, step;
} all_opened[] = {
    /* one leaf; 2 values */
    {{1, 1, 1, 1, 1, 1, 1, 0}, 1, 1},
    /* the most values for one block, the fewest and the most for two, the fewest and the most for three */
    {{3, 16, 1, 1, 1, 1, 1, 0}, 5, 1},
    {{3, 16, 1, 1, 2, 2, 1, 0}, 2, 1},
    {{4, 40, 2, 2, 4, 3, 2, 8}, 4, 1},
    {{4, 48, 2, 2, 3, 4, 2, 0}, 0, 7},
    {{5, 48, 2, 1, 3, 4, 1, 16}, 0, 15},
    /* adjacent, but no siblings; the two ends of a tree; all leaves but one: w nu is at least 1 */
    {{4, 4, 2, 2, 2, 1, 1, 0}, 7, 1},
    {{8, 4, 2, 2, 2, 1, 1, 2}, 0, 255},
    {{3, 2, 1, 1, 7, 1, 1, 0}, 0, 1},
    /* the deepest tree and the most leaves: side by side, as far apart as they can be, drawn */
    {{12, 2, 1, 1, 64, 1, 1, 0}, 1024, 1},
    {{12, 2, 1, 1, 64, 1, 1, 0}, 0, 64},
    {{12, 12, 4, 4, 64, 4, 8, 4}, 0, DRAWN},
};

#define OPENED (sizeof all_opened / sizeof all_opened[0])

static struct instance *answered(const struct opened *o)
{
    struct instance *a;

    draw_again();
    a = make_instance(o->s);
    if (commit_with(&plain, a) != 0)
        fail("an honest commitment was refused");
    if (o->step == DRAWN)
        ask(a);
    else
        ask_leaves(a, o->first, o->step);
    if (open_with(&plain, a) != 0)
        fail("an honest question was refused");
    return a;
}

/* Changes the reply, or what the check is lent, so that it returns this verdict. */
static void change(struct instance *a, uint32_t verdict)
{
    size_t answer = 4 * width_of(&a->s), answers = answer * (a->s.eta + a->s.m);

    switch (verdict) {
    case 0:
        break;
    case 2:
        a->value_bytes--;
        break;
    case 3: /* the first leaf's first value */
        memset(a->reply + answers, 0xff, 4);
        break;
    case 7:
        a->length--;
        break;
    case 8: /* the last missing node, or the last nonce where none is missing */
        a->reply[a->length - 1] ^= 1;
        break;
    case 9: /* the last batching answer's lowest coefficient */
        a->reply[answer * (a->s.eta - 1)] ^= 1;
        break;
    case 10: /* the last evaluation answer's last value */
        a->reply[answers - 4] ^= 1;
        break;
    default:
        fail("no change for that verdict");
    }
}

static void show_row(const struct instance *a)
{
    const struct sizes *s = &a->s;

    printf("| %u | %u | %u | %u | %u | %u | %u | %u ", s->h, s->mu, s->nu, s->w, s->l, s->eta, s->m, s->beta);
    printf("| %u to %u ", a->indices[0], a->indices[s->l - 1]);
}

int main(int count, char **words)
{
    const char *mode = count > 1 ? words[1] : "";
    size_t number = count > 2 ? (size_t)atoi(words[2]) : 0;
    struct instance *a;
    int differs = 0;

    if (strcmp(mode, "rows") == 0) {
        for (size_t n = 1; n <= OPENED; n++)
            printf("%zu\n", n);
        return 0;
    }
    if (number < 1 || number > OPENED)
        fail("usage: permutations rows | row N | given N | once N VERDICT");
    a = answered(&all_opened[number - 1]);
    if (strcmp(mode, "row") == 0) {
        show_row(a);
    } else if (strcmp(mode, "given") == 0) {
        if (permutations_with(&library, a) != 0)
            fail("an honest question was refused");
        printf("%" PRIu64 "\n", a->count);
    } else if (count == 4 && strcmp(mode, "once") == 0) {
        uint32_t verdict = (uint32_t)atoi(words[3]);
        change(a, verdict);
        differs = check_with(&library, a) != verdict;
        if (differs)
            fprintf(stderr, "another verdict than %s\n", words[3]);
    } else {
        fail("no such mode");
    }
    free_instance(a);
    return differs;
}
