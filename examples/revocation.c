/*
 * Interpolation over points of one's own, in C. A revocation office keeps a status for each of 320 badge numbers. It makes them the values
 * of one polynomial and sends the coefficients, which is half of what a list of numbers and statuses takes; a reader evaluates them at the
 * number that a badge shows. Then it is shown what is refused. Each result is checked, and the program exits with 1 at the first that is
 * not as it should be. Expected are what was lent, and small cases by hand.
 *
 * Nothing here is secret. Whoever interpolates secrets overwrites the stack after the call, as examples/badge.c does.
 *
 *     cc -std=c11 -O2 -Iinclude examples/revocation.c -Llib -lsmallwood -o revocation
 *     ./revocation
 */
#include <stdbool.h>
#include <stdio.h>
#include <stdlib.h>
#include <string.h>

#include "smallwood.h"

enum { MOST = SMALLWOOD_MOST_POINTS };

enum status { VALID = 1, SUSPENDED = 2, REVOKED = 3 };

static void must(bool holds, const char *what)
{
    if (!holds) {
        printf("FAILED: %s\n", what);
        exit(1);
    }
}

static void expect(bool holds, const char *what)
{
    must(holds, what);
    printf("ok: %s\n", what);
}

/* ---- The office */

static uint32_t numbers[MOST + 1], statuses[MOST + 1], list[MOST + 1], untouched[MOST + 1];

/* Badge numbers as they were given out, with gaps and in no order. */
static void office_fills(void)
{
    for (uint32_t i = 0; i <= MOST; i++) {
        numbers[i] = 100003 * (i ^ 5) + i * i % 97;
        statuses[i] = i % 5 == 0 ? REVOKED : i % 7 == 0 ? SUSPENDED : VALID;
    }
}

static uint32_t office_makes(size_t count)
{
    memcpy(list, untouched, sizeof list);
    return smallwood_interpolate(numbers, count, statuses, count, list, count);
}

/* ---- The reader: the polynomial's value at a number, by Horner's rule. */

static uint32_t evaluate(const uint32_t *coefficients, size_t count, uint32_t number)
{
    uint64_t value = 0;

    while (count-- > 0)
        value = (value * number + coefficients[count]) % SMALLWOOD_Q;
    return (uint32_t)value;
}

/* At a number that is not listed the value is some element. Of q elements three are a status: the others show that it is not listed. */
static const char *reader_says(uint32_t number)
{
    switch (evaluate(list, MOST, number)) {
    case VALID:
        return "valid";
    case SUSPENDED:
        return "suspended";
    case REVOKED:
        return "revoked";
    default:
        return "not listed";
    }
}

/* ---- For the checks of this program */

static bool kept(void)
{
    return memcmp(list, untouched, sizeof list) == 0;
}

static bool refused_with(uint32_t number, uint32_t found)
{
    return found == number && kept();
}

static bool is(uint32_t a, uint32_t b, uint32_t c)
{
    return list[0] == a && list[1] == b && list[2] == c && list[3] == untouched[3];
}

/* Three numbers by hand, in two orders; the same status for all; one number alone. */
static void try_small(void)
{
    const uint32_t rising[3] = {1, 2, 3}, squares[3] = {1, 4, 9}, mixed[3] = {3, 1, 2}, their[3] = {9, 1, 4}, same[3] = {7, 7, 7};

    memcpy(list, untouched, sizeof list);
    must(smallwood_interpolate(rising, 3, squares, 3, list, 3) == SMALLWOOD_OK, "three points are taken");
    expect(is(0, 0, 1), "1, 4, 9 at 1, 2, 3 are the values of x^2");
    must(smallwood_interpolate(mixed, 3, their, 3, list, 3) == SMALLWOOD_OK, "three points in another order are taken");
    expect(is(0, 0, 1), "so they are in another order");
    must(smallwood_interpolate(rising, 3, same, 3, list, 3) == SMALLWOOD_OK, "equal values are taken");
    expect(is(7, 0, 0), "equal values give a constant, and zeros behind it");
    must(smallwood_interpolate(rising + 2, 1, squares + 2, 1, list, 1) == SMALLWOOD_OK, "one point is taken");
    expect(is(9, 0, 0), "one point gives one coefficient, and what stands behind it stays");
}

static void try_list(void)
{
    expect(office_makes(MOST) == SMALLWOOD_OK, "the office makes a list of 320 coefficients");
    for (int i = 0; i < MOST; i++)
        must(evaluate(list, MOST, numbers[i]) == statuses[i], "each listed number has its status");
    printf("ok: each of %d listed numbers has its status\n", MOST);
    must(list[MOST] == untouched[MOST], "nothing is written behind the list");
    for (int i = 0; i < 3; i++)
        printf("badge %u is %s\n", numbers[5 + i], reader_says(numbers[5 + i]));
    printf("badge %u is %s\n", numbers[MOST], reader_says(numbers[MOST]));
    expect(strcmp(reader_says(numbers[MOST]), "not listed") == 0, "a number that is not listed has no status");
}

static void try_refusals(void)
{
    uint32_t first = numbers[0];

    /* The office learns that a number is listed twice, though not which. It is a 13 even where both places have the same status. */
    numbers[MOST - 1] = numbers[4];
    statuses[MOST - 1] = statuses[4];
    expect(refused_with(SMALLWOOD_EQUAL_POINTS, office_makes(MOST)),
           "a number that is listed twice is refused with 13, and the list is as it was");
    printf("the office is told: %s\n", smallwood_verdict_text(office_makes(MOST)));
    expect(office_makes(MOST - 1) == SMALLWOOD_OK, "without its second place the list is made");

    numbers[0] = SMALLWOOD_Q;
    expect(refused_with(SMALLWOOD_BAD_ELEMENT, office_makes(MOST)),
           "a number that is not below q is refused with 3, also where another is listed twice");
    numbers[0] = first;
    statuses[0] = SMALLWOOD_Q;
    expect(refused_with(SMALLWOOD_BAD_ELEMENT, office_makes(MOST)), "and so is a status");
    office_fills();

    memcpy(list, untouched, sizeof list);
    expect(refused_with(SMALLWOOD_BAD_LENGTH, smallwood_interpolate(numbers, 3, statuses, 2, list, 3)), "a status too few is a 2");
    expect(refused_with(SMALLWOOD_BAD_LENGTH, smallwood_interpolate(numbers, 3, statuses, 3, list, 4)), "a list too long is a 2");
    expect(refused_with(SMALLWOOD_BAD_SIZES, office_makes(MOST + 1)), "more than 320 numbers are refused with 1");
    expect(refused_with(SMALLWOOD_BAD_SIZES, smallwood_interpolate(NULL, 0, NULL, 0, NULL, 0)), "and so are none");
}

int main(void)
{
    memset(untouched, 0xAA, sizeof untouched);
    office_fills();
    try_small();
    try_list();
    try_refusals();
    return 0;
}
