/* Values of polynomials from their coefficients, lowest first. */
#ifndef POLYNOMIALS_H
#define POLYNOMIALS_H

#include "field.h"
#include "sizes.h"

#define SPAN 32 /* coefficients that are summed with the lowest powers */
#define SPANS (MAX_WIDTH / SPAN)

struct power_table {
    uint32_t within[SPAN];  /* x^0, x^1, .. */
    uint32_t across[SPANS]; /* x^0, x^SPAN, .. */
};

static inline void fill_power_table(uint32_t x, struct power_table *table, size_t width)
{
    powers(x, table->within, width < SPAN ? width : SPAN);
    if (width < SPAN)
        table->across[0] = 1;
    else
        powers(multiply(table->within[SPAN - 1], x), table->across, (width + SPAN - 1) / SPAN);
}

static inline uint32_t evaluate(const struct power_table *table, const uint32_t *coefficients,
                                size_t width)
{
    uint32_t parts[SPANS];
    size_t full = width / SPAN, rest = width % SPAN;

    dots(table->within, SPAN, coefficients, SPAN, full, parts);
    if (rest > 0)
        parts[full++] = dot(table->within, coefficients + width - rest, rest);
    return dot(table->across, parts, full);
}

#endif
