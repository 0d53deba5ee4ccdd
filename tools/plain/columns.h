/* What committing and opening are lent, and the columns that polynomials and blinds make. */
#ifndef COLUMNS_H
#define COLUMNS_H

#include "bytes.h"
#include "field.h"
#include "sizes.h"

struct lent {
    const uint32_t *coefficients, *tails, *blinds, *masks;
};

/* Column t of polynomial i, put together: its coefficients, the first of them less the blinds of the column before,
 * then its own blinds, in the last column the top coefficients. */
static __attribute__((noinline)) void fill_column(const struct sizes *s, const struct lent *lent, uint32_t i,
                                                  uint32_t t, uint32_t room[MAX_ROWS])
{
    const uint32_t *polynomial = lent->coefficients + (size_t)i * s->each;
    size_t own = ((size_t)i * (s->nu - 1) + t) * s->beta;

    copy(room, polynomial + t * s->mu, 4 * s->mu);
    for (uint32_t b = 0; t > 0 && b < s->beta; b++)
        room[b] = subtract(room[b], lent->blinds[own - s->beta + b]);
    copy(room + s->mu, t + 1 < s->nu ? lent->blinds + own : polynomial + s->mu * s->nu, 4 * s->beta);
}

/* Column c = i nu + t from row 0 down. Without blinding rows it stands among the coefficients as it is; with them it is
 * put together in the room that is given. */
static inline const uint32_t *column_of(const struct sizes *s, const struct lent *lent, uint32_t c,
                                        uint32_t room[MAX_ROWS])
{
    if (s->beta == 0)
        return lent->coefficients + c * s->mu;
    fill_column(s, lent, c / s->nu, c % s->nu, room);
    return room;
}

#endif
