/* The SmallWood commitment in plain C, with nothing proved: what the library is measured against. */
#ifndef PLAIN_H
#define PLAIN_H

#include "../entries.h"

/* Compiled with -DPLAIN_PREFIX=name, the entries are name_commit, name_reply_length and so on. */
#ifndef PLAIN_PREFIX
#define PLAIN_PREFIX plain
#endif

/* Compiled with -DPLAIN_PAIRS=1, two strings are hashed at once where two are at hand, and wide rows are
 * interpolated in doubles: both for vectors of two. Otherwise it is one string at a time, and integers. */
#ifndef PLAIN_PAIRS
#define PLAIN_PAIRS 0
#endif

#define PLAIN_JOIN(prefix, name) prefix##_##name
#define PLAIN_NAMED(prefix, name) PLAIN_JOIN(prefix, name)
#define PLAIN(name) PLAIN_NAMED(PLAIN_PREFIX, name)
#define PLAIN_ENTRIES(prefix) ENTRIES(prefix)

PLAIN_ENTRIES(PLAIN_PREFIX);

#endif
