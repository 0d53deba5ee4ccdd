/*
 * SmallWood: overwriting what is secret. Nothing of it is in the library; include it where secrets are held.
 *
 *   smallwood_wipe         memory of the caller's own that has done its service: coefficients, tails, blinds, masks, nonces, table
 *   smallwood_wipe_stack   the stack that an entry has used
 *
 * An entry leaves secrets on the stack below its caller (smallwood.h, "What stays in memory"). So, in one function:
 *
 *     number = smallwood_commit(...);
 *     smallwood_wipe_stack();
 *
 * C itself promises nothing about a stack. With which compilers this was tried the handbook says ("Secrets in memory").
 * Not reached are registers; what the kernel has of a process, as swap and core dumps; other stacks than the one that runs; and copies that
 * the caller's own code has made, in memory, in the frames of functions that have not returned, or deeper than is overwritten.
 */
#ifndef SMALLWOOD_WIPE_H
#define SMALLWOOD_WIPE_H

#include <stddef.h>
#include <stdint.h>

/*
 * How many bytes of the stack are overwritten: more than a commit, an open, a prove or an interpolate takes (smallwood.h, "Stack"). Whoever
 * defines it before including this header sees to that himself. The stack must have room for them: smallwood_wipe_stack takes them too.
 */
#ifndef SMALLWOOD_WIPED_STACK
#define SMALLWOOD_WIPED_STACK 32768
#endif

#if defined(__GNUC__)
#define SMALLWOOD_APART __attribute__((noinline, unused, no_sanitize_address)) static
#define SMALLWOOD_WITHIN __attribute__((always_inline)) static inline
#else
#define SMALLWOOD_APART static
#define SMALLWOOD_WITHIN static inline
#endif

#ifdef __cplusplus
#define SMALLWOOD_BYTES(memory) static_cast<volatile uint8_t *>(memory)
#else
#define SMALLWOOD_BYTES(memory) (memory)
#endif

/* Overwrites memory with zeros, also where it is not read any more. */
static inline void smallwood_wipe(void *memory, size_t size)
{
    volatile uint8_t *byte = SMALLWOOD_BYTES(memory);

    while (size-- > 0)
        *byte++ = 0;
}

/* For smallwood_wipe_stack alone. It goes down from the top, so that on a stack too small it dies at the guard page. */
SMALLWOOD_APART uint8_t smallwood_wipe_room(void)
{
    size_t i = SMALLWOOD_WIPED_STACK;
    volatile uint8_t room[SMALLWOOD_WIPED_STACK];

    while (i > 0)
        room[--i] = 0;
    return room[0];
}

/*
 * Overwrites the dead stack below its caller: to be called right after an entry that had secrets, in the same function. It is within the
 * caller, and does something after the inner call, so that no compiler makes that a jump at the caller's end: a jump would give the
 * caller's frame back first, and reach less deep by the size of that frame.
 */
SMALLWOOD_WITHIN void smallwood_wipe_stack(void)
{
    volatile uint8_t last = smallwood_wipe_room();

    (void)last;
}

#undef SMALLWOOD_APART
#undef SMALLWOOD_WITHIN
#undef SMALLWOOD_BYTES

#endif
