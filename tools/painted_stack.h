/* Runs work on a painted stack of its own: what it has touched there, and what it has left, can be looked at. */
#ifndef PAINTED_STACK_H
#define PAINTED_STACK_H

#include <stdint.h>
#include <string.h>
#include <sys/mman.h>
#include <ucontext.h>

#include "instance.h"

#define PAINT 0x5a

/* Memory that begins at a page, painted. */
static inline uint8_t *paint_stack(size_t bytes)
{
    uint8_t *stack = mmap(NULL, bytes, PROT_READ | PROT_WRITE, MAP_SHARED | MAP_ANONYMOUS, -1, 0);

    if (stack == MAP_FAILED)
        fail("no memory for a stack");
    memset(stack, PAINT, bytes);
    return stack;
}

typedef void stack_work(void *data);

static struct {
    ucontext_t caller, own;
    stack_work *work;
    void *data;
} on_stack;

static inline void start_on_stack(void)
{
    on_stack.work(on_stack.data);
}

/* After it nothing runs on this stack. */
static inline void run_on_stack(uint8_t *stack, size_t bytes, stack_work *work, void *data)
{
    on_stack.work = work;
    on_stack.data = data;
    if (getcontext(&on_stack.own) != 0)
        fail("no context");
    on_stack.own.uc_stack.ss_sp = stack;
    on_stack.own.uc_stack.ss_size = bytes;
    on_stack.own.uc_link = &on_stack.caller;
    makecontext(&on_stack.own, start_on_stack, 0);
    if (swapcontext(&on_stack.caller, &on_stack.own) != 0)
        fail("no context");
}

/* The lowest byte that is not paint any more, or the end. */
static inline uint8_t *lowest_touched(uint8_t *stack, size_t bytes)
{
    size_t at = 0;

    while (at < bytes && stack[at] == PAINT)
        at++;
    return stack + at;
}

#endif
