/* Runs work on a stack that may be too small for it, over a page that cannot be touched, in a process of its own. */
#ifndef GUARD_PAGE_H
#define GUARD_PAGE_H

#include <signal.h>
#include <stdlib.h>
#include <sys/wait.h>
#include <unistd.h>

#include "painted_stack.h"

#define LOWER_BYTES ((size_t)1 << 18) /* painted, below the page: who gets past it writes there */

/* All but the last as exit status of that process. */
enum guard_outcome { WORKED, DIED_AT_GUARD, DIED_ELSEWHERE, GOT_PAST };

static struct {
    uint8_t *page;
    size_t bytes;
} guard;

static inline void on_fault(int number, siginfo_t *info, void *context)
{
    uint8_t *at = info->si_addr;

    (void)number, (void)context;
    _exit(at >= guard.page && at < guard.page + guard.bytes ? DIED_AT_GUARD : DIED_ELSEWHERE);
}

static inline void catch_faults(void)
{
    static uint8_t own_stack[1 << 16];
    stack_t alternate = {.ss_sp = own_stack, .ss_size = sizeof own_stack};
    struct sigaction action = {.sa_sigaction = on_fault, .sa_flags = SA_SIGINFO | SA_ONSTACK};

    if (sigaltstack(&alternate, NULL) != 0 || sigaction(SIGSEGV, &action, NULL) != 0)
        fail("no handler");
}

/* With so many bytes of stack above the page. Work that has come to its end has to be done. */
static inline enum guard_outcome run_guarded(size_t bytes, stack_work *work, int (*is_done)(void *), void *data)
{
    size_t whole;
    uint8_t *memory;
    enum guard_outcome outcome;
    pid_t child;
    int status;

    guard.bytes = (size_t)sysconf(_SC_PAGESIZE);
    whole = LOWER_BYTES + guard.bytes + bytes;
    memory = paint_stack(whole);
    guard.page = memory + LOWER_BYTES;
    if (mprotect(guard.page, guard.bytes, PROT_NONE) != 0)
        fail("no guard page");
    child = fork();
    if (child == 0) {
        catch_faults();
        run_on_stack(guard.page + guard.bytes, bytes, work, data);
        _exit(is_done(data) ? WORKED : DIED_ELSEWHERE);
    }
    if (child < 0 || waitpid(child, &status, 0) != child)
        fail("no process");
    outcome = WIFEXITED(status) ? (enum guard_outcome)WEXITSTATUS(status) : DIED_ELSEWHERE;
    if (lowest_touched(memory, LOWER_BYTES) < guard.page)
        outcome = GOT_PAST;
    munmap(memory, whole);
    return outcome;
}

#endif
