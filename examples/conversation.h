/*
 * The line between badge and reader: standard input and output. To be included before all other headers.
 *
 *     from the badge      from the reader
 *     root, salt
 *                         header, root, salt, challenges
 *     batching answers
 *                         points
 *     evaluation answers
 *                         leaf indices; then it closes its side
 *     the whole reply; then it closes its side
 *
 * What the reader sends is one question, in three pieces. Each is drawn when the message before it is there, and not earlier.
 * No message has a frame: each side knows every length from the sizes, and takes none from the other's word.
 */
#ifndef CONVERSATION_H
#define CONVERSATION_H

#define _POSIX_C_SOURCE 200809L /* for clock_gettime */

#include <limits.h>
#include <poll.h>
#include <signal.h>
#include <time.h>
#include <unistd.h>

#include "sides.h"

/* The pieces of a question with m points, in bytes: up to the challenges, the points, the indices. */
#define FIRST_LENGTH SMALLWOOD_POINTS_AT(ETA)
#define POINTS_LENGTH(m) (4 * (size_t)(m))
#define INDICES_LENGTH (2 * (size_t)L)

/* All that one conversation may take: who is silent, or sends a byte now and then, holds nobody longer. */
enum { SECONDS = 10 };

static int64_t line_ends; /* in milliseconds */

static inline int64_t milliseconds(void)
{
    struct timespec now = {0, 0};

    clock_gettime(CLOCK_MONOTONIC, &now);
    return (int64_t)now.tv_sec * 1000 + now.tv_nsec / 1000000;
}

static inline void line_opens(void)
{
    signal(SIGPIPE, SIG_IGN); /* so that writing to a side that has ended fails, and this one still wipes its secrets */
    line_ends = milliseconds() + 1000 * SECONDS;
}

/* Waits until the line is ready, or has ended; false where the time is over. */
static inline bool line_ready(int line, short event)
{
    struct pollfd polled = {line, event, 0};
    int64_t left;

    while ((left = line_ends - milliseconds()) > 0) {
        int ready = poll(&polled, 1, (int)left);

        if (ready > 0)
            return true;
        if (ready < 0 && errno != EINTR)
            return false;
    }
    return false;
}

/* Reads up to so many bytes, until the other side ends or the time is over. Gives their number. */
static inline size_t receive_most(int line, void *to, size_t most)
{
    size_t had = 0;

    while (had < most && line_ready(line, POLLIN)) {
        ssize_t got = read(line, (uint8_t *)to + had, most - had);

        if (got == 0 || (got < 0 && errno != EINTR))
            break;
        if (got > 0)
            had += (size_t)got;
    }
    return had;
}

/* Why bytes did not come, or did not go. */
static inline const char *line_fault(void)
{
    return milliseconds() < line_ends ? "the other side ended too soon" : "the other side took too long";
}

/* Each side has its own way to end. */
static _Noreturn void refuse(const char *why);

/* A whole message, or none. */
static inline void hear(void *to, size_t size)
{
    if (receive_most(STDIN_FILENO, to, size) != size)
        refuse(line_fault());
}

/* A pipe that is ready takes PIPE_BUF bytes at once: so no write waits longer than the time that is left. */
static inline void tell(const void *from, size_t size)
{
    const uint8_t *next = from;

    while (size > 0) {
        size_t piece = size < PIPE_BUF ? size : PIPE_BUF;
        ssize_t put = line_ready(STDOUT_FILENO, POLLOUT) ? write(STDOUT_FILENO, next, piece) : 0;

        if (put == 0 || (put < 0 && errno != EINTR))
            refuse(line_fault());
        if (put > 0) {
            next += put;
            size -= (size_t)put;
        }
    }
}

/* Of what a function that draws gives. */
static inline void need_drawn(int failed)
{
    if (failed)
        refuse("the system gives no random bytes");
}

#endif
