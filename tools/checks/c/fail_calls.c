/*
 * Preloaded into a server, fails the first of its calls of accept and fork.
 *
 *   FAIL_ACCEPT=N  the first N calls of accept fail with ENFILE
 *   FAIL_FORK=N    the first N calls of fork fail with EAGAIN
 */
#define _GNU_SOURCE

#include <dlfcn.h>
#include <errno.h>
#include <stdio.h>
#include <stdlib.h>
#include <string.h>
#include <sys/socket.h>
#include <unistd.h>

/* whether the variable names more calls than were made so far, with this one */
static int has_to_fail(const char *name, long *calls)
{
    const char *text = getenv(name);
    return text != NULL && ++*calls <= atol(text);
}

/* the function that this library stands before */
static void *next_of(const char *name)
{
    void *next = dlsym(RTLD_NEXT, name);

    if (next == NULL) {
        fprintf(stderr, "fail_calls: no %s\n", name);
        abort();
    }
    return next;
}

/* glibc's type of an address lets each kind of one be passed */
int accept(int listener, __SOCKADDR_ARG address, socklen_t *__restrict len)
{
    static long calls;
    int (*next)(int, __SOCKADDR_ARG, socklen_t *);
    void *found;

    if (has_to_fail("FAIL_ACCEPT", &calls)) {
        errno = ENFILE;
        return -1;
    }
    found = next_of("accept");
    memcpy(&next, &found, sizeof next);
    return next(listener, address, len);
}

pid_t fork(void)
{
    static long calls;
    pid_t (*next)(void);
    void *found;

    if (has_to_fail("FAIL_FORK", &calls)) {
        errno = EAGAIN;
        return -1;
    }
    found = next_of("fork");
    memcpy(&next, &found, sizeof next);
    return next();
}
