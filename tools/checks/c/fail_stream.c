/*
 * Preloaded into a program, fails some of its reads of standard input and writes to standard output with EINTR, counted from 1, or
 * makes writes short.
 *
 *   FAIL_READ=N   fails the Nth read
 *   FAIL_WRITE=N  fails the Nth write
 *   WRITE_MOST=N  lets a write take N bytes at most
 */
#define _GNU_SOURCE
#include <dlfcn.h>
#include <errno.h>
#include <stdlib.h>
#include <unistd.h>

static long reads, writes;

static long number_in(const char *name)
{
    const char *text = getenv(name);
    return text == NULL ? 0 : atol(text);
}

static ssize_t failure(void)
{
    errno = EINTR;
    return -1;
}

ssize_t read(int descriptor, void *bytes, size_t size)
{
    ssize_t (*next)(int, void *, size_t) = (ssize_t (*)(int, void *, size_t))dlsym(RTLD_NEXT, "read");
    if (descriptor == STDIN_FILENO && ++reads == number_in("FAIL_READ"))
        return failure();
    return next(descriptor, bytes, size);
}

ssize_t write(int descriptor, const void *bytes, size_t size)
{
    ssize_t (*next)(int, const void *, size_t) = (ssize_t (*)(int, const void *, size_t))dlsym(RTLD_NEXT, "write");
    size_t most = (size_t)number_in("WRITE_MOST");
    if (descriptor != STDOUT_FILENO)
        return next(descriptor, bytes, size);
    if (++writes == number_in("FAIL_WRITE"))
        return failure();
    return next(descriptor, bytes, most > 0 && most < size ? most : size);
}
