/*
 * Preloaded into a program, fails some of its allocations: the calls of malloc and realloc, counted from 1.
 *
 *   FAIL_AT=N      fails only the Nth
 *   FAIL_FROM=N    fails the Nth and all later ones
 *   FAIL_MARKED=N  fails the Nth after each mark
 *
 * A mark is where the program writes the line "begin" to standard error, in one write; it ends where the program writes "end". What is
 * allocated between the two is counted from 1 again, and where ALLOCATIONS_FD names a file descriptor, the lines "marked=N", "most=N",
 * the most bytes that one of these allocations asked for, and "all=N", the bytes that they asked for together, are written to it at the
 * end of each mark. When the program ends by itself, it writes the lines "allocations=N" and "largest=N", the most bytes of all that one
 * asked for, there.
 */
#include <stddef.h>
#include <stdio.h>
#include <stdlib.h>
#include <string.h>
#include <sys/syscall.h>
#include <unistd.h>

extern void *__libc_malloc(size_t size);
extern void *__libc_realloc(void *memory, size_t size);

static long allocations, largest, marked, most, all;
static int is_marked;

static long number_in(const char *name)
{
    const char *text = getenv(name);
    return text == NULL ? 0 : atol(text);
}

static int has_to_fail(size_t size)
{
    long from = number_in("FAIL_FROM");
    allocations++;
    if ((long)size > largest)
        largest = (long)size;
    if (is_marked) {
        all += (long)size;
        if ((long)size > most)
            most = (long)size;
    }
    if (is_marked && ++marked == number_in("FAIL_MARKED"))
        return 1;
    return allocations == number_in("FAIL_AT") || (from > 0 && allocations >= from);
}

void *malloc(size_t size)
{
    return has_to_fail(size) ? NULL : __libc_malloc(size);
}

void *realloc(void *memory, size_t size)
{
    return has_to_fail(size) ? NULL : __libc_realloc(memory, size);
}

static void report(const char *name, long count)
{
    char line[40];
    if (getenv("ALLOCATIONS_FD") == NULL)
        return;
    int length = snprintf(line, sizeof line, "%s=%ld\n", name, count);
    if (syscall(SYS_write, (int)number_in("ALLOCATIONS_FD"), line, (size_t)length) < 0)
        _exit(3);
}

static int is_line(const void *bytes, size_t size, const char *line)
{
    return size == strlen(line) && memcmp(bytes, line, size) == 0;
}

ssize_t write(int descriptor, const void *bytes, size_t size)
{
    if (descriptor == STDERR_FILENO && is_line(bytes, size, "begin\n")) {
        is_marked = 1;
        marked = most = all = 0;
    } else if (descriptor == STDERR_FILENO && is_line(bytes, size, "end\n")) {
        is_marked = 0;
        report("marked", marked);
        report("most", most);
        report("all", all);
    }
    return syscall(SYS_write, descriptor, bytes, size);
}

__attribute__((destructor)) static void report_all(void)
{
    report("allocations", allocations);
    report("largest", largest);
}
