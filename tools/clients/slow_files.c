/* Stands for a file system whose server is away: loaded before the libc, it lets each open of a file wait whose path has "slow" in it, and so each
   look at such a file's facts, for as long as there is the file that SLOW_WHILE names. Before that it makes the file that SLOW_BEGUN names. An open
   by O_PATH takes no time: the kernel has the name. The type of each file system is that of NFS. */
#define _GNU_SOURCE
#include <dlfcn.h>
#include <errno.h>
#include <fcntl.h>
#include <linux/openat2.h>
#include <stdarg.h>
#include <stdio.h>
#include <stdlib.h>
#include <string.h>
#include <sys/stat.h>
#include <sys/syscall.h>
#include <sys/vfs.h>
#include <unistd.h>

enum { NFS = 0x6969, MICROSECONDS = 10000 };

static void wait_for_server(void)
{
    close(open(getenv("SLOW_BEGUN"), O_CREAT | O_WRONLY, 0600));
    while (access(getenv("SLOW_WHILE"), F_OK) == 0)
        usleep(MICROSECONDS);
}

long syscall(long number, ...)
{
    static long (*next)(long, ...);
    long words[6];
    va_list arguments;

    va_start(arguments, number);
    for (int index = 0; index < 6; index++)
        words[index] = va_arg(arguments, long);
    va_end(arguments);
    if (number == SYS_openat2) {
        const struct open_how *how = (const struct open_how *)words[2];
        if (!(how->flags & O_PATH) && strstr((const char *)words[1], "slow"))
            wait_for_server();
    }
    if (!next)
        next = (long (*)(long, ...))dlsym(RTLD_NEXT, "syscall");
    return next(number, words[0], words[1], words[2], words[3], words[4], words[5]);
}

static int look(const char *name, int file, void *facts)
{
    int (*next)(int, void *) = (int (*)(int, void *))dlsym(RTLD_NEXT, name);
    char link[32], path[4096];

    snprintf(link, sizeof link, "/proc/self/fd/%d", file);
    ssize_t length = readlink(link, path, sizeof path - 1);
    path[length < 0 ? 0 : length] = 0;
    if (strstr(path, "slow"))
        wait_for_server();
    return next(file, facts);
}

int fstat(int file, struct stat *facts)
{
    return look("fstat", file, facts);
}

int fstat64(int file, struct stat64 *facts)
{
    return look("fstat64", file, facts);
}

static int of_nfs(const char *name, int file, void *facts)
{
    int (*next)(int, void *) = (int (*)(int, void *))dlsym(RTLD_NEXT, name);
    return next(file, facts);
}

int fstatfs(int file, struct statfs *facts)
{
    int done = of_nfs("fstatfs", file, facts);
    facts->f_type = NFS;
    return done;
}

int fstatfs64(int file, struct statfs64 *facts)
{
    int done = of_nfs("fstatfs64", file, facts);
    facts->f_type = NFS;
    return done;
}
