/*
 * Runs a program with its arguments, and writes the greatest resident memory that it had, in kilobytes (of 1,024 bytes), to the
 * file descriptor that PEAK_FD names. Its status is the program's, or 1 where a signal ended it.
 */
#include <stdio.h>
#include <stdlib.h>
#include <sys/resource.h>
#include <sys/wait.h>
#include <unistd.h>

int main(int count, char **arguments)
{
    const char *peak = getenv("PEAK_FD");
    int status;
    struct rusage usage;
    pid_t program;

    if (count < 2 || peak == NULL || (program = fork()) < 0)
        return 1;
    if (program == 0) {
        execv(arguments[1], arguments + 1);
        _exit(127);
    }
    if (wait4(program, &status, 0, &usage) != program)
        return 1;
    dprintf(atoi(peak), "%ld\n", usage.ru_maxrss);
    return WIFEXITED(status) ? WEXITSTATUS(status) : 1;
}
