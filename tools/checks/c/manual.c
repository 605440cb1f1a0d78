/*
 * Runs the loop of the manual, which tools/checks/embedding cuts from packaging/unftp_control.3 into
 * loop.inc, over input that comes byte by byte, with a limit of 8. Prints a line for each result,
 * with the name and the value of a command.
 */
#include <unftp_control.h>

#include <stdbool.h>
#include <stdio.h>
#include <string.h>

enum { LIMIT = 8 };

static struct unftp_connection connection = {LIMIT, 0, 0};
static char bytes[LIMIT];
static size_t start, end;

static bool answer(enum unftp_result result, const char *name, size_t name_len, const char *value,
                   size_t value_len)
{
    printf("%s, %.*s, %.*s\n", unftp_result_text(result), (int)name_len, name, (int)value_len,
           value);
    return true;
}

static void answer_lines(void)
{
    enum unftp_result result;
    struct unftp_line line;
    bool is_over;
    char area[3 * LIMIT];

#include "loop.inc"
}

int main(void)
{
    static const char received[] =
        "noop\r\nretr a.txt, which is too long\r\nretr b\r\nxa \xff\r\nSITE\ry\n";

    for (const char *byte = received; *byte != '\0'; byte++) {
        if (end == sizeof bytes)
            return 1;
        bytes[end++] = *byte;
        answer_lines();
        end -= start;
        memmove(bytes, bytes + start, end);
        start = 0;
    }
    return end > 0;
}
